// The words in German of what is answered otherwise beyond the records that were typed.

const figure = (number) => number.toLocaleString("de");
const below = (names) => `Alle Namen unter ${names}`;
const absent = ({names, isAmong}, what) => `${below(names)}, die es nicht gibt, ${what}${isAmong ? ", aber nicht unter Namen, die es gibt" : ""}.`;
const there = (number, what) => (number ? `; ${figure(number)} ${number === 1 ? "Name, der jetzt da ist, wird" : "Namen, die jetzt da sind, werden"} ${what}` : "");

/** A name that loses or gets a wildcard's answers, what is below it, or both. */
function beside({names, many, part, wildcard}, [one, more]) {
    const who = part === "own" ? names : part === "below" ? below(names) : `${names} und alle Namen darunter`;
    return `${who} ${part === "own" && !many ? one : more} die Antworten des Platzhalters ${wildcard}.`;
}

export default {
    beyondHead: "Was sonst noch anders beantwortet wird",
    beyondSeen: "Das ist nach den Einträgen gesagt, die Sie sehen dürfen.",
    beyondPart: "Sie dürfen nur einen Teil dieser Zone sehen: Das ist nach diesem Teil gesagt, und es kann mehr geben.",
    beyondMore: (number) => `${figure(number)} mehr`,
    beyondOthers: (number) => `${figure(number)} mehr`,
    beyondEmpty: "eine leere Antwort",
    beyondRecords: (number) => `die ${figure(number)} Einträge des Platzhalters`,
    barBeyond: "auch andere Antworten ändern sich",
    "beyond delegated": ({names, many, count}) => `${below(names)} beantworten dann die Server der ${many ? "Delegationen" : "Delegation"}${there(count, "verdeckt")}.`,
    "beyond undelegated": ({names, many, count}) =>
        `${below(names)} beantwortet dann diese Zone, und nicht mehr die Server der ${many ? "Delegationen" : "Delegation"}${there(count, "sichtbar")}.`,
    "beyond handed": ({names}) => `${below(names)} werden an ihre eigenen Server verwiesen, denn eine Delegation darüber endet.`,
    "beyond servers": ({names, how}) => `${below(names)} werden ${how === "ttl" ? "mit anderer TTL an dieselben Server" : "an andere Server"} verwiesen.`,
    "beyond address": ({names, server, how, isOne}) => ({
        comes: `Der Server ${server} bekommt eine Adresse: Alle Namen unter ${names} werden an sie verwiesen.`,
        goes: `Der Server ${server} verliert seine Adresse: Alle Namen unter ${names} werden ohne sie an ihn verwiesen.`,
        ttl: `Die Adresse des Servers ${server} bekommt eine andere TTL, auch wo Namen unter ${names} an ihn verwiesen werden.`,
        other: isOne ? `Die Adresse des Servers ${server} ändert sich: Alle Namen unter ${names} werden an die neue verwiesen.`
            : `Die Adressen des Servers ${server} ändern sich: Alle Namen unter ${names} werden an die neuen verwiesen.`,
    })[how],
    "beyond wildcardGoes": ({old, ...more}) => absent(more, `bekommen NXDOMAIN statt ${old}`),
    "beyond wildcardComes": ({now, ...more}) => absent(more, `bekommen ${now} statt NXDOMAIN`),
    "beyond wildcardChanges": ({old, now, how, ...more}) => absent(more, {
        comes: `bekommen auch ${now}`, goes: `bekommen ${old} nicht mehr`, ttl: `bekommen ${now} mit anderer TTL`, other: `bekommen ${now} statt ${old}`,
    }[how]),
    "beyond loses": (matter) => beside(matter, ["verliert", "verlieren"]),
    "beyond gains": (matter) => beside(matter, ["bekommt", "bekommen"]),
    "beyond otherWildcard": ({names, from, to}) => `Namen unter ${names} bekommen die Antworten des Platzhalters ${to} statt derer von ${from}.`,
    "beyond alias": ({names, many, target, types}) => (many ? `Mit ${target} ändern sich seine Aliase ${names}: Sie werden für ${types} anders beantwortet.`
        : `Mit ${target} ändert sich sein Alias ${names}: Er wird für ${types} anders beantwortet.`),
    "beyond wildcardAlias": ({target, types, ...more}) => absent(more, `sind Aliase, die sich mit ${target} ändern: Sie werden für ${types} anders beantwortet`),
    "beyond negative": ({before, after}) => (before === after ? "Antworten, dass es etwas nicht gibt, haben in der ganzen Zone den neuen SOA."
        : `Dass es etwas nicht gibt, behalten Resolver in der ganzen Zone ${after} statt ${before}.`),
    "beyond exists": ({names, many}) => `${names} gibt es dann, ohne ${many ? "Einträge" : "Eintrag"}: eine leere Antwort statt NXDOMAIN.`,
    "beyond vanishes": ({names}) => `${names} gibt es nicht mehr: NXDOMAIN statt einer leeren Antwort.`,
};
