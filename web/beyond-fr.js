// The words in French of what is answered otherwise beyond the records that were typed.

const figure = (number) => number.toLocaleString("fr");
const below = (names) => `Tous les noms sous ${names}`;
const absent = ({names, isAmong}, what) => `${below(names)} qui n’existent pas ${what}${isAmong ? ", sauf sous les noms qui existent" : ""}.`;
const there = (number, one, more) => (number ? ` ; ${figure(number)} ${number === 1 ? `nom qui y est sera ${one}` : `noms qui y sont seront ${more}`}` : "");

/** A name that loses or gets a wildcard's answers, what is below it, or both. */
function beside({names, many, part, wildcard}, [one, more]) {
    const who = part === "own" ? names : part === "below" ? below(names) : `${names} et tous les noms au-dessous`;
    return `${who} ${part === "own" && !many ? one : more} les réponses du nom générique ${wildcard}.`;
}

export default {
    beyondHead: "Ce qui sera aussi répondu autrement",
    beyondSeen: "C’est dit d’après les enregistrements que vous pouvez voir.",
    beyondPart: "Vous ne pouvez voir qu’une partie de cette zone : c’est dit d’après cette partie, et il peut y avoir plus.",
    beyondMore: (number) => `${figure(number)} de plus`,
    beyondOthers: (number) => `${figure(number)} autres`,
    beyondEmpty: "une réponse vide",
    beyondRecords: (number) => `les ${figure(number)} enregistrements du nom générique`,
    barBeyond: "d’autres réponses changent aussi",
    "beyond delegated": ({names, many, count}) =>
        `Pour tous les noms sous ${names}, ce sont les serveurs ${many ? "des délégations" : "de la délégation"} qui répondront${there(count, "caché", "cachés")}.`,
    "beyond undelegated": ({names, many, count}) =>
        `Pour tous les noms sous ${names}, c’est cette zone qui répondra, et non plus les serveurs ${many ? "des délégations" : "de la délégation"}${there(count, "visible", "visibles")}.`,
    "beyond handed": ({names}) => `${below(names)} seront renvoyés à leurs propres serveurs, car une délégation au-dessus prend fin.`,
    "beyond servers": ({names, how}) => `${below(names)} seront renvoyés à ${how === "ttl" ? "leurs serveurs avec un autre TTL" : "d’autres serveurs"}.`,
    "beyond address": ({names, server, how, isOne}) => ({
        comes: `Le serveur ${server} reçoit une adresse : tous les noms sous ${names} y sont renvoyés.`,
        goes: `Le serveur ${server} perd son adresse : tous les noms sous ${names} y sont renvoyés sans elle.`,
        ttl: `L’adresse du serveur ${server} reçoit un autre TTL, aussi dans les renvois des noms sous ${names}.`,
        other: isOne ? `L’adresse du serveur ${server} change : tous les noms sous ${names} sont renvoyés à la nouvelle.`
            : `Les adresses du serveur ${server} changent : tous les noms sous ${names} sont renvoyés aux nouvelles.`,
    })[how],
    "beyond wildcardGoes": ({old, ...more}) => absent(more, `reçoivent NXDOMAIN au lieu de ${old}`),
    "beyond wildcardComes": ({now, ...more}) => absent(more, `reçoivent ${now} au lieu de NXDOMAIN`),
    "beyond wildcardChanges": ({old, now, how, ...more}) => absent(more, {
        comes: `reçoivent aussi ${now}`, goes: `ne reçoivent plus ${old}`, ttl: `reçoivent ${now} avec un autre TTL`, other: `reçoivent ${now} au lieu de ${old}`,
    }[how]),
    "beyond loses": (matter) => beside(matter, ["perd", "perdent"]),
    "beyond gains": (matter) => beside(matter, ["reçoit", "reçoivent"]),
    "beyond otherWildcard": ({names, from, to}) => `Des noms sous ${names} reçoivent les réponses du nom générique ${to} au lieu de celles de ${from}.`,
    "beyond alias": ({names, many, target, types}) => (many ? `Avec ${target} changent ses alias ${names} : la réponse pour ${types} sera autre.`
        : `Avec ${target} change son alias ${names} : la réponse pour ${types} sera autre.`),
    "beyond wildcardAlias": ({target, types, ...more}) => absent(more, `sont des alias qui changent avec ${target} : la réponse pour ${types} sera autre`),
    "beyond negative": ({before, after}) => (before === after ? "Les réponses qu’une chose n’existe pas portent le nouveau SOA, dans toute la zone."
        : `Les résolveurs gardent ${after} au lieu de ${before} qu’une chose n’existe pas, dans toute la zone.`),
    "beyond exists": ({names, many}) => `${names} ${many ? "existent" : "existe"} alors, sans enregistrement : une réponse vide au lieu de NXDOMAIN.`,
    "beyond vanishes": ({names, many}) => `${names} ${many ? "n’existent" : "n’existe"} plus : NXDOMAIN au lieu d’une réponse vide.`,
};
