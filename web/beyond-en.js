// The words in English of what is answered otherwise beyond the records that were typed.

const figure = (number) => number.toLocaleString("en");
const below = (names) => `All names below ${names}`;
const absent = ({names, isAmong}, what) => `${below(names)} that do not exist ${what}${isAmong ? ", except below names that do" : ""}.`;
const there = (number) => (number ? `; ${figure(number)} ${number === 1 ? "name that is there now" : "names that are there now"} will be ` : "");

/** A name that loses or gets a wildcard's answers, what is below it, or both. */
function beside({names, many, part, wildcard}, [one, more]) {
    const who = part === "own" ? names : part === "below" ? below(names) : `${names} and all names below ${many ? "them" : "it"}`;
    return `${who} ${part === "own" && !many ? one : more} the answers of the wildcard ${wildcard}.`;
}

export default {
    beyondHead: "What else will be answered otherwise",
    beyondSeen: "This is said from the records that you may list.",
    beyondPart: "You may list only a part of this zone: this is said from that part, and there may be more.",
    beyondMore: (number) => `${figure(number)} more`,
    beyondOthers: (number) => `${figure(number)} more`,
    beyondEmpty: "an empty answer",
    beyondRecords: (number) => `the ${figure(number)} records of the wildcard`,
    barBeyond: "other answers change too",
    "beyond delegated": ({names, many, count}) =>
        `${below(names)} will be answered by the servers of the ${many ? "delegations" : "delegation"}${there(count)}${count ? "hidden" : ""}.`,
    "beyond undelegated": ({names, many, count}) =>
        `${below(names)} will be answered by this zone, and no more by the servers of the ${many ? "delegations" : "delegation"}${there(count)}${count ? "seen" : ""}.`,
    "beyond handed": ({names}) => `${below(names)} will be referred to their own servers, since a delegation above them ends.`,
    "beyond servers": ({names, how}) => `${below(names)} will be referred to ${how === "ttl" ? "the same servers with another TTL" : "other servers"}.`,
    "beyond address": ({names, server, how, isOne}) => ({
        comes: `The server ${server} gets an address: all names below ${names} are referred to it.`,
        goes: `The server ${server} loses its address: all names below ${names} are referred to it without one.`,
        ttl: `The address of the server ${server} gets another TTL: so it does where names below ${names} are referred to it.`,
        other: isOne ? `The address of the server ${server} changes: all names below ${names} are referred to the new address.`
            : `The addresses of the server ${server} change: all names below ${names} are referred to the new ones.`,
    })[how],
    "beyond wildcardGoes": ({old, ...more}) => absent(more, `get NXDOMAIN in place of ${old}`),
    "beyond wildcardComes": ({now, ...more}) => absent(more, `get ${now} in place of NXDOMAIN`),
    "beyond wildcardChanges": ({old, now, how, ...more}) => absent(more, {
        comes: `also get ${now}`, goes: `no longer get ${old}`, ttl: `get ${now} with another TTL`, other: `get ${now} in place of ${old}`,
    }[how]),
    "beyond loses": (matter) => beside(matter, ["loses", "lose"]),
    "beyond gains": (matter) => beside(matter, ["gets", "get"]),
    "beyond otherWildcard": ({names, from, to}) => `Names below ${names} get the answers of the wildcard ${to} in place of those of ${from}.`,
    "beyond alias": ({names, many, target, types}) => (many ? `With ${target} its aliases ${names} change: they are answered otherwise for ${types}.`
        : `With ${target} its alias ${names} changes: it is answered otherwise for ${types}.`),
    "beyond wildcardAlias": ({target, types, ...more}) => absent(more, `are aliases that change with ${target}: they are answered otherwise for ${types}`),
    "beyond negative": ({before, after}) => (before === after ? "Answers that something does not exist have the new SOA, in the whole zone."
        : `Resolvers keep that something does not exist for ${after} in place of ${before}, in the whole zone.`),
    "beyond exists": ({names, many}) => `${names} ${many ? "exist" : "exists"} then, with no records: an empty answer in place of NXDOMAIN.`,
    "beyond vanishes": ({names, many}) => `${names} no longer ${many ? "exist" : "exists"}: NXDOMAIN in place of an empty answer.`,
};
