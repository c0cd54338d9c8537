// Holds what the page finds to be answered otherwise (web/answers.js, answer-changes.js) against the program: random changes of random
// zones, whose rows have to be those that `diff --answers` prints, octet for octet. Zones have wildcards at all depths, empty
// non-terminals, cuts within cuts, aliases into, out of and around the zone, DS, glue, escapes, and names in either case. Each row that
// is not of a changed record's name has to be in a sentence (causes.js, beyond.js), and each sentence has to be true. It prints a line for each difference, and last how
// many changes were judged, how many rows they have, and how many sentences of each kind.
//
//     nodejs acceptance/page-answers.mjs PROGRAM FOLDER COUNT SEED
//
// FOLDER has a copy of the page's modules, and a file package.json that says so.

import {mkdtempSync, rmSync, writeFileSync} from "node:fs";
import {chances, run} from "./page-chance.mjs";

const [program, folder, count, seed] = process.argv.slice(2);
const page = (name) => import(`${folder}/${name}.js`);
const [{finish, NameIndex}, {AnswerChanges, rowLines}, {sentence}, {Causes, KINDS}, {nameField}, {foresee}, {isWithin, readLabels},
    {addition, lineOf, Outlook, removal, Zone}] = await Promise.all(["answers", "answer-changes", "beyond", "causes", "data", "edits", "names", "zone"].map(page));

const AT_ONCE = 3;
const {chance, one} = chances(seed);
const place = mkdtempSync(`${folder}/answers-`);

// ---- random zones

const ORIGINS = ["example.org.", "z.", "a\\.b.test.", "*.test.", "c.b.a.test."];
const LABELS = ["a", "b", "c", "*", "*", "x\\.y", "\\000", "a\\032b", "\\\\", "_tcp", "\\255", "ns"];
const OUTSIDE = ["b.outside.test.", ".", "test.", "x\\.example.org."];

/** Names of a zone, of which each further one may be below an earlier one. */
class Names {
    constructor(origin) {
        this.origin = origin;
        this.made = [origin];
    }

    fresh() {
        let name = one(this.made);
        for (let more = one([1, 1, 1, 2, 3]); more > 0; more--) {
            if (readLabels(name).labels.length < readLabels(this.origin).labels.length + 5) {
                name = `${one(LABELS)}.${name}`;
            }
        }
        this.made.push(name);
        return name;
    }

    /** A name of a record, or none, or one outside. */
    some() {
        return chance(8) === 0 ? one(OUTSIDE) : chance(4) === 0 ? this.fresh() : one(this.made);
    }

    owner() {
        return chance(3) ? this.fresh() : one(this.made);
    }
}

const DATA = {
    A: () => `192.0.2.${chance(4)}`,
    AAAA: () => `2001:db8::${1 + chance(3)}`,
    CNAME: (names) => names.some(), NS: (names) => names.some(), PTR: (names) => names.some(),
    MX: (names) => `10 ${names.some()}`,
    SRV: (names) => `0 1 389 ${names.some()}`,
    TXT: () => `"${one(["a", "A", "b c", "\\195\\188"])}"`,
    DS: () => `${chance(3)} 13 2 ${one(["ab", "cd"]).repeat(32)}`,
};
const TYPES = ["A", "A", "A", "AAAA", "CNAME", "CNAME", "CNAME", "NS", "NS", "NS", "MX", "SRV", "PTR", "TXT", "DS"];

function someRecord(names) {
    const type = one(TYPES);
    const last = names.made.at(-1);
    const name = type === "A" && chance(4) === 0 ? `ns.${last}` : names.owner();
    return {name, ttl: one([60, 300]), type, data: DATA[type](names)};
}

function put(outlook, names, most) {
    for (let left = 1 + chance(most); left > 0; left--) {
        outlook.apply(addition(someRecord(names)));
    }
}

function someZone(names) {
    const {origin} = names;
    const soa = `${one(["ns", "b"])}.outside.test. admin.${origin} 7 3600 600 86400 ${one([30, 60, 300, 7200])}`;
    const start = new Zone(origin, [{name: origin, ttl: one([60, 300, 3600]), type: "SOA", data: soa}, {name: origin, ttl: 300, type: "NS", data: "ns.outside.test."}]);
    const outlook = new Outlook(start);
    put(outlook, names, 14);
    const records = [];
    outlook.forEach((record) => records.push(record));
    return new Zone(origin, records.sort(() => chance(3) - 1));
}

// ---- random changes

const CHANGES = [
    (outlook, names) => put(outlook, names, 3),
    (outlook, names) => { // a wildcard, or a name beside one
        const type = one(["A", "A", "TXT", "CNAME"]);
        outlook.apply(addition({name: `${one(["*", "*", "a"])}.${one(names.made)}`, ttl: 60, type, data: DATA[type](names)}));
    },
    (outlook, names, zone) => outlook.apply(removal(one(zone.records))),
    (outlook, names, zone) => outlook.apply({op: "delete-name", name: one(zone.records).name}),
    (outlook, names, zone) => {
        const {name, type} = one(zone.records);
        outlook.apply({op: "delete-rrset", name, type});
    },
    (outlook, names, zone) => { // another TTL, or other data
        const old = one(zone.records.filter(({type}) => type !== "SOA"));
        outlook.apply(addition(chance(2) ? {...old, ttl: 77} : {...old, data: DATA[old.type](names)}));
    },
    (outlook, names, zone) => { // the address of a server
        const servers = zone.records.filter(({type, data}) => type === "NS" && isWithin(data, zone.origin));
        const type = one(["A", "AAAA"]);
        if (servers.length) {
            outlook.apply(addition({name: one(servers).data, ttl: 60, type, data: DATA[type]()}));
        }
    },
    (outlook, names, zone) => { // what negative answers have
        const [soa] = outlook.set(zone.origin, "SOA");
        const fields = soa.data.split(" ");
        fields[2] = String(Number(fields[2]) + 1 + chance(3));
        fields[one([3, 5, 6, 6])] = one(["59", "61"]);
        fields[1] = one([fields[1], "other.test."]);
        outlook.apply(addition({...soa, data: fields.join(" "), ttl: chance(3) ? soa.ttl : 50}));
    },
];
const WEIGHTS = [0, 0, 0, 0, 0, 1, 1, 2, 2, 2, 3, 4, 5, 5, 6, 6, 7];

/** A change by operations, as edits of the page come to. */
function someChange(names, zone) {
    const {outlook} = foresee([], zone);
    for (let left = 1 + chance(4); left > 0; left--) {
        CHANGES[one(WEIGHTS)](outlook, names, zone);
    }
    outlook.advance();
    return outlook;
}

// ---- the program

/** A name as it may be written: letters in either case, or as their numbers. */
function scrambled(name) {
    return name.replace(/\\\d{3}|\\.|[a-z]/gs, (letter) => (letter.startsWith("\\") || chance(4) ? letter
        : chance(2) ? letter.toUpperCase() : `\\${String((chance(2) ? letter : letter.toUpperCase()).charCodeAt(0)).padStart(3, "0")}`));
}

function written(record) {
    const fields = record.data.split(" ");
    const at = nameField(record.type);
    if (at >= 0) {
        fields[at] = scrambled(fields[at]);
    }
    return `${lineOf({...record, name: scrambled(record.name), data: fields.join(" ")})}\n`;
}

const ended = {changes: 0, rows: 0, at: 0, below: 0, all: 0, ...Object.fromEntries(KINDS.map((kind) => [kind, 0]))};
const differ = (what, ...lists) => console.log([`differs: ${what}`, ...lists.flatMap(([name, lines]) => [name, ...lines.map((line) => `    ${line}`)])].join("\n    "));
let number = 0;

/** What `diff --answers` prints of two lists of records. */
async function printed(origin, ...lists) {
    const files = lists.map(() => `${place}/${(number += 1)}`);
    lists.forEach((records, at) => writeFileSync(files[at], records.map(written).join("")));
    const said = await run(program, "", "diff", "--origin", origin, "--answers", ...files);
    files.forEach((file) => rmSync(file));
    return said;
}

const dataOf = (records) => records.map(({type, data}) => `${type} ${data}`).sort().join("\n");
const isMissing = ({cut, source}) => cut === null && source === null;
const swapped = (test) => ({old, now}, name, matter) => test({old: now, now: old}, name, matter);

/** Whether all names below one, or itself, have a wildcard's answers before, and not after. */
function loses({old, now}, name, {part, wildcard}) {
    const isBelow = old.placeBelow(name).source === wildcard && isMissing(now.placeBelow(name));
    const isOwn = old.placeOf(name).source === wildcard && now.placeOf(name).source !== wildcard && now.placeOf(name).cut === null;
    return (part === "own" || isBelow) && (part === "below" || isOwn);
}

const comes = ({old, now}, name, matter) => isMissing(old.placeBelow(name)) && now.placeBelow(name).source === `*.${name}`
    && dataOf(now.at(`*.${name}`)) === dataOf([...matter.old, ...matter.now]);
const delegated = ({old, now}, name) => now.placeBelow(name).cut === name && old.placeBelow(name).cut !== name;
const referred = ({old, now}, name) => [old, now].every((finder) => finder.placeBelow(name).cut === name);
const isAlias = (finder, {source}) => source !== null && finder.aliasAt(source) !== undefined;
const exists = ({old, now}, name) => isMissing(old.placeOf(name)) && now.placeOf(name).source === name && now.at(name).length === 0;

/** Whether a sentence is true of a name, by what is found before and after for names below it, and for itself. */
const CLAIMS = {
    delegated, handed: delegated, servers: referred, address: referred, wildcardComes: comes, wildcardGoes: swapped(comes), loses, gains: swapped(loses),
    exists, vanishes: swapped(exists), negative: () => true,
    undelegated: ({old, now}, name) => old.placeBelow(name).cut === name && now.placeBelow(name).cut === null,
    wildcardChanges: ({old, now}, name) => [old, now].every((finder) => finder.placeBelow(name).source === `*.${name}`),
    otherWildcard: ({old, now}, name, {from, to}) => old.placeBelow(name).source === from && now.placeBelow(name).source === to,
    alias: ({now}, name) => isAlias(now, now.placeOf(name)),
    wildcardAlias: ({now}, name) => isAlias(now, now.placeBelow(name)),
};

/** The rows that no sentence is about, though no record of their names has changed; and sentences that are not true, or lack a word. */
function unsaid(index, outlook, rows) {
    const changes = new AnswerChanges(index, outlook);
    const matters = finish(new Causes(changes).matters());
    matters.forEach(({kind}) => (ended[kind] += 1));
    const isSaid = ({name}) => matters.some(({names}) => [...names].some((one) => isWithin(name, one)));
    const silent = rows.filter((row) => !isSaid(row) && (row.isBelow || !(changes.changed.has(row.name) || row.name === index.origin)));
    const isWrong = (matter) => [...matter.names].some((name) => !CLAIMS[matter.kind](changes, name, matter)) || /undefined|NaN|\[object|  |\.\./.test(sentence(matter));
    return [...rowLines(silent), ...matters.filter(isWrong).map(sentence)];
}

async function judge() {
    const names = new Names(one(ORIGINS));
    const zone = someZone(names);
    const outlook = someChange(names, zone);
    const index = finish(new NameIndex(zone).fill());
    const rows = [...new AnswerChanges(index, outlook).rows()].filter(Boolean);
    const lines = rowLines(rows);
    const after = [];
    outlook.forEach((record) => after.push(record));
    const said = await printed(zone.origin, zone.records, after);
    const wanted = said.split("\n").slice(0, -1);
    const [old, now] = [zone.records, after].map((records) => records.map(lineOf));
    const change = [["zone", old], ["came", now.filter((line) => !old.includes(line))], ["went", old.filter((line) => !now.includes(line))]];
    ended.changes += 1;
    ended.rows += lines.length;
    lines.forEach((line) => (ended[line.split(" ")[0]] += 1));
    ended.all += lines.filter((line) => line.endsWith(" *")).length;
    if (said !== lines.map((line) => `${line}\n`).join("")) {
        differ(`what is answered otherwise in ${zone.origin}`, ...change, ["only the program has", wanted.filter((line) => !lines.includes(line))],
            ["only the page has", lines.filter((line) => !wanted.includes(line))]);
    }
    const faulty = unsaid(index, outlook, rows);
    if (faulty.length) {
        differ(`what is said of it in ${zone.origin}`, ...change, ["not said, or not well", faulty]);
    }
}

await Promise.all(Array.from({length: AT_ONCE}, async () => {
    while (ended.changes < Number(count)) {
        await judge();
    }
}));
rmSync(place, {recursive: true});
console.log(JSON.stringify(ended));
