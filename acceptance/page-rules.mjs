// Holds the rules of the page against the program: random edits of random zones, judged by the modules of the page and by the commands
// `plan`, `check zone` and `rights`. It prints a line for each difference, and last how many edits were judged, and how they ended.
//
//     nodejs acceptance/page-rules.mjs PROGRAM FOLDER COUNT SEED
//
// FOLDER has a copy of the page's modules, a file package.json that says so, and room for a policy.

import {spawn} from "node:child_process";
import {writeFileSync} from "node:fs";
import {get} from "node:http";
import {chances, run as runProgram} from "./page-chance.mjs";

const [program, folder, count, seed] = process.argv.slice(2);
const page = (name) => import(`${folder}/${name}.js`);
const [{readData, nameField}, {conflictOf, foresee, look, updatesOf}, {compareNames, readOwner}, {pointsOf, testPoints, pointKey}, {findings, RULES},
    {lineOf, Zone, readLine}] = await Promise.all(["data", "edits", "names", "points", "rules", "zone"].map(page));

const AT_ONCE = 3;
const CALLERS = ["phys", "admin", "lib", "med", "web"];
const policy = `${folder}/policy.toml`;

const {chance, one, some} = chances(seed);
const run = (input, ...words) => runProgram(program, input, ...words);

const LABELS = ["a", "lab", "www", "my_pc", "ns1", "-x", "x-", "*", "b\\195\\188cher", "xn--bcher-kva", "gc._msdcs", "a._spf", "b._dns-sd._udp", "c\\.d", "mail", "a#b",
    "x~", "\\\"d\\\\", "b.*"];
const BRANCHES = ["", "physics.", "lab.physics.", "library.", "medicine.", "deep.medicine."];
const ORIGINS = ["example.org.", "2.0.192.in-addr.arpa."];
const TYPES = ["A", "A", "A", "AAAA", "CNAME", "CNAME", "MX", "NS", "NS", "PTR", "TXT", "SRV", "DS", "SOA"];

const someName = (origin) => (chance(5) === 0 ? one(BRANCHES) : `${one(LABELS)}.${one(BRANCHES)}`) + origin;
const someTarget = (origin) => (chance(6) === 0 ? one(["ns2.example.net.", "h_x.example.net.", ".", "deep.example.com.", "192.0.2.1.", "192.0.2.256.", "00.0255.1.2.", "{x}.example.net."]) : someName(origin));
const DATA = {
    A: () => `192.0.2.${chance(6)}`,
    AAAA: () => `2001:db8::${1 + chance(4)}`,
    CNAME: someTarget, NS: someTarget, PTR: someTarget,
    MX: (origin) => `${1 + chance(3)}0 ${someTarget(origin)}`,
    TXT: () => `"${one(["a", "b c", "M\\195\\188nchen", "q\\\"", "\\\\"])}"`,
    SRV: (origin) => `0 ${chance(2)} 389 ${someTarget(origin)}`,
    DS: () => `${chance(3)} 13 ${chance(6)} ${one(["ab", "cd"]).repeat(one([1, 2, 20, 20, 31, 32, 32, 48, 48, 49]))}`,
    SOA: (origin) => `${someTarget(origin)} ${one(["hostmaster", "john\\.doe", "my_box"])}.${origin} ${one([6, 7, 8, 9, 4294967295])} 3600 600 86400 60`,
};

function someRecord(origin) {
    const type = one(TYPES);
    const name = type === "SOA" ? (chance(4) ? origin : someName(origin)) : someName(origin);
    return {name, ttl: one([60, 300, 3600]), type, data: DATA[type](origin)};
}

/** A zone that the office takes: an SOA and an NS at its origin, no alias beside others, one TTL in a set. */
function someZone(origin) {
    const zone = new Zone(origin);
    zone.push(readLine(`${origin} 3600 IN SOA ns1.${origin} hostmaster.${origin} 7 3600 600 86400 60`));
    zone.push(readLine(`${origin} 3600 IN NS ${one([`ns1.${origin}`, "ns2.example.net."])}`));
    for (let left = chance(14); left > 0; left--) {
        const record = someRecord(origin);
        const there = zone.at(record.name);
        const isAlias = record.type === "CNAME" || there.some(({type}) => type === "CNAME");
        if (record.type !== "SOA" && !(isAlias && there.length) && !(record.type === "DS" && record.name === origin) && !zone.find(record)) {
            zone.push({...record, ttl: zone.set(record.name, record.type)[0]?.ttl ?? record.ttl});
        }
    }
    return zone;
}

function someEdit(zone) {
    const kind = chance(6);
    const old = kind < 4 ? one(zone.records) : undefined;
    const now = kind === 0 ? undefined : kind === 1 ? {...old, ttl: one([60, 300, 3600])}
        : kind === 2 ? {...old, data: DATA[old.type](zone.origin)} : someRecord(zone.origin);
    return {key: "1", ...(old && {old}), ...(now && {now}), drop: some(zone.records, 1).filter((record) => record.type !== "SOA" && record !== old)};
}

// ---- the program

const FIELDS = ["test", "op", "name", "ttl", "type", "data"];
const itemLine = (item) => FIELDS.map((field) => item[field]).filter((value) => value !== undefined).join(" ");
const zoneText = (records) => records.map((record) => `${lineOf(record)}\n`).join("");

// ---- rights: an office with this policy is asked, which decides as `rights` does and need not start for each question

const asked = new Map();
let office;

async function startOffice() {
    const [origin] = ORIGINS;
    await run(`${origin} 60 IN SOA ns1.${origin} h.${origin} 7 3600 600 86400 60\n${origin} 60 IN NS ns1.${origin}\n`, "import", "--store", `${folder}/store`, "--origin", origin);
    office = spawn(program, ["serve", "--store", `${folder}/store`, "--policy", policy, "--listen", "127.0.0.1:0", "--longest", "0", "--patience", "0"], {stdio: ["ignore", "pipe", "ignore"]});
    const said = await new Promise((go) => office.stdout.once("data", (piece) => go(String(piece))));
    return Number(said.trim().split(":").at(-1));
}

function askOffice(port, caller, {action, name, type}) {
    return new Promise((go, fail) => {
        const path = `/rights/${encodeURIComponent(name)}/${type}/${action}`;
        get({host: "127.0.0.1", port, path, headers: {"X-Office-Caller": caller}, agent: false}, (reply) => {
            let text = "";
            reply.on("data", (piece) => (text += piece));
            reply.on("end", () => go(JSON.parse(text)));
        }).on("error", fail);
    });
}

/** What the policy says of a point: {granted, by}. Some are asked by the command too. */
function rightOf(caller, point) {
    const key = `${caller} ${pointKey(point)}`;
    if (!asked.has(key)) {
        asked.set(key, askOffice(port, caller, point).then(async (right) => {
            if (asked.size % 100 === 1) {
                const said = await run("", "rights", "--policy", policy, "--caller", caller, "--", point.name, point.type, point.action);
                if (said.trim() !== `${right.granted ? "granted" : "denied"} ${right.by}`) {
                    differ("what the office and the command say of a right", {caller, point}, right, said);
                }
            }
            return right;
        }));
    }
    return asked.get(key);
}

/** The first item that asks for what the policy denies, and the rule that does, as the page asks it: point by point. */
async function firstDenied(caller, {prerequisites, operations}, origin) {
    for (const [list, items, points] of [["prerequisites", prerequisites, testPoints], ["operations", operations, (item) => pointsOf(item, origin)]]) {
        for (const [at, item] of items.entries()) {
            for (const point of points(item)) {
                const {granted, by} = await rightOf(caller, point);
                if (!granted) {
                    return `REFUSED ${list} ${at} ${by}`;
                }
            }
        }
    }
    return null;
}

const ended = {};
const tell = (what, number) => (ended[what] = (ended[what] ?? 0) + number);
RULES.forEach((rule) => tell(rule, 0));
const differ = (what, ...values) => console.log([`differs: ${what}`, ...values.map((value) => JSON.stringify(value))].join("\n    "));

/** What the page says of an update. Somebody else may have made another one since the records were read. */
async function judge(caller, seen, zone, edits) {
    const [update] = updatesOf(edits, seen);
    const denial = await firstDenied(caller, update, zone.origin);
    const isConflict = update.edits.some((edit) => conflictOf(look(edit, seen), zone) !== null);
    const items = [...update.prerequisites, ...update.operations].map(itemLine).join("\n");
    const said = (await run(`${zoneText(zone.records)}--\n${items}\n`, "plan", "--policy", policy, "--caller", caller)).trim().split("\n");
    const wanted = denial ?? (isConflict ? "CONFLICT" : "NOERROR");
    const got = /XRRSET/.test(said[0]) ? "CONFLICT" : said[0];
    tell(wanted.split(" ")[0], update.edits.length);
    tell("edits", update.edits.length);
    if (wanted !== got) {
        differ("what the office answers", {caller, edits, items, seen: seen.records.map(lineOf), zone: zone.records.map(lineOf)}, wanted, said);
    }
    const {outlook, lines} = foresee(update.edits, zone);
    tell("idle", lines.filter(({isIdle}) => isIdle).length);
    const after = [];
    outlook.forEach((record) => after.push(record));
    if (wanted === "NOERROR" && got === wanted) {
        compareRecords(update.edits, zone, after, said, lines.every(({isIdle}) => isIdle));
    }
    return after;
}

function compareRecords(edits, zone, after, said, isIdle) {
    const records = new Set(zone.records.map(lineOf));
    said.slice(1, -1).forEach((line) => (line.startsWith("- ") ? records.delete(line.slice(2)) : records.add(line.slice(2))));
    const [wanted, got] = [[...records].sort(), after.map(lineOf).sort()];
    if (wanted.join("\n") !== got.join("\n")) {
        differ("what edits make", {edits, zone: zone.records.map(lineOf)}, wanted.filter((line) => !got.includes(line)), got.filter((line) => !wanted.includes(line)));
    }
    if (isIdle && said.length > 2) {
        differ("edits that the page says do nothing", {edits, zone: zone.records.map(lineOf)}, said);
    }
}

async function compareFindings(origin, records) {
    const ordered = [...records].sort((a, b) => compareNames(a.name, b.name));
    const zone = new Zone(origin, ordered);
    const found = findings(foresee([], zone).outlook).map(({rule, record}) => `${rule} ${lineOf(record)}`);
    const said = (await run(zoneText(ordered), "check", "zone", "--origin", origin)).split("\n").filter(Boolean);
    said.forEach((line) => tell(line.split(" ")[0], 1));
    tell("findings", said.length);
    if (found.sort().join("\n") !== said.sort().join("\n")) {
        differ("what is at fault in a zone", ordered.map(lineOf), found.filter((line) => !said.includes(line)), said.filter((line) => !found.includes(line)));
    }
}

/** What is typed is read as the program reads and prints it. */
async function compareReading() {
    const origin = "example.org.";
    const typed = Array.from({length: 600}, () => {
        const {name, type, data} = someRecord(origin);
        return {name, type, data: type !== "TXT" && chance(2) ? data.toUpperCase().replace(/^(?=10 )/, "0").replace("::", ":0:0::") : data};
    }).filter(({name, type}) => !["SOA", "CNAME"].includes(type) && !(type === "DS" && name === origin));
    const text = typed.map(({name, type, data}) => `${name} 300 IN ${type} ${data}\n`).join("");
    const soa = `${origin} 300 IN SOA ns1.${origin} hostmaster.${origin} 7 3600 600 86400 60\n${origin} 300 NS ns1.${origin}\n`;
    const said = new Set((await run(soa + text, "canon", "--origin", origin)).trim().split("\n"));
    for (const record of typed) {
        const read = {name: readOwner(record.name, origin).name, ttl: 300, type: record.type, data: readData(record.type, record.data, origin).data};
        if (!said.has(lineOf(read))) {
            differ("what is read", record, lineOf(read), said.size);
        }
    }
    tell("read", typed.length);
}

/** Many edits are sent in updates within the limits, whose guards hold one after the other, and which come to what the edits do. */
function compareSplit() {
    const origin = ORIGINS[0];
    const zone = someZone(origin);
    for (let at = 0; at < 400; at++) {
        const record = {name: `h${chance(150)}.${origin}`, ttl: 60, type: "A", data: `192.0.2.${chance(250)}`};
        if (!zone.find(record)) {
            zone.push(record);
        }
    }
    const olds = zone.records.filter(({type}) => type === "A").filter(() => chance(2));
    const edits = [...olds.map((old) => ({old, ...(chance(2) && {now: {...old, data: `192.0.2.${chance(250)}`}})})),
        ...Array.from({length: 500}, () => ({now: {name: `n${chance(300)}.${origin}`, ttl: 60, type: "A", data: `192.0.2.${chance(250)}`}}))];
    const updates = updatesOf(edits.map((edit, at) => ({...edit, key: String(at)})), zone);
    const outlook = foresee([], zone).outlook;
    for (const {prerequisites, operations} of updates) {
        const wrong = prerequisites.filter(({test, name, type, data}) => {
            const there = outlook.set(name, type).map((record) => record.data);
            return test === "rrset-absent" ? there.length > 0 : test === "rrset-exists" ? there.length === 0 : !there.includes(data);
        });
        if (prerequisites.length > 64 || operations.length > 256 || JSON.stringify({prerequisites, operations}).length > 65000 || wrong.length) {
            differ("an update of many", prerequisites.length, operations.length, wrong);
        }
        operations.forEach((operation) => outlook.apply(operation));
    }
    outlook.advance();
    const linesOf = (one) => {
        const lines = [];
        one.forEach((record) => lines.push(lineOf(record)));
        return lines.sort().join("\n");
    };
    if (linesOf(outlook) !== linesOf(foresee(edits, zone).outlook)) {
        differ("what many updates make", updates.length);
    }
    tell("updates", updates.length);
}

/** An update of some edits of a random zone, of which one in four was changed by somebody else meanwhile. */
async function judgeSome() {
    const origin = ORIGINS[Number(chance(5) === 0)];
    const seen = someZone(origin);
    const edits = Array.from({length: 1 + (chance(3) && chance(10))}, (_, at) => ({...someEdit(seen), key: String(at)}));
    const once = edits.filter(({old}, at) => !old || !edits.slice(0, at).some((edit) => edit.old === old));
    const soas = once.filter(({now}) => now?.type === "SOA");
    const judged = once.filter((edit) => !soas.includes(edit) || edit === soas[0]);
    const zone = chance(4) ? seen : new Zone(origin, seen.records.filter((record) => ["SOA", "NS"].includes(record.type) || chance(8)));
    await compareFindings(origin, await judge(chance(2) ? "admin" : one(CALLERS), seen, zone, judged));
}

writeFileSync(policy, process.env.POLICY);
const port = await startOffice();
await compareReading();
compareSplit();
await Promise.all(Array.from({length: AT_ONCE}, async () => {
    while ((ended.edits ?? 0) < Number(count)) {
        await judgeSome();
    }
}));
office.kill();
console.log(JSON.stringify(ended));
process.exit(0);
