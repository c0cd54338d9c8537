// Tasks that take several records: a new host, one that moves or goes, an alias, a domain that gets mail, and what is pasted. An entry of
// a reverse zone is a second update, which is sent once the first is made.

import {$, afterTyping, button, code, field, hint, make, option, otherReading, say} from "./elements.js";
import {ADDRESSES, readData, readIpv4, readIpv6, readTtl} from "./data.js";
import {putIn} from "./draft.js";
import {editWords, named} from "./marks.js";
import {asCaller, faultText, part, request} from "./office.js";
import {readPasted} from "./paste.js";
import {isWithin, readOwner, readTarget, reverseOf} from "./names.js";
import {isInNet, readNet} from "./search.js";
import {state} from "./state.js";
import {t} from "./text.js";
import {lineOf, readLine} from "./zone.js";

const has = (name) => state.zone.exists(name);
const own = (edit) => ({...edit});
let task = null;
let asks = 0;

// ---- reverse zones

/** The zone that has the reverse name of an address, of those that the page knows. */
function reverseZone(name) {
    return state.zones.filter((zone) => isWithin(name, zone)).sort((a, b) => b.length - a.length)[0];
}

async function pointersAt(zone, name) {
    const {json} = await request("GET", `${asCaller()}/zones/${part(zone)}/records/${part(name)}`);
    return (json?.records ?? []).map(readLine).filter((record) => record.type === "PTR" && record.name === name);
}

/** The edit of a pointer to a host, for the update that follows, or for this one where it is of the same zone. */
async function pointerEdits({type, data}, host, ttl, isNew) {
    const name = reverseOf(type, data);
    const zone = reverseZone(name);
    if (!zone) {
        return [];
    }
    const there = await pointersAt(zone, name);
    if (isNew) {
        const [old] = there;
        return old?.data === host ? [] : [{zone, ...(old && {old}), now: {name, ttl, type: "PTR", data: host}}];
    }
    return there.filter((record) => record.data === host).map((old) => ({zone, old}));
}

/** Puts the edits of other zones behind the last edit of this one. */
function joined(edits, pointers) {
    const [same, others] = [pointers.filter(({zone}) => zone === state.zone.origin), pointers.filter(({zone}) => zone !== state.zone.origin)];
    const all = [...edits, ...same.map(({zone, ...edit}) => edit)];
    if (others.length && all.length) {
        all[all.length - 1] = {...all.at(-1), then: others};
    }
    return all;
}

// ---- addresses

const number = (address) => address.split(".").reduce((sum, part) => sum * 256 + Number(part), 0);
const dotted = (value) => [24, 16, 8, 0].map((shift) => Math.floor(value / 2 ** shift) % 256).join(".");

/** The first address of an IPv4 net that no record has, nor a change that is not sent, nor one of those that were read before. */
function nextFree(net, before) {
    const there = [...state.zone.records, ...state.draft.edits.map(({now}) => now).filter(Boolean), ...before];
    const used = new Set(there.filter((record) => record.type === "A" && isInNet(record, net)).map(({data}) => number(data)));
    const first = parseInt(net.prefix.padEnd(32, "0"), 2);
    const size = 2 ** (32 - net.prefix.length);
    for (let at = first + Number(size > 2); at < first + size - Number(size > 2); at++) {
        if (!used.has(at)) {
            return dotted(at);
        }
    }
    return null;
}

function readAddresses(typed) {
    const addresses = [];
    for (const item of typed.split(/[\s,]+/).filter(Boolean)) {
        const net = readNet(item);
        const data = net?.type === "A" ? nextFree(net, addresses) : item;
        if (data === null) {
            return {fault: "netFull", item};
        }
        const type = data.includes(":") ? "AAAA" : "A";
        const {text, fault} = (type === "A" ? readIpv4 : readIpv6)(data);
        if (fault) {
            return {fault, item};
        }
        addresses.push({type, data: text});
    }
    return {addresses};
}

// ---- the tasks

const value = (id) => $(`task-${id}`)?.value ?? "";
const ownerAt = (id) => {
    const read = value(id).trim() === "" ? {fault: "noName"} : readOwner(value(id), state.zone.origin);
    return read.isOutside ? {fault: "notInZone", item: read.name, at: id} : {...read, at: id};
};
const ttlAt = (id) => ({...readTtl(value(id)), at: id});

function firstFault(...reads) {
    return reads.find(({fault}) => fault);
}

const TASKS = {
    newHost: {
        fields: [["name"], ["addresses", {hint: "addressesHint"}], ["ttl", {value: "1 h"}], ["pointer", {check: true}]],
        async edits() {
            const [name, ttl] = [ownerAt("name"), ttlAt("ttl")];
            const read = {...readAddresses(value("addresses")), at: "addresses"};
            const bad = firstFault(name, ttl, read) ?? (read.addresses.length === 0 ? {fault: "empty", at: "addresses"} : null);
            if (bad) {
                return bad;
            }
            const edits = read.addresses.map(({type, data}) => ({now: {name: name.name, ttl: ttl.ttl, type, data}}));
            const pointers = $("task-pointer").checked ? (await Promise.all(read.addresses.map((one) => pointerEdits(one, name.name, ttl.ttl, true)))).flat() : [];
            const others = $("task-pointer").checked ? read.addresses.filter(({type, data}) => !reverseZone(reverseOf(type, data))) : [];
            return {edits: joined(edits, pointers), notes: [...(state.zone.at(name.name).length ? [t("hostIsThere", name.name)] : []),
                ...others.map(({data}) => t("noReverse", data))]};
        },
    },
    moveHost: {
        fields: [["name", {names: true}], ["addresses", {hint: "addressesHint"}]],
        async edits() {
            const name = ownerAt("name");
            const read = {...readAddresses(value("addresses")), at: "addresses"};
            const bad = firstFault(name, read) ?? (read.addresses.length === 0 ? {fault: "empty", at: "addresses"} : null);
            if (bad) {
                return bad;
            }
            const edits = ADDRESSES.filter((type) => read.addresses.some((one) => one.type === type)).flatMap((type) => {
                const [before, after] = [state.zone.set(name.name, type), read.addresses.filter((one) => one.type === type)];
                const ttl = before[0]?.ttl ?? 3600;
                return Array.from({length: Math.max(before.length, after.length)}, (_, at) => ({...(before[at] && {old: before[at]}),
                    ...(after[at] && {now: {name: name.name, ttl, type, data: after[at].data}})}));
            });
            const changed = edits.filter(({old, now}) => old?.data !== now?.data);
            const pointers = (await Promise.all(changed.flatMap(({old, now}) => [...(old ? [pointerEdits(old, name.name, old.ttl, false)] : []),
                ...(now ? [pointerEdits(now, name.name, now.ttl, true)] : [])]))).flat();
            return {edits: joined(changed, pointers)};
        },
    },
    retireHost: {
        fields: [["name", {names: true}]],
        async edits() {
            const name = ownerAt("name");
            const there = name.fault ? [] : state.zone.at(name.name).filter(({type}) => type !== "SOA" && !(type === "NS" && name.name === state.zone.origin));
            if (name.fault || there.length === 0) {
                return name.fault ? name : {fault: "noRecords", item: name.name, at: "name"};
            }
            const aliases = state.zone.records.filter(({type, data}) => type === "CNAME" && data === name.name);
            const addresses = there.filter(({type}) => ADDRESSES.includes(type));
            const pointers = (await Promise.all(addresses.map((record) => pointerEdits(record, name.name, record.ttl, false)))).flat();
            return {edits: joined([...there, ...aliases].map((old) => ({old})), pointers), notes: aliases.length ? [t("aliasesGo", aliases.length)] : []};
        },
    },
    alias: {
        fields: [["name"], ["target", {names: true}], ["ttl", {value: "1 h"}]],
        async edits() {
            const [name, ttl] = [ownerAt("name"), ttlAt("ttl")];
            const target = {...(value("target").trim() === "" ? {fault: "empty"} : readTarget(value("target"), state.zone.origin, has)), at: "target"};
            const bad = firstFault(name, target, ttl);
            return bad ?? {edits: [{now: {name: name.name, ttl: ttl.ttl, type: "CNAME", data: target.name}}],
                notes: [[t("is", target.name), ...(target.other ? [" ", otherReading($("task-target"), target.other)] : [])]]};
        },
    },
    mailDomain: {
        fields: [["domain"], ["servers", {hint: "serversHint"}], ["spf", {value: "v=spf1 mx -all"}], ["reports", {hint: "reportsHint"}], ["ttl", {value: "1 h"}]],
        async edits() {
            const [name, ttl] = [ownerAt("domain"), ttlAt("ttl")];
            const servers = value("servers").split(/[\s,]+/).filter(Boolean).map((item) => ({...readTarget(item, state.zone.origin, has), item}));
            const bad = firstFault(name, ttl) ?? servers.find(({fault}) => fault) ?? (servers.length === 0 ? {fault: "empty", at: "servers"} : null);
            if (bad) {
                return {at: "servers", ...bad};
            }
            const record = (owner, type, data) => ({now: {name: owner, ttl: ttl.ttl, type, data}});
            const text = (said) => readData("TXT", said, state.zone.origin).data;
            const spf = state.zone.set(name.name, "TXT").find(({data}) => /^"v=spf1 /i.test(data));
            const fresh = value("spf").trim() ? [{...record(name.name, "TXT", text(value("spf"))), ...(spf && {old: spf})}] : [];
            const dmarc = value("reports").trim() ? [record(`_dmarc.${name.name}`, "TXT", text(`v=DMARC1; p=none; rua=mailto:${value("reports").trim()}`))] : [];
            return {edits: [...servers.map((server, at) => record(name.name, "MX", `${(at + 1) * 10} ${server.name}`)), ...fresh, ...dmarc]};
        },
    },
    paste: {
        fields: [["text", {tag: "textarea"}]],
        async edits() {
            const lines = readPasted(value("text"), state.zone.origin, has);
            const isThere = (record) => state.zone.find(record)?.ttl === record.ttl;
            const good = lines.filter(({record}) => record && !isThere(record) && !(record.type === "SOA"));
            return {edits: good.map(({record}) => ({...(state.zone.find(record) && {old: state.zone.find(record)}), now: record})), verdicts: lines.filter(({record, fault}) => record || fault)
                .map(({line, text, record, fault, item, within}) => ({line, text, isBad: Boolean(fault), isIdle: Boolean(record && isThere(record)),
                    words: fault ? faultText({fault, item, within}) : isThere(record) ? t("why there") : lineOf(record)})), isAll: good.length === lines.filter(({record, fault}) => record || fault).length};
        },
    },
};

// ---- the dialog

function taskField([id, more = {}]) {
    if (more.check) {
        const box = make("input", {type: "checkbox", id: `task-${id}`});
        box.checked = true;
        return make("div", {class: "field check"}, make("label", {}, box, " ", t(`task ${id}`)), make("p", {class: "hint", id: `task-${id}-hint`}));
    }
    const made = field(`task-${id}`, t(`task ${id}`), {tag: more.tag, value: more.value, set: {...(more.names && {list: "names"}), ...(more.tag && {rows: 8, wrap: "off"})}});
    made.querySelector(".hint").textContent = more.hint ? t(more.hint) : "";
    made.dataset.hint = more.hint ?? "";
    return made;
}

export function openTask(name, values = {}) {
    task = name;
    $("task-head").textContent = t(name).replace(/\s?…$/, "");
    $("task-what").textContent = t(`${name}What`);
    $("task-fields").replaceChildren(...TASKS[name].fields.map(taskField));
    Object.entries(values).forEach(([id, text]) => ($(`task-${id}`).value = text));
    $("names").replaceChildren(...[...state.zone.names.keys()].slice(0, 200).map((one) => option(one)));
    $("task-marks").replaceChildren();
    $("task").showModal();
    $("task-fields").querySelector("input, textarea").focus();
}

/** What the task comes to, as it is typed. */
async function preview() {
    const asked = ++asks;
    const {edits = [], notes = [], verdicts = []} = await TASKS[task].edits();
    if (asked !== asks) {
        return;
    }
    const lines = verdicts.length ? verdicts.slice(0, 200).map(({line, words, isBad, isIdle}) => make("li", {class: `mark ${isBad ? "bad" : isIdle ? "note" : "good"}`},
        make("span", {class: "tag"}, t("line", line)), " ", words))
        : edits.flatMap((edit) => [make("li", {class: "mark"}, code(named((edit.now ?? edit.old).name)), " ", ...editWords(edit)),
            ...(edit.then ?? []).map((next) => make("li", {class: "mark"}, t("thenIn", next.zone), " ", code((next.now ?? next.old).name), " ", ...editWords(next)))]);
    $("task-marks").replaceChildren(...notes.map((parts) => make("li", {class: "mark note"}, ...[parts].flat())), ...lines);
}

async function submit(event) {
    event.preventDefault();
    const found = await TASKS[task].edits();
    TASKS[task].fields.forEach(([id, more = {}]) => !more.check && hint(`task-${id}`, more.hint ? t(more.hint) : ""));
    if (found.fault) {
        hint(`task-${found.at}`, faultText(found), true);
        $(`task-${found.at}`).focus();
        return;
    }
    if (found.edits.length === 0) {
        say(t("asItIs"));
        $("task-marks").prepend(make("li", {class: "mark bad"}, t(found.verdicts?.length ? "noGoodLine" : "asItIs")));
        return;
    }
    $("task").close();
    putIn(found.edits.map(own), task === "paste" ? {} : {group: `${task} ${Date.now()}`});
    location.hash = "review";
}

/** Closes the menu of tasks, with the focus where it was opened. */
function closeMenu() {
    $("more").querySelector("summary").focus();
    $("more").open = false;
}

export function startTasks() {
    $("more").querySelector("ul").append(...Object.keys(TASKS).filter((name) => name !== "newHost").map((name) => make("li", {}, button(t(name), () => {
        closeMenu();
        openTask(name);
    }, {"data-task": name}))));
    $("more").addEventListener("keydown", ({key}) => key === "Escape" && closeMenu());
    addEventListener("click", ({target}) => $("more").contains(target) || ($("more").open = false));
    $("new-host").addEventListener("click", () => openTask("newHost"));
    $("task-form").addEventListener("submit", submit);
    $("task-form").addEventListener("input", afterTyping(preview, 200));
    $("task-cancel").addEventListener("click", () => $("task").close());
}

