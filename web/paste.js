// A snippet of a master file, or lines of a table (CSV), read line by line. Each line has a record or what is wrong with it.

import {readData, readTtl, TYPES} from "./data.js";
import {readOwner} from "./names.js";

/** The items of a line: words, and texts in quotes; a comment ends it. */
function itemsOf(line) {
    const items = [];
    for (const [item] of line.matchAll(/"(?:[^"\\]|\\.)*"|;.*|[^\s;"]+/gs)) {
        if (item.startsWith(";")) {
            break;
        }
        items.push(item);
    }
    return items;
}

const isType = (item) => TYPES.includes(item?.toUpperCase());
const isAddress = (item) => /^\d+\.\d+\.\d+\.\d+$/.test(item) || /^[0-9a-f]*:[0-9a-f:.]*$/i.test(item);

function readRecord({owner, ttl, type, data}, state) {
    const name = owner === "" || owner === undefined ? {name: state.owner} : readOwner(owner, state.origin);
    if (name.fault || !name.name) {
        return {fault: name.fault ?? 24};
    }
    const inZone = readOwner(name.name, state.zone);
    const time = ttl === undefined ? {ttl: state.ttl} : readTtl(ttl);
    if (inZone.isOutside || time.fault) {
        return inZone.isOutside ? {fault: "notInZone", item: name.name} : {...time, item: ttl};
    }
    const read = readData(type.toUpperCase(), data, state.origin, state.has);
    if (read.fault) {
        return read;
    }
    state.owner = name.name;
    return {record: {name: name.name, ttl: time.ttl, type: type.toUpperCase(), data: read.data}};
}

function readDirective([word, value], state) {
    if (word.toUpperCase() === "$TTL" && value) {
        const {ttl, fault} = readTtl(value);
        state.ttl = ttl ?? state.ttl;
        return fault ? {fault, item: value} : {};
    }
    if (word.toUpperCase() === "$ORIGIN" && value) {
        const {name, fault} = readOwner(value, state.origin);
        state.origin = name ?? state.origin;
        return fault ? {fault, item: value} : {};
    }
    return {fault: 27, item: word};
}

/** A line of a master file: [OWNER] [TTL] [IN] TYPE DATA. */
function readMaster(line, state) {
    const items = itemsOf(line);
    if (items.length === 0) {
        return {};
    }
    if (items[0].startsWith("$")) {
        return readDirective(items, state);
    }
    if (/[()]/.test(line.replace(/"(?:[^"\\]|\\.)*"/g, ""))) {
        return {fault: "parentheses"};
    }
    const owner = /^\s/.test(line) ? "" : items.shift();
    const before = [];
    while (items.length && !isType(items[0]) && before.length < 2) {
        before.push(items.shift());
    }
    if (!isType(items[0])) {
        return {fault: 17, item: before[0]};
    }
    const type = items.shift();
    const ttl = before.find((item) => item.toUpperCase() !== "IN");
    return readRecord({owner, ttl, type, data: items.join(" ")}, state);
}

/** A line of a table: name, address; or name, type, data and TTL. */
function readTable(line, separator, state) {
    const cells = line.split(separator).map((one) => one.trim().replace(/^"(.*)"$/s, (_, text) => text.replaceAll('""', '"')));
    const [owner, second, third, fourth] = cells;
    if (isAddress(second ?? "")) {
        return readRecord({owner, type: second.includes(":") ? "AAAA" : "A", data: second, ttl: third || undefined}, state);
    }
    if (!isType(second)) {
        return state.isFirst ? {isHead: true} : {fault: 17, item: second};
    }
    return readRecord({owner, type: second, data: third ?? "", ttl: fourth || undefined}, state);
}

/** All lines of a text that was pasted: {line, text} with a record, a fault, or nothing of either. */
export function readPasted(text, zone, has, ttl = 3600) {
    const state = {zone, origin: zone, owner: undefined, ttl, has, isFirst: true};
    return text.split(/\r?\n/).map((line, at) => {
        if (line.trim() === "" || line.trim().startsWith(";") || line.trim().startsWith("#")) {
            return null;
        }
        const separator = [",", "\t"].find((one) => line.includes(one) && (isType(line.split(one)[1]?.trim()) || isAddress(line.split(one)[1]?.trim() ?? "")
            || (state.isFirst && one === "," && !itemsOf(line).some(isType))));
        const read = separator ? readTable(line, separator, state) : readMaster(line, state);
        state.isFirst = false;
        return read.isHead ? null : {line: at + 1, text: line.trim(), ...read};
    }).filter(Boolean);
}
