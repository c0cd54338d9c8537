// The data of records, and TTLs: read as people write them, and printed as docs/formats.md has them. A fault has the number of the
// office's refusal, or a word of the page, and the item that it is in.

import {readTarget, utf8} from "./names.js";

// made: types
const TYPES = ["A", "AAAA", "CNAME", "DS", "MX", "NS", "PTR", "SOA", "SRV", "TXT"];
// end
export {TYPES};

/** Types that delegate a name, whatever the action is (NS but at the zone's own name, and DS). */
export const DELEGATING = ["NS", "DS"];
export const ADDRESSES = ["A", "AAAA"];

const numberUpTo = (most) => (item) => (!/^[0-9]+$/.test(item) ? {fault: 12} : Number(item) > most ? {fault: 13} : {text: String(Number(item))});
const UNITS = {w: 604800, d: 86400, h: 3600, m: 60, s: 1};

/** Seconds, as a number or numbers with units: 1h30m. */
function readSeconds(item) {
    const parts = [...item.toLowerCase().matchAll(/([0-9]+)([wdhms]?)/g)];
    const isWhole = parts.map(([part]) => part).join("") === item.toLowerCase() && parts.length > 0;
    if (!isWhole || (parts.length > 1 && parts.some(([, , unit]) => !unit))) {
        return undefined;
    }
    return parts.reduce((sum, [, number, unit]) => sum + Number(number) * (UNITS[unit] ?? 1), 0);
}

const seconds = (item) => {
    const number = readSeconds(item);
    return number === undefined ? {fault: 12} : number > 4294967295 ? {fault: 13} : {text: String(number)};
};
const isIpv4 = (item) => /^((0|[1-9][0-9]{0,2})(\.(?!$)|$)){4}$/.test(item) && item.split(".").every((number) => number < 256);
const ipv4 = (item) => (isIpv4(item) ? {text: item} : {fault: item.includes(":") && ipv6(item).text ? "isIpv6" : "badIpv4"});
const ipv6 = (item) => {
    try {
        const isWritten = /^[0-9a-f:.]*:[0-9a-f:.]*$/i.test(item);
        return isWritten ? {text: new URL(`ws://[${item}]/`).hostname.slice(1, -1)} : {fault: isIpv4(item) ? "isIpv4" : "badIpv6"};
    } catch {
        return {fault: "badIpv6"};
    }
};
const digest = (item) => (/^([0-9a-f]{2})+$/i.test(item) ? {text: item.toLowerCase()} : {fault: 33});
const someName = (item, {zone, has}) => {
    const {name, fault, other} = readTarget(item, zone, has);
    return fault ? {fault: 19, within: fault} : {text: name, other};
};
const [octet, short, long] = [255, 65535, 4294967295].map(numberUpTo);
// made: fields
const FIELDS = {
    A: [ipv4],
    AAAA: [ipv6],
    CNAME: [someName],
    DS: [short, octet, octet, digest],
    MX: [short, someName],
    NS: [someName],
    PTR: [someName],
    SOA: [someName, someName, long, seconds, seconds, seconds, seconds],
    SRV: [short, short, short, someName],
};
// end

/** At which place the data of a type have a name, or -1. */
export const nameField = (type) => (type === "SOA" ? -1 : FIELDS[type]?.indexOf(someName) ?? -1);
export {ipv4 as readIpv4, ipv6 as readIpv6};

// ---- texts

const symbol = (octet) => (octet === 34 || octet === 92 ? `\\${String.fromCharCode(octet)}`
    : octet >= 32 && octet <= 126 ? String.fromCharCode(octet) : `\\${String(octet).padStart(3, "0")}`);
const quotedOctets = (octets) => `"${octets.map(symbol).join("")}"`;

/** A text in quotes, in several where it has more than 255 octets. */
export function quoted(text) {
    const octets = [...new TextEncoder().encode(text)];
    const strings = [];
    do {
        strings.push(octets.splice(0, 255));
    } while (octets.length);
    return strings.map(quotedOctets).join(" ");
}

/** Character-strings in quotes, with escapes, as a master file has them. */
function readStrings(text) {
    if (!/^("([^"\\]|\\[^0-9]|\\[0-9]{3})*"\s*)+$/s.test(text)) {
        return {fault: /^("([^"\\]|\\.)*"\s*)+$/s.test(text) ? "badEscape" : 23};
    }
    const strings = [];
    for (const [, string] of text.matchAll(/"((?:[^"\\]|\\.)*)"/gs)) {
        const octets = [];
        for (const [part, code, escaped] of string.matchAll(/\\([0-9]{3})|\\([^0-9])|[^\\]/gsu)) {
            octets.push(...(code ? [Number(code)] : new TextEncoder().encode(escaped ?? part)));
        }
        if (octets.some((octet) => octet > 255)) {
            return {fault: "badEscape"};
        }
        if (octets.length > 255) {
            return {fault: 14};
        }
        strings.push(quotedOctets(octets));
    }
    return {data: strings.join(" ")};
}

/** The data of a TXT as a person reads them, or null where that is as it is written. */
export function textOf(data) {
    const said = [...data.matchAll(/"((?:[^"\\]|\\.)*)"/gs)].map(([, string]) => string).join("");
    return utf8(said);
}

// ---- data of any type

const isQuoted = (item) => item.replace(/\\./gs, "").includes('"');

/** Data as they were typed. `other` are those by the other reading of the name in them, where there is one. */
export function readData(type, typed, zone, has) {
    const text = typed.trim();
    if (text === "") {
        return {fault: "empty"};
    }
    if (type === "TXT") {
        return text.startsWith('"') ? readStrings(text) : {data: quoted(text)};
    }
    const items = text.split(/\s+/);
    const fields = FIELDS[type];
    if (type === "DS" && items.length > 4) {
        items.splice(3, items.length, items.slice(3).join(""));
    }
    if (type === "MX" && items.length === 1 && !/^[0-9]+$/.test(items[0])) {
        return {fault: "preference", item: items[0]};
    }
    const read = [];
    for (const [at, reader] of fields.entries()) {
        if (items[at] === undefined) {
            return {fault: 15};
        }
        const one = isQuoted(items[at]) ? {fault: 20} : reader(items[at], {zone, has});
        if (one.fault) {
            return {fault: one.fault, within: one.within, item: items[at]};
        }
        read.push(one);
    }
    if (items.length > fields.length) {
        return {fault: 16, item: items[fields.length]};
    }
    const all = (reading) => read.map(reading).join(" ");
    const hasOther = type !== "SOA" && read.some(({other}) => other);
    return {data: all(({text}) => text), ...(hasOther && {other: all(({text, other}) => other ?? text)})};
}

/** The server or other name in the data of a record, or null. */
export function targetOf({type, data}) {
    const at = nameField(type);
    return at < 0 ? null : data.split(" ")[at];
}

// ---- TTLs

export function readTtl(typed) {
    const number = readSeconds(typed.trim().replace(/\s+/g, "").replace(/min/gi, "m"));
    return number === undefined || number > 2147483647 ? {fault: 28} : {ttl: number};
}

/** A TTL as a person reads it: 1 h, 5 min, 90 s. */
export function ttlText(ttl) {
    const [size, word] = [[604800, "w"], [86400, "d"], [3600, "h"], [60, "min"]].find(([size]) => ttl >= size && ttl % size === 0) ?? [1, "s"];
    return `${ttl / size} ${word}`;
}
