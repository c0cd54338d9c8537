// What is sought: words anywhere in a record, and `type:`, `name:`, `data:`, `ttl:`, "exact" texts, addresses and nets.

import {textOf} from "./data.js";
import {ipv6Digits, labelsOf, toAscii, toUnicode} from "./names.js";

const NET = /^([0-9a-f.:]+)\/([0-9]{1,3})$/i;
const bits = (type, address) => (type === "A"
    ? address.split(".").map((part) => Number(part).toString(2).padStart(8, "0"))
    : [...ipv6Digits(address)].map((digit) => parseInt(digit, 16).toString(2).padStart(4, "0"))).join("");

/** A net as the type of its addresses and the bits that they begin with, or null. */
export function readNet(text) {
    const [, address, length] = NET.exec(text) ?? [];
    const isIpv6 = address?.includes(":");
    if (!address || Number(length) > (isIpv6 ? 128 : 32) || !(isIpv6 || /^\d{1,3}(\.\d{1,3}){3}$/.test(address))) {
        return null;
    }
    try {
        const written = isIpv6 ? new URL(`ws://[${address}]/`).hostname.slice(1, -1) : address;
        return {type: isIpv6 ? "AAAA" : "A", prefix: bits(isIpv6 ? "AAAA" : "A", written).slice(0, Number(length))};
    } catch {
        return null;
    }
}

export const isInNet = ({type, data}, net) => type === net.type && bits(type, data).startsWith(net.prefix);

/** All in which words are sought: the line, in small letters, and its letters beyond ASCII. */
function textIn(record) {
    if (record.low === undefined) {
        const letters = [toUnicode(record.name), toUnicode(record.data), record.type === "TXT" ? textOf(record.data) : null].filter(Boolean);
        const line = `${record.name} ${record.ttl} ${record.type} ${record.data}`;
        record.low = `${letters.length ? `${line} ${letters.join(" ")}` : line}`.toLowerCase();
    }
    return record.low;
}

const within = (text, word) => text.toLowerCase().includes(word);
const letters = (text) => [text, toUnicode(text)].filter(Boolean);
const TESTS = {
    type: (word) => (record) => record.type.toLowerCase() === word,
    name: (word) => (record) => letters(record.name).some((text) => within(text, word)),
    data: (word) => (record) => [...letters(record.data), textOf(record.data) ?? ""].some((text) => within(text, word)),
    ttl: (word) => (record) => String(record.ttl) === word,
};

function exact(text) {
    const low = text.toLowerCase();
    const name = toAscii(low) ?? low;
    return ({name: owner, data}) => [owner, labelsOf(owner)[0]].some((one) => one === name || one === `${name}.`)
        || [data, `"${data}"`].some((one) => one.toLowerCase() === low) || data.toLowerCase() === `"${low}"`;
}

function testOf(word) {
    const [, key, rest] = /^(type|name|data|ttl):(.*)$/.exec(word) ?? [];
    if (key) {
        return rest ? TESTS[key](rest) : () => true;
    }
    const net = readNet(word);
    if (net) {
        return (record) => isInNet(record, net);
    }
    if (/^\d{1,3}(\.\d{1,3}){3}$/.test(word)) {
        return ({data, name}) => data.split(" ").includes(word) || within(name, word);
    }
    return (record) => textIn(record).includes(word);
}

/** Whether a record has all that is sought; null where nothing is sought. */
export function search(text) {
    const words = [...text.matchAll(/"([^"]*)"|(\S+)/g)];
    const tests = words.map(([, quoted, word]) => (quoted === undefined ? testOf(word.toLowerCase()) : quoted ? exact(quoted) : () => true));
    return tests.length ? (record) => tests.every((test) => test(record)) : null;
}

const ORDERS = {
    name: (a, b) => a.place - b.place,
    ttl: (a, b) => a.record.ttl - b.record.ttl || a.place - b.place,
    type: (a, b) => (a.record.type < b.record.type ? -1 : a.record.type > b.record.type ? 1 : a.place - b.place),
    data: (a, b) => compareData(a.record.data, b.record.data) || a.place - b.place,
};

function compareData(one, other) {
    const [a, b] = [one, other].map((data) => (/^[\d.]+$/.test(data) ? data.replace(/\d+/g, (part) => part.padStart(3, "0")) : data));
    return a < b ? -1 : Number(a > b);
}

/** Records in the order of a column, backwards too; those that are alike keep the order of the zone. */
export function sorted(records, column, isBack) {
    if (column === "name" && !isBack) {
        return records;
    }
    const all = records.map((record, place) => ({record, place})).sort(ORDERS[column]);
    return (isBack ? all.reverse() : all).map(({record}) => record);
}
