// A zone as its records, and what operations do to them (RFC 2136 section 3.4.2). Reasons say why an operation does nothing.

import {compareNames, isWithin, labelsOf, parentOf} from "./names.js";

export const addition = ({name, ttl, type, data}) => ({op: "add", name, ttl, type, data});
export const removal = ({name, type, data}) => ({op: "delete-record", name, type, data});

/** A record of its line. */
export function readLine(line) {
    const name = line.slice(0, line.indexOf(" "));
    const ttlEnd = line.indexOf(" ", name.length + 1);
    const typeEnd = line.indexOf(" ", ttlEnd + 4);
    return {name, ttl: Number(line.slice(name.length + 1, ttlEnd)), type: line.slice(ttlEnd + 4, typeEnd), data: line.slice(typeEnd + 1)};
}

export const lineOf = ({name, ttl, type, data}) => `${name} ${ttl} IN ${type} ${data}`;
export const setKey = ({name, type}) => `${name} ${type}`;
export const isSame = (one, other) => one.name === other.name && one.type === other.type && one.data === other.data;

/** Whether a serial is less than another (RFC 1982). */
export const serialLess = (one, other) => one !== other && ((other - one) >>> 0) < 2147483648;
const serialOf = ({data}) => Number(data.split(" ")[2]);

/** The records of a zone that the caller may list, in the order of the office. */
export class Zone {
    constructor(origin, records = []) {
        this.origin = origin;
        this.records = [];
        this.names = new Map();
        records.forEach((record) => this.push(record));
    }

    push(record) {
        const there = this.names.get(record.name);
        if (there) {
            there.push(record);
        } else {
            this.names.set(record.name, [record]);
        }
        this.records.push(record);
    }

    at(name) {
        return this.names.get(name) ?? [];
    }

    set(name, type) {
        return this.at(name).filter((record) => record.type === type);
    }

    find(wanted) {
        return this.at(wanted.name).find((record) => isSame(record, wanted));
    }

    /** Names that have records, or names with records below them (RFC 4592 section 2.2.2). */
    exists(name) {
        this.known ??= ancestors(this.names.keys(), this.origin);
        return this.known.has(name);
    }
}

function ancestors(names, origin) {
    const known = new Set();
    for (const name of names) {
        for (let at = name; !known.has(at); at = parentOf(at)) {
            known.add(at);
            if (at === origin || at === ".") {
                break;
            }
        }
    }
    return known;
}

/** A zone after operations: a layer over it, which has only the names that they touch. */
export class Outlook {
    constructor(zone) {
        this.zone = zone;
        this.origin = zone.origin;
        this.touched = new Map();
    }

    at(name) {
        return this.touched.get(name) ?? this.zone.at(name);
    }

    set(name, type) {
        return this.at(name).filter((record) => record.type === type);
    }

    forEach(act) {
        for (const record of this.zone.records) {
            if (!this.touched.has(record.name)) {
                act(record);
            }
        }
        [...this.touched.keys()].sort(compareNames).forEach((name) => this.touched.get(name).forEach(act));
    }

    exists(name) {
        if (this.touched.size === 0) {
            return this.zone.exists(name);
        }
        this.known ??= ancestors(this.usedNames(), this.origin);
        return this.known.has(name);
    }

    * usedNames() {
        for (const name of this.zone.names.keys()) {
            if (!this.touched.has(name)) {
                yield name;
            }
        }
        for (const [name, there] of this.touched) {
            if (there.length) {
                yield name;
            }
        }
    }

    put(name, records) {
        this.touched.set(name, records);
        this.known = undefined;
    }

    /** Takes back what was put at a name. */
    restore(name, records) {
        if (records) {
            this.put(name, records);
        } else {
            this.touched.delete(name);
            this.known = undefined;
        }
    }

    copy() {
        const same = new Outlook(this.zone);
        same.touched = new Map(this.touched);
        return same;
    }

    /** Makes an operation. Gives why it does nothing, or undefined. */
    apply(operation) {
        const there = this.at(operation.name);
        const {records, why} = EFFECTS[operation.op](there, operation, this.origin);
        if (records) {
            this.put(operation.name, records);
        }
        return why;
    }

    /** Whether the records of a name are others than in the zone, TTLs counted. */
    isChanged(name) {
        const lines = (records) => records.map(lineOf).sort().join("\n");
        return this.touched.has(name) && lines(this.at(name)) !== lines(this.zone.at(name));
    }

    /** Advances the serial if a record changed and no SOA was put in place. */
    advance() {
        const [soa] = this.set(this.origin, "SOA");
        const [before] = this.zone.set(this.origin, "SOA");
        if (soa && [...this.touched.keys()].some((name) => this.isChanged(name)) && serialOf(soa) === serialOf(before)) {
            const fields = soa.data.split(" ");
            fields[2] = String((Number(fields[2]) + 1) % 4294967296);
            this.put(this.origin, this.at(this.origin).map((record) => (record === soa ? {...soa, data: fields.join(" ")} : record)));
        }
    }
}

const EFFECTS = {
    "add": (there, operation, origin) => (ADDITIONS[operation.type] ?? addOther)(there, recordOf(operation), origin),
    "delete-rrset": (there, {name, type}, origin) => (name === origin && ["SOA", "NS"].includes(type) ? {why: type === "SOA" ? "soaStays" : "lastNs"}
        : without(there, (record) => record.type === type)),
    "delete-name": (there, {name}, origin) => without(there, ({type}) => !(name === origin && ["SOA", "NS"].includes(type))),
    "delete-record": deleteRecord,
};

const recordOf = ({name, ttl, type, data}) => ({name, ttl, type, data});

function without(there, goes) {
    const records = there.filter((record) => !goes(record));
    return records.length === there.length ? {why: "gone"} : {records};
}

function deleteRecord(there, operation, origin) {
    const {name, type} = operation;
    if (name === origin && type === "SOA") {
        return {why: "soaStays"};
    }
    if (name === origin && type === "NS" && !there.some((record) => record.type === "NS" && record.data !== operation.data)) {
        return {why: "lastNs"};
    }
    return without(there, (record) => isSame(record, operation));
}

const ADDITIONS = {SOA: addSoa, CNAME: addCname};

function addSoa(there, soa) {
    const old = there.find(({type}) => type === "SOA");
    if (!old) {
        return {why: "noSoa"};
    }
    if (!serialLess(serialOf(old), serialOf(soa))) {
        return {why: "serial"};
    }
    return {records: [soa, ...there.filter(({type}) => type !== "SOA")]};
}

function addCname(there, alias) {
    if (there.some(({type}) => type !== "CNAME")) {
        return {why: "beside"};
    }
    return there.some((record) => isSame(record, alias) && record.ttl === alias.ttl) ? {why: "there"} : {records: [alias]};
}

function addOther(there, record, origin) {
    if (record.type === "DS" && record.name === origin) {
        return {why: "dsAtOrigin"};
    }
    if (there.some(({type}) => type === "CNAME")) {
        return {why: "alias"};
    }
    const isThere = there.some((other) => isSame(other, record));
    const others = there.map((other) => (other.type === record.type && other.ttl !== record.ttl ? {...other, ttl: record.ttl} : other));
    if (isThere && others.every((other, at) => other === there[at])) {
        return {why: "there"};
    }
    return {records: isThere ? others : [...others, record]};
}

/** The names above a printed name, up to the origin, itself first. */
export function* upwards(name, origin) {
    for (let at = name; isWithin(at, origin); at = parentOf(at)) {
        yield at;
        if (labelsOf(at).length === 0) {
            return;
        }
    }
}
