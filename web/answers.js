// What an authoritative server finds in a zone (RFC 1034 section 4.3.2), with wildcards (RFC 4592): the names that exist, what leads to
// them, and what answers for a name.

import {isWithin, parentOf} from "./names.js";

// made: types
const KEPT = ["A", "NS", "CNAME", "SOA", "PTR", "MX", "TXT", "AAAA", "SRV", "DS"];
// end

/** The types of questions: those that zones keep, by number, then all, and then those that no zone has. */
export const ASKED = [...KEPT, "ANY", "other"];

export const isWildcard = (name) => name.startsWith("*.");
const wildcardBelow = (encloser) => `*.${encloser}`;

export function put(map, key, value) {
    const there = map.get(key);
    if (there) {
        there.push(value);
    } else {
        map.set(key, [value]);
    }
}

/** The names of a zone, those above them, and the targets of its aliases, as a tree; which aliases lead to a name, and which cuts have a
 * name as a server. It is made once of a zone. */
export class NameIndex {
    constructor(zone) {
        this.zone = zone;
        this.origin = zone.origin;
        this.nodes = new Map(); // {above, below, count}: names that are one label longer, and how many names at or below have records
        this.aliases = new Map(); // owners, by targets
        this.cuts = new Map(); // names with NS, by servers
        this.missing = new Map(); // targets that do not exist, by the closest name above them that does
        this.nodeOf(zone.origin);
    }

    /** Reads the records; pauses after each name. */
    * fill() {
        for (const [name, records] of this.zone.names) {
            for (let node = this.nodeOf(name); node; node = node.above) {
                node.count += 1;
            }
            for (const {type, data} of records) {
                this.point(name, type, data);
            }
            yield;
        }
        for (const target of this.aliases.keys()) {
            if (!this.exists(target)) {
                put(this.missing, closest(this, target), target);
            }
            yield;
        }
        return this;
    }

    point(name, type, data) {
        if (type === "CNAME" && isWithin(data, this.origin)) {
            this.nodeOf(data);
            put(this.aliases, data, name);
        } else if (type === "NS" && name !== this.origin) {
            put(this.cuts, data, name);
        }
    }

    /** The node of a name, made with those above it where it is not there. */
    nodeOf(name) {
        const there = this.nodes.get(name);
        if (there) {
            return there;
        }
        const above = name === this.origin ? null : this.nodeOf(parentOf(name));
        const node = {above, below: [], count: 0};
        above?.below.push(name);
        this.nodes.set(name, node);
        return node;
    }

    count(name) {
        return this.nodes.get(name)?.count ?? 0;
    }

    exists(name) {
        return this.count(name) > 0;
    }
}

/** Runs a generator to its end without a pause, and gives what it returns. */
export function finish(work) {
    for (;;) {
        const {done, value} = work.next();
        if (done) {
            return value;
        }
    }
}

/** A name, or the closest one above it that exists; or the origin. */
export function closest(zone, name) {
    let at = name;
    while (at !== zone.origin && !zone.exists(at)) {
        at = parentOf(at);
    }
    return at;
}

/** What is found for names in one zone. `at` gives the records of a name, and `exists` whether a name has some at or below it. */
export class Finder {
    constructor(origin, at, exists) {
        Object.assign(this, {origin, at, exists, cuts: new Map()});
    }

    set(name, type) {
        return this.at(name).filter((record) => record.type === type);
    }

    /** The outermost cut at or above a name of the zone, or null. */
    cutOver(name) {
        if (name === this.origin) {
            return null;
        }
        let cut = this.cuts.get(name);
        if (cut === undefined) {
            cut = this.cutOver(parentOf(name)) ?? (this.at(name).some(({type}) => type === "NS") ? name : null);
            this.cuts.set(name, cut);
        }
        return cut;
    }

    /** The wildcard that answers for names which do not exist, the closest one above them at or above a name; or null. */
    wildcardOver(name) {
        const wildcard = wildcardBelow(closest(this, name));
        return this.exists(wildcard) ? wildcard : null;
    }

    /** What answers for a name: the outermost cut, or the name whose records do, if there is one. The DS of a cut is its parent's (RFC
     * 4035 section 3.1.4.1). */
    placeOf(name, type) {
        const cut = this.cutOver(name);
        if (cut !== null && !(type === "DS" && cut === name)) {
            return {cut, source: null};
        }
        return {cut: null, source: this.exists(name) ? name : name === this.origin ? null : this.wildcardOver(parentOf(name))};
    }

    /** The same for the names below one that exist nowhere, and that have no closer name above them. */
    placeBelow(name) {
        const cut = this.cutOver(name);
        return {cut, source: cut === null ? this.wildcardOver(name) : null};
    }

    aliasAt(name) {
        return this.at(name).find(({type}) => type === "CNAME");
    }

    /** The records of a name that a question asks for. */
    askedAt(name, type) {
        return type === "ANY" ? this.at(name) : this.set(name, type);
    }

    /** How long a negative answer is kept (RFC 2308 section 5), or undefined where the SOA is not seen. */
    negativeTtl() {
        const [soa] = this.set(this.origin, "SOA");
        return soa && Math.min(soa.ttl, Number(soa.data.split(" ").at(-1)));
    }

    /** The SOA of negative answers, but for its serial (RFC 2308 section 3). */
    negative() {
        const [soa] = this.set(this.origin, "SOA");
        const [server, mailbox, , ...times] = soa?.data.split(" ") ?? [];
        return [this.negativeTtl(), server, mailbox, ...times].join(" ");
    }
}
