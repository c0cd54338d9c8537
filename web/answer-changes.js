// Which questions a server answers otherwise once a zone has changed: the rows of `zoneoffice diff --answers` (docs/formats.md). What it
// takes grows with what changed and with what is below that, and not with the zone, whose index is made once. Generators pause, so that
// who calls them can do something else meanwhile.

import {ASKED, Finder, isWildcard, put} from "./answers.js";
import {TYPES} from "./data.js";
import {compareNames, isWithin, parentOf} from "./names.js";

const some = (map, key) => map.get(key) ?? [];
const asksAlias = (type) => type === "CNAME" || type === "ANY";

/** Whether lists have the same records of one name, in whatever order. */
function areSame(one, other) {
    if (one.length !== other.length) {
        return false;
    }
    const lines = (records) => records.map(({ttl, type, data}) => `${ttl} ${type} ${data}`).sort();
    const others = lines(other);
    return lines(one).every((line, at) => line === others[at]);
}

/** The zone of an index before and after the operations of an outlook over it. A row has a name, or with `isBelow` the names below it
 * that exist in neither zone, to which no alias leads, and which have no closer name above them; the types for which these are answered
 * otherwise; and what answers for them before and after. */
export class AnswerChanges {
    constructor(index, outlook) {
        Object.assign(this, {index, outlook, origin: index.origin});
        this.changed = new Set(); // names that have other records
        this.moved = new Map(); // how many more names at or below one have records
        this.below = new Map(); // names that the index does not have, by the names above them
        this.aliases = new Map(); // as in the index, of what changed
        this.cuts = new Map();
        this.old = new Finder(this.origin, (name) => index.zone.at(name), (name) => index.exists(name));
        this.now = new Finder(this.origin, (name) => outlook.at(name), (name) => index.count(name) + (this.moved.get(name) ?? 0) > 0);
        this.hasSameSoa = this.old.negative() === this.now.negative();
        this.referrals = new Map(); // whether those to a cut are the same
        this.marked = new Set(); // the names whose answers may be others
        this.whole = new Set(); // those that were marked with all below them
    }

    /** Takes all names that have other records now. */
    * takeChanges() {
        for (const name of this.outlook.touched.keys()) {
            if (!this.changed.has(name) && this.outlook.isChanged(name)) {
                this.changed.add(name);
                this.take(name);
            }
            yield null;
        }
    }

    /** Takes a name with what it has now. */
    take(name) {
        const [before, after] = [this.old, this.now].map((finder) => finder.at(name).length > 0);
        this.know(name);
        for (let at = name; before !== after; at = parentOf(at)) {
            this.moved.set(at, (this.moved.get(at) ?? 0) + (after ? 1 : -1));
            if (at === this.origin) {
                break;
            }
        }
        for (const {type, data} of this.now.at(name)) {
            if (type === "CNAME" && isWithin(data, this.origin)) {
                this.know(data);
                put(this.aliases, data, name);
            } else if (type === "NS" && name !== this.origin) {
                put(this.cuts, data, name);
            }
        }
    }

    know(name) {
        if (!this.index.nodes.has(name) && !this.below.has(name)) {
            this.know(parentOf(name));
            this.below.set(name, []);
            put(this.below, parentOf(name), name);
        }
    }

    exists(name) {
        return this.old.exists(name) || this.now.exists(name);
    }

    isTarget(name) {
        return this.index.aliases.has(name) || this.aliases.has(name);
    }

    hasChanged(name, types) {
        return this.changed.has(name) && types.some((type) => !areSame(this.old.set(name, type), this.now.set(name, type)));
    }

    isCut(name) {
        return [this.old, this.now].some((finder) => finder.cutOver(name) === name);
    }

    /** Whether a name below another one exists after the change, but for one. */
    hasBelow(name, but) {
        const isThere = (lower) => lower !== but && this.now.exists(lower);
        return Boolean(this.index.nodes.get(name)?.below.some(isThere)) || some(this.below, name).some(isThere);
    }

    // ---- names whose answers may be others

    /** A name and all that are below it, once. */
    * markWithin(top) {
        const names = this.whole.has(top) ? [] : [top];
        this.whole.add(top);
        while (names.length) {
            const name = names.pop();
            this.marked.add(name);
            this.index.nodes.get(name)?.below.forEach((lower) => names.push(lower));
            some(this.below, name).forEach((lower) => names.push(lower));
            yield null;
        }
    }

    /** A name, and if it is a wildcard what it may answer for. */
    mark(name) {
        this.marked.add(name);
        if (isWildcard(name)) {
            this.marked.add(parentOf(name));
            some(this.index.missing, parentOf(name)).forEach((target) => this.marked.add(target));
        }
    }

    * markChanges() {
        for (const name of this.changed) {
            this.mark(name);
            const top = this.highestMoved(name) ?? (this.hasChanged(name, ["NS"]) && this.isCut(name) ? name : null);
            if (top !== null) {
                this.mark(top);
                yield* this.markWithin(top);
            }
            if (this.hasChanged(name, ["A", "AAAA"])) {
                yield* this.markReferred(name);
            }
            const aliases = [this.old, this.now].map((finder) => finder.aliasAt(name));
            aliases.filter((alias) => alias && isWithin(alias.data, this.origin)).forEach(({data}) => this.marked.add(data));
            yield null;
        }
        if (!this.hasSameSoa) {
            yield* this.markWithin(this.origin);
        }
    }

    /** The highest of a name and those above it that each exist in one of the zones only, or null. */
    highestMoved(name) {
        let highest = null;
        for (let at = name; this.old.exists(at) !== this.now.exists(at); at = parentOf(at)) {
            highest = at;
            if (at === this.origin) {
                break;
            }
        }
        return highest;
    }

    /** All that is referred to a server. */
    * markReferred(server) {
        for (const cut of new Set([...some(this.index.cuts, server), ...some(this.cuts, server)])) {
            if (this.isCut(cut)) {
                yield* this.markWithin(cut);
            }
        }
    }

    markAliases(target) {
        some(this.index.aliases, target).forEach((owner) => this.mark(owner));
        some(this.aliases, target).forEach((owner) => this.mark(owner));
    }

    // ---- answers

    /** Whether a question is answered otherwise, by what answers before and after. `asked` are the names that were asked for. */
    differs(before, after, type, asked) {
        if (before.cut !== after.cut) {
            return true;
        }
        if (before.cut !== null) {
            return this.referralDiffers(before.cut);
        }
        if (before.source === null || after.source === null) {
            return before.source !== after.source || !this.hasSameSoa;
        }
        const [alias, other] = asksAlias(type) ? [] : [this.old.aliasAt(before.source), this.now.aliasAt(after.source)];
        if (alias || other) {
            return alias?.data !== other?.data || alias.ttl !== other.ttl || this.targetDiffers(alias.data, type, asked);
        }
        const [one, two] = [this.old.askedAt(before.source, type), this.now.askedAt(after.source, type)];
        return one.length === 0 && two.length === 0 ? !this.hasSameSoa : !areSame(one, two);
    }

    /** The same of a name to which an alias leads before and after. */
    targetDiffers(target, type, asked) {
        if (asked.includes(target) || !isWithin(target, this.origin)) {
            return false;
        }
        return this.differs(this.old.placeOf(target, type), this.now.placeOf(target, type), type, [...asked, target]);
    }

    /** Whether a cut has other servers, or these have other addresses. */
    referralDiffers(cut) {
        if (!this.referrals.has(cut)) {
            this.referrals.set(cut, this.hasChanged(cut, ["NS"]) || this.now.set(cut, "NS").some(({data}) => this.hasChanged(data, ["A", "AAAA"])));
        }
        return this.referrals.get(cut);
    }

    rowOf(name) {
        const [before, after] = [this.old, this.now].map((finder) => finder.placeOf(name));
        const [ds, dsAfter] = [this.old, this.now].map((finder) => finder.placeOf(name, "DS"));
        const types = ASKED.filter((type) => (type === "DS" ? this.differs(ds, dsAfter, type, [name]) : this.differs(before, after, type, [name])));
        return {name, isBelow: false, types, before, after};
    }

    rowBelow(name) {
        const [before, after] = [this.old, this.now].map((finder) => finder.placeBelow(name));
        return {name, isBelow: true, types: ASKED.filter((type) => this.differs(before, after, type, [])), before, after};
    }

    /** The rows, in no order; and null for each pause between them. */
    * rows() {
        yield* this.takeChanges();
        yield* this.markChanges();
        for (const name of this.marked) { // which grows meanwhile
            const isThere = this.exists(name);
            const own = isThere || this.isTarget(name) ? this.rowOf(name) : null;
            const rows = [own, isThere ? this.rowBelow(name) : null];
            yield* rows.filter((row) => row?.types.length);
            if (own?.types.length) {
                this.markAliases(name);
            }
            yield null;
        }
    }
}

const typesText = (types) => (types.length === ASKED.length ? "*" : types.join(" "));

/** Rows as `zoneoffice diff --answers` prints them. */
export function rowLines(rows) {
    const ordered = [...rows].sort((one, other) => compareNames(one.name, other.name) || Number(one.isBelow) - Number(other.isBelow));
    return ordered.map(({name, isBelow, types}) => `${isBelow ? "below" : "at"} ${name} ${typesText(types)}`);
}
