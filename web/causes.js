// Why questions are answered otherwise: the rows of answer-changes.js as a few matters, each of which is one sentence. What is asked for
// by the names and types of changed records themselves is in none, since the plan has it, nor is the serial of the SOA.

import {isWildcard} from "./answers.js";
import {TYPES} from "./data.js";
import {isWithin, parentOf} from "./names.js";
import {isSame} from "./zone.js";

/** The kinds of matters, the gravest first. */
export const KINDS = ["delegated", "undelegated", "handed", "servers", "address", "wildcardGoes", "wildcardComes", "wildcardChanges", "loses", "gains",
    "otherWildcard", "alias", "wildcardAlias", "negative", "exists", "vanishes"];

const ADDRESSES = ["A", "AAAA"];
const PARENTS = ["NS", "DS"]; // what a cut itself has
const datas = (records) => records.map(({type, data}) => `${type} ${data}`).sort().join("\n");

const without = (records, others) => records.filter((record) => !others.some((other) => isSame(record, other)));

/** How records became others: they came, they went, or they have other data, or only another TTL. */
function how(before, after) {
    return before.length === 0 ? "comes" : after.length === 0 ? "goes" : datas(before) === datas(after) ? "ttl" : "other";
}

export class Causes {
    constructor(changes) {
        Object.assign(this, {changes, origin: changes.origin, old: changes.old, now: changes.now});
        this.typed = new Map(); // the types of changed records, by names
        this.moved = new Set(); // names that other records answer for
        this.found = new Map(); // matters by their keys
    }

    typedAt(name) {
        if (!this.changes.changed.has(name)) {
            return [];
        }
        if (!this.typed.has(name)) {
            this.typed.set(name, TYPES.filter((type) => this.changes.hasChanged(name, [type])));
        }
        return this.typed.get(name);
    }

    /** The matters of the rows, the gravest first. Pauses after each row. */
    * matters() {
        for (const row of this.changes.rows()) {
            const types = row ? this.untyped(row) : [];
            if (row && !row.isBelow && row.before.source !== row.after.source) {
                this.moved.add(row.name);
            }
            if (types.length) {
                this.take({...row, types});
            }
            yield;
        }
        const matters = [...this.found.values()].flatMap((matter) => (matter.below ? this.parted(matter) : [matter]));
        return matters.sort((one, other) => KINDS.indexOf(one.kind) - KINDS.indexOf(other.kind));
    }

    /** A matter of names that came or went beside a wildcard, by whether it is about them, all that is below them, or both. */
    parted({below, ...matter}) {
        const parts = {whole: (name) => below.has(name) && this.moved.has(name), own: (name) => !below.has(name), below: (name) => below.has(name) && !this.moved.has(name)};
        return Object.entries(parts).map(([part, test]) => ({...matter, part, names: new Set([...matter.names].filter(test))})).filter(({names}) => names.size);
    }

    /** The types of a row that are not those of changed records of its name. An alias is for all types. */
    untyped({name, isBelow, types, before, after}) {
        const typed = isBelow ? [] : [...this.typedAt(name), ...(name === this.origin ? ["SOA"] : [])];
        if (typed.length === 0) {
            return types;
        }
        const isCome = before.cut === after.cut && [before.source, after.source].every((source) => source === null || source === name);
        const isAll = typed.includes("CNAME") || (isCome && before.source !== after.source);
        return isAll && isCome ? [] : types.filter((type) => type !== "ANY" && !typed.includes(type));
    }

    /** Adds a name to the matter of a kind that has these values. */
    add(kind, name, values = {}, key = "") {
        const whole = `${kind} ${key}`;
        const there = this.found.get(whole) ?? {kind, names: new Set(), count: 0, ...values};
        there.names.add(name);
        this.found.set(whole, there);
        return there;
    }

    take(row) {
        const {before, after} = row;
        if (before.cut !== after.cut) {
            this.takeCut(row);
        } else if (before.cut !== null) {
            this.takeReferral(row);
        } else if (before.source !== after.source) {
            this.takeSource(row);
        } else {
            this.takeRecords(row);
        }
    }

    // ---- delegations

    takeCut({name, isBelow, before, after}) {
        const isHidden = after.cut !== null && (before.cut === null || isWithin(before.cut, after.cut));
        const cut = isHidden ? after.cut : before.cut;
        const kind = isHidden ? "delegated" : after.cut === null ? "undelegated" : "handed";
        const matter = this.add(kind, kind === "handed" ? after.cut : cut);
        if (!isBelow && (isHidden ? before : after).cut === null) {
            matter.count += Number(this.isHeld(name, cut, isHidden));
        }
    }

    /** Whether a name has records before and after, but those that a cut itself has, and addresses in referrals to it that hide them. */
    isHeld(name, cut, isHidden) {
        const isServer = isHidden && this.now.set(cut, "NS").some(({data}) => data === name);
        const isOther = ({type}) => !(name === cut && PARENTS.includes(type)) && !(isServer && ADDRESSES.includes(type));
        return [this.old, this.now].every((finder) => finder.at(name).some(isOther));
    }

    takeReferral({name, isBelow, types, before: {cut}}) {
        if (!isBelow && name === cut && types.join() === "DS") {
            this.takeNegative();
            return;
        }
        if (this.changes.hasChanged(cut, ["NS"])) {
            const change = how(this.old.set(cut, "NS"), this.now.set(cut, "NS"));
            this.add("servers", cut, {how: change}, change);
            return;
        }
        for (const {data: server} of this.now.set(cut, "NS").filter(({data}) => this.changes.hasChanged(data, ADDRESSES))) {
            const [old, now] = [this.old, this.now].map((finder) => ADDRESSES.flatMap((type) => finder.set(server, type)));
            this.add("address", cut, {server, how: how(old, now), isOne: old.length < 2 && now.length < 2}, server);
        }
    }

    // ---- wildcards, and names that come and go

    takeSource({name, isBelow, before, after}) {
        const [from, to] = [before.source, after.source].map((source) => (isBelow || source !== name ? source : null));
        if (from && to) {
            this.add("otherWildcard", parentOf(isWithin(parentOf(to), parentOf(from)) ? to : from), {from, to}, `${from} ${to}`);
        } else if (from && !this.now.exists(from)) {
            this.takeWildcard("wildcardGoes", from, this.old.at(from), []);
        } else if (to && !this.old.exists(to)) {
            this.takeWildcard("wildcardComes", to, [], this.now.at(to));
        } else if (from || to) {
            const [kind, wildcard, had, has] = from ? ["loses", from, this.old, this.now] : ["gains", to, this.now, this.old];
            const isWhole = (one) => had.placeBelow(one).source === wildcard && has.placeBelow(one).cut === null && has.placeBelow(one).source === null;
            const top = this.movedOver(name);
            const subject = isWhole(top) ? top : name;
            const {below} = this.add(kind, subject, {wildcard, below: new Set()}, wildcard);
            if (isWhole(subject)) {
                below.add(subject);
            }
        } else {
            this.add(after.source ? "exists" : "vanishes", name);
        }
    }

    takeWildcard(kind, wildcard, old, now) {
        const encloser = parentOf(wildcard);
        const matter = this.add(kind, encloser, {old, now, how: how(old, now), isAmong: false}, `${datas(old)}\n\n${datas(now)}`);
        matter.isAmong ||= this.changes.hasBelow(encloser, wildcard);
    }

    /** The highest name that came or went, of those at or above a name without any between that did neither. */
    movedOver(name) {
        let at = name;
        while (at !== this.origin && this.changes.highestMoved(at) === null) {
            at = parentOf(at);
        }
        return this.changes.highestMoved(at) ?? name;
    }

    // ---- what the same records come to

    takeRecords({name, isBelow, types, after: {source}}) {
        const wildcard = source !== null && isWildcard(source) ? source : null;
        const changed = wildcard ? this.typedAt(wildcard) : [];
        const alias = source === null ? undefined : this.now.aliasAt(source);
        if (changed.length && (isBelow || source !== name)) {
            const [old, now] = [this.old, this.now].map((finder) => finder.at(wildcard).filter(({type}) => changed.includes(type)));
            const [gone, came] = [without(old, now), without(now, old)];
            this.takeWildcard("wildcardChanges", wildcard, ...(gone.length + came.length ? [gone, came] : [old, now]));
            return;
        }
        const target = alias && this.leadOf(alias.data);
        if (!target) {
            this.takeNegative();
        } else if (wildcard) {
            this.add("wildcardAlias", parentOf(wildcard), {target, types, isAmong: this.changes.hasBelow(parentOf(wildcard), wildcard)}, `${target} ${types}`);
        } else {
            this.add("alias", name, {target, types}, `${target} ${types}`);
        }
    }

    /** The changed name that aliases lead to from a name, or null where only the SOA is another. */
    leadOf(name) {
        const seen = new Set();
        let at = name;
        while (isWithin(at, this.origin) && !seen.has(at)) {
            seen.add(at);
            const [before, after] = [this.old, this.now].map((finder) => finder.placeOf(at));
            const isSame = before.cut === after.cut && before.source === after.source && !this.changes.changed.has(after.source);
            if (!isSame || (after.cut !== null && this.changes.referralDiffers(after.cut))) {
                return at;
            }
            const alias = after.source === null ? undefined : this.now.aliasAt(after.source);
            at = alias?.data ?? ".";
        }
        return null;
    }

    takeNegative() {
        const [before, after] = [this.old, this.now].map((finder) => finder.negativeTtl());
        this.add("negative", this.origin, {before, after});
    }
}
