// Edits: what a person wants of records, the operations that make it, the guards that keep it what it was meant to be, and the updates
// that they are sent in.
//
// An edit puts the record `now` into the place of `old`; without `old` it adds one, and without `now` it deletes one. `drop` are records
// that go with it. `seen` has the data of each set that it touches, as they were when it was made.

import {addition, isSame, Outlook, removal, setKey} from "./zone.js";

export const MOST_PREREQUISITES = 64;
export const MOST_OPERATIONS = 256;
export const MOST_OCTETS = 65000; // of 65,536; the rest is for the identifier
export const LARGE = 16; // a set with more records is guarded by the record

const isSetTtl = ({old, now}) => old && now && isSame(old, now);

/** The sets that an edit touches. */
export function setsOf({old, now, drop = []}) {
    const all = [old, now, ...drop].filter(Boolean).map(({name, type}) => [setKey({name, type}), {name, type}]);
    return [...new Map(all).values()];
}

/** The operations of an edit, in a zone as it is before it. */
export function operationsOf(edit, zone) {
    const {old, now, drop = []} = edit;
    const dropped = drop.map(removal);
    if (!old || !now) {
        return [...dropped, ...(old ? [removal(old)] : []), ...(now ? [addition(now)] : [])];
    }
    if (isSetTtl(edit) || now.type === "SOA") {
        return [...dropped, addition(now)]; // an addition gives its TTL to the set, and an SOA takes the place of the one there is
    }
    // the last NS of the zone is not deleted, so the new one comes first
    const isLast = old.type === "NS" && old.name === zone.origin && zone.set(zone.origin, "NS").length === 1;
    return isLast ? [...dropped, addition(now), removal(old)] : [...dropped, removal(old), addition(now)];
}

export const dataOf = (zone, {name, type}) => zone.set(name, type).map(({data}) => data).sort();

export function look(edit, zone) {
    return {...edit, seen: Object.fromEntries(setsOf(edit).map((set) => [setKey(set), dataOf(zone, set)]))};
}

// ---- conflicts

/** What somebody else did to the sets of an edit since it was made: records that went, and records that came. */
export function conflictOf(edit, zone) {
    const [went, came] = [[], []];
    for (const {name, type} of setsOf(edit)) {
        const [seen, now] = [edit.seen?.[setKey({name, type})] ?? [], dataOf(zone, {name, type})];
        if (seen.length > LARGE && now.length > LARGE) {
            const own = [edit.old, ...(edit.drop ?? [])].filter((record) => record && setKey(record) === setKey({name, type}));
            went.push(...own.filter(({data}) => !now.includes(data)));
            continue;
        }
        went.push(...seen.filter((data) => !now.includes(data)).map((data) => ({name, type, data})));
        came.push(...now.filter((data) => !seen.includes(data)).map((data) => ({name, type, data})));
    }
    return went.length + came.length ? {went, came} : null;
}

/** An edit that takes the place of what others did; that leaves it beside its own; or null, which leaves theirs. */
export const RESOLUTIONS = {
    replace: (edit, zone) => {
        const {came} = conflictOf(edit, zone);
        const isOwn = (record) => edit.now && isSame(record, edit.now);
        return again(edit, zone, came.filter((record) => !isOwn(record) && !(edit.old && isSame(record, edit.old))));
    },
    both: (edit, zone) => again(edit, zone, []),
    theirs: () => null,
};

function again({old, now, drop = [], ...rest}, zone, more) {
    const there = (record) => zone.find(record);
    const known = [...drop, ...more].filter(there).map(there);
    const kept = old && there(old);
    if (!kept && !now && known.length === 0) {
        return null; // what was to be deleted is gone
    }
    const [first, ...others] = kept ? [kept, ...known] : now || known.length ? known : [];
    return look({...rest, old: first, now, drop: others}, zone);
}

// ---- what comes of edits

/** Makes edits one after the other, and says of each what it would do: `whys` are the reasons of operations that do nothing. */
export function foresee(edits, zone) {
    const outlook = new Outlook(zone);
    const lines = edits.map((edit) => {
        const operations = operationsOf(edit, outlook);
        const whys = operations.map((operation) => outlook.apply(operation));
        const addsNothing = edit.now ? whys[operations.findIndex(({op}) => op === "add")] : undefined;
        const isIdle = whys.every(Boolean);
        return {edit, operations, whys, isIdle, why: addsNothing && (addsNothing !== "there" || isIdle) ? addsNothing : isIdle ? whys[0] : undefined};
    });
    outlook.advance();
    return {outlook, lines};
}

/** Records that are in the way of an edit, and could go with it: those beside which there is no alias, and the alias beside which
 * there is nothing. */
export function obstacles({now}, why, outlook) {
    const there = now ? outlook.at(now.name) : [];
    return why === "beside" ? there.filter(({type}) => type !== "CNAME" && type !== "SOA") : why === "alias" ? there.filter(({type}) => type === "CNAME") : [];
}

// ---- updates

/** The prerequisites that hold as long as these sets are as in the zone. */
function guardsOf(sets, zone, isGuarded) {
    return sets.filter(isGuarded).flatMap(({name, type}) => {
        const data = dataOf(zone, {name, type});
        if (data.length > LARGE) {
            return [{test: "rrset-exists", name, type}];
        }
        return data.length ? data.map((one) => ({test: "rrset-equals", name, type, data: one})) : [{test: "rrset-absent", name, type}];
    });
}

const octetsOf = (items) => items.reduce((sum, item) => sum + new TextEncoder().encode(JSON.stringify(item)).length + 1, 0);

/** An update that is being filled. Its guards have what the zone has before it. */
class Update {
    constructor(before, isGuarded) {
        Object.assign(this, {before, isGuarded, edits: [], prerequisites: [], operations: [], octets: 0, guarded: new Set()});
        this.after = before.copy();
    }

    /** Takes edits, unless they make it too large for the office. */
    take(edits) {
        const kept = edits.flatMap(setsOf).map(({name}) => [name, this.after.touched.get(name)]);
        const operations = edits.flatMap((edit) => {
            const made = operationsOf(edit, this.after);
            made.forEach((operation) => this.after.apply(operation));
            return made;
        });
        const sets = new Map(edits.flatMap(setsOf).map((set) => [setKey(set), set]).filter(([key]) => !this.guarded.has(key)));
        const prerequisites = guardsOf([...sets.values()], this.before, this.isGuarded);
        const octets = octetsOf(prerequisites) + octetsOf(operations);
        const fits = this.prerequisites.length + prerequisites.length <= MOST_PREREQUISITES
            && this.operations.length + operations.length <= MOST_OPERATIONS && this.octets + octets <= MOST_OCTETS;
        if (!fits && this.edits.length) {
            kept.reverse().forEach(([name, records]) => this.after.restore(name, records));
            return false;
        }
        this.edits.push(...edits);
        this.prerequisites.push(...prerequisites);
        this.operations.push(...operations);
        this.octets += octets;
        [...sets.keys()].forEach((key) => this.guarded.add(key));
        return true;
    }
}

/** The updates that make edits, in order, each within the limits of the office. Edits of one group are in one update where they fit. */
export function updatesOf(edits, zone, isGuarded = () => true) {
    const updates = [new Update(new Outlook(zone), isGuarded)];
    const next = () => updates.push(new Update(updates.at(-1).after, isGuarded));
    for (const some of grouped(edits)) {
        if (!updates.at(-1).take(some)) {
            next();
            some.forEach((edit) => updates.at(-1).take([edit]) || (next(), updates.at(-1).take([edit])));
        }
    }
    return updates.filter((update) => update.edits.length).map(({edits, prerequisites, operations}) => ({edits, prerequisites, operations}));
}

/** Edits that follow one another and belong together. */
function grouped(edits) {
    const groups = [];
    for (const edit of edits) {
        const last = groups.at(-1);
        if (last && edit.group && last[0].group === edit.group && last.length < LARGE) {
            last.push(edit);
        } else {
            groups.push([edit]);
        }
    }
    return groups;
}
