// What comes of the changes before they are sent: what the policy decides, what would do nothing, what somebody else changed meanwhile,
// and what name servers would refuse.

import {ADDRESSES, TYPES} from "./data.js";
import {conflictOf, foresee, obstacles, setsOf, updatesOf} from "./edits.js";
import {askRights, denied, rightOf} from "./office.js";
import {pointsOf} from "./points.js";
import {findings, stopsZone} from "./rules.js";
import {state} from "./state.js";
import {isSame, Outlook, setKey} from "./zone.js";

const MOST_QUESTIONS = 400; // of one draft; more are left to the office

let known = {zone: null, keys: new Set()};
const keyOf = ({rule, record: {name, type, data}}) => `${rule} ${name} ${type} ${data}`;

/** What is at fault in the zone as it is. */
export function faultsBefore() {
    if (known.zone !== state.zone) {
        const found = findings(new Outlook(state.zone));
        known = {zone: state.zone, found, keys: new Set(found.map(keyOf))};
    }
    return known;
}

/** Whether the caller can list all by which a rule was found broken: else what it lacks may be there. */
function doubts({rule, record, server}) {
    const types = {"missing-address": ["A", "AAAA", "CNAME"], "missing-glue": ["A", "AAAA"], "ds-without-ns": ["NS"], "dangling-alias": TYPES}[rule] ?? [];
    return types.map((type) => ({action: "list", name: server ?? record.name, type}));
}

/** Findings that are not there before, as far as the caller can see all that they are about. */
export function newFaults(outlook, records) {
    const before = faultsBefore().keys;
    const found = findings(outlook, records).filter((fault) => !before.has(keyOf(fault)));
    const points = found.sort((a, b) => Number(stopsZone(b)) - Number(stopsZone(a))).flatMap(doubts).slice(0, MOST_QUESTIONS);
    if (points.some((point) => rightOf(point) === undefined)) {
        askRights(points);
    }
    return found.filter((fault) => doubts(fault).every((point) => rightOf(point)?.granted));
}

const isAbout = ({old, now, drop = []}) => ({record, server}) => [old, now, ...drop].some((one) => one
    && (one.name === record.name || one.name === server || (one.type === "NS" && one.data === record.name)));

/** The names that have the addresses of these edits, by address. */
function ownersOf(edits, outlook) {
    const owners = new Map(edits.filter(({now}) => ADDRESSES.includes(now?.type)).map(({now}) => [now.data, []]));
    if (owners.size) {
        outlook.forEach(({name, data}) => owners.get(data)?.push(name));
    }
    return owners;
}

/** Other names that have the address already. */
const sharers = ({now}, owners) => (now ? owners.get(now.data) ?? [] : []).filter((name) => name !== now.name).slice(0, 3);

export function pointsOfLine({operations}) {
    return [...new Map(operations.flatMap((operation) => pointsOf(operation, state.zone.origin)).map((point) => [JSON.stringify(point), point])).values()];
}

export const checksOf = (edit) => setsOf(edit).map(({name, type}) => ({action: "check", name, type}));

/** Sets whose guards are left out: as a person wants, or since the policy lets nobody ask for them. */
export function isGuarded(set) {
    return !state.draft.unguarded.includes(setKey(set)) && rightOf({action: "check", ...set})?.granted !== false;
}

function judgeLine({edit, operations, isIdle, why}, outlook, faults, owners) {
    const line = {edit, operations, why, isIdle, conflict: edit.sent ? null : conflictOf(edit, state.zone)};
    line.points = pointsOfLine(line);
    line.denied = denied(line.points);
    line.unchecked = denied(checksOf(edit));
    line.obstacles = obstacles(edit, why, outlook);
    line.faults = faults.filter(isAbout(edit));
    line.sharers = sharers(edit, owners);
    line.isBlocked = !edit.sent && Boolean(line.conflict || line.denied.length || why);
    return line;
}

/** What is about no name of an edit, as where a wildcard no longer answers for a server, is said of the first that can be sent. */
function placeOthers(judged, faults) {
    const said = new Set(judged.flatMap((line) => line.faults));
    const line = judged.find(({isBlocked}) => !isBlocked) ?? judged[0];
    line?.faults.push(...faults.filter((fault) => !said.has(fault)));
}

/** All changes judged. What the policy decides is asked for, and `rights` is announced when it is known. */
export function judge() {
    const {edits} = state.draft;
    if (!state.isRead) {
        return {lines: [], stops: false};
    }
    const {outlook, lines} = foresee(edits, state.zone);
    const faults = edits.length ? newFaults(outlook) : [];
    const owners = ownersOf(edits, outlook);
    const judged = lines.map((line) => judgeLine(line, outlook, faults, owners));
    placeOthers(judged, faults);
    judged.forEach((line) => (line.stops = line.faults.some(stopsZone)));
    const blocked = new Set(judged.filter(({isBlocked, edit}) => isBlocked && edit.group).map(({edit}) => edit.group));
    judged.filter(({edit, isBlocked}) => !isBlocked && !edit.sent && blocked.has(edit.group)).forEach((line) => {
        line.isHeld = line.isBlocked = true; // they belong together
    });
    askRights(judged.flatMap(({points, edit}) => [...points, ...checksOf(edit)]).slice(0, MOST_QUESTIONS));
    return {outlook, lines: judged, faults, stops: judged.some(({stops, isBlocked}) => stops && !isBlocked)};
}

export const sendable = ({lines}) => lines.filter(({isBlocked, edit}) => !isBlocked && !edit.sent);

/** The updates that send what can be sent. */
export const updates = (judged) => updatesOf(sendable(judged).map(({edit}) => edit), state.zone, isGuarded);

/** One edit beside those of the draft, as it would be judged: while it is typed. */
export function judgeOne(edit) {
    const others = state.draft.edits.filter(({key, old}) => key !== edit.key && !(old && edit.old && isSame(old, edit.old)));
    const {outlook, lines} = foresee([...others, edit], state.zone);
    const names = [edit.now, edit.old].filter(Boolean).map(({name}) => name);
    const records = [...new Set(names)].flatMap((name) => outlook.at(name));
    return judgeLine(lines.at(-1), outlook, newFaults(outlook, records), ownersOf([edit], outlook));
}
