// What is to be changed, and not sent yet. It is kept in the browser for each caller and zone, and each step of it can be undone.

import {say} from "./elements.js";
import {foresee, look, setsOf} from "./edits.js";
import {announce, on, state, store, stored} from "./state.js";
import {t} from "./text.js";
import {isSame, setKey} from "./zone.js";

const MOST_STEPS = 100;
const steps = []; // texts of the draft as it was, the oldest first
export let isKept = true;

const keyOf = (origin, caller = state.caller) => `zoneoffice changes ${caller} ${origin}`;
const newKey = () => [...crypto.getRandomValues(new Uint8Array(6))].map((octet) => octet.toString(16).padStart(2, "0")).join("");
const empty = () => ({edits: [], unguarded: []});

export const draftOf = (origin, caller) => stored(keyOf(origin, caller)) ?? empty();

/** Keeps a draft of any zone. Where it is the one in hand, the page shows it. */
export function keepDraft(origin, draft, caller = state.caller) {
    if (draft.edits.length) {
        isKept = store(keyOf(origin, caller), draft);
    } else {
        localStorage.removeItem(keyOf(origin, caller));
    }
    if (origin === state.zone.origin && caller === state.caller) {
        state.draft = draft;
        announce("draft");
    }
}

export function readDraft() {
    const kept = new Set(Object.keys(localStorage).filter((key) => key.startsWith("zoneoffice sent ")).map((key) => key.split(" ").at(-1)));
    state.draft = draftOf(state.zone.origin);
    state.draft.edits.filter(({sent}) => sent && !kept.has(sent)).forEach((edit) => delete edit.sent);
    steps.length = 0;
    announce("draft");
}

function step(change) {
    const before = JSON.stringify(state.draft);
    const draft = {...state.draft, edits: [...state.draft.edits], unguarded: [...state.draft.unguarded]};
    change(draft);
    if (JSON.stringify(draft) !== before) {
        steps.push(before);
        steps.splice(0, steps.length - MOST_STEPS);
    }
    keepDraft(state.zone.origin, draft);
}

export const canUndo = () => steps.length > 0;

/** Takes the last step back, but for what is on its way. */
export function undo() {
    const before = JSON.parse(steps.pop());
    const onWay = state.draft.edits.filter(({sent}) => sent);
    const stays = before.edits.filter(({key, sent}) => !sent && !onWay.some((edit) => edit.key === key));
    keepDraft(state.zone.origin, {...before, edits: [...onWay, ...stays]});
    say(t("undone", state.draft.edits.length));
}

export const editOfRecord = (record) => state.draft.edits.find(({old}) => old && isSame(old, record));

/** Puts edits into the draft: {old, now, drop}. What is changed already is changed anew, and the same addition is taken once. */
export function putIn(edits, {group} = {}) {
    const fresh = edits.map((edit) => look({key: newKey(), ...(group && {group}), ...edit}, state.zone));
    step((draft) => fresh.forEach((edit) => put(draft, edit)));
    say(t("notYet", state.draft.edits.length));
    return fresh;
}

function put(draft, edit) {
    const isLike = (other) => other.key === edit.key || (edit.old && other.old && isSame(edit.old, other.old))
        || (!edit.old && !other.old && edit.now && other.now && isSame(edit.now, other.now));
    const at = draft.edits.findIndex((other) => !other.sent && isLike(other));
    if (at >= 0) {
        draft.edits[at] = {...edit, key: draft.edits[at].key};
    } else {
        draft.edits.push(edit);
    }
    // what becomes as it was needs no edit
    draft.edits = draft.edits.filter(({old, now, drop}) => !(old && now && isSame(old, now) && old.ttl === now.ttl && !drop?.length));
}

/** Puts an edit into the place of one with the same key; null takes it out. */
export function replace(key, edit) {
    step((draft) => {
        draft.edits = draft.edits.flatMap((one) => (one.key !== key ? [one] : edit ? [look({...edit, key}, state.zone)] : []));
    });
}

export function takeOut(keys) {
    step((draft) => {
        draft.edits = draft.edits.filter(({key}) => !keys.includes(key));
    });
    say(t("takenOut", keys.length));
}

/** Takes an edit as it is with what the zone has now: what a person decided after a conflict. */
export function settle(key, edit) {
    step((draft) => {
        draft.edits = draft.edits.flatMap((one) => (one.key === key ? edit ?? [] : [one]));
    });
}

export function guard(set, isOn) {
    step((draft) => {
        draft.unguarded = draft.unguarded.filter((key) => key !== setKey(set)).concat(isOn ? [] : [setKey(set)]);
    });
}

/** Marks edits as sent, or no more so; or takes out what was made. */
export function mark(origin, keys, sent, caller) {
    const draft = origin === state.zone.origin && caller === state.caller ? state.draft : draftOf(origin, caller);
    draft.edits = draft.edits.map((edit) => (keys.includes(edit.key) ? {...edit, sent} : edit));
    keepDraft(origin, draft, caller);
}

export function unmark(origin, id, caller) {
    const draft = draftOf(origin, caller);
    draft.edits.filter(({sent}) => sent === id).forEach((edit) => delete edit.sent);
    keepDraft(origin, draft, caller);
}

export function takeOutMade(origin, keys, caller) {
    const draft = draftOf(origin, caller);
    draft.edits = draft.edits.filter(({key}) => !keys.includes(key));
    draft.unguarded = draft.unguarded.filter((key) => draft.edits.some((edit) => setsOf(edit).some((set) => setKey(set) === key)));
    steps.length = 0; // what was made is undone by the history
    keepDraft(origin, draft, caller);
}

/** The zone as the draft makes it. */
export const foreseen = () => foresee(state.draft.edits, state.zone);

/** Other zones in which this caller has changes that are not sent. */
export const otherDrafts = () => state.zones.filter((origin) => origin !== state.zone.origin && draftOf(origin).edits.length);

on("zone", () => announce("draft"));
addEventListener("storage", ({key}) => {
    if (key === keyOf(state.zone.origin)) {
        readDraft();
    }
});
addEventListener("beforeunload", (event) => {
    if (!isKept && state.draft.edits.length) {
        event.preventDefault(); // the browser keeps nothing
    }
});
