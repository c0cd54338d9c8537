// What all parts of the page know: who the caller is, the zone and its records, and what is to be changed. Parts hear of changes by name.

import {Zone} from "./zone.js";

export const state = {
    refusals: {numbers: {}, replies: {}, front: {}},
    caller: "",
    actsFor: [], // of whom the person chooses the caller; empty where the front server knows it
    zones: [],
    contacts: {}, // the mailboxes of who answers for zones, as far as the office's machine says
    zone: new Zone("."),
    isRead: false, // whether `zone` has its records
    draft: {edits: [], unguarded: []},
    waiting: new Map(), // what was sent and has no reply, under its identifier
    view: "records",
};

const hearers = {};

/** Calls `act` whenever `what` is announced: zone, draft, rights, waiting, status. */
export function on(what, act) {
    (hearers[what] ??= []).push(act);
}

export function announce(what, ...more) {
    (hearers[what] ?? []).forEach((act) => act(...more));
}

/** What a storage of the browser has under a key, or null. */
export function stored(key, storage = localStorage) {
    try {
        return JSON.parse(storage.getItem(key));
    } catch {
        return null;
    }
}

/** Puts a value into a storage, and says whether it was kept. */
export function store(key, value, storage = localStorage) {
    try {
        storage.setItem(key, JSON.stringify(value));
        return true;
    } catch {
        return false;
    }
}
