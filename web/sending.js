// Sending: each update is kept in the browser, with its identifier, until a reply came, and is sent again under the same one. So nothing
// is made twice and nothing is lost. Several updates go one after the other.

import {$, button, code, make, say} from "./elements.js";
import {draftOf, keepDraft, mark, takeOutMade, unmark} from "./draft.js";
import {updates} from "./judge.js";
import {asCaller, forgetRights, inWords, part, request} from "./office.js";
import {showGivenUp, showMade, showRefused, showStale} from "./result.js";
import {announce, state, store, stored} from "./state.js";
import {clock, t} from "./text.js";
import {readRecords} from "./reading.js";
import {LARGE, look, setsOf, updatesOf} from "./edits.js";
import {readLine, Zone} from "./zone.js";

const LONGEST_PAUSE = 30; // seconds between two tries

/** An identifier that no other update has: the time, for who reads receipts, and 64 random bits. */
function newId() {
    const time = new Date().toISOString().replace(/[-:]|\.\d+/g, "");
    const random = [...crypto.getRandomValues(new Uint8Array(8))].map((octet) => octet.toString(16).padStart(2, "0")).join("");
    return `page-${time}-${random}`;
}

const jobKey = (job) => `zoneoffice sent ${job.caller} ${job.id}`;
const keep = (job) => store(jobKey(job), {...job, now: undefined, shown: undefined, why: undefined});

/** What this caller sent and has no reply of, from before a reload too. */
export function keptJobs() {
    const keys = Object.keys(localStorage).filter((key) => key.startsWith(`zoneoffice sent ${state.caller} `));
    return keys.map((key) => stored(key)).filter((job) => job !== null);
}

function jobOf({edits, prerequisites, operations}, zone, place, count) {
    const id = newId();
    const thens = edits.flatMap((edit) => edit.then ?? []);
    return {id, caller: state.caller, zone, since: Date.now(), keys: edits.map(({key}) => key), place, count, thens,
        body: JSON.stringify({id, prerequisites, operations})};
}

/** Whether a record of a large set is no longer as it was seen: such a set is guarded by its being there, so its records are compared
 * just before they are sent. */
async function isStale({lines}) {
    const isLarge = ({edit, isBlocked}) => !isBlocked && !edit.sent && setsOf(edit).some(({name, type}) => state.zone.set(name, type).length > LARGE);
    const olds = lines.filter(isLarge).flatMap(({edit: {old, drop = []}}) => [old, ...drop]).filter(Boolean);
    for (const name of new Set(olds.map((record) => record.name))) {
        const {json} = await request("GET", `${asCaller()}/zones/${part(state.zone.origin)}/records/${part(name)}`);
        const there = new Zone(state.zone.origin, (json?.records ?? []).map(readLine));
        if (json?.records && olds.some((record) => record.name === name && !there.find(record))) {
            return true;
        }
    }
    return false;
}

let isChecking = false;

/** Sends what can be sent of the draft, unless a record of a large set is another one by now. */
export async function send(judged) {
    if (isChecking) {
        return; // it was pressed twice
    }
    isChecking = true;
    const isOld = await isStale(judged).finally(() => (isChecking = false));
    if (!isOld) {
        await sendAll(judged);
    } else if (await readRecords()) {
        showStale();
    }
}

/** In as many updates as it takes, and after them what is to follow in other zones. */
async function sendAll(judged) {
    const origin = state.zone.origin;
    const jobs = updates(judged).map((update, at, all) => jobOf(update, origin, at + 1, all.length));
    $("result").hidden = true;
    const made = [];
    const before = new Zone(origin, state.zone.records);
    for (const job of jobs) {
        mark(origin, job.keys, job.id, job.caller);
        if (!keep(job)) {
            say(t("keepsNothing"));
        }
        const reply = await deliver(job);
        if (!reply || reply.status !== 200) {
            if (reply) {
                await showRefused(job, reply, made);
            }
            return;
        }
        made.push(job);
    }
    await finish(made, before);
}

async function finish(made, before) {
    const followed = await follow(made.flatMap(({thens}) => thens));
    await readRecords();
    forgetRights();
    showMade(made, before, followed);
}

/** What a kept update comes to, one from before a reload or of another window. Whether it had been made before is not known, and so
 * not what it changed. */
export async function resume(job) {
    const reply = await deliver(job);
    if (reply && reply.status === 200) {
        const followed = await follow(job.thens ?? []);
        if (job.zone === state.zone.origin) {
            await readRecords();
        }
        showMade([job], null, followed);
    } else if (reply) {
        await showRefused(job, reply, []);
    }
}

/** Makes edits of other zones, after those that they belong to: one update a zone, guarded by what is there. */
async function follow(thens) {
    const followed = [];
    for (const zone of new Set(thens.map((edit) => edit.zone))) {
        const edits = thens.filter((edit) => edit.zone === zone);
        const there = await Promise.all(edits.map(({now, old}) => request("GET", `${asCaller()}/zones/${part(zone)}/records/${part((now ?? old).name)}`)));
        const seen = new Zone(zone, [...new Set(there.flatMap(({json}) => json?.records ?? []))].map(readLine));
        const looked = edits.map((edit, at) => look({...edit, key: `then-${newId().slice(-12)}-${at}`, zone: undefined}, seen));
        keepDraft(zone, {...draftOf(zone), edits: [...draftOf(zone).edits, ...looked]});
        for (const update of updatesOf(looked, seen)) {
            const job = jobOf(update, zone, 1, 1);
            mark(zone, job.keys, job.id, job.caller);
            keep(job);
            const reply = await deliver(job);
            followed.push({job, reply});
        }
    }
    return followed;
}

/** Whether a reply says what became of the update. Else it is sent again: 401, 429, 5xx, and no reply. */
function isReply({status, json}) {
    if (status === 0 || json === null) {
        return false;
    }
    return "front" in json ? [400, 413, 414].includes(json.front) : status !== 500;
}

/** Sends a kept update until a reply comes, with pauses that grow. Gives the reply, or nothing where it was given up. */
async function deliver(job) {
    state.waiting.set(job.id, job);
    announce("waiting");
    for (let pause = 1, tries = 1; state.waiting.has(job.id); pause = Math.min(pause * 2, LONGEST_PAUSE), tries += 1) {
        say(tries > 1 ? t("sendingAgain", job.id) : job.count > 1 ? t("sendingPart", job.place, job.count) : t("sending", job.id));
        const reply = await attempt(job, tries);
        if (state.waiting.has(job.id) && isReply(reply)) {
            end(job, reply);
            return reply;
        }
        if (state.waiting.has(job.id)) {
            job.why = reply.why ?? inWords(reply);
            await pauseFor(job, pause);
        }
    }
    return undefined;
}

/** A reply came. The changes are put right before the update is forgotten: other windows take both in this order. */
function end(job, reply) {
    state.waiting.delete(job.id);
    if (reply.status === 200) {
        job.saved = reply.time;
        takeOutMade(job.zone, job.keys ?? [], job.caller);
    } else {
        unmark(job.zone, job.id, job.caller);
    }
    localStorage.removeItem(jobKey(job));
    showWaiting();
    announce("waiting");
}

/** One try. Whoever gave another name and password meanwhile is another caller, as whom nothing of this one is sent. Where a request
 * says as whom, it is of that caller or refused. */
async function attempt(job, tries) {
    if (tries > 1 && state.actsFor.length === 0) {
        const who = await request("GET", "/page/zones.json");
        if (who.status !== 200) {
            return who.status === 404 ? {status: 0, json: null} : who;
        }
        if ((who.caller ?? "") !== job.caller) {
            return {status: 0, json: null, why: t("otherCaller", job.caller, who.caller)};
        }
    }
    return request("POST", `${asCaller(job.caller)}/zones/${part(job.zone)}/updates`, job.body);
}

function pauseFor(job, pause) {
    return new Promise((go) => {
        let left = pause;
        const timer = setInterval(() => {
            left -= 1;
            job.left = left;
            if (left <= 0) {
                job.now();
            } else {
                showLeft(job);
            }
        }, 1000);
        job.now = () => {
            clearInterval(timer);
            job.now = undefined;
            job.left = 0;
            showLeft(job);
            go();
        };
        job.left = left;
        say(t("noReplyCame", job.id, pause));
        showWaiting();
    });
}

function showLeft(job) {
    if (job.shown) {
        job.shown.textContent = job.left > 0 ? t("againIn", job.left) : t("beingSent");
    }
}

function showWaiting() {
    const jobs = [...state.waiting.values()].filter((job) => job.why !== undefined);
    const focused = document.activeElement?.closest?.("#waiting-list li");
    const place = focused ? [...focused.querySelectorAll("button")].indexOf(document.activeElement) : -1;
    $("waiting").hidden = jobs.length === 0;
    $("waiting-list").replaceChildren(...jobs.map((job) => {
        job.shown = make("span", {});
        showLeft(job);
        return make("li", {"data-id": job.id}, code(job.id), ` ${t("waitingOf", job.zone, clock(job.since), job.why)} `, job.shown, ". ",
            button(t("sendAgainNow"), () => job.now?.(), {class: "main"}), " ", button(t("giveUp"), () => giveUp(job), {class: "give-up"}));
    }));
    if (focused) {
        const same = [...$("waiting-list").children].find(({dataset}) => dataset.id === focused.dataset.id);
        (same?.querySelectorAll("button")[place] ?? $("main")).focus();
    }
}

/** Stops waiting for an update, of which nobody knows whether it was made. */
function drop(job) {
    state.waiting.delete(job.id);
    localStorage.removeItem(jobKey(job));
    job.now?.();
    unmark(job.zone, job.id, job.caller);
    showWaiting();
    announce("waiting");
}

async function giveUp(job) {
    drop(job);
    const read = job.zone !== state.zone.origin || await readRecords();
    showGivenUp(job, read);
}

/** Another window got the reply: this one reads what came of it. */
addEventListener("storage", ({key, newValue}) => {
    const job = newValue === null ? [...state.waiting.values()].find((one) => jobKey(one) === key) : undefined;
    if (job) {
        drop(job);
        readRecords().then(() => say(t("otherWindow", job.id)));
    }
});

