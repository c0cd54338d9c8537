// Whether what was changed is live: from the states that the office's machine writes for each user, where it does.

import {$, make} from "./elements.js";
import {recordLink} from "./marks.js";
import {askMine} from "./office.js";
import {announce, on, state, store, stored} from "./state.js";
import {ago, clock, t} from "./text.js";

const EVERY = 30000; // milliseconds
const LONGEST = 300000; // milliseconds after which the states know what was saved
let states = null;
let written = NaN; // when they were, by the front server's clock

const savedKey = (zone) => `zoneoffice saved ${state.caller} ${zone}`;

/** Keeps when the office saved something of this browser, by the front server's clock: states from before do not know it. */
export const noteSaved = (zone, time) => store(savedKey(zone), {time, at: Date.now()});

/** When that was, if the states are from before. */
function savedSince() {
    const saved = stored(savedKey(state.zone.origin));
    return saved && written <= saved.time && Date.now() - saved.at < LONGEST ? saved.at : null;
}

/** A reason, in which the names of records that it is about lead to them. */
function linked(reason) {
    return reason.split(/(?<=; )/).flatMap((part) => {
        const [word] = /^[^\s:;]*/.exec(part);
        const name = `${word.replace(/\.$/, "")}.`;
        return state.zone.names.has(name) ? [recordLink(name, word), part.slice(word.length)] : [part];
    });
}

function heldWords({since, reason, change, caller}) {
    const who = [caller, change === undefined ? null : t("changeNumber", change), clock(since)].filter(Boolean).join(", ");
    const [before, after] = t("isHeld", "\n", who).split("\n");
    return [before, ...linked(reason), after];
}

/** The kind of a state, and its words. */
function words({state: kind, serial, served, since, reason, others, ...more}) {
    if (kind === "published") {
        const saved = savedSince();
        return saved ? ["warn", t("isSaved", clock(saved), serial)] : ["good", t("isLive", serial, ago(since))];
    }
    if (kind === "waiting") {
        return ["warn", typeof served === "number" ? t("isWaiting", serial, served, ago(since)) : t("isNew", serial, ago(since))];
    }
    if (kind !== "held") {
        return null;
    }
    return ["bad", ...(reason === undefined || others ? [t("isHeldByOthers", ago(since))] : heldWords({since, reason, ...more}))];
}

function show() {
    const said = states?.[state.zone.origin];
    const [kind, ...parts] = (said && words(said)) ?? [];
    const hadFocus = $("live").contains(document.activeElement);
    $("live").hidden = !kind;
    $("live").className = kind ?? "";
    $("live").replaceChildren(make("span", {"aria-hidden": "true"}, "● "), ...parts);
    if (hadFocus) {
        ($("live").querySelector("a") ?? $("main")).focus();
    }
}

export async function readLive() {
    const reply = await askMine("status");
    [states, written] = reply.status === 200 ? [reply.json, reply.written] : [null, NaN];
    show();
    announce("status");
}

export function startLive() {
    on("zone", show);
    setInterval(() => {
        if (states !== null && !document.hidden) {
            readLive();
        }
    }, EVERY);
    return readLive();
}
