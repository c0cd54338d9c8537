// Asking the office, and what its answers say in words.

import {say} from "./elements.js";
import {announce, state} from "./state.js";
import {hasText, t} from "./text.js";
import {pointKey} from "./points.js";

export const part = (text) => encodeURIComponent(text);

/** What comes before a path of the office, as this caller: the front server asks who may act for several. */
export const asCaller = (name = state.caller) => (state.actsFor.length ? `/as/${part(name)}` : "");

const pause = (seconds) => new Promise((go) => setTimeout(go, seconds * 1000));
const MOST_TRIES = 5; // of a question that came while too many were open

async function once(method, path, body) {
    try {
        const got = await fetch(location.origin + path, {
            method, body, cache: "no-store", redirect: "error", signal: AbortSignal.timeout(75000),
            headers: body === undefined ? {} : {"Content-Type": "application/json"},
        });
        const text = await got.text();
        let json;
        try {
            json = JSON.parse(text);
        } catch {
            json = null;
        }
        const [time, written] = ["Date", "Last-Modified"].map((field) => Date.parse(got.headers.get(field)));
        return {status: got.status, json, caller: got.headers.get("X-Office-Caller"), time, written};
    } catch {
        return {status: 0, json: null};
    }
}

/** Sends a request, and gives its status (0: no reply came), its JSON, as whom the front server took it, and when by its clock. A question for which too
 * many others are open is asked again a little later: those of a page that was just left count too. One without a reply is asked once
 * more, since a connection may end just when it is sent. */
export async function request(method, path, body) {
    for (let tries = 1; ; tries++) {
        const reply = await once(method, path, body);
        const isLost = reply.status === 0 && tries === 1;
        if (method !== "GET" || tries === MOST_TRIES || !(isLost || reply.status === 429)) {
            return reply;
        }
        await pause(isLost ? 0.3 : tries);
    }
}

export const askMine = (name) => request("GET", `${asCaller()}/page/my/${name}.json`);

/** A file that the office's machine may make for each user, or null where it does not. */
export async function mine(name) {
    const {status, json} = await askMine(name);
    return status === 200 ? json : null;
}

export const numberText = (number) => (hasText(`fault ${number}`) ? t(`fault ${number}`) : state.refusals.numbers[number] ?? t("malformed"));
export const faultText = ({fault, within, item}) => (item ? `${item}: ` : "") + numberText(within ?? fault);
export const decidedBy = (rule) => (rule === "closing" ? t("byClosing") : t("byRule", rule));

/** What a reply other than the one that was asked for says, in words. */
export function inWords({status, json}) {
    if (status === 0 || json === null) {
        return t("noReply");
    }
    if ("front" in json) {
        return `${hasText(`front ${json.front}`) ? t(`front ${json.front}`) : state.refusals.front[json.front] ?? json.reason} (${json.front})`;
    }
    const said = json.refusal === undefined
        ? `${hasText(json.name) ? t(json.name) : state.refusals.replies[json.name] ?? t("refused")} (${json.name})`
        : `${numberText(json.refusal)} (${json.refusal})`;
    return json.by === undefined ? said : `${said}; ${decidedBy(json.by)}`;
}

/** Reads a list of the zone; what is wrong goes to the status line. */
export async function readList(route, field) {
    const asked = state.zone.origin;
    const reply = await request("GET", `${asCaller()}/zones/${part(asked)}/${route}`);
    if (asked !== state.zone.origin) {
        return null;
    }
    if (reply.json && field in reply.json) {
        return reply.json[field];
    }
    say(t("notRead", inWords(reply)));
    return null;
}

// ---- rights: a few questions at a time, each once

const QUIET = 5000; // milliseconds
const MOST_AT_ONCE = 2; // the front server takes four requests of a user
const answers = new Map();
const line = [];
let open = 0;
let quietUntil = 0; // after a question that was not answered

/** What the policy decides: {granted, by}, or undefined while it is not known. */
export const rightOf = (point) => answers.get(pointKey(point))?.answer;

export function forgetRights() {
    answers.clear();
}

/** Asks what is not known yet of these points, and announces what came. Gives a promise of all their answers. */
export function askRights(points) {
    const isQuiet = Date.now() < quietUntil;
    const asked = points.filter((point) => point.name !== "." && (!isQuiet || answers.has(pointKey(point)))).map((point) => {
        const key = pointKey(point);
        if (!answers.has(key)) {
            const entry = {};
            entry.done = new Promise((go) => line.push({point, entry, go}));
            answers.set(key, entry);
        }
        return answers.get(key).done;
    });
    while (open < MOST_AT_ONCE && line.length) {
        work();
    }
    return Promise.all(asked);
}

async function work() {
    open += 1;
    while (line.length) {
        const {point, entry, go} = line.shift();
        const {status, json} = await request("GET", `${asCaller()}/rights/${part(point.name)}/${point.type}/${point.action}`);
        if (status === 200) {
            entry.answer = json;
        } else {
            answers.delete(pointKey(point)); // it is asked again when it is needed again
            quietUntil = Date.now() + QUIET;
        }
        go(entry.answer);
    }
    open -= 1;
    if (open === 0) {
        announce("rights");
    }
}

/** The points that the policy denies of these, with the rules, as far as it is known. */
export const denied = (points) => points.map((point) => ({...point, ...rightOf(point)})).filter(({granted}) => granted === false);
export const areKnown = (points) => points.every((point) => rightOf(point) !== undefined);
