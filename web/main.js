// The page of the office: what a department sees and changes of its zones, by the routes that docs/api.md has. This is its beginning: who
// the caller is, which zone and view the address names, and what is read for it.

import {$, afterTyping, make, option, say, translate} from "./elements.js";
import {startBar} from "./bar.js";
import {readDelegations, startDelegations} from "./delegations.js";
import {readDraft} from "./draft.js";
import {startEditor} from "./editor.js";
import {readChanges, startHistory} from "./history.js";
import {startLive} from "./live.js";
import {forgetRights, inWords, mine, request} from "./office.js";
import {isReverse} from "./names.js";
import {readRecords, sayRead} from "./reading.js";
import {askTyped, startRights} from "./rights.js";
import {keptJobs, resume} from "./sending.js";
import {announce, state, store, stored} from "./state.js";
import {goTo, showRecords, startTable} from "./table.js";
import {startTasks} from "./tasks.js";
import {language, t} from "./text.js";
import {Zone} from "./zone.js";

const ensure = async () => state.isRead || readRecords();
/** Says again when the records were read, if the status line is about the view that was left. */
const returnTo = async (left) => (state.isRead && ["delegations", "changes", "rights"].includes(left) ? sayRead() : ensure());
const READERS = {
    records: returnTo,
    review: ensure,
    delegations: async () => (await ensure(), readDelegations()),
    changes: async () => (await ensure(), readChanges()),
    rights: async () => (await ensure(), askTyped()),
};

// ---- the address: #VIEW/ZONE?q=FILTER&record=NAME

function readAddress() {
    const [path, query] = location.hash.slice(1).split("?");
    const [view, zone] = path.split("/").map(decodeURIComponent);
    const words = new URLSearchParams(query ?? "");
    return {view: view || "records", zone, filter: words.get("q"), record: words.get("record")};
}

function writeAddress() {
    const filter = $("filter").value;
    const query = state.view === "records" && filter ? `?${new URLSearchParams({q: filter})}` : "";
    history.replaceState(null, "", `#${state.view}/${encodeURIComponent(state.zone.origin)}${query}`);
}

/** Shows what the address names, and reads it. */
async function follow(isFirst = false) {
    const {view, zone, filter, record} = readAddress();
    if (!(view in READERS)) {
        return; // a place within the view
    }
    if (zone && zone !== state.zone.origin && state.zones.includes(zone)) {
        takeZone(zone);
    }
    $("filter").value = filter ?? (record ? `"${record}"` : view === "records" && !isFirst && state.view !== "records" ? $("filter").value : filter ?? "");
    await showView(view, !isFirst);
    if (record) {
        goTo(record);
    }
}

async function showView(view, focus) {
    const left = state.view;
    state.view = view;
    for (const section of document.querySelectorAll(".view")) {
        section.hidden = section.id !== `${view}-view`;
    }
    for (const link of document.querySelectorAll("nav a")) {
        link.removeAttribute("aria-current");
    }
    document.querySelector(`nav a[data-view="${view}"]`)?.setAttribute("aria-current", "page");
    document.title = `${$(`${view}-head`).textContent} – ${state.zone.origin} – ${t("title")}`;
    if (focus) {
        $("result").hidden ||= $("result").className === "made"; // it was read
        $(`${view}-head`).focus();
    }
    announce("view");
    if (view === "records") {
        showRecords();
    }
    writeAddress();
    return READERS[view](left);
}

function takeZone(origin) {
    store(`zoneoffice zone ${state.caller}`, origin);
    Object.assign(state, {zone: new Zone(origin), isRead: false});
    $("zone").value = origin;
    $("result").hidden = true;
    readDraft();
    announce("zone");
}

// ---- the start

const CHOSEN = "zoneoffice chosen";
const chosenKey = (person) => `zoneoffice as ${person}`;

/** Who may act for several callers chooses one; a choice begins the page anew, so that nothing of another caller is left in it. */
function chooseCaller({person, callers}) {
    state.actsFor = callers;
    const last = localStorage.getItem(chosenKey(person));
    state.caller = callers.includes(last) ? last : callers[0];
    $("as").append(...callers.map((name) => option(name)));
    $("as").value = state.caller;
    $("as").addEventListener("change", () => {
        localStorage.setItem(chosenKey(person), $("as").value);
        sessionStorage.setItem(CHOSEN, "yes");
        location.reload();
    });
    $("choice").hidden = false;
    if (sessionStorage.getItem(CHOSEN)) { // the focus stays where it was
        sessionStorage.removeItem(CHOSEN);
        $("as").focus();
    }
    $("caller").textContent = person;
}

/** Ctrl+F is for the zone: the browser finds only what is in sight. Pressed again, it is the browser's. */
function findKey(event) {
    const isLong = state.view === "records" && state.zone.records.length > 50;
    if (event.key.toLowerCase() === "f" && (event.ctrlKey || event.metaKey) && !event.shiftKey && isLong && document.activeElement !== $("filter")) {
        event.preventDefault();
        $("filter").focus();
        $("filter").select();
        say(t("findHere"));
    }
}

function listen() {
    addEventListener("hashchange", () => follow());
    addEventListener("keydown", findKey);
    $("zone").addEventListener("change", () => {
        takeZone($("zone").value);
        history.pushState(null, "", `#${state.view}/${encodeURIComponent(state.zone.origin)}`);
        showView(state.view, false);
    });
    const filterLate = afterTyping(writeAddress, 500);
    $("filter").addEventListener("input", () => {
        showRecords();
        filterLate();
    });
    $("again").addEventListener("click", () => {
        forgetRights();
        readRecords();
    });
    $("result-close").addEventListener("click", () => {
        $("result").hidden = true;
        $("main").focus();
    });
    document.querySelector(".skip").addEventListener("click", (event) => {
        event.preventDefault();
        $("main").focus();
    });
    [startBar, startEditor, startTable, startRights, startHistory, startDelegations, startTasks].forEach((begin) => begin());
}

/** The caller's zones, or all of the page's list; those of addresses stand apart. */
function takeZones(own, all) {
    state.zones = Array.isArray(own?.origins) && own.origins.length ? own.origins : all;
    state.contacts = own?.contacts ?? {};
    const reverse = state.zones.filter(isReverse);
    $("zone").append(...state.zones.filter((name) => !isReverse(name)).map((name) => option(name)),
        ...(reverse.length ? [make("optgroup", {label: t("reverseZones")}, ...reverse.map((name) => option(name)))] : []));
}

/** Who the caller is: as the front server says, or as the person chooses. */
async function whoAmI(caller) {
    if (caller !== null) {
        state.caller = caller ?? "";
        $("caller").textContent = state.caller;
        return true;
    }
    const me = await request("GET", "/people/me");
    if (me.status !== 200 || !Array.isArray(me.json?.callers) || me.json.callers.length === 0) {
        say(t("cannotStart", inWords(me)));
        return false;
    }
    chooseCaller(me.json);
    return true;
}

export async function start() {
    document.documentElement.lang = language;
    translate();
    document.body.classList.remove("loading");
    say(t("readingWho"));
    const [table, zones, own] = await Promise.all([...["refusals", "zones"].map((name) => request("GET", `/page/${name}.json`)), mine("zones")]);
    if (table.status !== 200 || zones.status !== 200) {
        say(t("cannotStart", inWords(table.status === 200 ? zones : table)));
        return;
    }
    state.refusals = table.json;
    if (!await whoAmI(zones.caller)) {
        return;
    }
    takeZones(state.actsFor.length ? await mine("zones") : own, zones.json);
    const last = stored(`zoneoffice zone ${state.caller}`);
    const named = readAddress().zone;
    listen();
    takeZone([named, last].find((name) => state.zones.includes(name)) ?? state.zones[0]);
    startLive();
    await follow(true);
    keptJobs().forEach(resume);
}
