// What is answered otherwise beyond the records that were typed, in words below the plan; the bar says that there is something. It is
// worked out in slices, so that the page stays quick.

import {$, button, code, make, turn} from "./elements.js";
import {AnswerChanges} from "./answer-changes.js";
import {ASKED, NameIndex} from "./answers.js";
import {Causes} from "./causes.js";
import {ADDRESSES, TYPES, ttlText} from "./data.js";
import {foresee} from "./edits.js";
import {named} from "./marks.js";
import {compareNames} from "./names.js";
import {askRights, rightOf} from "./office.js";
import {on, state} from "./state.js";
import {t} from "./text.js";
import {lineOf} from "./zone.js";

const SLICE = 8; // milliseconds of work between two pauses
const MOST = 4; // sentences in sight; the rest is behind “more”
const MOST_NAMES = 3; // of a sentence
const MOST_SORTED = 1000;
const LONGEST = 60; // letters of data
const SLIGHT = ["exists", "vanishes"]; // names without records, which nobody asks for: the bar does not speak of them

let known = {zone: null, index: null}; // the index of the zone as it was read
let asked = {zone: null, key: ""}; // what was worked out last, or is being worked out
let matters = [];

/** Works in slices while `isOn`. Gives what the work comes to, or nothing. */
async function inSlices(work, isOn) {
    while (isOn()) {
        const until = performance.now() + SLICE;
        while (performance.now() < until) {
            const {done, value} = work.next();
            if (done) {
                return value;
            }
        }
        await turn();
    }
    return undefined;
}

function indexOf(zone) {
    if (known.zone !== zone) {
        known = {zone};
        known.index = inSlices(new NameIndex(zone).fill(), () => known.zone === zone);
    }
    return known.index;
}

const keyOf = (edits) => edits.map(({old, now, drop = []}) => [old, now, ...drop].map((record) => (record ? lineOf(record) : "")).join("\n")).join("\n\n");

/** Works out what the changes that can be sent come to, and shows it, unless it is known. */
export async function foretell({lines}) {
    const {zone} = state;
    const edits = lines.filter(({isBlocked}) => !isBlocked).map(({edit}) => edit);
    const mine = {zone, key: keyOf(edits)};
    if (mine.zone !== asked.zone || mine.key !== asked.key) {
        matters = mine.zone === asked.zone ? matters : [];
        asked = mine;
        const isOn = () => asked === mine;
        const found = edits.length ? await mattersOf(edits, zone, isOn) : [];
        if (!isOn()) {
            return;
        }
        matters = found;
    }
    show();
}

async function mattersOf(edits, zone, isOn) {
    const index = await indexOf(zone);
    if (!index || !isOn()) {
        return [];
    }
    const changes = new AnswerChanges(index, foresee(edits, zone).outlook);
    return inSlices(new Causes(changes).matters(), isOn);
}

// ---- what the caller sees of the zone

/** What the policy is asked for, to know whether there may be records that the caller does not see. */
const listPoints = (origin) => [origin, `new-name.${origin}`].flatMap((name) => TYPES.map((type) => ({action: "list", name, type})));

/** Whether the caller is known to see a part of the zone only: each zone has an SOA and an NS. That all is seen is never known, since a
 * rule may be about one name. */
function isPart() {
    const {zone, zone: {origin}} = state;
    if (["SOA", "NS"].some((type) => zone.set(origin, type).length === 0)) {
        return true;
    }
    askRights(listPoints(origin).filter((point) => rightOf(point) === undefined));
    return listPoints(origin).some((point) => rightOf(point)?.granted === false);
}

// ---- words: what is between two marks is shown as code

const MARK = "\u0001";
const marked = (text) => `${MARK}${text}${MARK}`;
const shownName = (name) => marked(named(name));
const worded = (text) => text.split(MARK).map((part, at) => (at % 2 ? code(part) : part));
const joined = (parts) => (parts.length > 1 ? `${parts.slice(0, -1).join(", ")} ${t("and")} ${parts.at(-1)}` : parts[0]);

function nameList(names) {
    const all = names.size > MOST_SORTED ? [...names] : [...names].sort(compareNames);
    const most = all.length > MOST_NAMES ? MOST_NAMES - 1 : all.length;
    return joined([...all.slice(0, most).map(shownName), ...(all.length > most ? [t("beyondOthers", all.length - most)] : [])]);
}

function dataList(records) {
    const texts = records.map(({type, data}) => (ADDRESSES.includes(type) ? data : `${type} ${data}`));
    const few = texts.map((text) => marked(text.length > LONGEST ? `${text.slice(0, LONGEST)}…` : text));
    return few.length === 0 ? t("beyondEmpty") : few.length > MOST_NAMES ? t("beyondRecords", few.length) : joined(few);
}

function typeList(types) {
    const kept = types.filter((type) => TYPES.includes(type));
    return types.includes(ASKED.at(-1)) ? t("allTypes") : joined(kept);
}

const SHOWN = {
    names: nameList, old: dataList, now: dataList, types: typeList, before: ttlText, after: ttlText,
    server: shownName, wildcard: shownName, from: shownName, to: shownName, target: shownName,
};

/** The sentence of a matter. */
export function sentence(matter) {
    const values = Object.entries(matter).map(([field, value]) => [field, SHOWN[field]?.(value) ?? value]);
    const text = t(`beyond ${matter.kind}`, {...Object.fromEntries(values), many: matter.names.size > 1});
    return text.replace(`.${MARK}.`, (end, at) => (at + end.length === text.length ? end.slice(0, -1) : end)); // a name has its dot
}

const byLength = (texts) => texts.sort((one, other) => one.length - other.length).map((text) => make("li", {}, ...worded(text)));

/** The gravest matters, the shortest first, and the others behind “more”. */
function show() {
    const texts = matters.map(sentence);
    const more = texts.length - MOST;
    $("beyond").hidden = texts.length === 0;
    $("beyond-list").replaceChildren(...byLength(texts.slice(0, MOST)));
    $("beyond-more").hidden = more <= 0;
    $("beyond-more").firstElementChild.textContent = t("beyondMore", more);
    $("beyond-more").lastElementChild.replaceChildren(...byLength(texts.slice(MOST)));
    $("beyond-seen").textContent = texts.length === 0 ? "" : t(isPart() ? "beyondPart" : "beyondSeen");
    showInBar(matters.some(({kind}) => !SLIGHT.includes(kind)));
}

// ---- the bar says that there is something, and leads there

let isWanted = false; // once the plan is shown

function goToBeyond() {
    isWanted = state.view !== "review";
    if (isWanted) {
        location.hash = "review";
    } else {
        $("beyond-head").focus();
    }
}

/** It is read out when it comes, so it stays as it is as long as there is something. */
function showInBar(isThere) {
    if (isThere !== ($("bar-beyond").childElementCount > 0)) {
        $("bar-beyond").replaceChildren(...(isThere ? [button(t("barBeyond"), goToBeyond)] : []));
    }
}

on("view", () => {
    if (isWanted && state.view === "review") {
        isWanted = false;
        $("beyond-head").focus();
    }
});
