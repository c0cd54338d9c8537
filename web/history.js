// What changed, who changed it and when, and how to take it back. What was read is kept in the browser; only what is new is asked for,
// since a long history keeps others waiting.

import {$, afterTyping, code, make, say} from "./elements.js";
import {putIn} from "./draft.js";
import {operationsOf} from "./edits.js";
import {pointsOfLine} from "./judge.js";
import {ableButton, recordLink} from "./marks.js";
import {toUnicode} from "./names.js";
import {askRights, mine, readList} from "./office.js";
import {readRecords} from "./reading.js";
import {state, store, stored} from "./state.js";
import {clock, dateTime, t} from "./text.js";
import {isSame, readLine} from "./zone.js";
import {ttlText} from "./data.js";

const KEPT = 200; // changes that the browser keeps
const PAGE = 20; // changes that are shown at once
const MOST_LINES = 200; // of one change
const MOST_QUESTIONS = 10; // of one change; more are left to the plan

let changes = []; // the oldest first
let shown = PAGE;
let trail = {};
let read = "";

const key = () => `zoneoffice history ${state.caller} ${state.zone.origin}`;

/** Reads what is new; or all, where the numbers may be others now. */
export async function readChanges(isAll = false) {
    say(t("readingHistory", state.zone.origin));
    if (read !== key() || isAll) {
        changes = isAll ? [] : stored(key()) ?? [];
        [read, shown] = [key(), PAGE];
    }
    const [list, all] = await Promise.all([readList(`changes/${(changes.at(-1)?.number ?? 0) + 1}`, "changes"), mine("trail")]);
    if (list === null) {
        return;
    }
    trail = all?.[state.zone.origin] ?? {};
    const news = list.filter(({number}) => number > (changes.at(-1)?.number ?? 0));
    changes = [...changes, ...news];
    const kept = changes.slice(-KEPT);
    if (!store(key(), kept)) {
        store(key(), kept.slice(-10)); // large changes
    }
    if (news.length && isUnread(news.at(-1))) {
        await readRecords();
    }
    showChanges();
    if (state.view === "changes") { // it may have been left meanwhile
        say(changes.length ? t("historyRead", changes.at(-1).number, clock()) : t("noHistory", state.zone.origin));
    }
}

/** Whether the records were read before a change, the last one. */
function isUnread({removed, added}) {
    const [went, came] = [removed, added].map((lines) => lines.map(readLine));
    return came.some((record) => !state.zone.find(record)) || went.some((record) => state.zone.find(record) && !came.some((one) => isSame(one, record)));
}

/** Records that went and came at one name and type are what became of one another. */
export function movesOf({removed, added}) {
    const [went, came] = [removed, added].map((lines) => lines.map(readLine).filter(({type}) => type !== "SOA"));
    const moves = [];
    for (const old of went) {
        const at = ["data", "ttl"].map((same) => came.findIndex((now) => now.name === old.name && now.type === old.type && now[same] === old[same]))
            .find((place) => place >= 0) ?? came.findIndex((now) => now.name === old.name && now.type === old.type);
        const [now] = at >= 0 ? came.splice(at, 1) : [];
        moves.push({old, now});
    }
    return [...moves, ...came.map((now) => ({now}))];
}

function moveItem({old, now}) {
    const {name, type} = now ?? old;
    const letters = toUnicode(name);
    const kind = old && now ? "changed" : now ? "came" : "went";
    const sign = {changed: "↔", came: "+", went: "−"}[kind];
    const value = old && now && old.data === now.data ? [code(now.data), ` ${t("ttl")} `, make("del", {}, ttlText(old.ttl)), " → ", make("ins", {}, ttlText(now.ttl))]
        : [...(old ? [make("del", {}, old.data)] : []), ...(old && now ? [" → "] : []), ...(now ? [make("ins", {}, now.data)] : [])];
    return make("li", {}, make("span", {class: kind}, `${sign} ${t(kind)}`), " ", recordLink(name, code(name)), letters ? ` (${letters})` : "", ` ${type} `, ...value);
}

function changeItem(change) {
    const {number} = change;
    const moves = movesOf(change);
    const by = trail[number];
    const who = by ? [make("p", {class: "soft"}, [by.person && by.person !== by.caller ? `${by.person} (${by.caller})` : by.caller, dateTime(by.time)].join(", "),
        ...(by.id && !by.id.startsWith("page-") ? [" ", code(by.id)] : []))] : [];
    const more = moves.length > MOST_LINES ? [make("li", {}, t("andMore", moves.length - MOST_LINES))] : [];
    const revert = moves.length ? [revertButton(change)] : [];
    return make("li", {}, make("h3", {tabindex: "-1"}, t("changeNumber", number)), ...who,
        moves.length ? make("ul", {class: "difference"}, ...moves.slice(0, MOST_LINES).map(moveItem), ...more) : make("p", {class: "soft"}, t("serialOnly")), ...revert);
}

export function showChanges() {
    const words = $("changes-filter").value.toLowerCase().split(/\s+/).filter(Boolean);
    const text = ({removed, added, number}) => [...removed, ...added, ...Object.values(trail[number] ?? {})].join("\n").toLowerCase();
    const found = words.length ? changes.filter((change) => words.every((word) => text(change).includes(word))) : changes;
    const seen = found.slice(-shown).reverse();
    $("changes-list").replaceChildren(...seen.map(changeItem));
    askSeen(seen);
    $("changes-more").hidden = found.length <= shown && ((changes[0]?.number ?? 1) === 1 || words.length > 0);
}

/** The opposite of a change, as edits of what is there now; what is not as it was made is left alone. */
function oppositeOf(change) {
    const edits = [];
    const skipped = [];
    for (const {old, now} of movesOf(change)) {
        const there = now && state.zone.find(now);
        if (now && !there) {
            skipped.push(now.name);
        } else if (!now && state.zone.find(old)) {
            skipped.push(old.name);
        } else {
            edits.push({...(there && {old: there}), ...(old && {now: old})});
        }
    }
    return {edits, skipped};
}

const pointsToRevert = (change) =>
    pointsOfLine({operations: oppositeOf(change).edits.flatMap((edit) => operationsOf(edit, state.zone))}).slice(0, MOST_QUESTIONS);

const revertButton = (change) => ableButton(t("revert"), () => revertChange(change), pointsToRevert(change), t("revertLabel", change.number), {"data-number": change.number});

/** Asks whether these changes may be taken back, and greys the buttons of those that may not. */
async function askSeen(seen) {
    await askRights(seen.flatMap(pointsToRevert));
    for (const change of seen) {
        const there = $("changes-list").querySelector(`[data-number="${change.number}"]`);
        const fresh = there && revertButton(change);
        if (fresh && fresh.title !== there.title) {
            const hasFocus = there === document.activeElement;
            there.replaceWith(fresh);
            if (hasFocus) {
                fresh.focus();
            }
        }
    }
}

/** Puts the opposite of a change into the draft, where it is guarded by what is there now. */
async function revertChange(change) {
    if (!await readRecords()) {
        return;
    }
    const {edits, skipped} = oppositeOf(change);
    if (edits.length) {
        putIn(edits, {group: `revert ${change.number}`});
        location.hash = "review";
    }
    say(skipped.length ? t("revertSkipped", edits.length, [...new Set(skipped)].slice(0, 5).join(", ")) : t("revertReady", edits.length));
}

async function showOlder() {
    const there = $("changes-list").childElementCount;
    if (shown >= changes.length && (changes[0]?.number ?? 1) > 1) {
        const first = changes[0].number;
        const list = await readList(`changes/${Math.max(1, first - 100)}`, "changes");
        changes.unshift(...(list ?? []).filter(({number}) => number < first));
    }
    shown += PAGE;
    showChanges();
    $("changes-list").children[there]?.querySelector("h3").focus();
}

export function startHistory() {
    $("changes-again").addEventListener("click", () => readChanges());
    $("changes-all").addEventListener("click", () => readChanges(true));
    $("changes-more").addEventListener("click", showOlder);
    $("changes-filter").addEventListener("input", afterTyping(showChanges, 150));
}
