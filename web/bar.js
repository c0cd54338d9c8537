// The bar that is always in sight, and the plan: each change in words, with all that is known of it.

import {foretell} from "./beyond.js";
import {$, button, code, make, say} from "./elements.js";
import {MOST_OPERATIONS, MOST_PREREQUISITES, RESOLUTIONS, setsOf} from "./edits.js";
import {canUndo, guard, otherDrafts, replace, settle, takeOut, undo} from "./draft.js";
import {isGuarded, judge, sendable, updates} from "./judge.js";
import {dataShown, editText, editWords, marksOf, mark, named} from "./marks.js";
import {openEditor} from "./editor.js";
import {send} from "./sending.js";
import {on, state} from "./state.js";
import {figure, t} from "./text.js";
import {relative} from "./names.js";

let judged = {lines: [], stops: false};
let timer;

/** Judges anew, once nothing more changes at once. */
function later() {
    clearTimeout(timer);
    timer = setTimeout(showAll, 60);
}

function showAll() {
    judged = judge();
    showBar();
    if (state.view === "review") {
        showPlan();
    }
    foretell(judged);
}

function summary() {
    const {lines} = judged;
    const some = (key, test) => {
        const number = lines.filter(test).length;
        return number ? [t(key, number)] : [];
    };
    return [
        ...some("areConflicts", ({conflict}) => conflict),
        ...some("areDenied", ({denied}) => denied.length > 0),
        ...some("areIdle", ({why, conflict}) => why && !conflict),
        ...some("wouldStopZone", ({stops, isBlocked}) => stops && !isBlocked),
        ...(otherDrafts().length ? [t("alsoIn", otherDrafts().join(", "))] : []),
    ].join(" · ");
}

function showBar() {
    const count = state.draft.edits.length;
    const others = otherDrafts().length > 0;
    $("bar").hidden = count === 0 && !others && !canUndo();
    $("bar-count").textContent = t("changes", count);
    $("bar-what").textContent = summary();
    $("undo").disabled = !canUndo();
    $("bar-review").hidden = count === 0 || state.view === "review";
    const able = sendable(judged).length;
    const isBusy = state.waiting.size > 0;
    for (const id of ["draft-send", "review-send"]) {
        $(id).disabled = able === 0 || isBusy;
        $(id).textContent = able < count && able > 0 && !isBusy ? t("sendSome", able, count) : t("send", count);
    }
    $("draft-send").hidden = count === 0;
    $("draft-clear").disabled = isBusy;
}

// ---- the plan

function showPlan() {
    const {lines} = judged;
    const many = updates(judged);
    $("review-what").textContent = lines.length === 0 ? t("planEmpty") : many.length > 1 ? t("planInParts", many.length) : t("planWhole");
    const focused = document.activeElement?.closest?.("#plan > li")?.dataset.key;
    $("plan").replaceChildren(...lines.slice(0, 500).map(planLine), ...(lines.length > 500 ? [make("li", {}, t("andMore", lines.length - 500))] : []));
    if (focused && !$("plan").contains(document.activeElement)) {
        ([...$("plan").children].find(({dataset}) => dataset.key === focused)?.querySelector("button") ?? $("review-head")).focus();
    }
    $("review-send").hidden = $("draft-clear").hidden = $("raw").hidden = lines.length === 0;
    if (!judged.stops) {
        $("stop").replaceChildren();
    }
    showRaw(many);
}

function planLine(line) {
    const {edit, conflict} = line;
    const {key, now, old, sent} = edit;
    const name = (now ?? old).name;
    const what = `${name} ${(now ?? old).type}`;
    const marks = sent ? [mark("note", t("onItsWay"))] : marksOf(line, {
        drop: (records) => replace(key, {...edit, drop: [...(edit.drop ?? []), ...records]}),
        rename: (better) => replace(key, {...edit, now: {...now, name: better}}),
    });
    const actions = [
        ...(now && !sent && !edit.drop?.length ? [button(t("edit"), () => openEditor(edit.old, edit), {"aria-label": `${t("edit")} ${what}`})] : []),
        button(t("takeOut"), (event) => takeOutOf(event, key), {"aria-label": `${t("takeOut")} ${what} ${(now ?? old).data}`, disabled: Boolean(sent)}),
    ];
    return make("li", {"data-key": key, class: line.isBlocked ? "blocked" : line.stops ? "stops" : false},
        make("span", {class: "host", title: name}, named(relative(name, state.zone.origin))),
        make("span", {class: "words"}, ...editWords(edit)),
        make("span", {class: "do"}, ...actions.flatMap((one) => [one, " "])),
        make("ul", {class: "marks"}, ...(conflict ? [conflictMark(edit, conflict)] : []), ...marks),
        ...(edit.then ?? []).map((next) => make("p", {class: "then"}, t("thenIn", next.zone), " ", named((next.now ?? next.old).name), ": ", ...editWords(next))));
}

/** Takes a line out, and leaves the focus at the next one. */
function takeOutOf({currentTarget}, key) {
    const lines = [...$("plan").children];
    const at = lines.indexOf(currentTarget.closest("li"));
    takeOut([key]);
    showAll();
    const next = $("plan").children[Math.min(at, $("plan").children.length - 1)];
    (next?.querySelector(".do button:last-of-type") ?? $("review-head")).focus();
}

const dataList = (records) => (records.length ? records.flatMap((record, at) => [at ? ", " : "", code(`${record.type} ${record.data}`)]) : [t("none")]);

/** Yours, theirs, and as it was; and what can be done. */
function conflictMark(edit, {went, came}) {
    const seen = setsOf(edit).flatMap(({name, type}) => (edit.seen?.[`${name} ${type}`] ?? []).map((data) => ({type, data})));
    const there = setsOf(edit).flatMap(({name, type}) => state.zone.set(name, type));
    const few = (records) => dataList(records.slice(0, 8));
    const choose = (how) => button(t(`${how}${edit.now ? "" : "Deletion"}`), () => {
        settle(edit.key, RESOLUTIONS[how](edit, state.zone));
        showAll();
        $("review-head").focus();
        say(t("resolved", editText(edit)));
    }, {"data-resolve": how});
    const ways = edit.now ? ["replace", "both", "theirs"] : ["both", "theirs"];
    return make("li", {class: "mark conflict"}, make("span", {class: "tag"}, t("changedMeanwhile")),
        make("dl", {},
            make("dt", {}, t("asItWas")), make("dd", {}, ...few(seen)),
            make("dt", {}, t("theirsIs")), make("dd", {}, ...few(there), ...(went.length ? [" ", t("wentIs"), " ", ...few(went)] : [])),
            make("dt", {}, t("yoursIs")), make("dd", {}, ...(edit.now ? dataShown(edit.now, (text) => code(`${edit.now.type} ${text}`)) : [t("deleted")]))),
        make("span", {class: "buttons"}, ...ways.filter((how) => how !== "replace" || came.length).map(choose)));
}

// ---- items and guards, as the office gets them

const FIELDS = ["test", "op", "name", "ttl", "type", "data"];
export const itemText = (item) => FIELDS.map((one) => item[one]).filter((value) => value !== undefined).join(" ");

function showRaw(many) {
    const operations = many.flatMap((update) => update.operations);
    const prerequisites = many.flatMap((update) => update.prerequisites);
    const more = (items) => (items.length > 300 ? [make("li", {}, t("andMore", items.length - 300))] : []);
    $("draft-operations").replaceChildren(...operations.slice(0, 300).map((op) => make("li", {}, code(itemText(op)))), ...more(operations));
    const sets = new Map(sendable(judged).flatMap(({edit}) => setsOf(edit)).map((set) => [`${set.name} ${set.type}`, set]));
    $("draft-guards").replaceChildren(...[...sets.values()].slice(0, 300).map(guardItem), ...more([...sets.values()]));
    $("draft-room").textContent = t("room", figure(many.length), figure(operations.length), figure(prerequisites.length), MOST_OPERATIONS, MOST_PREREQUISITES);
}

function guardItem(set) {
    const data = state.zone.set(set.name, set.type).map((record) => record.data);
    const box = make("input", {type: "checkbox"});
    box.checked = isGuarded(set);
    box.disabled = state.waiting.size > 0 || (!box.checked && !state.draft.unguarded.includes(`${set.name} ${set.type}`));
    box.addEventListener("change", () => {
        const at = [...$("draft-guards").children].indexOf(box.closest("li"));
        guard(set, box.checked);
        showAll();
        $("draft-guards").children[at]?.querySelector("input").focus();
    });
    const what = data.length === 0 ? t("guardNone") : data.length > 16 ? t("guardLarge", data.length) : t("guardJust", data.join(", "));
    return make("li", {}, make("label", {}, box, " ", code(`${set.name} ${set.type}`), " ", what));
}

// ---- pressing

/** Sends what can be sent. What would stop the zone takes a second, deliberate press. */
function press() {
    judged = judge();
    if (judged.stops) {
        location.hash = "review";
        const all = button(t("sendAllTheSame"), () => {
            $("stop").replaceChildren();
            send(judge());
        }, {class: "danger", id: "send-anyway"});
        setTimeout(() => {
            $("stop").replaceChildren(make("p", {class: "fault"}, t("stopWarning", state.zone.origin)), all);
            all.scrollIntoView({block: "center"});
        }, 50);
        return;
    }
    send(judged);
}

/** Throws the changes away: the first press asks. */
function discard() {
    const keys = state.draft.edits.filter(({sent}) => !sent).map(({key}) => key);
    if ($("draft-clear").dataset.asked !== "yes") {
        $("draft-clear").dataset.asked = "yes";
        $("draft-clear").textContent = t("discardAsk", keys.length);
        return;
    }
    unask();
    takeOut(keys);
    showAll();
    location.hash = "records";
}

function unask() {
    delete $("draft-clear").dataset.asked;
    $("draft-clear").textContent = t("discard");
}

export function startBar() {
    ["draft", "zone", "rights"].forEach((what) => on(what, later));
    ["view", "waiting"].forEach((what) => on(what, showAll));
    $("undo").addEventListener("click", () => {
        undo();
        showAll();
        ($("undo").disabled ? $("main") : $("undo")).focus();
    });
    $("draft-send").addEventListener("click", press);
    $("review-send").addEventListener("click", press);
    $("draft-clear").addEventListener("click", discard);
    $("draft-clear").addEventListener("blur", unask);
}

