// The table of records: rows in pieces, of which only those in sight are made, the changes in their places, and what may be done.

import {$, button, cell, make, row, rowHead} from "./elements.js";
import {ttlText, textOf, TYPES, DELEGATING} from "./data.js";
import {editOfRecord, putIn, takeOut} from "./draft.js";
import {openEditor} from "./editor.js";
import {ableButton, dataShown, mailLink} from "./marks.js";
import {askRights, rightOf} from "./office.js";
import {search, sorted} from "./search.js";
import {on, state} from "./state.js";
import {figure, t} from "./text.js";
import {toUnicode, isWithin} from "./names.js";
import {lineOf, setKey} from "./zone.js";

const PIECE = 50; // rows of one body of the table
const ROW = 36; // pixels that a row is taken to have while the view is hidden

let filtered = [];
let order = {column: "name", isBack: false};
let drawn = new Set(); // the keys of the rows' edits, as they are drawn
let current = null; // the button that the arrow keys are at

export function showRecords() {
    const test = search($("filter").value);
    filtered = sorted(test ? state.zone.records.filter(test) : state.zone.records, order.column, order.isBack);
    const total = state.zone.records.length;
    $("count").textContent = !state.isRead ? t("notReadYet") : total === 0 ? t("mayListNone") : test ? t("matching", filtered.length, total) : t("records_", total);
    if (state.isRead && total === 0) {
        $("count").append(" ", mailLink());
    }
    $("download").disabled = filtered.length === 0;
    $("table").setAttribute("aria-rowcount", filtered.length + 1);
    showTypes(test);
    showPieces();
    showNew(test);
    askSoon();
}

/** A button for each type that there is, with how many match. */
function showTypes(test) {
    const counts = new Map();
    const chosen = /(?:^|\s)type:(\S+)/i.exec($("filter").value)?.[1].toUpperCase();
    for (const {type} of chosen ? state.zone.records : filtered) {
        counts.set(type, (counts.get(type) ?? 0) + 1);
    }
    const shown = TYPES.filter((type) => counts.has(type));
    $("types").hidden = shown.length < 2 && !chosen;
    $("types").replaceChildren(...shown.map((type) => button(chosen && test && type !== chosen ? type : `${type} ${figure(counts.get(type))}`,
        () => chooseType(type, type === chosen), {"aria-pressed": String(type === chosen), class: "chip"})));
}

function chooseType(type, isChosen) {
    const rest = $("filter").value.replace(/(?:^|\s)type:\S+/gi, "").trim();
    $("filter").value = isChosen ? rest : `${rest} type:${type}`.trim();
    $("filter").dispatchEvent(new Event("input"));
    [...$("types").children].find((one) => one.textContent.startsWith(type))?.focus();
}

// ---- pieces: only those in sight, or near it, have rows; the others keep their height

const sight = new IntersectionObserver((seen) => {
    for (const {target, isIntersecting, boundingClientRect} of seen) {
        if (isIntersecting) {
            fill(target);
        } else if (boundingClientRect.height > 0) { // else the view is hidden
            empty(target, boundingClientRect.height);
        }
    }
    askSoon();
}, {rootMargin: "1000px"});

function showPieces() {
    sight.disconnect();
    [...$("table").tBodies].forEach((piece) => piece.remove());
    const pieces = [];
    for (let from = 0; from < filtered.length; from += PIECE) {
        pieces.push(make("tbody", {role: "rowgroup", "data-from": from}));
    }
    $("table").append(...pieces);
    if (pieces.length) {
        fill(pieces[0]);
    }
    if (pieces.length > 1) {
        const height = pieces[0].offsetHeight / PIECE || ROW;
        pieces.slice(1).forEach((piece) => empty(piece, height * Math.min(PIECE, filtered.length - piece.dataset.from)));
        pieces.forEach((piece) => sight.observe(piece));
    }
}

export function fill(piece) {
    if (piece.childElementCount === 0 && piece.dataset.from) {
        const from = Number(piece.dataset.from);
        piece.append(...filtered.slice(from, from + PIECE).map((record, at) => recordRow(record, from + at)));
        piece.style.height = "";
    }
}

function empty(piece, height) {
    if (!piece.contains(document.activeElement)) {
        piece.replaceChildren();
        piece.style.height = `${height}px`;
    }
}

/** All pieces, for printing. */
export const fillAll = () => [...$("table").tBodies].forEach(fill);

// ---- rows

function nameCell(name, before) {
    const origin = state.zone.origin;
    const isLong = name !== origin && isWithin(name, origin);
    const letters = toUnicode(name);
    const parts = [make("span", {}, isLong ? name.slice(0, -origin.length) : name), ...(isLong ? [make("span", {class: "soft"}, origin)] : []),
        ...(letters ? [make("span", {class: "letters"}, isLong ? letters.slice(0, -origin.length - 1) : letters)] : [])];
    const head = rowHead(...parts);
    head.classList.toggle("same", before === name);
    return head;
}

function dataCell({type, data}, edit) {
    if (edit?.now && edit.old && edit.now.data !== data) {
        return cell("data", make("del", {}, data), " → ", make("ins", {}, edit.now.data));
    }
    const letters = type === "TXT" ? textOf(data) : null;
    const shown = edit && !edit.now ? [make("del", {}, data)] : dataShown({type, data});
    return cell("data", ...shown, ...(letters ? [make("span", {class: "letters"}, letters)] : []));
}

function ttlCell({ttl}, edit) {
    const shown = edit?.now && edit.old && edit.now.ttl !== ttl ? [make("del", {}, ttlText(ttl)), " ", make("ins", {}, ttlText(edit.now.ttl))] : [ttlText(ttl)];
    const made = cell("ttl", ...shown);
    made.title = t("seconds", ttl);
    return made;
}

const deletePoint = ({name, type}) => ({action: DELEGATING.includes(type) && !(type === "NS" && name === state.zone.origin) ? "delegate" : "delete", name, type});
const addPoint = (record) => ({...deletePoint(record), action: deletePoint(record).action === "delegate" ? "delegate" : "add"});

const inTable = (text, press, point, what) => ableButton(text, press, point, `${text} ${what}`, {tabindex: "-1"});

/** The row of a record that is at a place among those that match. */
function recordRow(record, at) {
    const edit = editOfRecord(record);
    const what = `${record.name} ${record.type} ${record.data}`;
    const actions = edit ? editActions(edit, what) : [
        inTable(t("change"), () => openEditor(record), addPoint(record), what), " ",
        ...(record.type === "SOA" ? [] : [inTable(t("delete"), () => putIn([{old: record}]), deletePoint(record), what)])];
    const made = row(nameCell(record.name, at % PIECE ? filtered[at - 1]?.name : undefined), ttlCell(record, edit), cell("type", record.type),
        dataCell(record, edit), cell("do", ...actions));
    made.className = edit ? (edit.now ? "touched" : "touched gone") : "";
    made.setAttribute("aria-rowindex", at + 2); // after the head
    if (at === 0 && !current?.isConnected) {
        reach(made.querySelector("button"));
    }
    Object.assign(record, {row: made, place: at});
    return made;
}

function editActions(edit, what) {
    const label = edit.sent ? t("onItsWay") : edit.now ? t(edit.old ? "changed" : "new") : t("deleted");
    return [make("span", {class: "soft"}, label), " ",
        ...(edit.now && !edit.sent ? [button(t("edit"), () => openEditor(edit.old, edit), {"aria-label": `${t("edit")} ${what}`, tabindex: "-1"}), " "] : []),
        button(t("takeOut"), () => takeOut([edit.key]), {"aria-label": `${t("takeOut")} ${what}`, disabled: Boolean(edit.sent), tabindex: "-1"})];
}

/** New records, in a body of their own above the others. */
function showNew(test = search($("filter").value)) {
    $("new-rows")?.remove();
    const fresh = state.draft.edits.filter(({old, now}) => !old && now && (!test || test(now)));
    if (fresh.length) {
        $("table").tHead.after(make("tbody", {role: "rowgroup", id: "new-rows"}, ...fresh.slice(0, 200).map((edit) => {
            const {now} = edit;
            const made = row(nameCell(now.name), ttlCell(now), cell("type", now.type), cell("data", make("ins", {}, now.data)),
                cell("do", ...editActions(edit, `${now.name} ${now.type} ${now.data}`)));
            made.className = "touched new";
            made.querySelectorAll("button").forEach((one) => one.removeAttribute("tabindex"));
            return made;
        })));
    }
}

/** Draws the row of a record anew, and leaves the focus in it. */
function redraw(record) {
    if (!record.row?.isConnected) {
        return;
    }
    const focused = record.row.contains(document.activeElement);
    const wasCurrent = record.row.contains(current);
    const place = record.row.contains(document.activeElement) ? [...record.row.querySelectorAll("button")].indexOf(document.activeElement) : 0;
    const isFound = record.row.classList.contains("found");
    record.row.replaceWith(recordRow(record, record.place));
    record.row.classList.toggle("found", isFound);
    const buttons = record.row.querySelectorAll("button");
    if (wasCurrent) {
        reach(buttons[Math.min(place, buttons.length - 1)]);
    }
    if (focused) {
        current.focus();
    }
}

function redrawEdits() {
    const edits = state.draft.edits.filter(({old}) => old);
    const next = new Set(edits.map(({old, now, key, sent}) => JSON.stringify([old, now, key, sent])));
    const changed = [...new Set([...drawn, ...next])].filter((one) => !(drawn.has(one) && next.has(one))).map((one) => JSON.parse(one)[0]);
    drawn = next;
    changed.map((old) => state.zone.find(old)).filter(Boolean).forEach(redraw);
    const before = $("new-rows")?.contains(document.activeElement);
    showNew();
    if (before && !$("table").contains(document.activeElement)) {
        ($("new-rows")?.querySelector("button") ?? $("add")).focus();
    }
}

// ---- rights of the rows in sight

let timer;

function askSoon() {
    clearTimeout(timer);
    timer = setTimeout(askSeen, 400);
}

async function askSeen() {
    const seen = [...$("table").querySelectorAll("tbody tr")].filter((one) => {
        const {top, bottom} = one.getBoundingClientRect();
        return bottom > 0 && top < innerHeight;
    });
    const records = seen.map((one) => filtered[Number(one.getAttribute("aria-rowindex")) - 2]).filter(Boolean);
    const fresh = records.filter((record) => rightOf(addPoint(record)) === undefined || rightOf(deletePoint(record)) === undefined);
    if (fresh.length && state.view === "records") {
        await askRights(fresh.flatMap((record) => [addPoint(record), deletePoint(record)]));
        const sets = new Set(fresh.map(setKey));
        filtered.filter((record) => record.row?.isConnected && sets.has(setKey(record))
            && [addPoint(record), deletePoint(record)].some((point) => rightOf(point)?.granted === false)).forEach(redraw);
    }
}

// ---- keys: the table is one stop of the tabulator; arrows go through it

function reach(next) {
    current?.setAttribute("tabindex", "-1");
    next?.setAttribute("tabindex", "0");
    current = next ?? null;
}

const MOVES = {ArrowDown: [1, 0], ArrowUp: [-1, 0], ArrowRight: [0, 1], ArrowLeft: [0, -1], PageDown: [10, 0], PageUp: [-10, 0], Home: [-Infinity, 0], End: [Infinity, 0]};

function move(event) {
    const from = event.target.closest("tbody tr");
    const [down, right] = MOVES[event.key] ?? [];
    if (!from || down === undefined || event.altKey || event.ctrlKey || event.metaKey) {
        return;
    }
    event.preventDefault();
    const place = [...from.querySelectorAll("button")].indexOf(event.target);
    const at = Number(from.getAttribute("aria-rowindex")) - 2;
    const next = down ? rowAt(Math.max(0, Math.min(filtered.length - 1, at + down))) : from;
    const buttons = next?.querySelectorAll("button") ?? [];
    if (buttons.length) {
        reach(buttons[Math.max(0, Math.min(buttons.length - 1, place + right))]);
        current.focus();
        next.scrollIntoView({block: "nearest"});
    }
}

function rowAt(at) {
    const piece = [...$("table").tBodies].find(({dataset: {from}}) => from !== undefined && Number(from) <= at && at < Number(from) + PIECE);
    if (piece) {
        fill(piece);
    }
    return piece?.children[at - Number(piece.dataset.from)];
}

/** Gives the records that match as a master file. */
function download() {
    const link = make("a", {href: URL.createObjectURL(new Blob([filtered.map((record) => `${lineOf(record)}\n`).join("")], {type: "text/plain"})),
        download: `${state.zone.origin}zone`.replaceAll("/", "_")});
    link.click();
    setTimeout(() => URL.revokeObjectURL(link.href), 60000);
}

/** Shows a record, by a link say. */
export function goTo(name) {
    const at = filtered.findIndex((record) => record.name === name);
    const found = at >= 0 ? rowAt(at) : null;
    if (found) {
        found.classList.add("found");
        reach(found.querySelector("button"));
        current.focus();
        found.scrollIntoView({block: "center"});
    }
    return Boolean(found);
}

export function startTable() {
    on("zone", showRecords);
    on("draft", redrawEdits);
    $("download").addEventListener("click", download);
    $("table").addEventListener("keydown", move);
    $("table").addEventListener("focusin", ({target}) => {
        if (target.matches("tbody button")) {
            reach(target);
        }
    });
    addEventListener("scroll", askSoon, {passive: true});
    addEventListener("beforeprint", fillAll);
    for (const one of $("table").querySelectorAll("[data-sort]")) {
        one.addEventListener("click", () => {
            order = {column: one.dataset.sort, isBack: order.column === one.dataset.sort && !order.isBack};
            for (const head of $("table").tHead.rows[0].cells) {
                const isBy = head.contains(one);
                head.ariaSort = isBy ? (order.isBack ? "descending" : "ascending") : null;
            }
            showRecords();
        });
    }
}

