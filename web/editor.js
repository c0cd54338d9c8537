// The editor of one record: what is typed, what it means, what may be done, and what would come of it.

import {$, afterTyping, hint, make, option, say} from "./elements.js";
import {readData, readTtl, ttlText, TYPES} from "./data.js";
import {putIn, replace} from "./draft.js";
import {checksOf, judgeOne} from "./judge.js";
import {mark, marksOf, named} from "./marks.js";
import {askRights, faultText} from "./office.js";
import {readOwner, relative, toUnicode} from "./names.js";
import {on, state} from "./state.js";
import {t} from "./text.js";
import {addition} from "./zone.js";

const MOST_SUGGESTIONS = 30;
let edited = null; // the record that is changed
let pending = null; // the edit that is edited anew
let isOther = false; // whether the second reading of the name in the data is meant
let first = ""; // the fields as they were when the editor was opened
let asks = 0;
let isLeaving = false;

const FIELDS = ["name", "type", "ttl", "data"];
const fields = () => FIELDS.map((field) => $(`edit-${field}`).value).join("\n");
const has = (name) => state.zone.exists(name);

/** Opens the editor for a record, for an edit that is not sent yet, or for a new record. */
export function openEditor(record, edit) {
    [edited, pending, isOther, isLeaving] = [record ?? null, edit ?? null, false, false];
    const shown = edit?.now ?? record;
    $("editor-head").textContent = t(edit ? "editHead" : record ? "changeHead" : "addHead");
    $("edit-name").value = shown?.name ?? "";
    $("edit-type").value = shown?.type ?? "A";
    $("edit-ttl").value = shown ? ttlText(shown.ttl) : "1 h";
    $("edit-data").value = shown?.data ?? "";
    FIELDS.forEach((field) => ($(`edit-${field}`).dataset.touched = ""));
    $("edit-marks").replaceChildren();
    first = fields();
    check();
    $("editor").showModal();
    $(shown ? "edit-data" : "edit-name").focus();
    if (shown) {
        judgeTyped();
    }
}

/** Reads the fields and shows what they come to; gives the record, or nothing. */
function check(always = false) {
    const type = $("edit-type").value;
    const name = readOwner($("edit-name").value, state.zone.origin);
    const ttl = readTtl($("edit-ttl").value);
    const data = readData(type, $("edit-data").value, state.zone.origin, has);
    const tell = (field, read, meaning, isWrong = false) => {
        const id = `edit-${field}`;
        const isFault = read.fault !== undefined && (always || $(id).dataset.touched === "yes");
        hint(id, isFault ? faultText(read) : read.fault === undefined ? meaning : "", isFault || isWrong);
    };
    const $name = $("edit-name").value.trim() === "" ? {fault: "noName"} : name;
    tell("name", $name, name.isOutside ? t("outside", name.name, state.zone.origin) : name.name && t("is", named(name.name)), Boolean(name.isOutside));
    tell("ttl", ttl, ttl.ttl === undefined ? "" : ttlMeaning(name, type, ttl.ttl));
    if (data.other === undefined) {
        isOther = false;
    }
    const meant = isOther ? data.other : data.data;
    tell("data", data, meant === undefined ? "" : t("is", toUnicode(meant) && type !== "TXT" ? `${toUnicode(meant)} (${meant})` : meant));
    showReadings(data);
    $("edit-data-form").textContent = t(`form ${type}`);
    return name.fault || name.isOutside || ttl.fault || data.fault ? null : {name: name.name, ttl: ttl.ttl, type, data: meant};
}

function ttlMeaning({name}, type, ttl) {
    const others = name ? state.zone.set(name, type).filter((record) => record !== edited && record.ttl !== ttl) : [];
    const said = $("edit-ttl").value.trim() === String(ttl) ? t("is", ttlText(ttl)) : t("is", t("seconds", ttl));
    return others.length ? `${said}; ${t("ttlOfOthers", others.length, ttlText(ttl))}` : said;
}

/** Where the name in the data can be read in two ways, both are offered, and those that the zone has are marked. */
function showReadings({data, other}) {
    const box = $("readings");
    box.hidden = other === undefined;
    box.querySelectorAll("label").forEach((label) => label.remove());
    if (other === undefined) {
        return;
    }
    [data, other].forEach((reading, at) => {
        const name = reading.split(" ").at(-1);
        const choice = make("input", {type: "radio", name: "reading"});
        choice.checked = isOther === (at === 1);
        choice.addEventListener("change", () => {
            isOther = at === 1;
            check();
            judgeSoon();
        });
        box.append(make("label", {}, choice, " ", make("code", {}, name), has(name) ? ` ${t("isInZone")}` : ""));
    });
}

const editNow = (record) => ({...(pending ?? {key: ""}), ...(edited && {old: edited}), now: record});

/** Says what would come of it, once the policy was asked: nothing is said before. */
async function judgeTyped() {
    const asked = ++asks;
    const record = check();
    if (!record) {
        $("edit-marks").replaceChildren();
        return;
    }
    const line = judgeOne(editNow(record));
    await askRights([...line.points, ...checksOf(line.edit)]);
    if (asked === asks && $("editor").open) {
        const can = {
            drop: (records) => finish({...editNow(record), drop: records}),
            rename: (better) => {
                $("edit-name").value = relative(better, state.zone.origin);
                judgeTyped();
            },
        };
        const judged = judgeOne(editNow(record));
        const isSame = edited && line.operations.every((operation) => JSON.stringify(operation) === JSON.stringify(addition(edited)));
        $("edit-marks").replaceChildren(...(isSame && !pending ? [mark("note", t("asItIs")), ...marksOf({...judged, why: undefined, faults: []}, can)] : marksOf(judged, can)));
    }
}

const judgeSoon = afterTyping(judgeTyped, 200);

function suggest(text) {
    const word = text.trim().split(/\s+/).at(-1).toLowerCase();
    const found = [];
    if (word.length > 1) {
        for (const name of state.zone.names.keys()) {
            if (name.startsWith(word) || name.includes(`.${word}`)) {
                found.push(name);
                if (found.length === MOST_SUGGESTIONS) {
                    break;
                }
            }
        }
    }
    const before = text.trim().split(/\s+/).slice(0, -1).join(" ");
    $("names").replaceChildren(...found.map((name) => option(before ? `${before} ${name}` : name)));
}

function finish(edit) {
    $("editor").close();
    if (pending) {
        replace(pending.key, edit);
        say(t("notYet", state.draft.edits.length));
    } else {
        putIn([{...edit, key: undefined}].map(({key, ...rest}) => rest));
    }
}

function submit(event) {
    event.preventDefault();
    const record = check(true);
    if (record) {
        finish(editNow(record));
        return;
    }
    ($("edit").querySelector("[aria-invalid=true]") ?? $("edit-name")).focus();
    say(t("seeFields"));
}

/** Escape asks once where something was typed. */
function leave(event) {
    if (fields() !== first && !isLeaving) {
        event.preventDefault();
        isLeaving = true;
        $("edit-marks").prepend(mark("warn", t("escapeAgain")));
    }
}

export function startEditor() {
    $("edit-type").append(...TYPES.map((type) => option(type)));
    for (const name of FIELDS) {
        $(`edit-${name}`).addEventListener("input", (event) => {
            event.target.dataset.touched = "yes";
            isLeaving = false;
            check();
            judgeSoon();
            if (name === "name" || name === "data") {
                suggest(event.target.value);
            }
        });
    }
    $("edit").addEventListener("submit", submit);
    $("editor").addEventListener("cancel", leave);
    $("edit-cancel").addEventListener("click", () => $("editor").close());
    $("add").addEventListener("click", () => openEditor());
    on("zone", () => $("editor").open && check());
}
