// The words of what was judged: each mark has a kind (good, warn, bad, note), a text, and sometimes what can be done at once.

import {button, make} from "./elements.js";
import {isReverse, toUnicode, relative} from "./names.js";
import {decidedBy, denied, rightOf} from "./office.js";
import {isSilent, stopsZone} from "./rules.js";
import {state} from "./state.js";
import {t} from "./text.js";
import {ttlText} from "./data.js";

export const mark = (kind, text, ...more) => make("li", {class: `mark ${kind}`}, make("span", {class: "tag"}, text), ...more.flatMap((one) => [" ", one]));

/** A name as it is printed, with its letters beside it where it has others than those of ASCII. */
export function named(name) {
    const letters = toUnicode(name);
    return letters ? `${letters} (${name})` : name;
}

const MOST_FAULTS = 6; // that a line has marks of
const own = (name) => relative(name, state.zone.origin);

/** Who can be asked: the mailbox of the SOA; where the caller does not see it, that of RFC 2142 section 7. */
function mailbox() {
    const {origin} = state.zone;
    const [soa] = state.zone.set(origin, "SOA");
    const name = soa?.data.split(" ")[1];
    const written = name?.slice(0, -1).replace(/((?:[^.\\]|\\.)+)\./s, (_, local) => `${local.replace(/\\(.)/g, "$1")}@`);
    return (/^[\w.+-]+@[a-z0-9.-]+$/i.test(written) ? written : state.contacts[origin]) ?? (isReverse(origin) ? "" : `hostmaster@${origin.slice(0, -1)}`);
}

/** A mail to those who write the policy, ready to be sent: about what they deny, or about all where nothing may be listed. */
export function mailLink(denials = []) {
    const what = denials.map(({action, name, type, by}) => `${action} ${type} ${name} (${by})`);
    const body = what.length ? t("mailBody", state.caller, what.join("\n")) : t("mailNone", state.caller, state.zone.origin);
    const words = new URLSearchParams({subject: t("mailSubject", state.zone.origin), body});
    return make("a", {href: `mailto:${mailbox()}?${words.toString().replaceAll("+", "%20")}`}, t("mailLink"));
}

export const deniedText = ({action, name, type, by}) => t("youLack", t(`action ${action}`), type, own(name), decidedBy(by));

/** A button that is grey where the policy denies one of the points that it asks for, with the reason. */
export function ableButton(text, press, points, label, more = {}) {
    const [lack] = denied([points].flat());
    const reason = lack && deniedText(lack);
    return button(text, lack ? () => undefined : press, {"aria-label": lack ? `${label}: ${reason}` : label, "aria-disabled": lack ? "true" : false, title: reason, ...more});
}

/** A link to the records of a name in the table. */
export const recordLink = (name, ...shown) =>
    make("a", {href: `#records/${encodeURIComponent(state.zone.origin)}?record=${encodeURIComponent(name)}`}, ...shown);

function rightMarks({denied, unchecked, points, isHeld}) {
    if (denied.length) {
        return [...denied.map((point) => mark("bad", deniedText(point))), make("li", {class: "mark"}, mailLink(denied))];
    }
    const rules = [...new Set(points.map((point) => rightOf(point)?.by))];
    const marks = rules.includes(undefined) ? [] : [mark("good", t("youMay", rules.join(", ")))];
    if (unchecked.length) {
        marks.push(mark("warn", t("noGuard", [...new Set(unchecked.map(({by}) => decidedBy(by)))].join("; "))));
    }
    return isHeld ? [...marks, mark("warn", t("heldByGroup"))] : marks;
}

function idleMarks({edit, why, obstacles, isIdle}, {drop}) {
    if (!why) {
        return [];
    }
    const text = t(isIdle ? "nothingWould" : "notWhole", t(`why ${why}`, own((edit.now ?? edit.old).name)));
    const names = obstacles.map(({type, data}) => `${type} ${data}`).join(", ");
    return [mark("bad", text, ...(obstacles.length && drop ? [button(t("dropThem", names), () => drop(obstacles))] : []))];
}

function faultMarks({faults, edit}, {rename}) {
    const ordered = [...faults].sort((one, other) => Number(stopsZone(other)) - Number(stopsZone(one)));
    const more = ordered.length - MOST_FAULTS;
    return [...ordered.slice(0, MOST_FAULTS).flatMap(faultMark(edit, rename)), ...(more > 0 ? [mark("warn", t("andMore", more))] : [])];
}

function faultMark(edit, rename) {
    return (fault) => {
        const {rule, record, server = fault.at} = fault;
        const isOwn = edit.now && record.name === edit.now.name;
        const text = `${isOwn ? "" : `${own(record.name)} ${record.type}: `}${t(rule, named(server ?? record.name))}`;
        const better = rule === "host-name" && isOwn && rename ? edit.now.name.replaceAll("_", "-") : null;
        const repair = better && better !== edit.now.name ? [button(t("makeIt", own(better)), () => rename(better))] : [];
        const stops = stopsZone(fault);
        return [mark(stops ? "bad" : "warn", `${t(stops ? "wouldStop" : isSilent(fault) ? "wouldFail" : "wouldWarn")} ${text}`, ...repair)];
    };
}

function noteMarks({edit: {old, now}, sharers, operations, conflict}) {
    const notes = sharers.map((name) => mark("note", t("addressAt", own(name))));
    if (now) {
        const others = state.zone.set(now.name, now.type).filter(({data, ttl}) => data !== old?.data && data !== now.data && ttl !== now.ttl);
        if (others.length && !conflict && operations.some(({op}) => op === "add")) { // in a conflict the choice decides
            notes.push(mark("note", t("ttlOfOthers", others.length, ttlText(now.ttl))));
        }
        const alias = now.type === "CNAME" ? state.zone.set(now.name, "CNAME").find(({data}) => data !== now.data && data !== old?.data) : undefined;
        if (alias) {
            notes.push(mark("note", t("replacesAlias", alias.data)));
        }
    }
    return notes;
}

/** The marks of a line. `can` has what may be done from there: drop, rename. */
export const marksOf = (line, can = {}) => [...idleMarks(line, can), ...faultMarks(line, can), ...noteMarks(line), ...rightMarks(line)];

// ---- an edit in words

const old = (text) => make("del", {}, text);
const fresh = (text) => make("ins", {}, text);

export function dataShown({type, data}, wrap = (text) => text) {
    const letters = type === "TXT" ? null : toUnicode(data);
    return letters ? [wrap(data), make("span", {class: "soft"}, ` (${letters})`)] : [wrap(data)];
}

/** What an edit does: new, what becomes what, or deleted. */
export function editWords({old: before, now, drop = []}) {
    const gone = drop.flatMap((record) => [" ", make("span", {class: "kind"}, record.type), " ", old(record.data)]);
    if (!before) {
        return [make("span", {class: "kind"}, `${t("new")} ${now.type}`), " ", ...dataShown(now, fresh), " ", make("span", {class: "soft"}, ttlText(now.ttl)), ...gone];
    }
    if (!now) {
        return [make("span", {class: "kind"}, `${t("delete")} ${before.type}`), " ", old(before.data), ...gone];
    }
    const parts = [];
    if (before.name !== now.name) {
        parts.push(t("name"), " ", old(own(before.name)), " → ", fresh(own(now.name)), " ");
    }
    parts.push(make("span", {class: "kind"}, before.type === now.type ? now.type : `${before.type} → ${now.type}`), " ");
    parts.push(...(before.data === now.data ? [now.data] : [old(before.data), " → ", fresh(now.data)]));
    if (before.ttl !== now.ttl) {
        const count = state.zone.set(before.name, before.type).length;
        parts.push(` ${t("ttl")} `, old(ttlText(before.ttl)), " → ", fresh(ttlText(now.ttl)), ...(count > 1 ? [` ${t("ofRecords", count)}`] : []));
    }
    return [...parts, ...gone];
}

/** The same as a text. */
export const editText = (edit) => make("p", {}, ...editWords(edit)).textContent;
