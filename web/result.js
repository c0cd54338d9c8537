// What became of an update.

import {$, button, code, make, say} from "./elements.js";
import {deniedText, mailLink} from "./marks.js";
import {askRights, decidedBy, denied, inWords} from "./office.js";
import {pointsOf, testPoints} from "./points.js";
import {state} from "./state.js";
import {t} from "./text.js";
import {lineOf, setKey} from "./zone.js";
import {readRecords} from "./reading.js";
import {noteSaved, readLive} from "./live.js";
import {draftOf, keepDraft} from "./draft.js";

function show(kind, head, children, more = []) {
    $("result").className = kind;
    $("result-head").textContent = head;
    $("result-body").replaceChildren(...children);
    $("result-more").replaceChildren(...more);
    $("result").hidden = false;
    if (!document.activeElement.matches("input, select, textarea")) { // a reply may come late, while something else is typed
        $("result-head").focus();
        scrollTo(0, 0);
    }
}

const differenceOf = (before, after) => {
    const [was, is] = [before, after].map((zone) => new Set(zone.records.map(lineOf)));
    return {went: [...was].filter((line) => !is.has(line)), came: [...is].filter((line) => !was.has(line))};
};

export function lineList(went, came, most = 200) {
    const all = [...went.map((line) => ["went", line]), ...came.map((line) => ["came", line])];
    const items = all.slice(0, most).map(([kind, line]) => make("li", {}, make("span", {class: kind}, `${kind === "went" ? "−" : "+"} ${t(kind)}`), " ", code(line)));
    if (all.length > most) {
        items.push(make("li", {}, t("andMore", all.length - most)));
    }
    return make("ul", {class: "difference"}, ...items);
}

/** The operations were made: what came and went, or that nothing did. */
export function showMade(jobs, before, followed) {
    const shown = before && jobs.every(({zone}) => zone === state.zone.origin) ? differenceOf(before, state.zone) : null;
    const isSoa = (line) => / IN SOA /.test(line);
    const nothing = shown && [...shown.went, ...shown.came].every(isSoa);
    const ids = jobs.map(({id}) => id);
    const body = [
        make("p", {}, t("madeWhat", jobs.length), " ", ...ids.flatMap((id) => [code(id), " "])),
        ...(nothing ? [make("p", {}, t("nothingChangedWhy"))] : shown ? [lineList(shown.went, shown.came)] : []),
        ...followed.map(({job, reply}) => make("p", {class: reply?.status === 200 ? "granted" : "denied"},
            reply?.status === 200 ? t("followedMade", job.zone) : t("followedNot", job.zone, reply ? inWords(reply) : t("noReply")))),
    ];
    const isBad = followed.some(({reply}) => reply?.status !== 200);
    show(nothing ? "idle" : isBad ? "refused" : "made", t(nothing ? "nothingChanged" : isBad ? "madeInPart" : "made"), body);
    say(nothing ? t("nothingChanged") : t("madeSaid", ids.at(-1)));
    const saved = [...(nothing ? [] : jobs), ...followed.filter(({reply}) => reply?.status === 200).map(({job}) => job)];
    saved.forEach((job) => noteSaved(job.zone, job.saved));
    readLive();
}

/** What an item lacks, asked of the policy point by point. */
async function lacking(item, isTest) {
    const points = isTest ? testPoints(item) : pointsOf(item, state.zone.origin);
    await askRights(points);
    return denied(points);
}

/** An update that another window sent, or this one before it was closed, is in no draft: its edits are made anew from its body. */
function restore({operations, prerequisites}, job) {
    const draft = draftOf(job.zone, job.caller);
    if (draft.edits.some(({key}) => job.keys?.includes(key))) {
        return;
    }
    const edits = operations.map((operation, at) => {
        const {op, name, ttl, type, data} = operation;
        const was = prerequisites.filter((test) => test.name === name && test.type === type && test.data !== undefined);
        return {key: `again-${job.id.slice(-8)}-${at}`, seen: {[setKey(operation)]: was.map((test) => test.data).sort()},
            ...(op === "add" ? {now: {name, ttl, type, data}} : {old: state.zone.find(operation) ?? {name, type, data, ttl: 0}})};
    });
    keepDraft(job.zone, {...draft, edits: [...draft.edits, ...edits]}, job.caller);
}

/** Leads to the plan, which has what the result said of each change. */
function toReview() {
    $("result").hidden = true;
    location.hash = "review";
    $("review-head").focus();
}

const reviewButton = () => button(t("reviewButton"), toReview, {class: "main", id: "result-review"});

/** A record of a large set was changed meanwhile: nothing was sent. */
export function showStale() {
    show("refused", t("notMadeMeanwhile"), [make("p", {}, t("conflictWhat"))], [reviewButton()]);
    say(t("notMadeMeanwhile"));
}

export async function showRefused(job, reply, made) {
    const body = JSON.parse(job.body);
    const {list, item, by} = reply.json;
    if (job.zone === state.zone.origin) {
        restore(body, job);
        await readRecords();
    }
    const faulty = list && body[list]?.[item];
    const isConflict = reply.status === 412;
    const lacks = by && faulty ? await lacking(faulty, list === "prerequisites") : [];
    const name = faulty ? make("p", {}, code([faulty.op ?? faulty.test, faulty.name, faulty.ttl, faulty.type, faulty.data].filter((one) => one !== undefined).join(" "))) : null;
    const words = lacks.length ? [...lacks.map((point) => make("p", {}, deniedText(point))), make("p", {}, mailLink(lacks))]
        : [make("p", {}, by ? decidedBy(by) : `${inWords(reply)}.`)];
    const part = made.length ? [make("p", {}, t("partsMade", made.length, job.count))] : [];
    show("refused", t(isConflict ? "notMadeMeanwhile" : "notMade"),
        [...part, ...(isConflict ? [make("p", {}, t("conflictWhat"))] : [...(name ? [name] : []), ...words])],
        [reviewButton()]);
    say(isConflict ? t("notMadeMeanwhile") : `${t("notMade")}: ${lacks.length ? lacks.map(deniedText).join("; ") : inWords(reply)}`);
}

export function showGivenUp(job, isRead) {
    say(t(isRead ? "givenUpRead" : "givenUp", job.id));
}

