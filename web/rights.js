// Rights: what the policy lets the caller do at a name, and all of it as a list.

import {$, afterTyping, cell, hint, make, option, row, say} from "./elements.js";
import {TYPES} from "./data.js";
import {readOwner, relative, isWithin, labelsOf, parentOf} from "./names.js";
import {askRights, decidedBy, faultText, rightOf} from "./office.js";
import {state} from "./state.js";
import {clock, t} from "./text.js";
import {upwards} from "./zone.js";

// made: actions
const ACTIONS = ["list", "check", "add", "delete", "delegate"];
// end
const MOST_NAMES = 12;
let asks = 0;

/** Asks for one name and type, as it is typed. */
export async function askTyped() {
    const asked = ++asks;
    const typed = $("ask-name").value.trim();
    const read = typed === "" ? {} : readOwner(typed, state.zone.origin);
    const type = $("ask-type").value;
    hint("ask-name", read.fault ? faultText(read) : read.name ? t("is", read.name) : "", read.fault !== undefined);
    if (!read.name || read.name === ".") {
        $("answers").replaceChildren();
        $("ask-caption").textContent = t(read.name ? "notRoot" : "noName");
        say(t("typeName"));
        return;
    }
    say(t("asking", read.name, type));
    const points = ACTIONS.map((action) => ({action, name: read.name, type}));
    await askRights(points);
    if (asked !== asks) {
        return;
    }
    $("ask-caption").textContent = t("askCaption", state.caller, type, read.name);
    $("answers").replaceChildren(...points.map((point) => {
        const head = make("th", {role: "rowheader", scope: "row"}, `${point.action}: ${t(`what ${point.action}`)}`);
        const right = rightOf(point);
        return right === undefined ? row(head, cell("denied", t("notAnswered")), cell("", ""))
            : row(head, right.granted ? cell("granted", t("yes")) : cell("denied", t("no")), cell("", decidedBy(right.by)));
    }));
    say(t("askedAt", read.name, type, clock()));
}

// ---- all of them

/** The names at which rights may differ: the highest of those that the caller lists, and those below that have records of their own. */
function places() {
    const {names, origin} = state.zone;
    const isTop = (name) => ![...upwards(name, origin)].slice(1).some((above) => names.has(above));
    const tops = [...names.keys()].filter(isTop);
    const shared = tops.length > 1 ? parentOf(tops.reduce((a, b) => common(a, b))) : null;
    const above = tops.length > 1 ? [tops.reduce((a, b) => common(a, b))] : [];
    return [...new Set([...above, ...tops])].filter((name) => name !== "." && name !== shared).sort((a, b) => labelsOf(a).length - labelsOf(b).length).slice(0, MOST_NAMES);
}

function common(one, other) {
    let name = one;
    while (!isWithin(other, name)) {
        name = parentOf(name);
    }
    return name;
}

/** Asks for all types and actions at these names, and at a new name below each. */
async function showAll() {
    const found = places();
    say(t("askingAll"));
    const asked = found.flatMap((name) => [{name, at: name}, {name: `new-name.${name}`, at: name, isBelow: true}]);
    const points = asked.flatMap(({name}) => TYPES.flatMap((type) => ACTIONS.map((action) => ({action, name, type}))));
    await askRights(points);
    const items = asked.map(({name, at, isBelow}) => {
        const lines = ACTIONS.map((action) => [action, TYPES.filter((type) => rightOf({action, name, type})?.granted)]).filter(([, types]) => types.length);
        const rules = [...new Set(lines.flatMap(([action, types]) => types.map((type) => rightOf({action, name, type}).by)))];
        const where = t(isBelow ? "newBelow" : "atName", relative(at, state.zone.origin));
        const what = lines.map(([action, types]) => make("li", {}, make("strong", {}, t(`action ${action}`)), ` ${types.length === TYPES.length ? t("allTypes") : types.join(", ")}`));
        return make("li", {}, make("h3", {}, where), lines.length ? make("ul", {}, ...what) : make("p", {}, t("nothing")),
            ...(rules.length ? [make("p", {class: "soft"}, t("byRules", rules.join(", ")))] : []));
    });
    $("my-list").replaceChildren(make("ul", {class: "rights"}, ...items));
    say(t("askedAll", clock()));
}

export function startRights() {
    $("ask-type").append(...TYPES.map((type) => option(type)));
    $("my-rights").addEventListener("click", showAll);
    $("ask").addEventListener("submit", (event) => event.preventDefault());
    $("ask-name").addEventListener("input", afterTyping(askTyped));
    $("ask-type").addEventListener("input", askTyped);
}
