// Delegations: the children of the zone, their servers, addresses and keys as a picture, and the forms that make, change and end one.

import {$, code, field, hint, make, otherReading, say} from "./elements.js";
import {ADDRESSES, readData, readIpv4, readIpv6, readTtl, ttlText} from "./data.js";
import {putIn} from "./draft.js";
import {faultsBefore} from "./judge.js";
import {ableButton, named} from "./marks.js";
import {askRights, faultText, mine, readList} from "./office.js";
import {isHost, isWithin, readOwner, readTarget, relative} from "./names.js";
import {state} from "./state.js";
import {clock, dateTime, t} from "./text.js";
import {setKey} from "./zone.js";

let checked = {};
let delegated = [];

export async function readDelegations() {
    say(t("readingDelegations", state.zone.origin));
    const [list, children] = await Promise.all([readList("delegations", "delegations"), mine("children")]);
    if (list === null) {
        return;
    }
    delegated = list;
    checked = children?.[state.zone.origin] ?? {};
    await askRights([...list.map(({child}) => delegatePoint(child)), ...strays().map(strayPoint)]);
    showTree();
    if (state.view === "delegations") { // it may have been left meanwhile
        say(t("delegationsRead", list.length, state.zone.origin, clock()));
    }
}

/** Addresses in a delegated part that no server has the name of any more. */
const strays = () => faultsBefore().found.filter(({rule, record}) => rule === "below-cut" && ADDRESSES.includes(record.type)).map(({record}) => record);
const strayPoint = ({name, type}) => ({action: "delete", name, type});
const delegatePoint = (child) => ({action: "delegate", name: child, type: "NS"});
const own = (name) => relative(name, state.zone.origin);
const addressesOf = (name) => ADDRESSES.flatMap((type) => state.zone.set(name, type));
const tag = (kind, text) => make("span", {class: `tag ${kind}`}, text);
const node = (kind, ...parts) => make("div", {class: `node ${kind}`}, ...parts);

// ---- the picture

function showTree() {
    $("children").replaceChildren(make("li", {class: "root"}, node("zone", make("strong", {}, state.zone.origin)),
        delegated.length ? make("ul", {}, ...delegated.map(childItem)) : make("p", {class: "soft"}, t("noDelegations"))));
    const stray = strays();
    $("orphans").replaceChildren(...(stray.length ? [make("h3", {}, t("orphans")), make("p", {}, t("orphansWhat")),
        make("ul", {}, ...stray.map((record) => make("li", {}, code(`${own(record.name)} ${record.type} ${record.data}`), " ",
            ableButton(t("delete"), () => putIn([{old: record}]), strayPoint(record), `${t("delete")} ${record.name} ${record.type} ${record.data}`))))] : []));
}

function childItem({child, servers}) {
    const states = checked[child];
    const able = (text, press) => ableButton(text, press, delegatePoint(child), `${text} ${child}`);
    return make("li", {},
        node("child", make("strong", {title: child}, named(own(child))), " ", ...keyTags(child, states?.ds),
            ...(states ? [make("span", {class: "soft"}, ` ${t("checkedAt", dateTime(states.checked))}`)] : []),
            " ", make("span", {class: "do"}, able(t("change"), () => openForm({child, servers})), " ", able(t("endDelegation"), () => endDelegation(child, servers)))),
        make("ul", {}, ...servers.map((server) => serverItem(child, server, states?.servers?.[server.name]))));
}

function keyTags(child, ds) {
    const keys = state.zone.set(child, "DS").map(({data}) => data.split(" ")[0]);
    const shown = keys.length ? [tag("note", t("keys", keys.join(", ")))] : [tag("note", t("noKeys"))];
    return ds && ds !== "none" ? [...shown, " ", tag(ds === "ok" ? "good" : "bad", t(`ds ${ds}`))] : shown;
}

function serverItem(child, {name, glue}, found) {
    const addresses = addressesOf(name);
    const isMissing = glue === "unlisted" && addresses.length === 0;
    const needs = glue === "outside" ? t("glueOutside") : isMissing ? t("glueMissing") : addresses.map(({data}) => data).join(", ");
    const isBad = isMissing || (found && found !== "ok") || !isHost(name);
    return make("li", {}, node(isBad ? "bad" : "good", code(named(isWithin(name, child) ? own(name) : name)), " ",
        ...(found ? [tag(found === "ok" ? "good" : "bad", t(`server ${found}`))] : []), ...(isHost(name) ? [] : [" ", tag("bad", t("noHost"))])),
        node(isMissing ? "bad" : "plain", isMissing ? tag("bad", needs) : make("span", {class: glue === "outside" ? "soft" : ""}, needs)));
}

// ---- the form

export function openForm({child = "", servers = []} = {}) {
    const [ns] = state.zone.set(child, "NS");
    $("delegate-fields").replaceChildren(field("child", t("child"), {value: child && own(child)}), field("child-ttl", t("ttlField"), {value: ttlText(ns?.ttl ?? 3600)}));
    $("servers").replaceChildren();
    (servers.length ? servers : [{name: ""}, {name: ""}]).forEach(({name}) => addServer(name, isWithin(name || ".", child || "x") ? addressesOf(name) : []));
    $("delegate-keys").replaceChildren(field("child-ds", t("keysField"), {tag: "textarea", set: {rows: 2},
        value: state.zone.set(child, "DS").map(({data}) => data).join("\n")}));
    $("child-ds-hint").textContent = t("keysWhat");
    $("delegate-fault").textContent = "";
    $("delegate").hidden = false;
    showHints();
    $(child ? "delegate-head" : "child").focus();
}

function addServer(name = "", addresses = []) {
    const number = $("servers").childElementCount + 1;
    const made = make("fieldset", {}, make("legend", {}, t("server", number)), field(`server-${number}-name`, t("name"), {value: name}),
        field(`server-${number}-addresses`, t("addressesField"), {value: addresses.map(({data}) => data).join(" ")}));
    $("servers").append(made);
    return made;
}

const has = (name) => state.zone.exists(name);

/** What is meant by each field, as it is typed. */
function showHints() {
    const child = readOwner($("child").value, state.zone.origin);
    hint("child", $("child").value.trim() === "" ? "" : child.fault ? faultText(child) : t("is", named(child.name)), Boolean(child.fault && $("child").value.trim()));
    for (const server of $("servers").children) {
        const [name, addresses] = server.querySelectorAll("input");
        const read = name.value.trim() === "" ? {} : readTarget(name.value, state.zone.origin, has);
        const isStrange = read.name && !isHost(read.name);
        const text = read.fault ? faultText(read) : !read.name ? "" : `${t("is", named(read.name))}${isStrange ? `; ${t("noHost")}` : ""}`;
        hint(name.id, text, Boolean(read.fault || isStrange));
        if (read.other) {
            $(`${name.id}-hint`).append(" ", otherReading(name, read.other));
        }
        const isOwn = read.name && child.name && isWithin(read.name, child.name);
        hint(addresses.id, !read.name ? "" : isOwn ? t("needsAddress") : t("needsNoAddress"), false);
    }
}

function readServer(server, child) {
    const [nameField, addressField] = server.querySelectorAll("input");
    const items = addressField.value.split(/[\s,]+/).filter(Boolean);
    if (nameField.value.trim() === "" && items.length === 0) {
        return null;
    }
    const {name, fault} = readTarget(nameField.value, state.zone.origin, has);
    if (fault) {
        return {fault, at: nameField.id};
    }
    if (!isWithin(name, child)) {
        return {name, addresses: []};
    }
    const addresses = items.map((item) => ({item, type: item.includes(":") ? "AAAA" : "A", ...(item.includes(":") ? readIpv6 : readIpv4)(item)}));
    const bad = addresses.find((one) => one.fault);
    return bad || addresses.length === 0 ? {...(bad ?? {fault: 48, item: name}), at: addressField.id} : {name, addresses};
}

/** What the form says: the child, its TTL, servers with addresses, and keys; or a fault and its field. */
function readForm() {
    const child = readOwner($("child").value, state.zone.origin);
    const ttl = readTtl($("child-ttl").value);
    if (child.fault || ttl.fault) {
        return child.fault ? {...child, at: "child"} : {...ttl, at: "child-ttl"};
    }
    if (child.isOutside || child.name === state.zone.origin) {
        return {fault: 49, at: "child"};
    }
    const servers = [...$("servers").children].map((server) => readServer(server, child.name)).filter(Boolean);
    const bad = servers.find(({fault}) => fault);
    if (bad || servers.length === 0) {
        return bad ?? {fault: 40, at: "server-1-name"};
    }
    const keys = $("child-ds").value.split("\n").map((line) => line.trim()).filter(Boolean).map((line) => ({...readData("DS", line, state.zone.origin), line}));
    const badKey = keys.find(({fault}) => fault);
    return badKey ? {...badKey, at: "child-ds"} : {child: child.name, ttl: ttl.ttl, servers, keys: keys.map(({data}) => data)};
}

/** Edits that make the records of a set those that are wanted. */
function towards(name, type, wanted, ttl) {
    const there = state.zone.set(name, type);
    const fresh = [...new Set(wanted)].filter((data) => !there.some((record) => record.data === data)).map((data) => ({now: {name, ttl, type, data}}));
    const gone = there.filter(({data}) => !wanted.includes(data)).map((old) => ({old}));
    const stays = there.find(({data}) => wanted.includes(data));
    return [...fresh, ...gone, ...(fresh.length === 0 && stays && stays.ttl !== ttl ? [{old: stays, now: {...stays, ttl}}] : [])];
}

/** Addresses of servers that no NS names any more. */
function orphaned(child, gone) {
    const others = new Set(state.zone.records.filter(({type, name}) => type === "NS" && name !== child).map(({data}) => data));
    return gone.filter((name) => isWithin(name, child) && !others.has(name)).flatMap(addressesOf).map((old) => ({old}));
}

function editsOf({child, ttl, servers, keys}) {
    const before = state.zone.set(child, "NS").map(({data}) => data);
    const names = servers.map(({name}) => name);
    const glue = servers.filter(({addresses}) => addresses.length).flatMap(({name, addresses}) => ADDRESSES.flatMap((type) =>
        towards(name, type, addresses.filter((one) => one.type === type).map(({text}) => text), ttl)));
    return [...towards(child, "NS", names, ttl), ...glue, ...orphaned(child, before.filter((name) => !names.includes(name))), ...towards(child, "DS", keys, ttl)];
}

function submit(event) {
    event.preventDefault();
    const read = readForm();
    $("delegate-fault").textContent = read.fault ? faultText(read) : "";
    if (read.fault) {
        $(read.at)?.focus();
        return;
    }
    const edits = editsOf(read);
    $("delegate").hidden = true;
    if (edits.length === 0) {
        say(t("asItIs"));
        return;
    }
    putIn(edits, {group: `delegate ${read.child} ${Date.now()}`});
    location.hash = "review";
}

/** Ends a delegation: its servers, its keys, and the addresses that nobody needs then. */
function endDelegation(child, servers) {
    const names = servers.map(({name}) => name);
    const there = ["DS", "NS"].flatMap((type) => state.zone.set(child, type)).map((old) => ({old}));
    putIn([...there, ...orphaned(child, names)], {group: `end ${setKey({name: child, type: "NS"})} ${Date.now()}`});
    location.hash = "review";
}

export function startDelegations() {
    $("delegate-new").addEventListener("click", () => openForm());
    $("delegate").addEventListener("submit", submit);
    $("delegate").addEventListener("input", () => {
        $("delegate-fault").textContent = "";
        showHints();
    });
    $("server-add").addEventListener("click", () => addServer().querySelector("input").focus());
    $("delegate-cancel").addEventListener("click", () => {
        $("delegate").hidden = true;
        $("delegate-new").focus();
    });
}
