// What the items of an update ask of the policy: an action with the records of a type at a name (docs/policy.md).

import {TYPES} from "./data.js";

const delegates = (origin, name, type) => type === "DS" || (type === "NS" && name !== origin);

/** The points of an operation, by type. */
export function pointsOf(operation, origin) {
    const {op, name, type} = operation;
    const change = op === "add" ? "add" : "delete";
    const types = op === "delete-name"
        ? TYPES.filter((one) => one !== "SOA" && !(name === origin && (one === "NS" || one === "DS"))) : [type];
    return types.map((one) => ({action: delegates(origin, name, one) ? "delegate" : change, name, type: one}));
}

/** The points of a prerequisite. */
export function testPoints({test, name, type}) {
    const types = test === "name-used" || test === "name-unused" ? TYPES.filter((one) => one !== "SOA") : [type];
    return types.map((one) => ({action: "check", name, type: one}));
}

export const pointKey = ({action, name, type}) => `${action} ${type} ${name}`;
