// The page's elements. Strings become text, never markup.

import {t} from "./text.js";

export const $ = (id) => document.getElementById(id);

export function make(tag, fields, ...children) {
    const made = document.createElement(tag);
    for (const [field, value] of Object.entries(fields ?? {})) {
        if (field === "press") {
            made.addEventListener("click", value);
        } else if (value !== false && value !== undefined && value !== null) {
            made.setAttribute(field, value === true ? "" : value);
        }
    }
    made.append(...children.filter((child) => child !== null && child !== undefined && child !== false));
    return made;
}

export const code = (text, kind) => make("code", {class: kind}, text);
export const button = (text, press, fields) => make("button", {type: "button", press, ...fields}, text);
export const cell = (kind, ...children) => make("td", {role: "cell", class: kind}, ...children);
export const rowHead = (...children) => make("th", {role: "rowheader", scope: "row", class: "name"}, ...children);
export const row = (...cells) => make("tr", {role: "row"}, ...cells);
export const turn = () => new Promise((go) => setTimeout(go));
export const option = (value, text = value) => make("option", {value}, text);

/** Tells in the status line what the page is doing. */
export function say(text) {
    $("status").textContent = text;
}

/** Calls `act` once nothing more is typed. */
export function afterTyping(act, milliseconds = 250) {
    let timer;
    return (...words) => {
        clearTimeout(timer);
        timer = setTimeout(act, milliseconds, ...words);
    };
}

/** Fills the elements that have `data-text` with the words of the language, and their attributes with those of `data-text-ATTRIBUTE`. */
export function translate(root = document) {
    for (const element of root.querySelectorAll("[data-text]")) {
        element.textContent = t(element.dataset.text);
    }
    for (const attribute of ["aria-label", "placeholder"]) {
        for (const element of root.querySelectorAll(`[data-text-${attribute}]`)) {
            element.setAttribute(attribute, t(element.getAttribute(`data-text-${attribute}`)));
        }
    }
}

/** A labelled field, with a hint below it. */
export function field(id, label, more = {}) {
    const input = make(more.tag ?? "input", {id, autocomplete: "off", autocapitalize: "none", spellcheck: "false", "aria-describedby": `${id}-hint`, ...more.set});
    input.value = more.value ?? "";
    return make("div", {class: "field"}, make("label", {for: id}, label), input, make("p", {class: "hint", id: `${id}-hint`}));
}

/** A button that takes the other reading of a name in a field. */
export const otherReading = (input, other) => button(t("ratherThis", other), () => {
    input.value = other;
    input.focus();
    input.dispatchEvent(new Event("input", {bubbles: true}));
});

/** A hint below a field: what is meant, or what is wrong. */
export function hint(id, text, isFault = false, kind = "") {
    const shown = $(`${id}-hint`);
    shown.textContent = text ?? "";
    shown.className = `hint ${isFault ? "fault" : kind}`.trim();
    $(id).setAttribute("aria-invalid", isFault);
}
