// The words of the page, in the language of the browser. Each language is one table; a sentence that depends on numbers is a function.

import english from "./text-en.js";
import french from "./text-fr.js";
import german from "./text-de.js";

export const TABLES = {en: english, de: german, fr: french};
const wanted = globalThis.navigator?.languages ?? ["en"];
export const language = wanted.map((one) => one.slice(0, 2)).find((one) => one in TABLES) ?? "en";
const table = TABLES[language];

/** The text of a key, with values in the places {0}, {1} and so on. */
export function t(key, ...values) {
    const said = table[key];
    if (typeof said === "function") {
        return said(...values);
    }
    return (said ?? key).replace(/\{([0-9])\}/g, (_, place) => String(values[place] ?? ""));
}

export const hasText = (key) => key in table;
export const figure = (number) => number.toLocaleString(language);
const region = language === "en" ? "en-GB" : language;
export const clock = (time = Date.now()) => new Date(time).toLocaleTimeString(region, {hour: "2-digit", minute: "2-digit", second: "2-digit"});
export const dateTime = (time) => new Date(time).toLocaleString(region, {dateStyle: "medium", timeStyle: "short"});

/** How long ago a time was, in words. */
export function ago(time) {
    const seconds = Math.min(0, (new Date(time).getTime() - Date.now()) / 1000);
    const [size, unit] = [[86400, "day"], [3600, "hour"], [60, "minute"]].find(([size]) => -seconds >= size) ?? [1, "second"];
    return new Intl.RelativeTimeFormat(language, {numeric: "auto"}).format(Math.round(seconds / size), unit);
}
