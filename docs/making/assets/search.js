// The search of the manual. The index is index.js, a script beside the page, so that this works without a server.

const MOST = 40; // sections that are shown
const AROUND = 70; // letters that are shown before and behind the first word found
const box = document.getElementById("search");
const found = document.getElementById("found");

/** Reads the index once, and calls `then` when it is there. */
function withIndex(then) {
    if (typeof SECTIONS !== "undefined") {
        then();
        return;
    }
    const script = document.createElement("script");
    script.src = "index.js";
    script.addEventListener("load", then);
    document.head.append(script);
}

/** How well a section fits the words: 0 unless it has all of them. A word counts more in a heading, and where it stands whole. */
function score([page, , heading, text], words) {
    const title = `${PAGES[page][1]} ${heading}`.toLowerCase();
    const body = text.toLowerCase();
    let sum = 0;
    for (const word of words) {
        if (!title.includes(word) && !body.includes(word)) {
            return 0;
        }
        const whole = new RegExp(`(?<![\\w-])${word.replace(/[^\w]/g, "\\$&")}(?![\\w-])`);
        sum += 1 + (heading.toLowerCase().includes(word) ? 12 : 0) + (whole.test(title) ? 8 : 0) + (whole.test(body) ? 4 : 0)
            + Math.min(body.split(word).length - 1, 4);
    }
    return sum;
}

/** A text in which the words are marked. */
function marked(text, words) {
    const any = new RegExp(`(${words.map((word) => word.replace(/[^\w]/g, "\\$&")).join("|")})`, "gi");
    return text.split(any).map((part, at) => {
        if (at % 2 === 0) {
            return part;
        }
        const mark = document.createElement("mark");
        mark.textContent = part;
        return mark;
    });
}

function entry([page, anchor, heading, text], words) {
    const [file, title] = PAGES[page];
    const link = document.createElement("a");
    link.href = `${file}#${anchor}`;
    link.append(...marked(heading === title ? title : `${title}: ${heading}`, words));
    const places = words.map((word) => text.toLowerCase().indexOf(word)).filter((place) => place >= 0);
    const at = Math.max(0, Math.min(...places, text.length) - AROUND);
    const start = places.length && at ? text.indexOf(" ", at) + 1 : 0;
    const part = text.slice(start, start + 2 * AROUND);
    const item = document.createElement("li");
    item.append(link, ...marked(part, words));
    return item;
}

/** Shows the sections that have all words of the box, the best first. */
function search() {
    const words = [...new Set(box.value.toLowerCase().split(/\s+/).filter(Boolean))];
    const fits = words.length ? SECTIONS.map((one) => [score(one, words), one]).filter(([sum]) => sum > 0) : [];
    fits.sort(([one], [other]) => other - one);
    found.replaceChildren(...fits.slice(0, MOST).map(([, section]) => entry(section, words)));
    if (words.length && !fits.length) {
        found.append(Object.assign(document.createElement("li"), {textContent: "Nothing has all of these words."}));
    }
    found.hidden = !words.length;
}

if (matchMedia("(max-width: 50rem)").matches) {
    document.querySelector("nav details").open = false;
}
box.addEventListener("input", () => withIndex(search));
box.addEventListener("focus", () => withIndex(() => {}));
box.addEventListener("keydown", (event) => {
    if (event.key === "Enter") {
        found.querySelector("a")?.click();
    } else if (event.key === "Escape") {
        box.value = "";
        found.hidden = true;
    }
});
document.addEventListener("keydown", (event) => {
    if (event.key === "/" && document.activeElement !== box) {
        event.preventDefault();
        box.focus();
    }
});
