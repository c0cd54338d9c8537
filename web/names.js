// Names of the DNS: read as people write them, and printed as docs/formats.md has them. A fault is the number of the refusal that the
// office would give, or a word of the page.

const ESCAPED = new Set([...'.\\"();@$'].map((letter) => letter.charCodeAt(0)));
const LABEL = "[a-z0-9](?:[a-z0-9-]*[a-z0-9])?";
const HOST = new RegExp(`^(?:${LABEL}\\.)+$`);
const HOST_OWNER = new RegExp(`^(?:\\*\\.)?(?:${LABEL}\\.)*$`);
const UNSAFE = /[\p{C}\p{Zl}\p{Zp}]/u; // controls, marks of direction, and what no font has

/** The labels of a name's text, as octets in small letters, and whether it ends with a dot. */
export function readLabels(text) {
    const octets = new TextEncoder().encode(text);
    if (octets.length === 0) {
        return {fault: 6};
    }
    const labels = [[]];
    for (let at = 0; at < octets.length; at++) {
        let octet = octets[at];
        if (octet === 46) {
            labels.push([]);
            continue;
        }
        if (octet === 92) {
            const next = String.fromCharCode(...octets.slice(at + 1, at + 4));
            const digits = /^[0-9]/.test(next);
            if (next === "" || (digits && !(/^[0-9]{3}$/.test(next) && Number(next) < 256))) {
                return {fault: 4};
            }
            octet = digits ? Number(next) : octets[at + 1];
            at += digits ? 3 : 1;
        }
        labels.at(-1).push(octet >= 65 && octet <= 90 ? octet + 32 : octet);
    }
    const absolute = labels.at(-1).length === 0;
    if (absolute) {
        labels.pop();
    }
    if (labels.some((label) => label.length === 0) && text !== ".") {
        return {fault: 1};
    }
    if (labels.some((label) => label.length > 63)) {
        return {fault: 2};
    }
    return {labels: text === "." ? [] : labels, absolute};
}

function octetText(octet) {
    if (ESCAPED.has(octet)) {
        return `\\${String.fromCharCode(octet)}`;
    }
    return octet >= 33 && octet <= 126 ? String.fromCharCode(octet) : `\\${String(octet).padStart(3, "0")}`;
}

export const nameText = (labels) => (labels.length ? labels.map((label) => `${label.map(octetText).join("")}.`).join("") : ".");

// ---- names as the office prints them

/** The labels of a printed name, as they are printed. */
export function labelsOf(name) {
    if (name === ".") {
        return [];
    }
    return name.includes("\\") ? name.match(/(?:[^.\\]|\\.)+/gs) : name.slice(0, -1).split(".");
}

export function parentOf(name) {
    const rest = name.includes("\\") ? labelsOf(name)[0].length : name.indexOf(".");
    return name.slice(rest + 1) || ".";
}

/** Whether a printed name is another one, or below it. */
export function isWithin(name, above) {
    if (name === above || above === ".") {
        return true;
    }
    if (!name.endsWith(`.${above}`)) {
        return false;
    }
    const before = name.slice(0, -above.length - 1);
    return before.match(/\\*$/)[0].length % 2 === 0; // else the dot is one within a label
}

/** The canonical order (RFC 4034 section 6.1): labels from right to left, octet by octet. */
export function compareNames(one, other) {
    const [left, right] = [one, other].map((name) => (name.includes("\\")
        ? readLabels(name).labels.map((label) => String.fromCharCode(...label)) : labelsOf(name)));
    for (let at = 1; at <= left.length && at <= right.length; at++) {
        const [a, b] = [left[left.length - at], right[right.length - at]];
        if (a !== b) {
            return a < b ? -1 : 1;
        }
    }
    return left.length - right.length;
}

/** Whether name servers take the name as that of a host: letters, digits and hyphens, with no hyphen at either end of a label. */
export const isHost = (name) => name === "." || HOST.test(name);

/** The same of an owner, which may begin with the asterisk of a wildcard. */
export const isHostOwner = (name) => name === "." || HOST_OWNER.test(name);

/** Whether a name is of those that lead from addresses to names. */
export const isReverse = (name) => isWithin(name, "in-addr.arpa.") || isWithin(name, "ip6.arpa.");

/** The name below which the addresses of a kind have theirs, as 1.2.0.192.in-addr.arpa. */
export function reverseOf(type, address) {
    if (type === "A") {
        return `${address.split(".").reverse().join(".")}.in-addr.arpa.`;
    }
    return `${[...ipv6Digits(address)].reverse().join(".")}.ip6.arpa.`;
}

/** The 32 digits of an IPv6 address. */
export function ipv6Digits(address) {
    const [head, tail] = address.split("::").map((part) => part.split(":").filter(Boolean));
    const missing = tail === undefined ? [] : Array(8 - head.length - tail.length).fill("0");
    return [...head, ...missing, ...(tail ?? [])].map((group) => group.padStart(4, "0")).join("");
}

// ---- other letters than those of ASCII (RFC 5891)

/** The text with each label that has other letters in its form for the DNS (xn--), or null where a label has none. */
export function toAscii(text) {
    let isPossible = true;
    const written = text.replace(/[\u3002\uff0e\uff61]/g, ".").replace(/(?:[^.\\]|\\.)+/gs, (label) => {
        const ascii = /^[\0-\x7f]*$/.test(label) ? label : labelToAscii(label);
        isPossible &&= ascii !== null;
        return ascii ?? "";
    });
    return isPossible ? written : null;
}

function labelToAscii(label) {
    try {
        const host = new URL(`ws://${encodeURIComponent(label)}.invalid/`).hostname.replace(/\.invalid$/, "");
        return /^[a-z0-9-]+$/.test(host) ? host : null;
    } catch {
        return null;
    }
}

/** The name with its xn-- labels and UTF-8 escapes as letters; or null where it has none, or some that nobody could tell apart. */
export function toUnicode(name) {
    if (!name.includes("xn--") && !/\\[12]\d\d/.test(name)) {
        return null;
    }
    const labels = name.match(/(?:[^.\\]|\\.)+/gs).map((label) => (label.startsWith("xn--") ? fromAscii(label) : utf8(label)) ?? label);
    const shown = `${labels.join(".")}${name.endsWith(".") ? "." : ""}`;
    return shown === name || UNSAFE.test(shown) ? null : shown;
}

function fromAscii(label) {
    const letters = punycode(label.slice(4));
    return letters !== null && labelToAscii(letters) === label ? letters : null;
}

/** What the octets of a printed text say in UTF-8, or null. */
export function utf8(text) {
    if (!/\\[12]\d\d/.test(text)) {
        return null;
    }
    const octets = [];
    for (const [part, code] of text.matchAll(/\\([0-9]{3})|\\?[^\\]|\\\\/gs)) {
        octets.push(...(code ? [Number(code)] : new TextEncoder().encode(part.length > 1 ? part.slice(1) : part)));
    }
    try {
        const letters = new TextDecoder("utf-8", {fatal: true}).decode(new Uint8Array(octets));
        return UNSAFE.test(letters) ? null : letters;
    } catch {
        return null;
    }
}

/** The letters of a Punycode text (RFC 3492 section 6.2), or null. */
function punycode(text) {
    const cut = text.lastIndexOf("-");
    const letters = [...text.slice(0, Math.max(0, cut))].map((letter) => letter.codePointAt(0));
    let [code, place, bias] = [128, 0, 72];
    for (let at = cut + 1; at < text.length;) {
        const before = place;
        for (let weight = 1, base = 36; ; base += 36) {
            const symbol = text.charCodeAt(at++);
            const digit = symbol >= 97 && symbol <= 122 ? symbol - 97 : symbol >= 48 && symbol <= 57 ? symbol - 22 : -1;
            if (digit < 0) {
                return null;
            }
            place += digit * weight;
            const least = Math.min(26, Math.max(1, base - bias));
            if (digit < least) {
                break;
            }
            weight *= 36 - least;
        }
        bias = adapted(place - before, letters.length + 1, before === 0);
        code += Math.floor(place / (letters.length + 1));
        place %= letters.length + 1;
        if (code > 0x10ffff) {
            return null;
        }
        letters.splice(place++, 0, code);
    }
    return String.fromCodePoint(...letters);
}

function adapted(moved, count, isFirst) {
    let delta = Math.floor(moved / (isFirst ? 700 : 2));
    delta += Math.floor(delta / count);
    let base = 0;
    for (; delta > 455; base += 36) {
        delta = Math.floor(delta / 35);
    }
    return base + Math.floor((36 * delta) / (delta + 38));
}

// ---- names as people write them

function complete(labels) {
    const octets = labels.reduce((sum, label) => sum + label.length + 1, 1);
    return octets > 255 ? {fault: 3} : {name: nameText(labels)};
}

function begin(typed) {
    const text = toAscii(typed.trim());
    return text === null ? {fault: "letters"} : readLabels(text);
}

/** The owner of a record as it was typed: without a last dot it is within the zone, whose name may be there or not. */
export function readOwner(typed, zone) {
    if (typed.trim() === "@") {
        return {name: zone};
    }
    const {labels, absolute, fault} = begin(typed);
    if (fault) {
        return {fault};
    }
    const written = nameText(labels);
    const read = complete(absolute || isWithin(written, zone) ? labels : [...labels, ...readLabels(zone).labels]);
    return read.name && !isWithin(read.name, zone) ? {...read, isOutside: true} : read;
}

/** A name in the data of a record as it was typed. With a dot in it, it is absolute; a single label is within the zone. Where the
 * zone has the other reading (`has`), that one is meant first. `other` is the reading that was not taken. */
export function readTarget(typed, zone, has = () => false) {
    if (typed.trim() === "@") {
        return {name: zone};
    }
    const {labels, absolute, fault} = begin(typed);
    if (fault) {
        return {fault};
    }
    const own = complete(labels);
    const within = complete([...labels, ...readLabels(zone).labels]);
    if (absolute || own.fault || (isWithin(own.name, zone) && !has(within.name))) {
        return own;
    }
    if (labels.length === 1) {
        return within;
    }
    if (within.fault) {
        return own;
    }
    return has(within.name) && !has(own.name) ? {...within, other: own.name} : {...own, other: within.name};
}

/** A name without the zone's, for where the zone is known; `@` is the zone's own. */
export function relative(name, zone) {
    if (name === zone) {
        return "@";
    }
    return isWithin(name, zone) ? name.slice(0, -zone.length - 1) : name;
}
