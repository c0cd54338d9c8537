// Reading the records of the zone.

import {say, turn} from "./elements.js";
import {readList} from "./office.js";
import {announce, state} from "./state.js";
import {clock, t} from "./text.js";
import {readLine, Zone} from "./zone.js";

const AT_ONCE = 2000; // lines that are read without a pause
let when = ""; // the records of the zone were read

export const sayRead = () => say(t("readAt", state.zone.records.length, state.zone.origin, when));

/** Reads the records that the caller may list. Gives whether they came. */
export async function readRecords() {
    const origin = state.zone.origin;
    say(t("reading", origin));
    const lines = await readList("records", "records");
    if (lines === null) {
        return false;
    }
    const zone = new Zone(origin);
    for (const [at, line] of lines.entries()) {
        if (at % AT_ONCE === AT_ONCE - 1) {
            await turn();
        }
        zone.push(readLine(line));
    }
    if (origin !== state.zone.origin) {
        return false;
    }
    Object.assign(state, {zone, isRead: true});
    when = clock();
    announce("zone");
    sayRead();
    return true;
}
