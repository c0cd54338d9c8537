// What the trials of the page's modules share: chance, and asking the program.

import {spawn} from "node:child_process";

/** Chance (a linear congruence of 32 bits: the same for the same seed): a number below one, one of a list, and some of it. */
export function chances(seed) {
    let place = Number(seed) >>> 0;
    const chance = (most) => {
        place = (Math.imul(place, 1664525) + 1013904223) >>> 0;
        return Math.floor((place / 4294967296) * most);
    };
    const one = (list) => list[chance(list.length)];
    return {chance, one, some: (list, most) => Array.from({length: chance(most + 1)}, () => one(list))};
}

/** What a program prints. */
export function run(program, input, ...words) {
    return new Promise((go) => {
        const child = spawn(program, words, {stdio: ["pipe", "pipe", "ignore"]});
        let said = "";
        child.stdout.on("data", (piece) => (said += piece));
        child.on("close", () => go(said));
        child.stdin.on("error", () => undefined);
        child.stdin.end(input);
    });
}
