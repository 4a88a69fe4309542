// sentences.js: what the page says, in one table. The first part is word for word what the programs say; tests/classroom looks each
// piece of it up in crates/. The second part is about what only this page has.
import { NOT_REFUSED } from "./core.js";

export const hex2 = (number) => number.toString(16).toUpperCase().padStart(2, "0");
export const hex4 = (number) => number.toString(16).toUpperCase().padStart(4, "0");

const REASONS = {
    tape: {
        5: "malformed, cut short or a stray character", 6: "a wrong sum", 7: "past FFFF", 8: "no end record, or a wrong number in it",
    },
    hex: {
        5: "malformed, cut short, a stray character or a type other than 00 and 01", 6: "a wrong sum", 7: "past FFFF",
        8: "no end record, or more than 65535 data records",
    },
};
const records = (count) => count === 1 ? `${count} good record and ` : `${count} good records and `;
const kept = (count) => count === 1 ? `${count} record is kept` : `${count} records are kept`;

export const SENTENCES = {
    noRoom: () => `stopped: the cycle count has no room for another step`,
    notAnOpcode: (byte, counter) => `stopped: the byte ${hex2(byte)} at ${hex4(counter)} is no documented opcode`,
    running: (steps) => `not finished: the program was still running after ${steps} steps`,
    ended: (counter) => `done: it ended at ${hex4(counter)}, as it was meant to`,
    wouldRead: (steps, place) => `halted before step ${steps + 1}: it would read the sealed byte at ${hex4(place)}`,
    unread: (word, steps) => `no byte of ${word} was read in ${steps} steps`,
    noStretch: (word) => `sealed: "${word}" is no stretch: give FIRST-LAST, as 0400-04FF, and a comma between two`,
    backwards: (word) => `sealed: "${word}" runs backwards`,
    atTheStart: (word) => `sealed: "${word}" cannot be sealed: the run finds its start at FFFC and FFFD`,
    notFull: () => `refused: the image is not 65536 bytes long`,
    halted: () => `refused: it is a halted run, which only go takes`,
    tooLong: () => `refused: it has more than 1048575 characters`,
    good: (count) => `done: all ${count} records are good, the end record counted`,
    bad: (kind, answer, good, place) => `refused after ${records(good)}${place} characters: ${REASONS[kind][answer]}`,
    torn: (good, dropped, first) => `torn: ${kept(good)}, ${dropped} dropped, the first after ${first} characters`,
    between: (good) => `${kept(good)}; something between records may have been one, or one is missing`,
    tooMany: () => `refused: more than 65535 records could be kept`,
    tooMuch: () => `refused: what could be kept is longer than the buffer`,
    firstAboveLast: () => `refused: the first address is above the last`,
    twoAddresses: () => `punch: give two addresses, the first and the last, as four capital hexadecimal digits each`,
    noStop: () => `report: after --stop comes an address, four capital hexadecimal digits`,
    noSteps: () => `STEPS is a decimal number below 18446744073709551616`,
    accepted: (lines) => `accepted: every line follows, lines: ${lines}`,
    malformed: (line) => `refused: line ${line} is malformed, cut short or missing`,
    stray: (line) => `refused: line ${line} is not the state after a step from the line before`,
    notWritten: () => `not written`,
};

// --- Of this page alone.
export const OWN = {
    runs: () => `it runs; Stop, or the key X, halts it between two steps`,
    there: (counter, steps) => `the counter is at ${hex4(counter)} after ${steps} steps; nothing says that it finished`,
    started: (counter) => `nothing was run yet: the program starts at ${hex4(counter)}`,
    loaded: (name) => `the image ${name} is loaded`,
    laid: (name) => `the memory is what ${name} leaves`,
    back: (steps) => `back: this is the machine after ${steps} steps`,
    noAddress: () => `refused: give an address, four hexadecimal digits`,
    noPage: () => `refused: give a page, two hexadecimal digits`,
    noCycles: () => `refused: give a number of cycles from 0 to 1000000`,
    noSuchStep: (steps) => `refused: give a step from 0 to ${steps}`,
    noFile: (name) => `refused: ${name} cannot be read`,
    sealed: (word) => `sealed: ${word}; a run is halted before it would read a byte there`,
    unsealed: () => `nothing is sealed`,
    lever: (line, level) => `the line ${line} is ${level}`,
    served: (line, pushed, vector, goal) =>
        `${line} is served: ${pushed} are pushed, and the address at ${hex4(vector)} leads to ${hex4(goal)}`,
    serves: (line) => `The next step serves ${line}, and reads no opcode.`,
    written: (name) => `${name} is handed to the browser, which keeps it`,
    blanked: (word) => `the sealed bytes of ${word} that the program never stored to are 00 in it`,
    longLog: (most) => `refused: a log has at most ${most} steps here; go back, or run trace`,
    linesLog: () => `a line was low in this run, and check knows idle lines only`,
    noLesson: () => `Choose a lesson, open a file, or drop one onto the page: an image, a paper tape, Intel HEX, or a log.`,
    rescueOffered: () => `The good records of a torn tape can be rescued. A rescued tape is not a whole tape.`,
    kept: (name) => `${name} is still loaded`,
};

// How a run ended. It is done only at the address where it is meant to end; it broke off where no step could be made or it was halted.
export function ending(result, steps, fields, memory, goal) {
    if (result.answer === 13) return { tone: "bad", text: SENTENCES.wouldRead(steps, result.place) };
    if (result.answer === 2) return { tone: "bad", text: SENTENCES.noRoom() };
    if (result.answer === 3 && fields.pc === goal) return { tone: "good", text: SENTENCES.ended(fields.pc) };
    if (result.answer === 3) return { tone: "bad", text: SENTENCES.notAnOpcode(memory[fields.pc], fields.pc) };
    return { tone: "plain", text: SENTENCES.running(steps) };
}

// What was found in a log of so many entries.
export function finding(answer, line, entries) {
    if (answer === NOT_REFUSED) return { tone: "good", text: SENTENCES.accepted(entries) };
    return { tone: "bad", text: answer === 12 ? SENTENCES.stray(line) : SENTENCES.malformed(line) };
}
