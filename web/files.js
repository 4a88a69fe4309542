// files.js: what comes in and what goes out. A file is read by the core's readers; it takes the place of what was loaded only if all of
// it is good. What is found is given back as an answer: its sentences, and what may be offered.
import { SIZE, NOT_REFUSED, STRAY_ENTRY, WOULD_READ, NOT_AN_OPCODE } from "./core.js";
import { SENTENCES, OWN, finding } from "./sentences.js";

const LONGEST_TAPE = 1048575, LONGEST_LOG = 200000;

const bad = (text, ...more) => ({ tone: "bad", text, more });
const latin = (bytes) => Array.from(bytes, (byte) => byte >= 32 && byte < 127 ? String.fromCharCode(byte) : "?").join("");
// As the programs print a name: what could begin a text line or worse is `?`.
export const printed = (name) => name.replace(/[\u0000-\u001f\u007f]/g, "?");

// The first character that is no separator of a tape: CR, LF and NUL.
const firstMark = (bytes) => String.fromCharCode(bytes.find((byte) => byte !== 13 && byte !== 10 && byte !== 0) ?? 0);

// What a file is meant to be, by its name, and otherwise by what stands in it.
export function kindOf(name, bytes) {
    const end = /\.([a-z0-9]+)$/i.exec(name)?.[1].toLowerCase();
    if (end === "log") return "log";
    if (["tap", "tape", "ptp", "hex", "ihx"].includes(end)) return "tape";
    if (["img", "bin"].includes(end) || bytes.length === SIZE) return "image";
    if (firstMark(bytes) === ";" || firstMark(bytes) === ":") return "tape";
    return /^\d+ [0-9A-F]{4} /.test(latin(bytes.subarray(0, 40))) ? "log" : "image";
}

// A file that was opened or dropped. `onto` says whether a tape is laid onto the memory as it is, or onto zeros.
export function take(machine, name, bytes, onto) {
    const kind = kindOf(name, bytes);
    const found = kind === "log" ? checkLog(machine, bytes)
        : kind === "tape" ? takeTape(machine, name, bytes, onto) : takeImage(machine, name, bytes);
    return { ...found, kind, text: `${printed(name)}: ${found.text}` };
}

function takeImage(machine, name, bytes) {
    if (bytes.length !== SIZE) {
        // A halted run is a memory, and then one entry of a log.
        const rest = bytes.subarray(SIZE), one = rest.indexOf(10) === rest.length - 1;
        const halted = rest.length > 0 && one && machine.core.check(bytes.subarray(0, SIZE), rest).answer === NOT_REFUSED;
        return bad(halted ? SENTENCES.halted() : SENTENCES.notFull(), OWN.kept(machine.name));
    }
    machine.load(bytes, printed(name));
    return { tone: "plain", text: OWN.started(machine.fields.pc), loaded: true, more: [] };
}

// Lays a tape onto the core's copy: what the reader found.
function lay(machine, text, hex, onto) {
    const { core } = machine;
    core.memory(core.copy).set(onto ? machine.memory : new Uint8Array(SIZE));
    return core.load(text, hex);
}

function takeTape(machine, name, bytes, onto) {
    if (bytes.length > LONGEST_TAPE) return bad(SENTENCES.tooLong(), OWN.kept(machine.name));
    const kind = firstMark(bytes) === ":" ? "hex" : "tape", found = lay(machine, bytes, kind === "hex", onto);
    if (found.answer !== NOT_REFUSED) {
        const more = [OWN.kept(machine.name), ...kind === "tape" ? [OWN.rescueOffered()] : []];
        const torn = kind === "tape" ? { name, bytes, onto } : null;
        return { ...bad(SENTENCES.bad(kind, found.answer, found.good, found.place), ...more), torn };
    }
    machine.load(machine.core.memory(machine.core.copy), printed(name));
    return { tone: "good", text: SENTENCES.good(found.good), more: [OWN.started(machine.fields.pc)], loaded: true };
}

// What can be saved of a torn tape takes the place of what was loaded, if something can be.
export function rescue(machine, { name, bytes, onto }) {
    const saved = machine.core.rescue(bytes);
    if (saved.answer === 8) return bad(SENTENCES.tooMany(), OWN.kept(machine.name));
    if (saved.answer !== NOT_REFUSED) return bad(SENTENCES.tooMuch(), OWN.kept(machine.name));
    const old = lay(machine, bytes, false, onto), more = [];
    if (saved.dropped === 0) more.push(SENTENCES.bad("tape", old.answer, old.good, old.place));
    const text = saved.dropped > 0 ? SENTENCES.torn(saved.good, saved.dropped, saved.place) : SENTENCES.between(saved.good);
    const said = `${printed(name)}: ${text}`, loaded = saved.good > 0 && lay(machine, saved.text, false, onto).answer === NOT_REFUSED;
    if (!loaded) return bad(said, ...more, OWN.kept(machine.name));
    machine.load(machine.core.memory(machine.core.copy), `what was rescued of ${printed(name)}`);
    return { ...bad(said, ...more, OWN.started(machine.fields.pc)), loaded };
}

// A log, checked on the image that was loaded. The first bad line is shown beside the right one, if there is one.
export function checkLog(machine, log) {
    const { answer, place } = machine.core.check(machine.image, log);
    const lines = new TextDecoder("latin1").decode(log).split("\n");
    const found = { ...finding(answer, place, lines.length - 1), more: [], beside: [] };
    if (answer === NOT_REFUSED) return found;
    found.beside.push([`line ${place}`, printed((lines[place - 1] ?? "").slice(0, 80))]);
    if (answer !== STRAY_ENTRY) return found;
    const right = machine.following(lines[place - 2]);
    if (right.answer === NOT_REFUSED) found.beside.push(["right", right.text.trimEnd()]);
    else if (right.answer === NOT_AN_OPCODE) found.more.push(SENTENCES.notAnOpcode(right.byte, right.pc));
    else found.more.push(SENTENCES.noRoom());
    return found;
}

// --- What goes out.
function hand(name, bytes, type, ...more) {
    const link = document.createElement("a");
    link.href = URL.createObjectURL(new Blob([bytes], { type }));
    link.download = name;
    link.click();
    setTimeout(() => URL.revokeObjectURL(link.href), 60000);
    return { tone: "plain", text: OWN.written(name), more };
}

const stem = (machine) => machine.name.replace(/^.* of /, "").replace(/\.[^.]*$/, "").replace(/[^A-Za-z0-9_-]+/g, "-") || "memory";

// The memory as it is, or an extract of it if something is sealed; refused if that was read.
export function saveMemory(machine, kind, stretch) {
    const { core } = machine, taken = machine.extract(), more = machine.seals ? [OWN.blanked(machine.seals)] : [];
    if (taken.answer === WOULD_READ) return bad(SENTENCES.wouldRead(taken.steps, taken.place), SENTENCES.notWritten());
    if (kind === "image") return hand(`${stem(machine)}.img`, core.memory(core.copy).slice(), "application/octet-stream", ...more);
    const [, first, last] = /^([0-9A-F]{4})-([0-9A-F]{4})$/.exec(stretch) ?? [];
    if (!last) return bad(SENTENCES.twoAddresses());
    const punched = core.punch(parseInt(first, 16), parseInt(last, 16), core.copy);
    if (punched.answer !== NOT_REFUSED) return bad(SENTENCES.firstAboveLast());
    if (kind === "tape") return hand(`${stem(machine)}.tap`, punched.text, "text/plain", ...more);
    return hand(`${stem(machine)}.hex`, core.tapeToHex(punched.text).text, "text/plain", ...more);
}

export function saveLog(machine) {
    if (machine.steps > LONGEST_LOG) return bad(OWN.longLog(LONGEST_LOG));
    const log = new TextEncoder().encode(machine.log());
    return hand(`${stem(machine)}.log`, log, "text/plain", machine.wasIdle ? checkLog(machine, log).text : OWN.linesLog());
}
