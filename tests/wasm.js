// What tests/wasm tries: node wasm.js ROOT MODULE [--rate]
"use strict";
const fs = require("fs");
const path = require("path");
const [root, file, rate] = process.argv.slice(2);
const read = (name) => fs.readFileSync(path.join(root, name));
const lines = (name) => read(name).toString().split("\n").slice(0, -1);

const counts = { ok: 0, FAILED: 0 };
function gives(what, found, expected) {
    const mark = found === expected ? "ok" : "FAILED";
    counts[mark] += 1;
    console.log(mark.padEnd(7), what);
    if (mark === "FAILED") console.log(`        it gives:  ${found}\n        expected:  ${expected}`);
}

const compiled = new WebAssembly.Module(fs.readFileSync(file));
gives("it takes nothing from outside", WebAssembly.Module.imports(compiled).length, 0);
const named = new Set();
const functions = new WebAssembly.Instance(compiled).exports;
const e = new Proxy(functions, { get: (all, name) => named.add(name) && all[name] });

// What is lent stands in the module's memory: the numbers first, then two maps, images and texts.
const numbers = (e.__heap_base.value + 7) & ~7;
const [registers, cycles, steps, place, size, good] = [0, 8, 16, 24, 32, 40].map((offset) => numbers + offset);
const [places, nothing, sealed] = [64, 128, 128 + 8192].map((offset) => numbers + offset);
const [memory, copy, text] = [1, 2, 3].map((count) => numbers + 65536 * count);
const room = 917504n;
e.memory.grow(Math.ceil((text + Number(room) - e.memory.buffer.byteLength) / 65536));
const view = new DataView(e.memory.buffer);
const lent = (at, length) => new Uint8Array(e.memory.buffer, at, length);
const number = (at) => view.getBigUint64(at, true);
const hex = (value, digits) => value.toString(16).toUpperCase().padStart(digits, "0");
// Of a byte or a word that comes back only the low bits count.
const byte = (value) => value & 0xFF;
const counter = () => hex(e.mos6502_counter(number(registers)) & 0xFFFF, 4);
const result = (answer) => `${byte(answer)} ${Buffer.from(lent(text, Number(number(size)))).toString()}`;

// Lends bytes, and gives their length as a call takes it.
function lend(at, bytes) {
    lent(at, bytes.length).set(bytes);
    return BigInt(bytes.length);
}
// Lends an image, with the machine that report starts it with.
function start(image) {
    const first = image.length > 0xFFFD ? image[0xFFFC] + 256 * image[0xFFFD] : 0;
    view.setBigUint64(registers, e.mos6502_registers(0, 0, 0, 0xFF, 0x04, first), true);
    for (const at of [cycles, steps, place]) view.setBigUint64(at, 0n, true);
    return lend(memory, image);
}
// report's line after an answer.
function line(answer) {
    const bytes = ["accumulator", "x", "y", "stack", "status"].map((name) => hex(byte(e[`mos6502_${name}`](number(registers))), 2));
    return answer === 1 ? "1" : [answer, number(steps), number(cycles), counter(), ...bytes].join(" ");
}
// At most so many steps one by one.
function single_steps(bound, length) {
    for (let made = 1n; made <= bound; made += 1n) {
        const answer = byte(e.mos6502_step(registers, cycles, 0, place, memory, length));
        if (answer !== 0) return answer;
        view.setBigUint64(steps, made, true);
    }
    return 0;
}

for (const expected of lines("crates/program_report/stdout")) {
    const [said, name] = expected.split("  ");
    const image = read(name === "-" ? "crates/program_report/stdin" : `crates/program_report/data/${name}`);
    const spent = said.startsWith("0") ? BigInt(said.split(" ")[2]) : 1000n;
    const numbers = [registers, cycles, steps];
    for (const [way, run] of [
        ["step", (length) => single_steps(1000n, length)],
        ["run", (length) => e.mos6502_run(...numbers, 1000n, 0, memory, length)],
        ["long_run", (length) => e.mos6502_long_run(...numbers, 1000n, 0, memory, length)],
        ["run_cycles", (length) => e.mos6502_run_cycles(...numbers, spent, 0, memory, length)],
        ["guarded_run", (length) => e.mos6502_guarded_run(...numbers, place, 1000n, 0, nothing, nothing, memory, length)],
    ]) {
        const length = start(image);
        gives(`mos6502_${way}: report's line of ${name}`, line(byte(run(length))), said);
    }
}

const report = read("crates/program_report/stdin");
const letter = read("crates/program_sealed/data/letter.img");
for (const [stop, expected] of [[0x0202, "0 1 2 0202 05 00 00 FF 34"], [0x0201, "3 1 2 0202 05 00 00 FF 34"]]) {
    const length = start(report);
    const answer = byte(e.mos6502_run_to(registers, cycles, steps, stop, 1000n, 0, memory, length));
    gives(`mos6502_run_to: to ${hex(stop, 4)}`, line(answer), expected);
}
gives("mos6502_nmi: high", byte(e.mos6502_nmi(number(registers))), 1);
lent(sealed + 0x0400 / 8, 32).fill(0xFF);
for (const [name, maps] of [["mos6502_guarded_run", [sealed, nothing]], ["mos6502_extract", [sealed]]]) {
    const length = start(letter);
    const answer = byte(e[name](registers, cycles, steps, place, 2000n, 0, ...maps, memory, length));
    const found = `${answer} ${number(steps)} ${counter()} ${hex(view.getUint16(place, true), 4)}`;
    gives(`${name}: as the example guard_image`, found, "13 1025 020B 0412");
}

// The addresses that one of the two functions lists, as the example footprints prints them.
function listed(name) {
    const count = Number(e[name](number(registers), number(cycles), 0, memory, 65536n, places));
    return [...Array(count).keys()].map((i) => hex(view.getUint16(places + 2 * i, true), 4) + " ").join("");
}
start(letter);
for (const expected of ["0200 0201 : ", "0202 0203 0204 0300 : ", "0205 0206 0207 : 0400 "]) {
    gives(`mos6502_reads, mos6502_stores: ${expected}`, `${listed("mos6502_reads")}: ${listed("mos6502_stores")}`, expected);
    single_steps(1n, 65536n);
}

// Good texts: all of their records are counted, by the mark of each.
for (const [name, program, mark] of [["mos6502_tape_load", "program_load", ";"], ["mos6502_hex_load", "program_tape", ":"]]) {
    const tape = read(`crates/${program}/stdin`);
    const answer = byte(e[name](text, lend(text, tape), memory, 65536n, good, place));
    const expected = `0 ${tape.toString().split(mark).length - 1} ${tape.length}`;
    gives(`${name}: ${expected}`, `${answer} ${number(good)} ${number(place)}`, expected);
}
for (const [name, program, more] of [
    ["mos6502_tape_to_hex", "program_hex", [good, place]],
    ["mos6502_hex_to_tape", "program_tape", [good, place]],
    ["mos6502_tape_rescue", "program_rescue", [good, steps, place]],
]) {
    const length = lend(copy, read(`crates/${program}/stdin`));
    const found = result(e[name](copy, length, text, room, size, ...more));
    gives(`${name}: as ${program}`, found, `0 ${read(`crates/${program}/stdout`)}`);
}
for (const [name, program] of [["mos6502_list", "program_list"], ["mos6502_tape_punch", "program_punch"]]) {
    const [first, last] = lines(`crates/${program}/args`).map((word) => parseInt(word, 16));
    lend(memory, read(`crates/${program}/stdin`));
    const found = result(e[name](memory, 65536n, first, last, text, room, size));
    gives(`${name}: as ${program}`, found, `0 ${read(`crates/${program}/stdout`)}`);
    gives(`${name}: the first above the last`, result(e[name](memory, 65536n, last, first, text, room, size)), "9 ");
}
lend(memory, report);
gives("mos6502_list: as the example list_image", result(e.mos6502_list(memory, 65536n, 0x0200, 0x0202, text, room, size)),
    "0 0200 A9 05 LDA #$05\n0202 02 ???\n");

lend(memory, read("crates/program_trace/stdin"));
const log = lend(text, read("crates/program_trace/stdout"));
const answer = byte(e.mos6502_trace_check(memory, 65536n, text, log, copy, 65536n, place));
gives("mos6502_trace_check: as the example check_trace", `${answer} ${number(place)}`, "0 0");

const headers = fs.readdirSync(path.join(root, "host/include")).map((name) => read(`host/include/${name}`).toString());
const declared = headers.flatMap((header) => [...header.matchAll(/^[a-z0-9]+_t (mos6502_\w+)\(/gm)].map((found) => found[1]));
const untried = declared.filter((name) => !(name in functions && named.has(name)));
gives("it has each function of the headers, and each was called", untried.join(), "");

if (rate === "--rate") {
    const length = start(read("crates/program_report/data/for-ever.img"));
    functions.mos6502_long_run(registers, cycles, steps, 20000000n, 0, memory, length);
    const before = process.hrtime.bigint();
    functions.mos6502_long_run(registers, cycles, steps, 400000000n, 0, memory, length);
    console.log(`${(4e8 / (Number(process.hrtime.bigint() - before) / 1e3)).toFixed(0)} million steps a second`);
}
console.log(`wasm: ${counts.ok} passed, ${counts.FAILED} failed`);
process.exitCode = counts.FAILED === 0 ? 0 : 1;
