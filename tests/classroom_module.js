// classroom_module.js MODULE SUMS: the scripts of web/ in node, without a page. They are put together as ./classroom puts them, but for
// what needs a browser. It compares the module with the gate's list of steps, with SUMS, which the archives for x86-64 gave to the
// same random steps, and with what the gate expects of `survey` and `check`; it looks the page's sentences up in the programs; and it
// goes back to earlier steps. It prints a line for each check, as tests/checks does, and the rate.
"use strict";
const fs = require("fs");
const path = require("path");

const root = path.dirname(__dirname), read = (name) => fs.readFileSync(path.join(root, name));
const script = ["core", "sentences", "machine", "files", "lessons"].map((part) =>
    String(read(`web/${part}.js`)).replace(/^import .*\n/gm, "").replace(/^export /gm, ""));
const { Core, Machine, SENTENCES, LESSONS, HONEST, imageOf, kindOf, take, rescue, checkLog, hex4 } =
    new Function(`${script.join("")}; return { Core, Machine, SENTENCES, LESSONS, HONEST, imageOf, kindOf, take, rescue, checkLog, hex4 };`)();

let failed = false;
function told(what, right) {
    console.log(`${right ? "ok     " : "FAILED "} ${what}`);
    failed ||= !right;
}
const hex = (digits) => parseInt(digits, 16);

// --- The list of steps that the gate replays.
function replay(core) {
    const lines = String(read("crates/program_replay/stdin")).trimEnd().split("\n"), memory = core.memory();
    const cells = (text) => text.trim().split(" ").filter(Boolean).map((cell) => cell.split("@").map(hex));
    const number = ([, , pc, a, x, y, s, p], levels) =>
        core.registers(hex(a), hex(x), hex(y), hex(s), hex(p), hex(pc)) | (levels & 4 ? 1n << 56n : 0n);
    let wrong = 0;
    for (const line of lines) {
        const [before, bytes, after, stored] = line.split("|").map((part) => part.trim()), from = before.split(" "),
            to = after.split(" ");
        const levels = hex(from[1]);
        memory.fill(0);
        for (const [byte, address] of cells(bytes)) memory[address] = byte;
        const expected = memory.slice();
        for (const [byte, address] of cells(stored)) expected[address] = byte;
        const made = core.step({ registers: number(from, levels), cycles: BigInt(from[8]) }, levels & 3);
        const fields = core.fields(made.registers), state = [hex4(fields.pc),
            ...[fields.a, fields.x, fields.y, fields.s].map((byte) => hex4(byte).slice(2))];
        const flags = (byte) => byte & 0xCF;
        if (made.answer !== hex(to[0]) || state.join(" ") !== to.slice(2, 7).join(" ") || flags(fields.p) !== flags(hex(to[7]))
            || (fields.nmi === 0) !== ((hex(to[1]) & 4) !== 0) || made.cycles !== BigInt(to[8])
                || Buffer.compare(memory, expected) !== 0) wrong++;
    }
    told(`the gate's list: ${lines.length} steps`, wrong === 0 && lines.length > 4000);
}

// --- The same random steps as tests/classroom_compare.c, number for number.
function compare(core, sums) {
    let seed = 20260101, sum = 2166136261;
    const draw = () => {
        seed ^= seed << 13;
        seed ^= seed >>> 17;
        seed ^= seed << 5;
        return seed >>> 0;
    };
    const add = (number) => { sum = Math.imul(sum ^ number, 16777619); };
    const addLong = (number) => { add(Number(number & 0xFFFFFFFFn)); add(Number(number >> 32n)); };
    const drawRegisters = () => {
        const low = BigInt(draw());
        return low | BigInt(draw() & 0x01FFFFFF) << 32n;
    };
    const memory = core.memory(), map = core.map();
    const footprint = (places) => { add(places.length); for (let index = 0; index < 5; index++) add(places[index] ?? 0); };
    const oneStep = () => {
        const registers = drawRegisters(), cycles = draw() % 64 === 0 ? 18446744073709551604n + BigInt(draw() % 12) : BigInt(draw());
        const lines = draw() & 3, stores = core.stores({ registers, cycles }, lines);
        footprint(core.reads({ registers, cycles }, lines));
        footprint(stores);
        const made = core.step({ registers, cycles }, lines), { pc, a, x, y, s, p, nmi } = core.fields(made.registers);
        add(made.answer);
        addLong(made.registers);
        addLong(made.cycles);
        add(made.place);
        for (const place of stores) add(memory[place]);
        add(pc);
        add(a << 24 | x << 16 | y << 8 | s);
        add(p << 8 | nmi);
    };
    const runs = () => {
        let state = { registers: drawRegisters(), cycles: BigInt(draw()) };
        const lines = draw() & 3, stop = draw() & 0xFFFF;
        const made = (result) => { state = result; add(result.answer); addLong(BigInt(result.steps)); };
        made(core.run(state, draw() % 100, lines));
        made(core.runCycles(state, draw() % 400, lines));
        made(core.runTo(state, stop, draw() % 100, lines));
        made(core.guardedRun(state, draw() % 100, lines));
        add(state.place);
        addLong(state.registers);
        addLong(state.cycles);
        const first = draw() & 0xFFFF, last = draw() & 0xFFFF, { answer, text } = core.list(first, last, 4096);
        add(answer);
        add(text.length);
        for (const byte of text) add(byte);
    };
    map.fill(0);
    for (let index = 0; index < 300; index++) {
        const address = draw() & 0xFFFF;
        map[address >> 3] |= 1 << (address & 7);
    }
    const same = sums.every((expected) => {
        for (let index = 0; index < memory.length; index++) memory[index] = draw() >>> 24;
        for (let index = 0; index < 1000; index++) oneStep();
        runs();
        for (let index = 0; index < memory.length; index++) add(memory[index]);
        return (sum >>> 0).toString(16).padStart(8, "0") === expected;
    });
    told(`${sums.length * 1000} random steps, with their footprints, and ${sums.length * 4} runs and ${sums.length} listings: as the archives for x86-64`, same && sums.length === 1000);
    map.fill(0);
}

// --- The readers, as the gate has them of `survey` and `check`.
// The files of `args`, in their order; `-` is standard input, and one of the names is missing on purpose.
const inputs = (folder) => String(read(`${folder}/args`)).trim().split(/\s+/).map((name) =>
    path.join(folder, name === "-" ? "stdin" : `data/${name}`))
    .filter((name) => fs.existsSync(path.join(root, name))).map(read);
function readers(core) {
    const folder = "crates/program_survey", lines = String(read(`${folder}/stdout`)).trimEnd().split("\n");
    const found = inputs(folder).map((tape) => {
        core.memory(core.copy).fill(0);
        const { answer, good, place } = core.load(tape, false);
        const saved = core.rescue(tape);
        return [answer, good, place, saved.answer, saved.good, saved.dropped, saved.place].join(" ");
    });
    told(`${found.length} tapes, read and rescued as the gate expects`, found.length > 40 && found.join() === lines.join());
    const logs = "crates/program_check", verdicts = String(read(`${logs}/stdout`)).trimEnd().split("\n"), [image, ...rest] = inputs(logs);
    const machine = new Machine(core);
    machine.load(image, "modes.img");
    const checked = rest.map((log) => {
        const { tone, text, beside } = checkLog(machine, log);
        const line = /line (\d+)/.exec(text)?.[1], right = beside.find(([word]) => word === "right");
        return tone === "good" ? "0 0" : [text.includes("is not the state") ? 12 : 11, line, ...right ? [right[1]] : []].join(" ");
    });
    told(`${checked.length} logs, checked as the gate expects, the right line too`, checked.length > 15
        && checked.join() === verdicts.join());
}

// --- The sentences: each piece of the first part of the table stands in a program.
function sentences() {
    const [, table] = /^const REASONS([\s\S]*?)^\/\/ --- Of this page alone/m.exec(String(read("web/sentences.js")));
    const pieces = [...table.matchAll(/`([^`]*)`|"([^"]*)"/g)].flatMap(([, template, plain]) =>
        (template ?? plain).split(/\$\{[^}]*\}/)).filter((piece) => /[a-z]{2}/.test(piece));
    const literals = fs.readdirSync(path.join(root, "crates")).flatMap((crate) => {
        const folder = path.join(root, "crates", crate, "src");
        return fs.existsSync(folder) ? fs.readdirSync(folder).map((file) => String(fs.readFileSync(path.join(folder, file)))) : [];
    }).join("\n").replace(/\\"/g, '"');
    const strange = pieces.filter((piece) => !literals.includes(piece));
    told(`${pieces.length} pieces of sentences, each in a program${strange.length ? `, but: ${strange.join(" | ")}` : ""}`,
        pieces.length > 40 && strange.length === 0);
}

// --- The lessons' images are those of the pages.
function lessons(core) {
    const image = (id) => imageOf(LESSONS.find((lesson) => lesson.id === id).image), machine = new Machine(core);
    told("the sealed lesson has letter.img", Buffer.compare(image("sealed"), read("crates/program_sealed/data/letter.img")) === 0);
    machine.load(image("log"), "");
    const doc = String(read("docs/TRACES.md"));
    told("the log lesson has the program and the log of TRACES.md",
        machine.listing(0x0200, 10).every((line) => doc.includes(`    ${line} `)) && HONEST.every((entry) => doc.includes(entry)));
    machine.load(image("bell"), "");
    const [bell, source] = [machine.listing(0x0200, 4).concat(machine.listing(0x0300, 3)), String(read("host/examples/bell.c"))];
    told("the bell lesson has the program of bell.c", bell.every((line) =>
        source.includes(line.replace(/^(....) (?:[0-9A-F]{2} )+/, "$1 "))));
}

// --- Back to any earlier step, with levers that were put over; the same machine each time.
function backwards(core) {
    const machine = new Machine(core), states = [], state = () =>
        `${machine.entry(machine.state)}${machine.fields.nmi}${Buffer.from(machine.memory).toString("base64")}`;
    machine.load(imageOf(LESSONS.find(({ id }) => id === "bell").image), "");
    states.push(state());
    for (let step = 1; step <= 300; step++) {
        machine.lines = Math.floor(step / 7) % 2 * 2; // the bell is held for seven steps, and then let go
        machine.run("steps", 1);
        states.push(state());
    }
    const right = [300, 299, 151, 150, 77, 24, 7, 1, 0].every((to) => {
        machine.back(to);
        return machine.steps === to && state() === states[to];
    });
    told("back to earlier steps, with the lines of that time", right && machine.steps === 0);
    machine.load(read("crates/program_report/data/for-ever.img"), "");
    for (let part = 0; part < 5; part++) machine.run("steps", 1000000);
    machine.back(1234567);
    const there = state();
    machine.restart();
    machine.run("steps", 1234567);
    told("back in a long run, by snapshots", there === state());
}

// --- Bad input leaves what was loaded.
function bad(core) {
    const machine = new Machine(core), before = () => `${machine.name} ${machine.steps} ${machine.entry(machine.state)}`;
    machine.load(read("crates/program_sealed/data/letter.img"), "letter.img");
    machine.run("steps", 100);
    const was = before(), said = (name, bytes, ...expected) => {
        const { tone, text } = take(machine, name, new Uint8Array(bytes), false);
        told(`${name}: ${expected[0]}`, tone === "bad" && text === `${name}: ${expected[0]}` && before() === was);
    };
    said("short.img", Buffer.alloc(65535), "refused: the image is not 65536 bytes long");
    said("empty", Buffer.alloc(0), "refused: the image is not 65536 bytes long");
    said("noon.img", Buffer.concat([Buffer.alloc(65536), Buffer.from("15 0205 05 00 00 FF 34\n")]),
        "refused: it is a halted run, which only go takes");
    said("torn.tap", read("crates/program_survey/data/torn.tap"),
        "refused after 1 good record and 17 characters: malformed, cut short or a stray character");
    said("sum.hex", Buffer.from(":0102000000FE\n"), "refused after 0 good records and 0 characters: a wrong sum");
    said("type.hex", Buffer.from(":020000040000FA\n"), "refused after 0 good records and 0 characters: malformed, cut short, a stray character or a type other than 00 and 01");
    said("unended", Buffer.from(";010200A900AC\r\n"), "refused after 1 good record and 15 characters: no end record, or a wrong number in it");
    said("long.tap", Buffer.alloc(1048576, 10), "refused: it has more than 1048575 characters");
    said("x.log", Buffer.from("nonsense\n"), "refused: line 1 is malformed, cut short or missing");
    const lost = rescue(machine, { name: "noise.tap", bytes: Buffer.from(";zz"), onto: false });
    told("a rescue that saves nothing leaves what was loaded", lost.text === `noise.tap: ${SENTENCES.torn(0, 1, 0)}` && before() === was);
    told("kinds by content", kindOf("a", Buffer.from("\r\n;00")) === "tape"
        && kindOf("a", Buffer.from("0 0200 00 00 00 FF 34\n")) === "log" && kindOf("a", Buffer.alloc(65536, 59)) === "image");
}

function rate(core) {
    for (const [what, image] of [["crates/program_go/data/loops.img", read("crates/program_go/data/loops.img")],
        ["crates/program_report/data/for-ever.img", read("crates/program_report/data/for-ever.img")]]) {
        const steps = 20000000, times = [1, 2, 3, 4, 5].map(() => {
            core.memory().set(image);
            const state = { registers: core.registers(0, 0, 0, 0xFF, 0x04, image[0xFFFC] + 256 * image[0xFFFD]), cycles: 0n },
                began = process.hrtime.bigint();
            const made = core.run(state, steps, 0).steps;
            return made * 1000 / Number(process.hrtime.bigint() - began);
        });
        console.log(`rate    node ${process.versions.node}, ${what}: ${Math.max(...times).toFixed(1)} M steps/s`);
    }
}

(async () => {
    const [, , module, sums] = process.argv, core = await Core.open(fs.readFileSync(module));
    replay(core);
    compare(core, String(fs.readFileSync(sums)).trimEnd().split("\n"));
    readers(core);
    sentences();
    lessons(core);
    backwards(core);
    bad(core);
    rate(core);
    process.exit(failed ? 1 : 0);
})();
