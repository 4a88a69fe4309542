// machine.js: the machine of the page: what was loaded, where it stands, what is sealed, and how it came there. Every step is the
// core's; this file keeps the numbers, and goes back by making the same steps again from a snapshot.
import { SIZE, NOT_REFUSED, NOT_AN_OPCODE, WOULD_READ } from "./core.js";
import { hex2, hex4 } from "./sentences.js";

export const ROWS = 24; // steps that the timing table shows
export const PART = 5000000; // steps that are made before the page looks at its buttons
const APART = 50000, SNAPSHOTS = 64; // steps between two snapshots, and how many are kept

export class Machine {
    constructor(core) {
        this.core = core;
        this.seals = "";
        this.lines = 0;
        this.load(new Uint8Array(SIZE), "zeros");
    }

    // An image, and its start as report has it: at the address at FFFC, A, X and Y 00, S FF, only I set.
    load(image, name) {
        this.image = image.slice();
        this.name = name;
        this.restart();
    }
    restart() {
        const { core, image } = this;
        this.lines = 0;
        this.sealedAt = 0; // since which step what is sealed is guarded
        this.parts = []; // how many steps were made with which levels, in their order
        const registers = core.registers(0, 0, 0, 0xFF, 0x04, image[0xFFFC] + 256 * image[0xFFFD]);
        this.snapshots = [{ at: 0, registers, cycles: 0n, memory: image }];
        this.restore(this.snapshots[0]);
    }
    restore({ at, registers, cycles, memory }) {
        this.core.memory().set(memory);
        Object.assign(this, { steps: at, state: { registers, cycles }, rows: [], last: null });
    }
    get fields() {
        return this.core.fields(this.state.registers);
    }
    get memory() {
        return this.core.memory();
    }

    // --- The next step, before it is made. A step that reads two bytes and stores to three serves a line: BRK reads its opcode too.
    get next() {
        const reads = this.core.reads(this.state, this.lines), stores = this.core.stores(this.state, this.lines);
        const serves = reads.length === 2 && stores.length === 3 ? (reads[0] === 0xFFFA ? "NMI" : "IRQ") : "";
        return { reads, stores, serves };
    }
    // The text lines of the listing, from an address on.
    listing(first, length) {
        const { text } = this.core.list(first, Math.min(first + length - 1, 0xFFFF));
        return new TextDecoder().decode(text).trimEnd().split("\n");
    }

    // One step that can be made, with its row.
    stepOnce() {
        const { core } = this, before = this.fields, { reads, stores, serves } = this.next;
        const text = serves ? `${serves} is served` : this.listing(before.pc, 3)[0];
        const after = core.step(this.state, this.lines);
        this.rows.push({ step: ++this.steps, text, cycles: after.cycles - this.state.cycles, first: after.place });
        if (this.rows.length > ROWS) this.rows.shift();
        this.state = after;
        const pushed = stores.map((place) => `${hex2(this.memory[place])} at ${hex4(place)}`);
        this.last = { before, stores, serves, vector: reads[0], pushed };
    }
    // So many steps that can be made: the last of them one by one.
    make(count) {
        if (this.steps - this.snapshots.at(-1).at >= APART) this.keep();
        const quick = count - Math.min(count, ROWS);
        if (quick > 0) {
            this.state = this.core.run(this.state, quick, this.lines);
            this.steps += quick;
        }
        for (let left = count - quick; left > 0; left--) this.stepOnce();
        if (this.parts.at(-1)?.lines === this.lines) this.parts.at(-1).count += count;
        else if (count > 0) this.parts.push({ count, lines: this.lines });
    }
    keep() {
        if (this.snapshots.length >= SNAPSHOTS) this.snapshots = this.snapshots.filter((_, index) => index % 2 === 0);
        this.snapshots.push({ at: this.steps, ...this.state, memory: this.memory.slice() });
    }

    // A part of a run: so many steps, or to an address, or so many cycles. It is tried on a copy of the memory, then with what is
    // sealed, and only then made, up to where that came.
    run(kind, amount, stop) {
        const { core, state, lines } = this, copied = () => (core.memory(core.copy).set(core.memory()), core.copy);
        let result = kind === "to" ? core.runTo(state, stop, amount, lines, copied())
            : kind === "cycles" ? core.runCycles(state, amount, lines, copied()) : core.run(state, amount, lines, copied());
        if (this.seals) {
            const guarded = core.guardedRun(state, result.steps + (result.answer === NOT_AN_OPCODE ? 1 : 0), lines, copied());
            if (guarded.answer === WOULD_READ) result = guarded;
        }
        this.make(result.steps);
        return result;
    }

    // Back to an earlier step, with the levels of that time. What came after it is forgotten.
    back(to) {
        const parts = this.parts, near = this.snapshots.filter(({ at }) => at === 0 || at <= to - ROWS);
        this.snapshots = near;
        this.parts = [];
        this.restore(near.at(-1));
        let passed = 0, from = this.steps;
        for (const { count, lines } of parts) {
            const made = Math.min(count, to - passed);
            if (made <= 0) break;
            const before = Math.max(0, Math.min(made, from - passed));
            if (before > 0) this.parts.push({ count: before, lines });
            this.lines = lines;
            this.make(made - before);
            passed += made;
        }
        if (to === 0) this.lines = 0;
        this.sealedAt = Math.min(this.sealedAt, to);
    }

    // --- What is sealed: a word as 0400-04FF,0600-06FF, which was looked over.
    seal(word) {
        const map = this.core.map();
        map.fill(0);
        for (const stretch of word ? word.split(",") : []) {
            const [first, last] = stretch.split("-").map((digits) => parseInt(digits, 16));
            for (let address = first; address <= last; address++) map[address >> 3] |= 1 << (address & 7);
        }
        this.seals = word;
        this.sealedAt = this.steps;
    }
    isSealed(address) {
        return (this.core.map()[address >> 3] >> (address & 7) & 1) === 1;
    }

    // --- What can be handed out. With something sealed it is an extract: all steps are made again, from an image in which the sealed
    // bytes are 00, and it is refused if one of them would have read such a byte. The memory that is handed out is the core's copy.
    extract() {
        const { core } = this, copy = core.copy;
        if (!this.seals) return core.memory(copy).set(this.memory), { answer: NOT_REFUSED };
        core.memory(copy).set(this.image);
        let state = core.blank(this.snapshots[0], copy), steps = 0;
        for (const part of this.parts) {
            state = core.guardedRun(state, part.count, part.lines, copy);
            steps += state.steps;
            if (state.answer !== NOT_REFUSED) break;
        }
        return { ...state, steps };
    }
    // The state as a text line of a log, and the log of all steps so far.
    entry({ registers, cycles }) {
        const { pc, a, x, y, s, p } = this.core.fields(registers);
        return `${cycles} ${hex4(pc)} ${[a, x, y, s, p].map(hex2).join(" ")}\n`;
    }
    log() {
        const { core } = this, entries = [this.entry(this.snapshots[0])];
        core.memory(core.copy).set(this.image);
        let state = this.snapshots[0];
        for (const { count, lines } of this.parts) {
            for (let left = count; left > 0; left--) entries.push(this.entry(state = core.step(state, lines, core.copy)));
        }
        return entries.join("");
    }
    get wasIdle() {
        return this.parts.every(({ lines }) => lines === 0);
    }
    // The state after a step from an entry that was accepted, on the copy that the check left: the answer, and its text line.
    following(entry) {
        const [cycles, ...fields] = entry.split(" "), [pc, a, x, y, s, p] = fields.map((digits) => parseInt(digits, 16));
        const { core } = this, after = core.step({ registers: core.registers(a, x, y, s, p, pc), cycles: BigInt(cycles) }, 0, core.copy);
        return { answer: after.answer, text: this.entry(after), byte: core.memory(core.copy)[pc], pc };
    }
}
