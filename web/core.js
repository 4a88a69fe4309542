// core.js: every call of the proved module, and nothing else. No other file of the page knows the module. What is lent to a call is a
// place in the module's own memory; a number of 64 bits, a length too, is a BigInt; of a returned byte only the low eight bits count.
export const SIZE = 65536;
const FULL = 65536n, MAP_SIZE = 8192, PLACES = 5, LISTING_ROOM = 262144, TAPE_ROOM = 1048576;

// The answers that the page asks about by name; host/include/mos6502_answers.h has all of them.
export const NOT_REFUSED = 0, NOT_AN_OPCODE = 3, STRAY_ENTRY = 12, WOULD_READ = 13, NOT_THERE = 15;
export const NMI_LOW = 1, IRQ_LOW = 2;

export class Core {
    static async open(wasm) {
        return new Core((await WebAssembly.instantiate(wasm)).instance.exports);
    }

    // The places, one after another from the module's heap on: numbers, the machine's memory, a copy of it, the map of what is
    // sealed, a map of nothing, and the texts, for which the module's memory grows.
    constructor(exports) {
        this.calls = exports;
        this.numbers = (exports.__heap_base.value + 15) & ~15;
        this.machine = this.numbers + 256;
        this.copy = this.machine + SIZE;
        this.sealed = this.copy + SIZE;
        this.nothing = this.sealed + MAP_SIZE;
        this.texts = this.nothing + MAP_SIZE;
        this.room(0);
    }

    // Room for texts of so many bytes.
    room(size) {
        const missing = this.texts + size - this.calls.memory.buffer.byteLength;
        if (missing > 0) this.calls.memory.grow(Math.ceil(missing / SIZE));
    }
    bytes(place, length) {
        return new Uint8Array(this.calls.memory.buffer, place, length);
    }
    view() {
        return new DataView(this.calls.memory.buffer, this.numbers, 256);
    }

    // The memory of the machine, or its copy, as it stands; and the map of what is sealed.
    memory(place = this.machine) {
        return this.bytes(place, SIZE);
    }
    map() {
        return this.bytes(this.sealed, MAP_SIZE);
    }

    // --- The registers: a number, and what is in it.
    registers(a, x, y, s, p, pc) {
        return this.calls.mos6502_registers(a, x, y, s, p, pc);
    }
    fields(registers) {
        const { calls } = this;
        return {
            pc: calls.mos6502_counter(registers) & 0xFFFF, a: calls.mos6502_accumulator(registers) & 0xFF,
            x: calls.mos6502_x(registers) & 0xFF, y: calls.mos6502_y(registers) & 0xFF,
            s: calls.mos6502_stack(registers) & 0xFF, p: calls.mos6502_status(registers) & 0xFF,
            nmi: calls.mos6502_nmi(registers) & 0xFF,
        };
    }

    // --- Steps and runs. `state` has the number of the registers and the cycles, which are lent to the call; the memory is the machine's,
    // or its copy. What comes back has the state after it.
    made(call, state, ...words) {
        const { numbers } = this, view = this.view(), number = (offset) => view.getBigUint64(offset, true);
        view.setBigUint64(0, state.registers, true);
        view.setBigUint64(8, state.cycles, true);
        const answer = call(numbers, numbers + 8, ...words) & 0xFF;
        return { answer, registers: number(0), cycles: number(8), steps: Number(number(16)), place: view.getUint16(24, true) };
    }
    step(state, lines, memory = this.machine) {
        return this.made(this.calls.mos6502_step, state, lines, this.numbers + 24, memory, FULL);
    }
    run(state, bound, lines, memory = this.machine) {
        return this.made(this.calls.mos6502_long_run, state, this.numbers + 16, BigInt(bound), lines, memory, FULL);
    }
    runCycles(state, limit, lines, memory = this.machine) {
        return this.made(this.calls.mos6502_run_cycles, state, this.numbers + 16, BigInt(limit), lines, memory, FULL);
    }
    runTo(state, stop, bound, lines, memory = this.machine) {
        return this.made(this.calls.mos6502_run_to, state, this.numbers + 16, stop, BigInt(bound), lines, memory, FULL);
    }
    // With the map of what is sealed; `place` of what comes back is the byte that the next step would read.
    guardedRun(state, bound, lines, memory = this.machine) {
        return this.made(this.calls.mos6502_guarded_run, state, this.numbers + 16, this.numbers + 24, BigInt(bound), lines, this.sealed,
            this.nothing, memory, FULL);
    }
    // An extract of no step: the sealed bytes are 00 after it.
    blank(state, memory) {
        return this.made(this.calls.mos6502_extract, state, this.numbers + 16, this.numbers + 24, 0n, 0, this.sealed, memory, FULL);
    }

    // --- What the next step will read and store to.
    footprint(call, state, lines) {
        const count = Number(call(state.registers, state.cycles, lines, this.machine, FULL, this.numbers + 32));
        const view = this.view();
        return Array.from({ length: Math.min(count, PLACES) }, (_, index) => view.getUint16(32 + 2 * index, true));
    }
    reads(state, lines) {
        return this.footprint(this.calls.mos6502_reads, state, lines);
    }
    stores(state, lines) {
        return this.footprint(this.calls.mos6502_stores, state, lines);
    }

    // --- Texts. A text that is given stands at `texts`, and what is written stands after it.
    give(text, room) {
        this.room(text.length + room);
        this.bytes(this.texts, text.length).set(text);
        return this.texts + text.length;
    }
    // What a call wrote: the text, and its three numbers, each where the call was lent a place for it.
    written(answer, out) {
        const view = this.view(), number = (offset) => Number(view.getBigUint64(offset, true));
        const text = this.bytes(out, number(48)).slice();
        return { answer: answer & 0xFF, text, good: number(56), place: number(64), dropped: number(72) };
    }
    list(first, last, room = LISTING_ROOM) {
        const out = this.give([], room);
        return this.written(this.calls.mos6502_list(this.machine, FULL, first, last, out, BigInt(room), this.numbers + 48), out);
    }
    punch(first, last, memory) {
        const room = 166588, out = this.give([], room);
        return this.written(this.calls.mos6502_tape_punch(memory, FULL, first, last, out, BigInt(room), this.numbers + 48), out);
    }
    tapeToHex(tape) {
        const { calls, numbers } = this, room = 2 * tape.length, out = this.give(tape, room);
        return this.written(calls.mos6502_tape_to_hex(this.texts, BigInt(tape.length), out, BigInt(room), numbers + 48, numbers + 56,
            numbers + 64), out);
    }
    // Reads a tape, or Intel HEX, onto the copy, which has to be filled before.
    load(text, hex) {
        const { calls, numbers } = this, out = this.give(text, 0);
        this.view().setBigUint64(48, 0n, true);
        const call = hex ? calls.mos6502_hex_load : calls.mos6502_tape_load;
        return this.written(call(this.texts, BigInt(text.length), this.copy, FULL, numbers + 56, numbers + 64), out);
    }
    // `good` of what comes back are the records that are kept, and `place` is where the first dropped one began.
    rescue(tape) {
        const { calls, numbers } = this, out = this.give(tape, TAPE_ROOM);
        return this.written(calls.mos6502_tape_rescue(this.texts, BigInt(tape.length), out, BigInt(TAPE_ROOM), numbers + 48, numbers + 56,
            numbers + 72, numbers + 64), out);
    }
    // Checks a log of a run on an image; the copy is left as the accepted entries leave it. `place` is the number of the first bad one.
    check(image, log) {
        this.room(SIZE + log.length);
        this.bytes(this.texts, SIZE).set(image);
        this.bytes(this.texts + SIZE, log.length).set(log);
        this.view().setBigUint64(48, 0n, true);
        return this.written(this.calls.mos6502_trace_check(this.texts, FULL, this.texts + SIZE, BigInt(log.length), this.copy, FULL,
            this.numbers + 64), this.texts);
    }
}
