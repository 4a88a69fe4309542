// view.js: shows a machine. It reads what the machine has and writes it to the page; nothing here changes the machine.
import { hex2, hex4, OWN } from "./sentences.js";
import { element } from "./text.js";

export const $ = (id) => document.getElementById(id);
const FLAGS = [[7, "N", "negative"], [6, "V", "overflow"], [3, "D", "decimal"], [2, "I", "IRQ off"], [1, "Z", "zero"], [0, "C", "carry"]];
const REGISTERS = [["pc", "counter"], ["a", "A"], ["x", "X"], ["y", "Y"], ["s", "S"], ["p", "status"]];
const LINES = 16; // of the listing
const cells = [], pages = [];
let top = 0; // where the listing begins

export function build(showPage, sealPage) {
    for (const [key, name] of REGISTERS) {
        $("registers").tHead.rows[0].append(element("th", { scope: "col" }, name));
        $("registers").tBodies[0].rows[0].append(element("td", { id: `register-${key}` }));
    }
    for (const [, letter, name] of FLAGS) {
        $("flags").append(element("li", { id: `flag-${letter}` }, element("b", {}, letter), name, element("b")));
    }
    const head = element("tr", {}, element("td"));
    for (let column = 0; column < 16; column++) head.append(element("th", { scope: "col" }, `_${column.toString(16).toUpperCase()}`));
    $("memory").tHead.append(head);
    for (let line = 0; line < 16; line++) {
        const row = element("tr", {}, element("th", { scope: "row" }));
        for (let column = 0; column < 16; column++) cells.push(row.appendChild(element("td")));
        $("memory").tBodies[0].append(row);
    }
    for (let page = 0; page < 256; page++) {
        const button = element("button", { type: "button", tabindex: page === 0 ? "0" : "-1" }, hex2(page));
        button.addEventListener("click", (event) => event.shiftKey ? sealPage(page) : showPage(page));
        button.addEventListener("dblclick", () => sealPage(page));
        pages.push($("map").appendChild(button));
    }
    $("map").addEventListener("keydown", (event) => {
        const wide = getComputedStyle($("map")).gridTemplateColumns.split(" ").length;
        const move = { ArrowRight: 1, ArrowLeft: -1, ArrowDown: wide, ArrowUp: -wide }[event.key];
        if (!move) return;
        event.preventDefault();
        pages[(pages.indexOf(event.target) + move + 256) % 256].focus();
    });
}

// A text, and whether it changed in the last step.
function put(node, text, changed) {
    node.textContent = text;
    mark(node, "changed", changed);
}
function mark(node, name, on) {
    node.classList.toggle(name, Boolean(on));
}

export function show(machine, page) {
    const { fields, next } = machine, before = machine.last?.before ?? fields;
    $("steps").textContent = machine.steps.toLocaleString("en");
    $("count").textContent = machine.state.cycles.toLocaleString("en");
    for (const [key] of REGISTERS) put($(`register-${key}`), (key === "pc" ? hex4 : hex2)(fields[key]), fields[key] !== before[key]);
    for (const [bit, letter, name] of FLAGS) {
        const node = $(`flag-${letter}`), on = fields.p >> bit & 1, changed = on !== (before.p >> bit & 1);
        put(node.lastChild, String(on), false);
        mark(node, "set", on);
        mark(node, "changed", changed);
        node.setAttribute("aria-label", `${letter} ${name} ${on}${changed ? ", changed" : ""}`);
    }
    showLines(machine, next);
    showListing(machine, fields.pc);
    showNext(next);
    showPage(machine, next, page);
    showMap(machine, next, page);
    showTiming(machine.rows);
}

function showLines(machine, next) {
    for (const [id, bit] of [["irq", 2], ["nmi", 1]]) {
        const low = (machine.lines & bit) !== 0;
        $(id).setAttribute("aria-pressed", String(low));
        $(id).querySelector("b").textContent = low ? "low" : "high";
    }
    const { last } = machine;
    $("service").textContent = last?.serves ? OWN.served(last.serves, last.pushed.join(", "), last.vector, machine.fields.pc)
        : next.serves ? OWN.serves(next.serves) : "";
}

// The listing stays where it is as long as the counter is at one of its text lines.
function showListing(machine, counter) {
    const listed = () => machine.listing(top, 3 * LINES).slice(0, LINES), at = (line) => line.startsWith(hex4(counter));
    let lines = listed();
    if (lines.findIndex(at) < 0 || lines.findIndex(at) > LINES - 3) {
        top = counter;
        lines = listed();
    }
    $("listing").tBodies[0].replaceChildren(...lines.map((line) => {
        const [, address, bytes, text] = /^([0-9A-F]{4}) ((?:[0-9A-F]{2} )+)(.*)$/.exec(line) ?? ["", line, "", ""];
        const parts = [address, bytes.trim(), text].map((part) => element("td", {}, part));
        return element("tr", at(line) ? { "aria-current": "step" } : {}, ...parts);
    }));
}

function showNext({ reads, stores }) {
    const chips = (addresses, name) => addresses.length === 0 ? ["nothing"]
        : addresses.map((address) => element("button", { type: "button", class: `chip ${name}`, "data-page": address >> 8 }, hex4(address)));
    const focused = [...$("next").children].indexOf(document.activeElement);
    $("next").replaceChildren("The next step reads ", ...chips(reads, "reads"), " and stores to ", ...chips(stores, "stores"), ".");
    if (focused >= 0) ($("next").children[focused] ?? $("next").children[0])?.focus();
}

function showPage(machine, { reads, stores }, page) {
    const { memory, last } = machine;
    if (document.activeElement !== $("page")) $("page").value = hex2(page);
    $("memory").querySelectorAll("tbody th").forEach((node, line) => { node.textContent = hex4(page * 256 + line * 16); });
    cells.forEach((cell, offset) => {
        const address = page * 256 + offset, read = reads.includes(address), store = stores.includes(address);
        const sealed = machine.isSealed(address), changed = last?.stores.includes(address);
        put(cell, hex2(memory[address]), changed);
        mark(cell, "zero", memory[address] === 0);
        mark(cell, "reads", read);
        mark(cell, "stores", store);
        mark(cell, "sealed", sealed);
        const notes = [read && "will be read", store && "will be stored to", changed && "was stored to", sealed && "sealed"].filter(Boolean);
        if (notes.length > 0) cell.setAttribute("aria-label", `${hex2(memory[address])} at ${hex4(address)}: ${notes.join(", ")}`);
        else cell.removeAttribute("aria-label");
    });
}

function showMap(machine, { reads, stores }, page) {
    const { memory } = machine, words = new Uint32Array(memory.slice().buffer);
    pages.forEach((button, index) => {
        const inside = (address) => address >> 8 === index, read = reads.some(inside), store = stores.some(inside);
        let full = false, sealed = false;
        for (let word = index * 64; word < index * 64 + 64; word++) full ||= words[word] !== 0;
        for (const byte of machine.core.map().subarray(index * 32, index * 32 + 32)) sealed ||= byte !== 0;
        Object.entries({ full, reads: read, stores: store, sealed, shown: index === page }).forEach(([name, on]) => mark(button, name, on));
        const notes = [`page ${hex2(index)}`, !full && "all 00", read && "will be read", store && "will be stored to", sealed && "sealed",
            index === page && "shown"];
        button.setAttribute("aria-label", notes.filter(Boolean).join(", "));
        button.tabIndex = index === page ? 0 : -1;
    });
}

function showTiming(rows) {
    $("timing").tBodies[0].replaceChildren(...rows.map(({ step, text, cycles, first }) =>
        element("tr", {}, ...[step.toLocaleString("en"), text, String(cycles), hex4(first)].map((cell) => element("td", {}, cell)))));
    const box = $("timing").parentElement;
    box.scrollTop = box.scrollHeight;
}

// An answer: its sentence, what is said besides, and two text lines beside each other, with the fields that differ marked.
export function tell({ tone, text, more = [], beside = [], torn }) {
    $("answer").className = tone;
    $("sentence").textContent = text;
    $("more").replaceChildren(...more.map((sentence) => element("li", {}, sentence)));
    const fields = beside.map(([, line]) => line.split(" "));
    const differs = (index, at) => beside.length === 2 && fields[index][at] !== fields[1 - index][at];
    $("beside").hidden = beside.length === 0;
    $("beside").tBodies[0].replaceChildren(...beside.map(([name], index) => element("tr", {}, element("th", { scope: "row" }, name),
        ...fields[index].map((field, at) => element("td", {}, differs(index, at) ? element("mark", {}, field) : field)))));
    $("rescue").hidden = !torn;
}
