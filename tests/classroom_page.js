// classroom_page.js PAGE FOLDER: uses the page as a trainee would, in a Chromium without a window, and puts screenshots and what was saved
// into FOLDER. It prints a line for each check, as tests/checks does, and the rate.
"use strict";
const fs = require("fs");
const http = require("http");
const path = require("path");
const { Browser, pause } = require("./classroom_driver.js");

const root = path.dirname(__dirname), [, , file, folder] = process.argv, url = `file://${path.resolve(file)}`;
const data = (name) => path.join(root, "crates", name), read = (name) => fs.readFileSync(data(name));
let browser, failed = false;
function told(what, right, found) {
    console.log(`${right ? "ok     " : "FAILED "} ${what}${right || found === undefined ? "" : `\n        it was: ${JSON.stringify(found)}`}`);
    failed ||= !right;
}
const equal = (what, found, expected) => told(what, JSON.stringify(found) === JSON.stringify(expected), found);

const sentence = () => browser.text("#sentence");
const tone = () => browser.script("return document.getElementById('answer').className");
const more = () => browser.script("return [...document.querySelectorAll('#more li')].map((node) => node.textContent)");
const says = async (what, text, color) => equal(what, [await sentence(), await tone()], [text, color]);
const value = (id) => browser.text(`#register-${id}`);
const byteAt = (address) => browser.script("return [...document.querySelectorAll('#memory tbody td')][arguments[0]].textContent",
    address & 0xFF);
const marked = (name) => browser.script("return [...document.querySelectorAll('#memory tbody td')].flatMap((node, index) => node.classList.contains(arguments[0]) ? [index] : [])", name);
const picture = async (name) => fs.writeFileSync(path.join(folder, `${name}.png`), await browser.screenshot());

// Files are dropped onto the page, as from a folder: a name and its bytes, and perhaps another name and its bytes.
async function drop(...files) {
    await browser.script(`
        const carried = new DataTransfer();
        for (let index = 0; index < arguments.length; index += 2) {
            carried.items.add(new File([Uint8Array.from(atob(arguments[index + 1]), (character) => character.charCodeAt(0))],
                arguments[index]));
        }
        document.body.dispatchEvent(new DragEvent("drop", { dataTransfer: carried, bubbles: true, cancelable: true }));`,
    ...files.map((word) => typeof word === "string" ? word : word.toString("base64")));
    await pause(150);
}
async function choose(id) {
    await browser.script("const node = document.getElementById('lesson'); node.value = arguments[0]; node.dispatchEvent(new Event('change'));", id);
}
async function enter(field, text, form) {
    await browser.type(field, text);
    await browser.click(`${form} button[type=submit]`);
    await pause(80);
}

// --- Each lesson, played through to its last sentence.
const PLAYED = {
    finished: [["stopped: the byte 02 at 0205 is no documented opcode", "bad"],
        ["stopped: the byte 02 at 020B is no documented opcode", "bad"],
        ["stopped: the byte 02 at 0205 is no documented opcode", "bad"],
            ["not finished: the program was still running after 1000 steps", "plain"],
        ["done: it ended at 020B, as it was meant to", "good"]],
    borrow: [["not finished: the program was still running after 3 steps", "plain"],
        ["not finished: the program was still running after 6 steps", "plain"],
        ["not finished: the program was still running after 9 steps", "plain"], ["done: it ended at 020F, as it was meant to", "good"]],
    sealed: [["the counter is at 020B after 1025 steps; nothing says that it finished", "plain"],
        ["halted before step 1026: it would read the sealed byte at 0412", "bad"],
            ["done: it ended at 020E, as it was meant to", "good"]],
    bell: [...[10, 11, 12, 13, 14].map((steps) => [`not finished: the program was still running after ${steps} steps`, "plain"]),
        ["done: it ended at 0400, as it was meant to", "good"]],
    log: [["not finished: the program was still running after 4 steps", "plain"], ["accepted: every line follows, lines: 5", "good"],
        ["accepted: every line follows, lines: 1", "good"], ["refused: line 5 is not the state after a step from the line before",
            "bad"]],
};
// What is to be seen at a point of a lesson, besides its sentence.
const SEEN = {
    borrow: {
        1: async () => equal("        .. A is 02, C 1, V 0", [await value("a"), await value("p")], ["02", "35"]),
        2: async () => equal("        .. A is 7F, C 1, V 0", [await value("a"), await value("p")], ["7F", "35"]),
        3: async () => equal("        .. A is FE, C 0, V 1, N 1", [await value("a"), await value("p")], ["FE", "F4"]),
    },
    sealed: {
        1: async () => {
            equal("        .. the next step reads these", await browser.text("#next"),
                "The next step reads 020B020C020D0412 and stores to nothing.");
            equal("        .. and 0412 is marked, on page 04", [await marked("reads"), await marked("stores")], [[0x12], []]);
        },
        2: async () => equal("        .. all of page 04 is shown as sealed", (await marked("sealed")).length, 256),
        3: async () => equal("        .. and the oath", await more(), ["no byte of 0500-05FF was read in 1026 steps"]),
    },
    bell: {
        2: async () => {
            equal("        .. the pushes and the vector", await browser.text("#service"),
                "IRQ is served: 02 at 01FF, 01 at 01FE, 20 at 01FD are pushed, and the address at FFFE leads to 0300");
            equal("        .. the stack is marked as changed", await marked("changed"), [0xFD, 0xFE, 0xFF]);
            equal("        .. 7 cycles in the timing table",
                await browser.script("return [...document.querySelectorAll('#timing tbody tr:last-child td')].map((node) => node.textContent)"), ["11", "IRQ is served", "7", "0000"]);
        },
        3: async () => equal("        .. the ring is counted at 0010", await byteAt(0x10), "01"),
        4: async () => equal("        .. back at 0201, I clear", [await value("pc"), await value("p")], ["0201", "30"]),
        5: async () => told("        .. NMI is served", (await browser.text("#service")).startsWith("NMI is served: ")),
    },
    log: { 4: async () => equal("        .. the bad line beside the right one",
        await browser.script("return [...document.querySelectorAll('#beside tr')].map((node) => [...node.cells].map((cell) => cell.textContent).join(' '))"),
        ["line 5 12 020A 00 00 00 FF 36", "right 12 020A 05 00 00 FF 34"]) },
};
async function lessons() {
    for (const [id, points] of Object.entries(PLAYED)) {
        await choose(id);
        told(`lesson ${id}: nothing is run yet`, (await sentence()).startsWith("nothing was run yet"));
        for (let point = 1; point <= points.length; point++) {
            await browser.click("#play");
            await pause(80);
            await says(`lesson ${id}, point ${point}: ${points[point - 1][0]}`, ...points[point - 1]);
            await SEEN[id]?.[point]?.();
            if (id === "bell" && point === 2) await picture("lesson-bell-served");
            if (id === "sealed" && point === 2) await picture("lesson-sealed-halted");
        }
        equal("        .. it fits one screen of 1280 by 800",
            await browser.script("return [document.documentElement.scrollHeight, document.documentElement.scrollWidth, [...document.querySelectorAll('.column')].every((node) => node.scrollHeight <= node.clientHeight + 1)]"), [800, 1280, true]);
        await picture(`lesson-${id}`);
    }
    await choose("borrow");
    await browser.click("#read");
    told("the lesson's page is there to be read", (await browser.text("#page-text")).includes("One instruction, from the manual to the must-fail edit"));
    await picture("reading");
    await browser.click("#page-dialog button");
}

// --- Files: dropped, opened, bad, torn, rescued.
async function files() {
    await choose("sealed");
    await browser.click("#ten");
    const before = [await value("pc"), await browser.text("#steps")];
    await drop("torn.tap", read("program_survey/data/torn.tap"));
    await says("a torn tape is refused, with the reader's sentence",
        "torn.tap: refused after 1 good record and 17 characters: malformed, cut short or a stray character", "bad");
    equal("        .. what was loaded is kept", [await value("pc"), await browser.text("#steps")], before);
    await picture("torn");
    await browser.click("#rescue");
    await says("        .. it is rescued", "torn.tap: torn: 2 records are kept, 1 dropped, the first after 17 characters", "bad");
    await browser.type("#page", "02");
    await browser.press("Enter", "Escape");
    equal("        .. and its bytes are in the memory", [await byteAt(0), await byteAt(1), await browser.text("#steps")],
        ["A9", "05", "0"]);
    await drop("short.img", Buffer.alloc(65535));
    await says("a short image is refused", "short.img: refused: the image is not 65536 bytes long", "bad");
    equal("        .. what was rescued is kept", [await byteAt(0), await byteAt(1)], ["A9", "05"]);
    await browser.type("#file", data("program_sealed/data/letter.img"));
    await pause(150);
    await says("an image by the file dialog", "letter.img: nothing was run yet: the program starts at 0200", "plain");
    await browser.click("#run button");
    await says("without a stop address it is never finished", "stopped: the byte 02 at 020E is no documented opcode", "bad");
    await drop("a.hex", Buffer.from(":03020000A905024B\r\n:02FFFC00000201\r\n:00000001FF\r\n"));
    await says("Intel HEX", "a.hex: done: all 3 records are good, the end record counted", "good");
    await browser.click("#run button");
    await says("        .. and it runs", "stopped: the byte 02 at 0202 is no documented opcode", "bad");
    await drop("accumulator.log", read("program_check/data/accumulator.log"), "modes.img", read("program_check/data/modes.img"));
    await says("a log is refused at its line", "accumulator.log: refused: line 5 is not the state after a step from the line before",
        "bad");
    told("        .. beside the right one", (await browser.text("#beside")).includes("902084001"), await browser.text("#beside"));
    await picture("log-refused");
    await drop("honest.log", read("program_check/data/honest.log"));
    told("an honest log is accepted", (await sentence()).startsWith("honest.log: accepted: every line follows, lines: "),
        await sentence());
    await drop("<img src=x onerror=alert(1)>.log", Buffer.from("<b>no</b>\n"));
    equal("what a file holds is shown as text", [await sentence(),
        await browser.script("return document.querySelectorAll('#answer img, #answer td b').length")],
        ["<img src=x onerror=alert(1)>.log: refused: line 1 is malformed, cut short or missing", 0]);
}

// --- Runs, seals, levers, back.
async function runs() {
    await browser.click("#follow");
    await drop("letter.img", read("program_sealed/data/letter.img"));
    await enter("#address", "0205", "#to");
    await says("a run to an address", "the counter is at 0205 after 2 steps; nothing says that it finished", "plain");
    equal("        .. the next step stores to 0400, after its own bytes are read",
        [await browser.text("#next"), await marked("stores"), await byteAt(0)],
        ["The next step reads 020502060207 and stores to 0400.", [0], "00"]);
    await browser.click("#follow");
    await browser.click("#step");
    equal("        .. and it does", [await byteAt(0), await marked("changed"), await marked("stores")], ["53", [0], []]);
    await enter("#limit", "100", "#cycles");
    told("a run by cycles", /^not finished: the program was still running after \d+ steps$/.test(await sentence()), await sentence());
    await enter("#limit", "1000001", "#cycles");
    await says("        .. with too many", "refused: give a number of cycles from 0 to 1000000", "bad");
    const there = [await browser.text("#steps"), await value("pc"), await value("x"), await browser.text("#count")];
    await browser.click("#ten");
    await browser.click("#run button");
    await enter("#earlier", there[0], "#return");
    equal("back to an earlier step", [await browser.text("#steps"), await value("pc"), await value("x"), await browser.text("#count")],
        there);
    await enter("#earlier", "9999", "#return");
    await says("        .. which has to be one", `refused: give a step from 0 to ${there[0]}`, "bad");
    await browser.click("#back");
    await says("back by one", `back: this is the machine after ${there[0] - 1} steps`, "plain");
    await browser.click("#again");
    await browser.script("document.querySelectorAll('#map button')[4].click()");
    await browser.click("#seal-page");
    await says("a page is sealed by a click", "sealed: 0400-04FF; a run is halted before it would read a byte there", "plain");
    await browser.type("#goal", "020E");
    await browser.click("#run button");
    await says("        .. and the run is halted", "halted before step 1026: it would read the sealed byte at 0412", "bad");
    await browser.click("#step");
    await says("        .. a step is halted too", "halted before step 1026: it would read the sealed byte at 0412", "bad");
    for (const [word, text] of [["0400-4FF", 'sealed: "0400-4FF" is no stretch: give FIRST-LAST, as 0400-04FF, and a comma between two'],
        ["0500-0400", 'sealed: "0500-0400" runs backwards'],
            ["FF00-FFFF", 'sealed: "FF00-FFFF" cannot be sealed: the run finds its start at FFFC and FFFD']]) {
        await enter("#seals", word, "#seal");
        await says(`the stretch ${word} is refused`, text, "bad");
    }
    await browser.click("#again");
    await enter("#seals", "0400-0411,0413-04FF", "#seal");
    await browser.click("#run button");
    await says("two stretches are sealed by a word", "done: it ended at 020E, as it was meant to", "good");
    equal("        .. with the oath", await more(), ["no byte of 0400-0411,0413-04FF was read in 1026 steps"]);
    await enter("#seals", "", "#seal");
    await browser.type("#goal", "02");
    await browser.click("#run button");
    await says("a stop address is four digits", "report: after --stop comes an address, four capital hexadecimal digits", "bad");
    await choose("bell");
    await browser.click("#ten");
    await browser.click("#irq");
    await says("the bell is rung", "the line IRQ is low", "plain");
    equal("        .. the next step serves it", await more(), ["The next step serves IRQ, and reads no opcode."]);
    await browser.click("#step");
    told("        .. it is served", (await browser.text("#service")).startsWith("IRQ is served: 02 at 01FF, 01 at 01FE, 20 at 01FD are pushed"));
}

// --- What docs/CLASSROOM.md has the trainees try.
async function questions() {
    await choose("finished");
    await browser.type("#goal", "020B");
    await enter("#bound", "1025", "#run");
    await says("question: 1025 steps, and nobody has looked at the next byte",
        "not finished: the program was still running after 1025 steps", "plain");
    await browser.click("#step");
    await says("        .. one more step answers", "done: it ended at 020B, as it was meant to", "good");
    await browser.type("#bound", "1000000");
    await choose("sealed");
    await browser.press("Escape", "m", "0", "3", "Enter", "z", "r");
    await says("question: page 03 is sealed", "halted before step 2: it would read the sealed byte at 0300", "bad");
    await choose("bell");
    await browser.click("#ten");
    await browser.press("n", "n", "s");
    equal("question: NMI falls and rises between two steps, and is not served", [await value("pc"), await browser.text("#service")],
        ["0201", ""]);
    await browser.press("i", "n");
    equal("question: both levers, and NMI comes first", await more(), ["The next step serves NMI, and reads no opcode."]);
    await browser.press("s", "s");
    await says("question: NMI stays low, and is not served again", "stopped: the byte 02 at 0400 is no documented opcode", "bad");
    await choose("bell");
    for (let point = 1; point <= 4; point++) {
        await browser.click("#play");
        await pause(80);
    }
    await browser.press("b");
    equal("question: back before RTI the bell is held again", await browser.text("#irq b"), "low");
    await browser.press("s", "s");
    told("        .. and is served again after it", (await browser.text("#service")).startsWith("IRQ is served: "));
}

// --- What is saved.
async function saves() {
    const saved = async (name) => {
        const place = path.join(folder, name);
        for (let tries = 0; tries < 60 && !fs.existsSync(place); tries++) await pause(50);
        await pause(50);
        return fs.existsSync(place) ? fs.readFileSync(place) : Buffer.alloc(0);
    };
    await drop("letter.img", read("program_sealed/data/letter.img"));
    await browser.click("#run button");
    await browser.click("#save-image");
    const image = read("program_sealed/data/letter.img");
    image.copy(image, 0x0400, 0x0300, 0x0400);
    told("the memory is saved as an image", Buffer.compare(await saved("letter.img"), image) === 0);
    await browser.click("#save-log");
    await says("the trace is saved as a log", "letter.log is handed to the browser, which keeps it", "plain");
    equal("        .. which the check accepts", await more(), ["accepted: every line follows, lines: 1027"]);
    const log = await saved("letter.log");
    await drop("letter.log", log);
    await says("        .. also when it is dropped in", "letter.log: accepted: every line follows, lines: 1027", "good");
    await enter("#stretch", "0300-0308", "#save");
    told("a tape of a stretch", String(await saved("letter.tap")).startsWith(";09030053415855"), String(await saved("letter.tap")));
    await browser.click("#save-hex");
    told("the same as Intel HEX", String(await saved("letter.hex")).startsWith(":0903000053415855"), String(await saved("letter.hex")));
    await enter("#stretch", "0400-0300", "#save");
    await says("a stretch that runs backwards", "refused: the first address is above the last", "bad");
    await enter("#seals", "0400-04FF", "#seal");
    await browser.click("#save-image");
    await says("what was read cannot be sealed afterwards", "halted before step 1026: it would read the sealed byte at 0412", "bad");
    equal("        .. and nothing is handed out", await more(), ["not written"]);
    await enter("#seals", "0300-0308", "#seal");
    await browser.click("#again");
    await browser.click("#step");
    await browser.click("#save-image");
    await pause(300);
    const blank = fs.readdirSync(folder).filter((name) => /^letter.*\(1\).*\.img$/.test(name)).map((name) =>
        fs.readFileSync(path.join(folder, name)));
    told("in an extract the sealed bytes are 00", blank.length === 1 && blank[0].subarray(0x0300, 0x0309).every((byte) => byte === 0)
        && blank[0][0x0200] === 0xA2);
    await enter("#seals", "", "#seal");
}

// --- The keyboard alone: no click and no script changes anything here.
async function keyboard() {
    await browser.go(url);
    await browser.press("l", "ArrowDown", "ArrowDown");
    equal("keys: a lesson is chosen", await browser.text("#h-lesson"), "The sealed page");
    await browser.press("Escape", "p", "p");
    await says("keys: it is played to the sealed page", "halted before step 1026: it would read the sealed byte at 0412", "bad");
    await browser.press("0", "s", "t");
    await says("keys: step and ten", "not finished: the program was still running after 11 steps", "plain");
    await browser.press("b");
    await says("keys: back", "back: this is the machine after 10 steps", "plain");
    await browser.press("j", "3", "Enter", "Escape");
    await says("keys: back to a step", "back: this is the machine after 3 steps", "plain");
    await browser.press("y", "0", "5", "0", "0", "-", "0", "5", "f", "f", "Enter", "Escape", "e", "0", "2", "0", "e", "Escape", "r");
    await says("keys: a stretch is sealed, an address is given, and it runs", "done: it ended at 020E, as it was meant to", "good");
    await browser.press("a", "0", "2", "0", "5", "Enter", "Escape");
    await says("keys: to an address", "done: it ended at 020E, as it was meant to", "good");
    await browser.press("0", "a", "0", "2", "0", "8", "Enter", "Escape", "c", "5", "0", "Enter", "Escape");
    told("keys: by cycles", (await sentence()).startsWith("not finished: the program was still running after"));
    await browser.press("i", "n");
    equal("keys: both levers", [await browser.text("#irq b"), await browser.text("#nmi b")], ["low", "low"]);
    await browser.press("m", "0", "4", "Enter", "Escape", "z");
    told("keys: a page is shown and sealed", (await sentence()).startsWith("sealed: 0500-05FF,0400-04FF;"), await sentence());
    await browser.press("k");
    told("keys: they are listed", (await browser.text("#key-list")).includes("SStep"), await browser.text("#key-list"));
    await picture("keys");
    await browser.press("s", "Escape", "g", "g");
    told("keys: none works behind a dialog", (await sentence()).startsWith("sealed: "));
    // Tab reaches every control that is there.
    await browser.go(url);
    const wanted = await browser.script(`return [...document.querySelectorAll("button, input, select, [tabindex='0']")].filter((node) => !node.disabled && node.tabIndex >= 0 && node.offsetParent !== null)
        .map((node, index) => { node.dataset.tab = index; return String(index); })`);
    const reached = new Set();
    for (let presses = 0; presses < wanted.length + 20; presses++) {
        await browser.press("Tab");
        reached.add(await browser.script("return document.activeElement.dataset.tab ?? ''"));
    }
    const missed = wanted.filter((tab) => !reached.has(tab));
    told(`keys: Tab reaches all ${wanted.length} controls`, missed.length === 0,
        await browser.script("return arguments[0].map((tab) => document.querySelector(`[data-tab='${tab}']`).outerHTML.slice(0, 120))",
        missed));
}

// --- A screen reader, a narrow window, large type, the dark, paper.
async function looks() {
    await browser.go(url);
    await choose("sealed");
    await browser.click("#play");
    const nameless = [];
    for (const found of await browser.ask("POST", "/elements",
        { using: "css selector", value: "button, input, select, table, [role=group], [tabindex='0']" })) {
        const [element] = Object.values(found), shown = await browser.ask("GET", `/element/${element}/displayed`);
        if (shown && !(await browser.ask("GET", `/element/${element}/computedlabel`))) nameless.push(await browser.script("return arguments[0].outerHTML.slice(0, 100)", found));
    }
    equal("each control has a name for a screen reader", nameless.filter((html) => !/^<table id="(registers|listing|timing)"/.test(html)),
        []);
    equal("the answer is announced", await browser.script("const node = document.getElementById('sentence').parentElement; return [node.getAttribute('role'), node.getAttribute('aria-live')]"), ["status", "polite"]);
    const wide = () => browser.script("return document.documentElement.scrollWidth - innerWidth");
    await browser.size(360, 740);
    told("a narrow window needs no scrolling sideways", (await wide()) <= 0, await wide());
    fs.writeFileSync(path.join(folder, "narrow.png"), Buffer.from((await browser.devtools("Page.captureScreenshot",
        { captureBeyondViewport: true })).data, "base64"));
    await browser.size(1280, 800);
    await browser.click("#large");
    told("nor does large type", (await wide()) <= 0, await wide());
    await picture("large");
    await browser.click("#large");
    await browser.devtools("Emulation.setEmulatedMedia", { features: [{ name: "prefers-color-scheme", value: "dark" }] });
    await picture("dark");
    await browser.devtools("Emulation.setEmulatedMedia", { media: "print",
        features: [{ name: "prefers-color-scheme", value: "light" }] });
    await browser.size(800, 1130);
    await picture("print");
    await browser.devtools("Emulation.setEmulatedMedia", { media: "", features: [] });
    await browser.size(1280, 800);
    await browser.click("#believed");
    told("what is believed is said", (await browser.text("#believed-dialog")).includes("Not proved"));
    await picture("believed");
    await browser.press("Escape");
}

// --- A long run, stopped; and the rate.
async function long() {
    await drop("for-ever.img", read("program_report/data/for-ever.img"));
    await browser.type("#bound", "100000000000");
    await browser.click("#run button");
    await pause(700);
    equal("a long run says that it runs", await sentence(), "it runs; Stop, or the key X, halts it between two steps");
    await drop("letter.img", read("program_sealed/data/letter.img"));
    await browser.press("x");
    await pause(200);
    told("a long run is stopped, and is not finished", /^not finished: the program was still running after \d{7,} steps$/.test(await sentence()), await sentence());
    const began = Date.now(), before = Number((await sentence()).replace(/\D/g, ""));
    await browser.type("#bound", "100000000");
    await browser.click("#run button");
    while (await browser.script("return !document.getElementById('halt').disabled")) await pause(20);
    const after = Number((await sentence()).replace(/\D/g, ""));
    equal("        .. and goes on", after - before, 100000000);
    console.log(`rate    Chromium ${(await browser.devtools("Browser.getVersion")).product.split("/")[1]}, by the page's button: ${((after - before) / 1000 / (Date.now() - began)).toFixed(1)} M steps/s`);
    await enter("#earlier", String(before + 12345678), "#return");
    equal("back within it, by its snapshots", await sentence(), `back: this is the machine after ${before + 12345678} steps`);
}

// --- A careless trainee: buttons, pages, lessons and fields at random. Every time there is a sentence, and "done" only at the address.
async function careless() {
    await browser.go(url);
    const WORDS = ["", "0200", "zz", "12", "0400-04FF", "99999999999999999999999", "1000", "FFFF", "-1", "0", "FFFC-FFFD", "0000-FFFB"];
    let seed = 7, wrong = [];
    const draw = (count) => (seed = (seed * 1103515245 + 12345) & 0x7FFFFFFF) % 65521 % count;
    for (let times = 0; times < 150; times++) {
        const said = await browser.script(`
            const [kind, which, word] = arguments, pick = (list) => list[which % list.length];
            document.querySelectorAll("dialog[open]").forEach((node) => node.close());
            if (kind < 5) {
                pick([...document.querySelectorAll("nav button, .levers button, #play, #seal-page, #before, #after, #next button")].filter((node) => !node.disabled)).click();
            } else if (kind === 5) {
                pick([...document.querySelectorAll("#map button")]).dispatchEvent(new MouseEvent("click",
                    { bubbles: true, shiftKey: which % 3 === 0 }));
            } else if (kind === 6) {
                const node = document.getElementById("lesson");
                node.selectedIndex = which % node.options.length;
                node.dispatchEvent(new Event("change"));
            } else {
                const node = document.getElementById(pick(["address", "limit", "bound", "earlier", "goal", "page", "seals"]));
                node.value = word;
                node.dispatchEvent(new Event("change", { bubbles: true }));
                node.form?.requestSubmit();
            }
            document.getElementById("halt").click();
            return [document.getElementById("sentence").textContent, document.getElementById("goal").value,
                document.getElementById("register-pc").textContent];`,
        draw(10), draw(1000), WORDS[draw(WORDS.length)]);
        if (said[0] === "" || (said[0].startsWith("done: it ended") && said[1] !== said[2])) wrong.push(said);
        if (times % 25 === 24) await pause(200);
    }
    equal("150 careless actions, a sentence for each", wrong, []);
}

// --- No request to any network, and none is possible.
async function network(server, asked) {
    const requests = (await browser.log("performance")).map(({ message }) => JSON.parse(message).message).filter(({ method }) =>
        method === "Network.requestWillBeSent")
        .map(({ params }) => params.request.url).filter((address) => !address.startsWith("blob:"));
    told(`no request but for the page itself, ${requests.length} times`, requests.length > 0
        && requests.every((address) => address === url), requests.filter((address) => address !== url));
    const address = `http://127.0.0.1:${server.address().port}/`;
    const tries = await browser.later(`
        const [address, done] = arguments, image = new Image();
        const tried = (work) => { try { return Promise.resolve(work()).then(() => "got through",
            () => "refused"); } catch { return Promise.resolve("refused"); } };
        Promise.all([tried(() => fetch(address)), tried(() =>
            new Promise((good, bad) => { image.onload = good; image.onerror = bad; image.src = address; })),
            tried(() => new Promise((good, bad) => { const socket = new WebSocket(address.replace("http",
                "ws")); socket.onopen = good; socket.onerror = bad; }))]).then(done);`, address);
    equal("the policy refuses what would be one", [tries, asked.count], [["refused", "refused", "refused"], 0]);
    const errors = (await browser.log("browser")).filter(({ message }) => !message.includes("Content Security Policy")
        && !message.includes("127.0.0.1")).map(({ message }) => message);
    equal("the browser has nothing to complain of", errors, []);
}

(async () => {
    const asked = { count: 0 }, server = http.createServer((request, response) => { asked.count++; response.end(); }).listen(0,
        "127.0.0.1");
    browser = await Browser.open({ downloads: path.resolve(folder) });
    try {
        await browser.size(1280, 800);
        await browser.go(url);
        for (const part of [lessons, files, runs, questions, saves, keyboard, looks, long, careless]) await part();
        await network(server, asked);
    } catch (problem) {
        told(`the page is used to the end: ${problem.stack}`, false);
    }
    await browser.close();
    server.close();
    process.exit(failed ? 1 : 0);
})();
