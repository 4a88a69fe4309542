// main.js: what the buttons, the keys, the files and the lessons do. It calls the machine, and has what comes back shown.
import { Core, NOT_REFUSED, WOULD_READ, NOT_THERE, NMI_LOW, IRQ_LOW } from "./core.js";
import { Machine, PART } from "./machine.js";
import { SENTENCES, OWN, ending, hex2 } from "./sentences.js";
import { take, rescue, printed, checkLog, saveMemory, saveLog } from "./files.js";
import { LESSONS, imageOf } from "./lessons.js";
import { element, pageOf } from "./text.js";
import { $, build, show, tell } from "./view.js";
import { WASM, VERSION, SUM } from "./module.js"; // which ./classroom writes

const machine = new Machine(await Core.open(Uint8Array.from(atob(WASM), (character) => character.charCodeAt(0))));
let shown = 2, lesson = null, point = 0, torn = null, busy = false, stopping = false;

const upper = (id) => $(id).value.trim().toUpperCase();
const addressIn = (id) => /^[0-9A-F]{4}$/.test(upper(id)) ? parseInt(upper(id), 16) : null;
const numberIn = (id) => {
    const word = $(id).value.trim();
    return /^[0-9]+$/.test(word) && BigInt(word) < 2n ** 64n ? Math.min(Number(word), Number.MAX_SAFE_INTEGER) : null;
};
const refuse = (text) => answer({ tone: "bad", text });

// Shows where the machine stands. The page follows the next step, if that is wanted: what it stores to, or what it reads last.
function refresh() {
    if ($("follow").checked) {
        const { reads, stores } = machine.next;
        shown = (stores[0] ?? reads.at(-1) ?? machine.fields.pc) >> 8;
    }
    show(machine, shown);
    $("back").disabled = machine.steps === 0;
    $("seal-page").firstChild.textContent = `Seal page ${hex2(shown)}`;
    $("h-lesson").firstChild.textContent = lesson ? lesson.title : machine.name;
}
function answer(found) {
    torn = found.torn ?? null;
    tell(found);
    refresh();
}

// While a run goes on, nothing but Stop changes the machine.
function setBusy(now) {
    busy = now;
    $("halt").disabled = !now;
    document.body.classList.toggle("busy", now);
}

// --- Runs. A long one is made in parts, so that the page can be stopped between two of them.
async function run(kind, amount, stop) {
    if (busy) return;
    const goal = addressIn("goal");
    if (upper("goal") !== "" && goal === null) return refuse(SENTENCES.noStop());
    stopping = false;
    setBusy(true);
    let left = amount, result;
    for (;;) {
        result = machine.run(kind, kind === "cycles" ? left : Math.min(left, PART), stop);
        left -= kind === "cycles" ? left : result.steps;
        const goesOn = kind === "to" ? result.answer === NOT_THERE : result.answer === NOT_REFUSED;
        if (!goesOn || left <= 0 || stopping) break;
        if ($("sentence").textContent !== OWN.runs()) tell({ tone: "plain", text: OWN.runs() });
        $("steps").textContent = machine.steps.toLocaleString("en");
        await new Promise((resume) => setTimeout(resume));
    }
    setBusy(false);
    const there = kind === "to" && result.answer === NOT_REFUSED;
    const ended = there ? { tone: "plain", text: OWN.there(stop, machine.steps) }
        : ending(result, machine.steps, machine.fields, machine.memory, goal);
    const sworn = machine.seals && machine.sealedAt === 0 && result.answer !== WOULD_READ;
    answer({ ...ended, more: sworn ? [SENTENCES.unread(machine.seals, machine.steps)] : [] });
}

function back(to) {
    if (busy) return;
    if (to === null || to > machine.steps) return refuse(OWN.noSuchStep(machine.steps));
    machine.back(to);
    answer({ tone: "plain", text: OWN.back(machine.steps) });
}

function again() {
    machine.restart();
    answer({ tone: "plain", text: OWN.started(machine.fields.pc) });
}

// A lever is put over; it acts on the next step.
function lever(line, low) {
    const bit = line === "NMI" ? NMI_LOW : IRQ_LOW;
    machine.lines = low ? machine.lines | bit : machine.lines & ~bit;
    const { serves } = machine.next;
    answer({ tone: "plain", text: OWN.lever(line, low ? "low" : "high"), more: serves ? [OWN.serves(serves)] : [] });
}

// --- Seals, by the word of `sealed`, or a page at a time. A word that is refused leaves what is sealed.
function seal(word) {
    for (const stretch of word ? word.split(",") : []) {
        const [, first, last] = /^([0-9A-F]{4})-([0-9A-F]{4})$/.exec(stretch) ?? [];
        if (!last) return refuse(SENTENCES.noStretch(stretch));
        if (first > last) return refuse(SENTENCES.backwards(stretch));
        if (first <= "FFFD" && last >= "FFFC") return refuse(SENTENCES.atTheStart(stretch));
    }
    machine.seal(word);
    $("seals").value = word;
    answer({ tone: "plain", text: word ? OWN.sealed(word) : OWN.unsealed() });
}
function sealPage(page) {
    const stretch = `${hex2(page)}00-${hex2(page)}FF`, words = machine.seals ? machine.seals.split(",") : [];
    seal((words.includes(stretch) ? words.filter((word) => word !== stretch) : [...words, stretch]).join(","));
}

function showPageOf(page) {
    $("follow").checked = false;
    shown = (page + 256) % 256;
    refresh();
}

// --- Files.
async function open(file) {
    if (busy || !file) return;
    try {
        const found = take(machine, file.name, new Uint8Array(await file.arrayBuffer()), $("onto").checked);
        if (found.loaded) leave();
        answer(found);
    } catch { // a folder, a file that is gone, or one that is too large for the browser
        refuse(OWN.noFile(printed(file.name)));
    }
}
// Several files, one after another: a log comes last, since it is checked on what was loaded.
async function openAll(files) {
    for (const file of files.sort((a, b) => a.name.endsWith(".log") - b.name.endsWith(".log"))) await open(file);
}
// Something else is loaded: it has no goal and no lesson.
function leave() {
    lesson = null;
    $("lesson").value = "";
    $("goal").value = "";
    tellLesson();
}

// --- Lessons.
function load(stretches, name) {
    machine.load(imageOf(stretches), name);
}
function begin(id) {
    lesson = LESSONS.find((each) => each.id === id) ?? null;
    point = 0;
    if (lesson) {
        load(lesson.image, lesson.name);
        machine.seal("");
        $("seals").value = $("goal").value = "";
        $("follow").checked = true;
    }
    tellLesson();
    answer({ tone: "plain", text: OWN.started(machine.fields.pc) });
}
function tellLesson() {
    const points = lesson?.points ?? [];
    $("text").replaceChildren(element("p", {}, lesson?.text ?? OWN.noLesson()),
        element("ol", {}, ...points.map(({ say, see }, index) => {
            const when = index < point - 1 ? "before" : index === point - 1 ? "now" : "later";
            const item = element("li", { class: when }, element("span", {}, say));
            if (index < point) item.append(element("p", { class: "point" }, see));
            return item;
        })));
    $("text").querySelector(".now")?.scrollIntoView({ block: "nearest" });
    $("play").disabled = points.length === 0;
    $("play").firstChild.textContent = point < points.length || !lesson ? "Next point" : "Play it again";
    $("read").hidden = !lesson?.doc;
}
const ACTIONS = {
    start: () => load(lesson.image, lesson.name),
    load: (stretches) => load(stretches, lesson.name),
    goal: (address) => { $("goal").value = address; },
    page: (page) => showPageOf(page),
    run: (bound = 1000000) => run("steps", bound),
    step: (count) => run("steps", count),
    to: (address) => run("to", 1000000, parseInt(address, 16)),
    seal: (word) => seal(word),
    lever: (line, level) => lever(line, level === "low"),
    log: (lines) => answer(checkLog(machine, new TextEncoder().encode(lines.join("\n") + "\n"))),
};
async function play() {
    if (busy || !lesson) return;
    if (point === lesson.points.length) return begin(lesson.id);
    for (const [action, ...words] of lesson.points[point++].do) await ACTIONS[action](...words);
    tellLesson();
}

// --- The page itself.
build(showPageOf, sealPage);
const on = (id, event, action) => $(id).addEventListener(event, (happened) => {
    if (event === "submit") happened.preventDefault();
    action(happened);
});
const toggle = (id) => $(id).setAttribute("aria-pressed", String($(id).getAttribute("aria-pressed") !== "true"));
const dialog = (id) => () => $(id).showModal();
on("step", "click", () => run("steps", 1));
on("ten", "click", () => run("steps", 10));
const bounded = (action) => numberIn("bound") === null ? refuse(SENTENCES.noSteps()) : action(numberIn("bound"));
on("run", "submit", () => bounded((bound) => run("steps", bound)));
on("to", "submit", () => {
    const stop = addressIn("address");
    return stop === null ? refuse(OWN.noAddress()) : bounded((bound) => run("to", bound, stop));
});
on("cycles", "submit", () => (numberIn("limit") ?? 1000001) > 1000000 ? refuse(OWN.noCycles()) : run("cycles", numberIn("limit")));
on("halt", "click", () => { stopping = true; });
on("back", "click", () => back(machine.steps - 1));
on("return", "submit", () => back(numberIn("earlier")));
on("again", "click", () => busy || again());
on("irq", "click", () => busy || lever("IRQ", (machine.lines & IRQ_LOW) === 0));
on("nmi", "click", () => busy || lever("NMI", (machine.lines & NMI_LOW) === 0));
on("page", "change", () => /^[0-9A-F]{2}$/.test(upper("page")) ? showPageOf(parseInt(upper("page"), 16)) : refuse(OWN.noPage()));
for (const id of ["goal", "page"]) on(id, "keydown", ({ key }) => key === "Enter" && $(id).blur());
on("before", "click", () => showPageOf(shown - 1));
on("after", "click", () => showPageOf(shown + 1));
on("follow", "change", refresh);
on("next", "click", ({ target }) => target.dataset.page && showPageOf(Number(target.dataset.page)));
on("map", "keydown", (event) => {
    if (event.key !== "Enter" || !event.shiftKey) return;
    event.preventDefault();
    sealPage(parseInt(event.target.textContent, 16));
});
on("seal-page", "click", () => busy || sealPage(shown));
on("seal", "submit", () => busy || seal(upper("seals")));
on("open", "click", () => $("file").click());
on("file", "change", async () => {
    await open($("file").files[0]);
    $("file").value = "";
});
on("rescue", "click", () => {
    if (busy) return;
    const found = rescue(machine, torn);
    if (found.loaded) leave();
    answer(found);
    $("answer").focus();
});
on("save-image", "click", () => busy || answer(saveMemory(machine, "image")));
on("save", "submit", () => busy || answer(saveMemory(machine, "tape", upper("stretch"))));
on("save-hex", "click", () => busy || answer(saveMemory(machine, "hex", upper("stretch"))));
on("save-log", "click", () => busy || answer(saveLog(machine)));
on("lesson", "change", () => {
    if (busy) $("lesson").value = lesson?.id ?? "";
    else begin($("lesson").value);
});
on("play", "click", play);
on("read", "click", () => {
    $("page-text").replaceChildren(...pageOf($(`doc-${lesson.doc}`).textContent));
    $("page-dialog").showModal();
});
on("large", "click", () => {
    toggle("large");
    document.documentElement.classList.toggle("large");
});
on("keys", "click", dialog("keys-dialog"));
on("believed", "click", dialog("believed-dialog"));
for (const event of ["dragover", "dragleave", "drop"]) {
    document.addEventListener(event, (happened) => {
        happened.preventDefault();
        document.body.classList.toggle("over", event === "dragover");
        if (event === "drop") openAll([...happened.dataTransfer.files]);
    });
}

// The single keys: each stands at the control that it presses, or to which it leads.
for (const node of document.querySelectorAll("[data-key]")) {
    const key = node.dataset.key, cap = element("kbd", { "aria-hidden": "true" }, key.toUpperCase());
    const name = (node.dataset.name ?? node.getAttribute("aria-label") ?? (node.closest("label") ?? node).textContent).trim();
    node.setAttribute("aria-keyshortcuts", key);
    if (node.tagName === "BUTTON" && !node.hasAttribute("aria-label")) node.append(cap.cloneNode(true));
    $("key-list").append(element("tr", {}, element("td", {}, cap), element("td", {}, name[0].toUpperCase() + name.slice(1))));
}
document.addEventListener("keydown", (event) => {
    const { target, key } = event, typing = target.matches?.("input:not([type=checkbox]), select");
    if (key === "Escape" && typing) return target.blur();
    const held = event.ctrlKey || event.altKey || event.metaKey;
    if (held || typing || document.querySelector("dialog[open]") || !$("single").checked) return;
    const node = [...document.querySelectorAll("[data-key]")].find((each) => each.dataset.key === key.toLowerCase());
    if (!node || node.hidden) return;
    event.preventDefault();
    if (node.matches("button, [type=checkbox]")) node.click();
    else node.focus();
    if (node.matches("input")) node.select();
});

$("version").textContent = VERSION;
$("sum").textContent = SUM;
$("lesson").append(element("option", { value: "" }, "none"), ...LESSONS.map(({ id, title }) => element("option", { value: id }, title)));
// A link can name a lesson, and how many of its points are played: classroom.html#sealed.2
const [asked, played] = location.hash.slice(1).split("."), first = LESSONS.find(({ id }) => id === asked) ?? LESSONS[0];
$("lesson").value = first.id;
begin(first.id);
while (lesson && point < Math.min(Number(played) || 0, lesson.points.length)) await play();
document.documentElement.dataset.ready = "yes";
