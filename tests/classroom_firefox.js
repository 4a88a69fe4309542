// classroom_firefox.js PAGE FOLDER: plays each lesson of the page through in a Firefox without a window, and leaves a picture of each in
// FOLDER. Firefox is asked by Marionette's own protocol: JSON over TCP on loopback, each message with its length before it. It prints a
// line for each check, as tests/checks does.
"use strict";
const { spawn } = require("child_process");
const fs = require("fs");
const net = require("net");
const path = require("path");

const [, , file, folder] = process.argv, PORT = 21000 + process.pid % 20000;
const LAST = {
    finished: "done: it ended at 020B, as it was meant to", borrow: "done: it ended at 020F, as it was meant to",
    sealed: "done: it ended at 020E, as it was meant to", bell: "done: it ended at 0400, as it was meant to",
    log: "refused: line 5 is not the state after a step from the line before",
};
const pause = (milliseconds) => new Promise((resume) => { setTimeout(resume, milliseconds); });
let failed = false;
function told(what, right, found) {
    console.log(`${right ? "ok     " : "FAILED "} ${what}${right ? "" : `: ${JSON.stringify(found)}`}`);
    failed ||= !right;
}

// A connection that answers messages by their number.
async function connect() {
    for (let tries = 0; ; tries++) {
        const socket = net.connect(PORT, "127.0.0.1");
        const open = await new Promise((resolve) => { socket.once("connect", () => resolve(true)); socket.once("error",
            () => resolve(false)); });
        if (open) return socket;
        if (tries === 300) throw new Error("Firefox does not listen");
        await pause(100);
    }
}
function speaker(socket) {
    const waiting = new Map();
    let said = Buffer.alloc(0), number = 0;
    socket.on("data", (part) => {
        said = Buffer.concat([said, part]);
        for (;;) {
            const colon = said.indexOf(":"), length = Number(said.subarray(0, colon));
            if (colon < 0 || said.length < colon + 1 + length) return;
            const message = JSON.parse(said.subarray(colon + 1, colon + 1 + length));
            said = said.subarray(colon + 1 + length);
            if (!Array.isArray(message)) continue; // the greeting
            const [, id, problem, result] = message;
            const { resolve, reject } = waiting.get(id);
            if (problem) reject(new Error(`${problem.error}: ${problem.message}`));
            else resolve(result);
        }
    });
    return (name, parameters = {}) => new Promise((resolve, reject) => {
        waiting.set(++number, { resolve, reject });
        const message = JSON.stringify([0, number, name, parameters]);
        socket.write(`${Buffer.byteLength(message)}:${message}`);
    });
}

(async () => {
    const profile = fs.mkdtempSync(path.join(require("os").tmpdir(), "firefox-"));
    fs.writeFileSync(path.join(profile, "user.js"), `user_pref("marionette.port", ${PORT});\nuser_pref("datareporting.policy.dataSubmissionEnabled", false);\n`);
    const firefox = spawn("firefox-esr", ["--headless", "--marionette", "--profile", profile, "--window-size", "1280,800", "about:blank"],
        { stdio: "ignore", env: { ...process.env, HOME: profile, MOZ_HEADLESS_WIDTH: "1280", MOZ_HEADLESS_HEIGHT: "800" } });
    try {
        const ask = speaker(await connect());
        await ask("WebDriver:NewSession", {});
        const script = async (text, ...args) => (await ask("WebDriver:ExecuteScript", { script: text, args })).value;
        const { version } = { version: await script("return navigator.userAgent.replace(/.*Firefox./, '')") };
        for (const [id, last] of Object.entries(LAST)) {
            await ask("WebDriver:Navigate", { url: "about:blank" });
            await ask("WebDriver:Navigate", { url: `file://${path.resolve(file)}#${id}` });
            for (let tries = 0; tries < 100 && !(await script("return document.documentElement.dataset.ready === 'yes'")); tries++) await pause(100);
            for (let point = await script("return document.querySelectorAll('#text li').length"); point > 0; point--) {
                await script("document.getElementById('play').click()");
                await pause(150);
            }
            const found = await script("return document.getElementById('sentence').textContent");
            told(`Firefox ${version}, lesson ${id}: ${last}`, found === last, found);
            fs.writeFileSync(path.join(folder, `firefox-${id}.png`),
                Buffer.from((await ask("WebDriver:TakeScreenshot", { full: false })).value, "base64"));
        }
        await ask("Marionette:Quit", { flags: ["eForceQuit"] }).catch(() => {});
    } catch (problem) {
        told(`Firefox is asked to the end: ${problem.stack}`, false);
    }
    firefox.kill();
    await pause(500);
    fs.rmSync(profile, { recursive: true, force: true });
    process.exit(failed ? 1 : 0);
})();
