// classroom_driver.js: a Chromium without a window, asked through chromedriver by WebDriver's own protocol: JSON over HTTP on loopback.
// No package is needed besides Debian's nodejs, chromium and chromium-driver.
"use strict";
const { spawn } = require("child_process");
const http = require("http");

const ELEMENT = "element-6066-11e4-a52e-4f735466cecf";
// The keys that have no character.
const KEYS = { Enter: "\uE007", Escape: "\uE00C", Tab: "\uE004", Shift: "\uE008", ArrowRight: "\uE014", ArrowDown: "\uE015",
    ArrowUp: "\uE013" };

function call(port, method, path, body) {
    const text = body === undefined ? "" : JSON.stringify(body);
    return new Promise((resolve, reject) => {
        const headers = { "Content-Type": "application/json", "Content-Length": Buffer.byteLength(text) };
        const request = http.request({ host: "127.0.0.1", port, method, path, headers }, (response) => {
            let said = "";
            response.on("data", (part) => { said += part; });
            response.on("end", () => {
                const { value } = JSON.parse(said);
                if (response.statusCode === 200) resolve(value);
                else reject(new Error(`${method} ${path}: ${value.error}: ${value.message.split("\n")[0]}`));
            });
        });
        request.on("error", reject);
        request.end(text);
    });
}

const pause = (milliseconds) => new Promise((resume) => { setTimeout(resume, milliseconds); });

class Browser {
    static async open({ downloads, width = 1280, height = 800, dark = false }) {
        const port = 20000 + process.pid % 20000;
        const driver = spawn("chromedriver", [`--port=${port}`], { stdio: "ignore" });
        for (let tries = 0; ; tries++) {
            try {
                if ((await call(port, "GET", "/status")).ready) break;
            } catch (problem) {
                if (tries === 100) throw problem;
            }
            await pause(100);
        }
        const args = ["--headless=new", "--no-sandbox", "--disable-gpu", "--disable-dev-shm-usage", "--disable-background-networking",
            "--disable-component-update", "--no-first-run", "--hide-scrollbars", `--window-size=${width},${height}`];
        if (dark) args.push("--blink-settings=preferredColorScheme=0");
        const { sessionId } = await call(port, "POST", "/session", { capabilities: { alwaysMatch: {
            browserName: "chrome",
            "goog:chromeOptions": { args, prefs: { "download.default_directory": downloads, "download.prompt_for_download": false } },
            "goog:loggingPrefs": { performance: "ALL", browser: "ALL" },
        } } });
        const browser = new Browser();
        Object.assign(browser, { port, driver, session: `/session/${sessionId}` });
        return browser;
    }
    ask(method, path, body) {
        return call(this.port, method, this.session + path, body);
    }
    async close() {
        await this.ask("DELETE", "").catch(() => {});
        this.driver.kill();
    }
    async go(url) {
        await this.ask("POST", "/url", { url });
        for (let tries = 0; tries < 200; tries++) {
            if (await this.script("return document.documentElement.dataset.ready === 'yes'")) return;
            await pause(50);
        }
        throw new Error(`${url} is not ready: ${JSON.stringify(await this.log("browser"))}`);
    }
    script(script, ...args) {
        return this.ask("POST", "/execute/sync", { script, args });
    }
    later(script, ...args) {
        return this.ask("POST", "/execute/async", { script, args });
    }
    log(type) {
        return this.ask("POST", "/se/log", { type });
    }
    devtools(cmd, params = {}) {
        return this.ask("POST", "/goog/cdp/execute", { cmd, params });
    }
    size(width, height) {
        return this.devtools("Emulation.setDeviceMetricsOverride", { width, height, deviceScaleFactor: 1, mobile: false });
    }
    async find(selector) {
        return (await this.ask("POST", "/element", { using: "css selector", value: selector }))[ELEMENT];
    }
    async click(selector) {
        await this.ask("POST", `/element/${await this.find(selector)}/click`, {});
    }
    async text(selector) {
        return this.script("return document.querySelector(arguments[0]).textContent", selector);
    }
    // Types into a field, in place of what stands there; or the name of a file.
    async type(selector, text) {
        const element = await this.find(selector);
        if (!(await this.script("return document.querySelector(arguments[0]).type === 'file'", selector))) await this.ask("POST",
            `/element/${element}/clear`, {});
        await this.ask("POST", `/element/${element}/value`, { text });
    }
    // Presses keys, one after another, with the keyboard alone; "Shift+x" holds Shift.
    async press(...keys) {
        const code = (name) => KEYS[name] ?? name;
        const actions = keys.flatMap((key) => {
            const held = key.length > 1 ? key.split("+") : [key];
            return [...held.map((name) => ({ type: "keyDown", value: code(name) })),
                ...held.reverse().map((name) => ({ type: "keyUp", value: code(name) }))];
        });
        await this.ask("POST", "/actions", { actions: [{ type: "key", id: "keyboard", actions }] });
        await pause(60);
    }
    async screenshot() {
        return Buffer.from(await this.ask("GET", "/screenshot"), "base64");
    }
}

module.exports = { Browser, pause };
