// A headless Chromium, driven over its debugging pipe: no package is needed beside the browser.
import { spawn } from "node:child_process";
import fs from "node:fs";
import os from "node:os";
import path from "node:path";

const FLAGS = ["--headless=new", "--no-sandbox", "--disable-gpu", "--remote-debugging-pipe", "--autoplay-policy=no-user-gesture-required", "--hide-scrollbars", "--no-first-run", "--disable-background-networking", "--force-color-profile=srgb"];

export const sleep = (ms) => new Promise((rested) => setTimeout(rested, ms));

export class Browser {
    constructor(program) {
        this.home = fs.mkdtempSync(path.join(os.tmpdir(), "page-"));
        this.downloads = path.join(this.home, "saved");
        const pipes = ["ignore", "ignore", fs.openSync(path.join(this.home, "log"), "w"), "pipe", "pipe"];
        this.process = spawn(program, [...FLAGS, `--user-data-dir=${this.home}/profile`, "about:blank"], { stdio: pipes });
        this.waiting = new Map();
        this.events = [];
        this.asked = 0;
        let rest = "";
        this.process.stdio[4].setEncoding("utf8").on("data", (text) => {
            const messages = (rest + text).split("\0");
            rest = messages.pop();
            messages.forEach((message) => this.took(JSON.parse(message)));
        });
    }

    took(message) {
        const asked = this.waiting.get(message.id);
        if (!asked) return void this.events.push(message);
        this.waiting.delete(message.id);
        if (message.error) asked.fail(new Error(JSON.stringify(message.error)));
        else asked.answer(message.result);
    }

    send(method, params = {}) {
        const id = ++this.asked, sessionId = /^(Target|Browser)\./.test(method) ? undefined : this.session;
        this.process.stdio[3].write(`${JSON.stringify({ id, method, params, sessionId })}\0`);
        return new Promise((answer, fail) => this.waiting.set(id, { answer, fail }));
    }

    async open(file) {
        const { targetId } = await this.send("Target.createTarget", { url: "about:blank" });
        this.session = (await this.send("Target.attachToTarget", { targetId, flatten: true })).sessionId;
        for (const part of ["Page", "Runtime", "Log", "Network", "Accessibility"]) await this.send(`${part}.enable`);
        await this.send("Browser.setDownloadBehavior", { behavior: "allow", downloadPath: this.downloads, eventsEnabled: true });
        await this.size(1180, 900);
        await this.send("Page.navigate", { url: `file://${file}` });
        await this.until("document.documentElement?.dataset.ready");
    }

    size(width, height, scheme = "light") {
        return this.send("Emulation.setDeviceMetricsOverride", { width, height, deviceScaleFactor: 1, mobile: false }).then(() =>
            this.send("Emulation.setEmulatedMedia", { features: [{ name: "prefers-color-scheme", value: scheme }] }));
    }

    // What an expression gives in the page.
    async run(expression) {
        const { result, exceptionDetails } = await this.send("Runtime.evaluate", { expression, awaitPromise: true, returnByValue: true });
        if (exceptionDetails) throw new Error(exceptionDetails.exception?.description ?? exceptionDetails.text);
        return result.value;
    }

    async until(expression, seconds = 30) {
        for (const end = Date.now() + 1000 * seconds; Date.now() < end; await sleep(20)) if (await this.run(`!!(${expression})`)) return;
        throw new Error(`not after ${seconds} s: ${expression}`);
    }

    text(id) { return this.run(`document.getElementById("${id}").textContent`); }

    // A click of the mouse in the middle of an element, or at a share of its width.
    async click(selector, share = 0.5) {
        const at = await this.run(`(() => { const e = document.querySelector(${JSON.stringify(selector)}); e.scrollIntoView({ block: "center" });
            const r = e.getBoundingClientRect(); return { x: r.x + r.width * ${share}, y: r.y + r.height / 2, wide: r.width }; })()`);
        if (!at.wide) throw new Error(`${selector} is not to be seen`);
        for (const type of ["mousePressed", "mouseReleased"]) await this.send("Input.dispatchMouseEvent", { type, x: at.x, y: at.y, button: "left", clickCount: 1 });
    }

    async key(key, code = key) {
        const virtual = { Tab: 9, Enter: 13, " ": 32, End: 35, Home: 36, ArrowLeft: 37, ArrowUp: 38, ArrowRight: 39, ArrowDown: 40 }[key];
        const words = { key, code, windowsVirtualKeyCode: virtual, text: key === "Enter" ? "\r" : key === " " ? " " : undefined };
        await this.send("Input.dispatchKeyEvent", { type: words.text ? "keyDown" : "rawKeyDown", ...words });
        await this.send("Input.dispatchKeyEvent", { type: "keyUp", ...words, text: undefined });
    }

    // Chooses an entry of a list, as a person's choice is told to the page.
    choose(id, value) {
        return this.run(`(() => { const e = document.getElementById("${id}"); e.value = ${JSON.stringify(value)}; e.dispatchEvent(new Event("input", { bubbles: true })); e.dispatchEvent(new Event("change", { bubbles: true })); })()`);
    }

    async shot(file, whole = true) {
        const { cssContentSize: size } = await this.send("Page.getLayoutMetrics"), wide = await this.run("innerWidth");
        const clip = { x: 0, y: 0, width: wide, height: whole ? Math.min(6000, size.height) : await this.run("innerHeight"), scale: 1 };
        const { data } = await this.send("Page.captureScreenshot", { format: "png", captureBeyondViewport: whole, clip });
        fs.mkdirSync(path.dirname(file), { recursive: true });
        fs.writeFileSync(file, Buffer.from(data, "base64"));
    }

    async close() {
        await Promise.race([this.send("Browser.close").catch(() => 0), sleep(2000)]);
        this.process.kill();
        for (let tries = 0; tries < 10 && fs.existsSync(this.home); tries++) {
            await sleep(300);
            // It writes for a while after it has ended.
            try { fs.rmSync(this.home, { recursive: true, force: true }); } catch { continue; }
        }
    }
}
