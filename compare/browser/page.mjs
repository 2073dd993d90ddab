// What the tests do with the page in a browser: open files, wait, save, look.
import fs from "node:fs";
import path from "node:path";
import { Browser, sleep } from "./chromium.mjs";

export const SHOTS = path.resolve("target/page/shots");

export class Page extends Browser {
    // Gives the file to "Open a file…", and waits until its verdict stands there.
    async give(file) {
        await this.start(file);
        await this.read();
    }

    async start(file) {
        const { result } = await this.send("Runtime.evaluate", { expression: "file" });
        await this.run(`document.getElementById("of").textContent = ""`);
        await this.send("DOM.setFileInputFiles", { files: [path.resolve(file)], objectId: result.objectId });
        await this.until(`document.getElementById("of").textContent.startsWith(${JSON.stringify(path.basename(file))})`);
    }

    read() { return this.until(`verdict.getAttribute("aria-busy") === "false"`, 120); }

    // Picks a clip of ours, and waits until its verdict stands there.
    async pick(name) {
        await this.choose("pick", name);
        await this.read();
    }

    // Presses a button that saves a file, and gives its bytes.
    async saved(button, name) {
        const file = path.join(this.downloads, name), before = this.events.length;
        fs.rmSync(file, { force: true });
        await this.click(button);
        const done = () => this.events.slice(before).some(({ method, params }) => method === "Browser.downloadProgress" && params.state === "completed");
        for (let tries = 0; !done(); tries++) {
            if (tries > 3000) throw new Error(`${name} was not saved`);
            await sleep(20);
        }
        await sleep(110); // a browser drops what is saved sooner: ten files a second is the most
        return fs.readFileSync(file);
    }

    view(name) { return this.click(`#tab-${name}`); }

    focus(id) { return this.run(`document.getElementById("${id}").focus()`); }

    keep(name) { return this.shot(path.join(SHOTS, `${name}.png`)); }

    // How long the page was not awake, at most, in milliseconds, since `watch`.
    watch() {
        return this.run(`clearInterval(window.watching); window.longest = 0; window.last = performance.now();
            window.watching = setInterval(() => { const now = performance.now(); longest = Math.max(longest, now - last); last = now; }, 5); 0`);
    }

    longest() { return this.run("Math.round(longest)"); }

    // What went wrong in the page, and what it asked the network for.
    troubles() {
        const errors = this.events.filter(({ method, params }) => method === "Runtime.exceptionThrown" || (method === "Log.entryAdded" && params.entry.level === "error"));
        const asked = this.events.filter(({ method }) => method === "Network.requestWillBeSent").map(({ params }) => params.request.url).filter((url) => !/^(file|blob|data):/.test(url));
        return [...errors.map(({ params }) => JSON.stringify(params).slice(0, 400)), ...asked];
    }
}
