// A browser without a window, driven by its DevTools protocol over a pipe: no package is needed.

import { spawn } from "node:child_process";
import { mkdtemp, rm } from "node:fs/promises";
import { tmpdir } from "node:os";
import { join } from "node:path";

/** Serves a folder as README says; returns its address and what ends it. */
export async function serve(folder) {
    const words = ["-u", "-m", "http.server", "--bind", "127.0.0.1", "0"];
    const server = spawn("python3", words, { cwd: folder, stdio: ["ignore", "pipe", "ignore"] });
    const line = await new Promise((resolve) => server.stdout.once("data", (data) => resolve(String(data))));
    return { address: `http://127.0.0.1:${line.match(/port (\d+)/)[1]}`, end: () => server.kill() };
}

export class Browser {
    #process;
    #folder;
    #waiting = new Map();
    #last = 0;
    #text = "";

    static async start(path) {
        const browser = new Browser();
        browser.#folder = await mkdtemp(join(tmpdir(), "browser-"));
        const words = ["--headless=new", "--no-sandbox", "--disable-gpu", "--remote-debugging-pipe", "--no-first-run"];
        words.push(`--user-data-dir=${browser.#folder}`, "about:blank");
        browser.#process = spawn(path, words, { stdio: ["ignore", "ignore", "ignore", "pipe", "pipe"] });
        browser.#process.stdio[4].on("data", (data) => browser.#hear(String(data)));
        return browser;
    }

    #hear(data) {
        const [last, ...others] = (this.#text + data).split("\0").reverse();
        this.#text = last;
        for (const line of others.reverse()) {
            const { id, result, error } = JSON.parse(line);
            const waiting = this.#waiting.get(id);
            this.#waiting.delete(id);
            if (error) {
                waiting?.reject(new Error(error.message));
            } else {
                waiting?.resolve(result);
            }
        }
    }

    send(method, params = {}, sessionId = undefined) {
        const id = ++this.#last;
        this.#process.stdio[3].write(`${JSON.stringify({ id, method, params, sessionId })}\0`);
        return new Promise((resolve, reject) => this.#waiting.set(id, { resolve, reject }));
    }

    /** Opens an address, and returns its page. A script may run before those of the page do. */
    async open(url, script = "") {
        const { targetId } = await this.send("Target.createTarget", { url: "about:blank" });
        const { sessionId } = await this.send("Target.attachToTarget", { targetId, flatten: true });
        const tab = new Tab(this, sessionId);
        await tab.send("Page.enable");
        await tab.send("DOM.enable");
        await tab.send("Page.addScriptToEvaluateOnNewDocument", { source: `${script};${REMEMBERS_ERRORS}` });
        await tab.send("Page.navigate", { url });
        await tab.until("document.readyState === 'complete' && !/^Loading/.test(document.getElementById('status')?.textContent)");
        return tab;
    }

    async end() {
        const ended = new Promise((resolve) => this.#process.on("exit", resolve));
        await this.send("Browser.close");
        await ended;
        await rm(this.#folder, { recursive: true, force: true, maxRetries: 5 });
    }
}

const REMEMBERS_ERRORS = `
    window.faults = [];
    addEventListener("error", (event) => window.faults.push(String(event.message)));
    addEventListener("unhandledrejection", (event) => window.faults.push(String(event.reason)));
`;

class Tab {
    constructor(browser, session) {
        this.send = (method, params) => browser.send(method, params, session);
    }

    /** Returns what an expression is in the page. */
    async value(expression) {
        const said = await this.send("Runtime.evaluate", { expression, awaitPromise: true, returnByValue: true });
        if (said.exceptionDetails) {
            throw new Error(said.exceptionDetails.exception?.description ?? said.exceptionDetails.text);
        }
        return said.result.value;
    }

    async until(expression) {
        for (let tries = 0; tries < 200; tries++) {
            if (await this.value(expression)) {
                return;
            }
            await new Promise((resolve) => setTimeout(resolve, 50));
        }
        throw new Error(`never: ${expression}`);
    }

    /** The text of an element, with single spaces. */
    async text(id) {
        return (await this.value(`document.getElementById(${JSON.stringify(id)}).innerText`)).replace(/\s+/g, " ").trim();
    }

    /** Clicks an element as a mouse does, in its middle. */
    async click(id) {
        const middle = await this.value(`(() => {
            const element = document.getElementById(${JSON.stringify(id)});
            element.scrollIntoView({ block: "center", behavior: "instant" });
            const box = element.getBoundingClientRect();
            return { x: box.x + box.width / 2, y: box.y + box.height / 2 };
        })()`);
        for (const type of ["mousePressed", "mouseReleased"]) {
            await this.send("Input.dispatchMouseEvent", { type, ...middle, button: "left", clickCount: 1 });
        }
    }

    /** Presses a key, as Tab or Enter. */
    async press(key, text = undefined) {
        const codes = { Tab: 9, Enter: 13, " ": 32, ArrowRight: 39, ArrowLeft: 37, Home: 36, End: 35 };
        const name = key === " " ? "Space" : key;
        const params = { key, code: name, windowsVirtualKeyCode: codes[key] };
        await this.send("Input.dispatchKeyEvent", { type: text ? "keyDown" : "rawKeyDown", text, ...params });
        await this.send("Input.dispatchKeyEvent", { type: "keyUp", ...params });
    }

    /** Sets a field as typing in it does. */
    async fill(id, value) {
        await this.value(`(() => {
            const element = document.getElementById(${JSON.stringify(id)});
            element.value = ${JSON.stringify(value)};
            element.dispatchEvent(new Event("input", { bubbles: true }));
        })()`);
    }

    async choose(id, path) {
        const { root } = await this.send("DOM.getDocument");
        const { nodeId } = await this.send("DOM.querySelector", { nodeId: root.nodeId, selector: `#${id}` });
        await this.send("DOM.setFileInputFiles", { nodeId, files: [path] });
    }

    async scheme(value) {
        await this.send("Emulation.setEmulatedMedia", { features: [{ name: "prefers-color-scheme", value }] });
    }

    /** Takes a picture of the top of the page. */
    async picture(width, height) {
        await this.send("Emulation.setDeviceMetricsOverride", { width, height, deviceScaleFactor: 1, mobile: false });
        await this.send("Emulation.setScrollbarsHidden", { hidden: true });
        await this.value("scrollTo(0, 0)");
        const { data } = await this.send("Page.captureScreenshot", { format: "png" });
        return Buffer.from(data, "base64");
    }
}
