// Tries the module and the page in a real browser.
//
// Usage: node browser.mjs BROWSER SINGLE CASES [PICTURES]   SINGLE is the page as a single file; CASES is how many
//        random cases are tried; PICTURES is a folder for pictures of the page
//
// Each thing that is tried is a line, 'ok WHAT', or 'not ok WHAT' and below it why. What was counted or measured is a line
// '# ..'.

import { mkdtemp, rm, writeFile } from "node:fs/promises";
import { tmpdir } from "node:os";
import { join, resolve } from "node:path";
import { pathToFileURL } from "node:url";
import { Browser, serve } from "./devtools.mjs";
import { FILES } from "./vectors.js";

const [, , path, single, cases, pictures] = process.argv;
const ROOT = resolve(import.meta.dirname, "../../..");
let failed = 0;

function note(good, what, why = "") {
    failed += good ? 0 : 1;
    console.log(good ? `ok ${what}` : `not ok ${what}\n    ${why}`);
}

/** Compares the text of an element with what it has to contain. */
async function expect(tab, what, id, ...texts) {
    const said = await tab.text(id);
    note(texts.every((it) => said.includes(it)), what, `${id} says ${said}`);
}

// What each example shows, by arithmetic: where a key of 32 bytes stands after a length of one byte, say.
const SHOWN = [
    ["verdict", "Accepted: 4 members, in 129 bytes"],
    ["verdict", "Refused at byte 65: items must be sorted and unique", "Key 2 isn't greater than key 1"],
    ["verdict", "Refused at byte 0: invalid varint"],
    ["verdict", "Refused at the end, byte 100: unexpected end of input"],
    ["verdict", "Refused at byte 129: 2 bytes left over"],
    ["verdict", "Accepted: 3 pairs, in 86 bytes"],
    ["verdict", "Refused at byte 18: pairs 0 and 2 have the same value"],
    ["counterexample", "Were f = 4: two sets of 6 share 2, and (k - 2)f + 1 = 5 would be needed"],
    ["both", "Two different slots: this rule finds nothing."],
    ["both", "Equivocation: Members 0, 1, who weigh 70, signed two different decisions for one slot"],
];

async function tryModule(tab) {
    for (const name of Object.keys(FILES)) {
        const { count, wrong } = await tab.value(`(async () => {
            const { load } = await import("/bindings/web/commonware.js");
            const { tryVectors } = await import("/bindings/web/tests/vectors.js");
            const file = await (await fetch("/vectors/${name}.json")).json();
            return tryVectors(await load(), "${name}", file);
        })()`);
        note(count > 0 && wrong.length === 0, `browser: the vectors of ${name}`, wrong.slice(0, 3).join("; "));
    }
    const { wrong, met, seconds } = await tab.value(`(async () => {
        const { load } = await import("/bindings/web/commonware.js");
        const { tryRandom } = await import("/bindings/web/tests/random.js");
        const begun = performance.now();
        const found = tryRandom(await load(), ${Number(cases)}, 1);
        return { ...found, seconds: (performance.now() - begun) / 1000 };
    })()`);
    const results = Object.keys(met).length;
    note(wrong.length === 0, "browser: random cases", wrong.join("; "));
    console.log(`# browser: ${cases} random cases in ${seconds.toFixed(1)} s, ${results} results of calls`);
}

async function tryNativeVectors(tab) {
    const names = await tab.value(`(async () => {
        window.fileOf = async (name) => (await fetch("/vectors/native/" + name + ".json")).json();
        window.schema = await window.fileOf("schema");
        const code = await (await fetch("/bindings/prebuilt/wasm64/commonware.wasm")).arrayBuffer();
        window.native = (await WebAssembly.instantiate(await WebAssembly.compile(code), {})).exports;
        return window.schema.properties.name.enum;
    })()`);
    for (const name of names) {
        const { count, wrong } = await tab.value(`(async () => {
            const { tryNative } = await import("/bindings/web/tests/native.js");
            return tryNative(window.native, "${name}", window.schema, await window.fileOf("${name}"));
        })()`);
        note(count > 0 && wrong.length === 0, `browser: the native vectors of ${name}`, wrong.slice(0, 3).join("; "));
    }
}

async function tryExamples(tab) {
    for (const [index, [id, ...texts]] of SHOWN.entries()) {
        await tab.click(`example-${index}`);
        await expect(tab, `page: example ${index}`, id, ...texts);
        const pressed = await tab.value(`document.querySelectorAll("#examples [aria-pressed=true]").length`);
        note(pressed === 1, `page: example ${index} is the one that is chosen`, `${pressed} are`);
    }
    await tab.click("example-0");
    await expect(tab, "page: two certificates", "both", "Equivocation: Members 1, 2 signed", "at least 2, (k - 2)f + 1");
    await expect(tab, "page: their slot", "first-parts", 'slot 766965772037 ("view 7")', 'decision 41 ("A")');
    await expect(tab, "page: the bars", "bars", "member 0 40 40.0 %", "may be faulty 33", "a quorum 67");
}

async function tryKeyboard(tab) {
    await tab.click("status");
    const order = [];
    for (let tries = 0; tries < 60 && order.at(-1) !== "weights"; tries++) {
        await tab.press("Tab");
        order.push(await tab.value("document.activeElement.id || document.activeElement.tagName"));
    }
    const wanted = ["example-0", "example-9", "kind", "bytes", "file", "members", "k", "first", "second", "weights"];
    const places = wanted.map((it) => order.indexOf(it));
    note(places.every((it, at) => it >= 0 && (at === 0 || places[at - 1] < it)), "page: Tab reaches each field in order", order.join(" "));
    await tab.value(`document.getElementById("example-1").focus()`);
    await tab.press("Enter", "\r");
    await expect(tab, "page: Enter chooses an example", "verdict", "Refused at byte 65");
    await tab.value(`document.getElementById("example-0").focus()`);
    await tab.press(" ", " ");
    await expect(tab, "page: Space chooses an example", "verdict", "Accepted: 4 members");
    await tab.value(`document.getElementById("k").focus()`);
    await tab.press("ArrowRight");
    await expect(tab, "page: an arrow moves the slider", "numbers", "at most f = 0 may be faulty; 4 are a quorum");
    const outline = await tab.value(`getComputedStyle(document.activeElement).outlineStyle`);
    note(outline === "solid", "page: what has the focus is outlined", outline);
    await tab.press("ArrowLeft");
}

async function tryFiles(tab) {
    const folder = await mkdtemp(join(tmpdir(), "files-"));
    const bad = Buffer.concat([Buffer.from([2]), Buffer.alloc(32, 9), Buffer.alloc(32, 8)]);
    await writeFile(join(folder, "bad"), bad);
    await writeFile(join(folder, "text"), `01\n${"ab".repeat(32)}\n`);
    await tab.choose("file", join(folder, "bad"));
    await tab.until(`/Refused at byte 33/.test(document.getElementById("verdict").innerText)`);
    await expect(tab, "page: a bad file of bytes", "verdict", "Refused at byte 33: items must be sorted and unique");
    await tab.choose("file", join(folder, "text"));
    await tab.until(`/Accepted: 1 member,/.test(document.getElementById("verdict").innerText)`);
    await expect(tab, "page: a file of hexadecimal", "verdict", "Accepted: 1 member, in 33 bytes");
    await tab.value(`(() => {
        const data = new DataTransfer();
        data.items.add(new File([Uint8Array.of(1, 0xff)], "dropped"));
        document.getElementById("bytes").dispatchEvent(new DragEvent("drop", { dataTransfer: data, bubbles: true, cancelable: true }));
    })()`);
    await tab.until(`/byte 2:/.test(document.getElementById("verdict").innerText)`);
    await expect(tab, "page: a dropped file", "verdict", "Refused at the end, byte 2: unexpected end of input");
    await rm(folder, { recursive: true });
}

async function tryFields(tab) {
    await tab.fill("bytes", "0x00");
    await expect(tab, "page: no members", "verdict", "Refused at byte 0: length 0 is out of range");
    await tab.fill("bytes", "");
    await expect(tab, "page: no bytes", "verdict", "Refused at the end, byte 0");
    await tab.fill("bytes", "0g");
    await expect(tab, "page: no hexadecimal", "verdict", "'g' is no digit of hexadecimal (digit 1)");
    await tab.fill("bytes", "ff ff ff ff 1f");
    await expect(tab, "page: a number past 32 bits", "verdict", "Refused at byte 0: invalid varint");
    await tab.fill("kind", "certificate");
    await tab.fill("bytes", "01 aa 03 00 02 02");
    await expect(tab, "page: a signer twice", "verdict", "Refused at byte 5: items must be sorted and unique");
    await tab.fill("bytes", "01 aa 02 01 80 00");
    await expect(tab, "page: an overlong signer", "verdict", "Refused at byte 4: invalid varint");
    await tab.fill("members", "4294967295");
    await expect(tab, "page: the most members", "numbers", "at most f = 1431655764 may be faulty; 2863311531 are a quorum");
    await tab.fill("members", "0");
    await expect(tab, "page: no members to count", "numbers", "n is a whole number from 1 to 4294967295");
    await tab.click("example-0");
    await tab.fill("first", "01 aa 03 00 01 02");
    await tab.fill("second", "01 bb 03 01 02 03");
    await expect(tab, "page: values without a slot", "both", "Members 1, 2 signed two different values.", "only where both are for one");
    await tab.fill("first", "03 01 07 aa 03 00 01 02");
    await tab.fill("second", "03 01 07 aa 03 01 02 03");
    await expect(tab, "page: one decision", "both", "this rule finds nothing", "may have broken another rule");
    await tab.fill("second", "03 01 08 bb 03 01 02 03");
    await expect(tab, "page: two slots", "both", "this rule finds nothing", "may have broken another rule");
    const state = await tab.value(`document.getElementById("both").className`);
    note(state.trim() === "verdict", "page: no offence by this rule isn't shown as good", state);
    await tab.fill("second", "08 06 76 69 65 77 20 37 42 02 01 02");
    await tab.fill("first", "08 06 76 69 65 77 20 37 41 03 00 01 02");
    await expect(tab, "page: too few signers", "both", "No one is named: fewer signers than a quorum.");
    await tab.fill("weights", "5 0");
    await expect(tab, "page: a weight of 0", "weight-numbers", "weight 1 is 0");
}

/** Values past what a call may have as arguments, and errors that no byte is to blame for. */
async function tryLong(tab) {
    const length = 200_000;
    await tab.click("example-0");
    await tab.fill("kind", "certificate");
    await tab.fill("bytes", `c09a0c ${"41".repeat(length)} 01 07`);
    await expect(tab, "page: a long value", "verdict", "A certificate with 1 signer, in 200005 bytes.");
    const shown = await tab.value(`document.getElementById("items").textContent`);
    note(shown.includes(`"${"A".repeat(length)}"`), "page: a long value is shown as text", shown.slice(-80));
    await tab.fill("first", `c09a0c 01 ${"42".repeat(length - 1)} 03 00 01 02`);
    const parts = await tab.value(`document.getElementById("first-parts").textContent`);
    note(parts.includes(`"${"B".repeat(length - 2)}"`), "page: a long decision of the first certificate", parts.slice(0, 80));
    await tab.click("example-0");
    await tab.fill("kind", "set");
    await tab.fill("key-size", "1e60");
    const said = await tab.text("verdict");
    note(/^size is a whole number from 0 to 9007199254740991, and not 1e\+60\.$/.test(said), "page: a size past 2^53 blames no byte", said);
    await tab.click("example-0");
    // What the page itself does wrong isn't said of the bytes.
    await tab.value(`(() => {
        window.given = Element.prototype.append;
        Element.prototype.append = function (...parts) {
            if (this.id === "dump") {
                throw new Error("not shown");
            }
            window.given.apply(this, parts);
        };
    })()`);
    await tab.fill("bytes", "00");
    await expect(tab, "page: a fault of the bytes without a dump", "verdict", "Refused at byte 0");
    await tab.fill("kind", "set");
    await tab.fill("least", "0");
    await expect(tab, "page: a fault of the page isn't one of the bytes", "verdict", "Accepted: 0 keys, in 1 byte.");
    await tab.value(`Element.prototype.append = window.given`);
    const faults = await tab.value("window.faults.splice(0)");
    note(faults.length > 0 && faults.every((it) => it.includes("not shown")), "page: it is thrown past the page", faults.join("; "));
    await tab.click("example-0");
}

// Each text in the page whose contrast with what is behind it is below 4.5 to 1.
const FAINT = `(() => {
    const canvas = new OffscreenCanvas(1, 1).getContext("2d", { willReadFrequently: true });
    const parts = (color) => {
        canvas.clearRect(0, 0, 1, 1);
        canvas.fillStyle = color;
        canvas.fillRect(0, 0, 1, 1);
        return [...canvas.getImageData(0, 0, 1, 1).data];
    };
    const light = ([r, g, b]) => [r, g, b].map((it) => it / 255)
        .map((it) => (it <= 0.04045 ? it / 12.92 : ((it + 0.055) / 1.055) ** 2.4))
        .reduce((sum, it, at) => sum + it * [0.2126, 0.7152, 0.0722][at], 0);
    const behind = (element) => {
        const color = parts(getComputedStyle(element).backgroundColor);
        return color[3] === 255 || !element.parentElement ? color : behind(element.parentElement);
    };
    const texts = [...document.querySelectorAll("body *")].filter((it) => it.checkVisibility()
        && [...it.childNodes].some((node) => node.nodeType === 3 && node.data.trim()));
    return texts.map((it) => {
        const style = getComputedStyle(it);
        const shape = it.namespaceURI.endsWith("svg") ? it.previousElementSibling : null;
        const under = shape?.tagName === "circle" ? parts(getComputedStyle(shape).fill) : behind(it);
        const both = [light(parts(shape ? style.fill : style.color)), light(under)].sort((x, y) => x - y);
        return { ratio: (both[1] + 0.05) / (both[0] + 0.05), text: it.textContent.trim().slice(0, 40), tag: it.tagName };
    }).filter((it) => it.ratio < 4.5).map((it) => it.tag + " " + it.ratio.toFixed(2) + " " + it.text);
})()`;

async function tryReading(tab) {
    const { nodes } = await tab.send("Accessibility.getFullAXTree");
    const roles = ["button", "textbox", "combobox", "slider", "spinbutton", "checkbox", "link", "img", "table"];
    const nameless = nodes.filter((it) => !it.ignored && roles.includes(it.role?.value) && !it.name?.value);
    note(nameless.length === 0, "page: each field, button, picture and table has a name", JSON.stringify(nameless.map((it) => it.role.value)));
    for (const scheme of ["light", "dark"]) {
        await tab.scheme(scheme);
        for (const index of [0, 1, 7, 9]) {
            await tab.click(`example-${index}`);
            const faint = await tab.value(FAINT);
            note(faint.length === 0, `page: each text has contrast, ${scheme}, example ${index}`, faint.join("; "));
        }
    }
    await tab.scheme("light");
    await tab.send("Emulation.setDeviceMetricsOverride", { width: 360, height: 740, deviceScaleFactor: 1, mobile: true });
    const wide = await tab.value("document.documentElement.scrollWidth");
    note(wide <= 360, "page: it fits a narrow screen", `${wide} wide`);
    await tab.send("Emulation.clearDeviceMetricsOverride");
}

async function tryPage(browser, url, what) {
    const tab = await browser.open(url);
    await expect(tab, `${what}: it loads the module`, "status", "The module is loaded: version 2.0.0");
    await tryExamples(tab);
    await tryKeyboard(tab);
    await tryFiles(tab);
    await tryFields(tab);
    await tryLong(tab);
    await tryReading(tab);
    const faults = await tab.value("window.faults");
    note(faults.length === 0, `${what}: nothing is thrown past the page`, faults.join("; "));
    return tab;
}

const server = await serve(ROOT);
const browser = await Browser.start(path);
try {
    const page = `${server.address}/bindings/web/`;
    await tryModule(await browser.open(page));
    await tryNativeVectors(await browser.open(page));
    await tryPage(browser, page, "served page");
    await tryPage(browser, String(pathToFileURL(resolve(single))), "single file");
    const without = await browser.open(page, "WebAssembly.validate = () => false");
    await expect(without, "page: without 64-bit memory it says so", "status", "WebAssembly with a 64-bit memory isn't supported here");
    if (pictures) {
        const tab = await browser.open(page);
        for (const [scheme, index, name] of [["light", 1, "light"], ["dark", 0, "dark"]]) {
            await tab.scheme(scheme);
            await tab.value(`document.getElementById("example-${index}").click()`);
            await writeFile(join(pictures, `${name}.png`), await tab.picture(860, 1525));
        }
    }
} finally {
    await browser.end();
    server.end();
}
process.exit(failed ? 1 : 0);
