// The page: what is typed, dropped and chosen goes to the module, and what it says is shown.

import { load } from "./commonware.js";
import { EXAMPLES } from "./examples.js";
import { faultOf, many } from "./fault.js";
import { barsOf, pictureOf, chipsOf } from "./pictures.js";

const $ = (id) => document.getElementById(id);

// What is said where two certificates show no offence by the one rule that is tried.
const OTHER_RULES = "The signers may have broken another rule, such as by a vote against a lock (amnesia), or by surround votes.";

/** Returns an element with attributes, and with texts and elements in it. */
function made(tag, attributes = {}, ...parts) {
    const element = document.createElement(tag);
    for (const [name, value] of Object.entries(attributes)) {
        element.setAttribute(name, value);
    }
    element.append(...parts);
    return element;
}

const hexOf = (bytes) => [...bytes].map((it) => it.toString(16).padStart(2, "0")).join("");

/** Returns the bytes that a text has in hexadecimal, or throws an Error that says where it has none. */
function parsed(text) {
    const digits = text.replace(/\s|,/g, "").replace(/^0x/i, "");
    const other = digits.search(/[^0-9a-f]/i);
    if (other >= 0) {
        throw new Error(`'${digits[other]}' is no digit of hexadecimal (digit ${other}).`);
    }
    if (digits.length % 2 === 1) {
        throw new Error(`There are ${digits.length} digits, and two make a byte.`);
    }
    return Uint8Array.from(digits.match(/../g) ?? [], (it) => parseInt(it, 16));
}

/** Returns the weights in a text. */
function parsedWeights(text) {
    return text.split(/[\s,]+/).filter((it) => it).map((it) => {
        if (!/^[0-9]+$/.test(it)) {
            throw new Error(`'${it}' is no weight: weights are whole numbers.`);
        }
        return BigInt(it);
    });
}

/** Shows an outcome in words: good, bad, or neither. */
function show(element, state, ...lines) {
    element.className = `verdict ${state}`;
    element.replaceChildren(...lines.map((it) => made("p", {}, ...[it].flat())));
}

/** Returns a table with a caption, of rows of texts and elements. */
function table(caption, head, rows, type = "") {
    const cells = (row) => row.map((it) => (it instanceof HTMLElement ? it : made("td", {}, String(it))));
    return made(
        "table",
        { class: type },
        made("caption", { class: "hint" }, caption),
        made("thead", {}, made("tr", {}, ...head.map((it) => made("th", { scope: "col" }, it)))),
        made("tbody", {}, ...rows.map((it) => made("tr", {}, ...cells(it)))),
    );
}

const cell = (bytes) => made("td", { class: "key" }, hexOf(bytes) || "no bytes");

function list(terms) {
    return made("dl", {}, ...terms.flatMap(([term, value]) => [made("dt", {}, term), made("dd", {}, value)]));
}

/** Bytes as text, each a character. As the arguments of one call, many would be too many. */
const textOf = (bytes) => new TextDecoder("latin1").decode(bytes);

/** Bytes as text too, where they are letters. */
function told(bytes) {
    const isText = bytes.length > 0 && bytes.every((it) => it >= 32 && it < 127);
    return `${hexOf(bytes) || "no bytes"}${isText ? ` ("${textOf(bytes)}")` : ""}`;
}

class Page {
    constructor(commonware) {
        this.commonware = commonware;
        for (const id of ["kind", "key-size", "value-size", "least", "most", "bytes"]) {
            $(id).addEventListener("input", () => this.read());
        }
        for (const id of ["members", "k"]) {
            $(id).addEventListener("input", () => this.count());
        }
        for (const id of ["first", "second", "by-weight"]) {
            $(id).addEventListener("input", () => this.judge());
        }
        $("weights").addEventListener("input", () => this.weigh());
        $("reading").addEventListener("submit", (event) => event.preventDefault());
        $("file").addEventListener("change", () => this.take($("file").files[0]));
        this.listenToDrops();
        this.offerExamples();
        $("status").textContent = `The module is loaded: version ${commonware.version}. It works without a network.`;
    }

    listenToDrops() {
        const room = $("bytes");
        room.addEventListener("dragover", (event) => {
            event.preventDefault();
            room.classList.add("over");
        });
        room.addEventListener("dragleave", () => room.classList.remove("over"));
        room.addEventListener("drop", (event) => {
            event.preventDefault();
            room.classList.remove("over");
            const [file] = event.dataTransfer.files;
            if (file) {
                this.take(file);
            } else {
                room.value = event.dataTransfer.getData("text");
                this.read();
            }
        });
    }

    /** Takes a file: its text as hexadecimal where it is some, else its bytes. */
    async take(file) {
        if (!file) {
            return;
        }
        const bytes = new Uint8Array(await file.arrayBuffer());
        const text = textOf(bytes.subarray(0, 100000));
        const isHex = bytes.length <= 100000 && /^\s*(0x)?[0-9a-f\s,]+$/i.test(text);
        $("bytes").value = isHex ? text.trim() : hexOf(bytes);
        this.read();
    }

    offerExamples() {
        for (const [index, example] of EXAMPLES.entries()) {
            const button = made("button", { type: "button", id: `example-${index}`, "aria-pressed": "false" }, example.name);
            button.addEventListener("click", () => this.choose(index));
            $("examples").append(made("li", {}, button));
        }
        this.choose(0);
    }

    choose(index) {
        const example = { ...EXAMPLES[0].fields, ...EXAMPLES[index].fields };
        for (const [id, value] of Object.entries(example)) {
            $(id).value = value;
        }
        $("by-weight").checked = Boolean(EXAMPLES[index].isByWeight);
        EXAMPLES.forEach((_, at) => $(`example-${at}`).setAttribute("aria-pressed", String(at === index)));
        this.read();
        this.count();
        if (EXAMPLES[index].at) {
            $(EXAMPLES[index].at).scrollIntoView({ block: "nearest" });
        }
    }

    kind() {
        const name = $("kind").value;
        const hasKeys = name !== "committee" && name !== "certificate";
        const hasValues = name === "map" || name === "bimap";
        $("key-field").hidden = !hasKeys;
        $("value-field").hidden = !hasValues;
        $("least-field").hidden = name === "certificate";
        const number = (id) => Math.max(0, Math.floor(Number($(id).value) || 0));
        return {
            name,
            keySize: name === "committee" ? 32 : number("key-size"),
            valueSize: number("value-size"),
            least: number("least"),
            most: number("most"),
        };
    }

    /** Decodes the whole of some bytes. */
    decode({ name, keySize, valueSize, least, most }, bytes) {
        const limits = { least, most };
        if (name === "committee") {
            return { keys: this.commonware.decodeCommittee(bytes, limits) };
        }
        if (name === "certificate") {
            return this.commonware.decodeCertificate(bytes, { mostSigners: most });
        }
        if (name === "set") {
            return { keys: this.commonware.decodeSet(keySize, bytes, limits) };
        }
        const call = name === "map" ? "decodeMap" : "decodeBiMap";
        return this.commonware[call](keySize, valueSize, bytes, limits);
    }

    read() {
        const kind = this.kind();
        $("items").replaceChildren();
        $("dump").replaceChildren();
        let bytes;
        try {
            bytes = parsed($("bytes").value);
        } catch (error) {
            show($("verdict"), "bad", error.message);
            return;
        }
        let value;
        try {
            value = this.decode(kind, bytes);
        } catch (error) {
            this.showRefusal(kind, bytes, error);
            return;
        }
        this.showValue(kind, value, bytes);
    }

    showValue(kind, value, bytes) {
        if (kind.name === "certificate") {
            show($("verdict"), "good", `A certificate with ${many(value.signers.length, "signer")}, in ${many(bytes.length, "byte")}.`);
            $("items").append(list([["value", told(value.value)], ["signers", value.signers.join(", ") || "no one"]]));
            $("dump").append(made("span", {}, hexOf(bytes)));
            return;
        }
        const { keys, values } = value;
        const item = { committee: "member", set: "key" }[kind.name] ?? "pair";
        show($("verdict"), "good", `Accepted: ${many(keys.length, item)}, in ${many(bytes.length, "byte")}. No other bytes are this ${kind.name}.`);
        $("dump").append(...pieces(keys, values, bytes));
        const head = ["Position", kind.name === "committee" ? "Member" : "Key", ...(values ? ["Value"] : [])];
        const rows = keys.slice(0, 1000).map((it, index) => [index, cell(it), ...(values ? [cell(values[index])] : [])]);
        const caption = `${keys.length > 1000 ? "The first 1000 of " : ""}${many(keys.length, item)}, in order`;
        $("items").append(made("div", { class: "scroll", tabindex: "0", role: "group", "aria-label": caption }, table(caption, head, rows)));
        if (kind.name === "committee" && keys.length > 0) {
            $("members").value = keys.length;
            this.count();
        }
    }

    /** Shows why bytes aren't decoded. Where none of them is wrong, the error says all. */
    showRefusal(kind, bytes, error) {
        const fault = faultOf(kind, (it) => this.decode(kind, it), bytes, error);
        if (fault) {
            this.showFault(fault, bytes, error);
        } else {
            show($("verdict"), "bad", `${error.message}.`);
        }
    }

    showFault({ from, to, words }, bytes, error) {
        const where = from === bytes.length ? `at the end, byte ${from}` : `at byte ${from}`;
        show($("verdict"), "bad", made("strong", {}, `Refused ${where}: ${error.message}.`), words);
        const end = Math.min(bytes.length, Math.max(to, from) + 4096);
        $("dump").append(
            made("span", { class: "read", title: "read" }, hexOf(bytes.subarray(0, from))),
            made("mark", { "aria-label": "the bytes that are wrong" }, hexOf(bytes.subarray(from, to)) || "ends here"),
            made("span", { class: "unread", title: "not looked at" }, hexOf(bytes.subarray(to, end))),
        );
    }

    model() {
        const n = Math.floor(Number($("members").value));
        const k = Number($("k").value);
        return { k, n: n >= 1 && n <= 4294967295 ? n : null };
    }

    count() {
        const { k, n } = this.model();
        $("k-value").textContent = k;
        $("k-help").textContent = {
            2: "At 2 two quorums share one member, which may be faulty: enough where members only stop.",
            3: "3 is the usual one, as of PBFT, Tendermint and HotStuff: two quorums share a member that isn't faulty.",
            5: "5 is for protocols that decide in two steps: two quorums share more than 3f members.",
        }[k] ?? `Two quorums share (${k} - 2)f + 1 members.`;
        $("picture").replaceChildren();
        $("counterexample").replaceChildren();
        if (n === null) {
            show($("numbers"), "bad", "n is a whole number from 1 to 4294967295.");
            return;
        }
        const faults = this.commonware.maxFaults(k, n);
        const quorum = this.commonware.quorum(k, n);
        const smaller = this.commonware.smallerQuorum(k, n);
        show($("numbers"), "good", `Of ${many(n, "member")} at most f = ${faults} may be faulty; ${quorum} are a quorum. ${smaller} are enough to share f + 1 with every quorum.`);
        const shared = Math.max(0, 2 * quorum - n);
        $("picture").append(
            pictureOf(n, quorum),
            made("figcaption", {}, `Two quorums of ${quorum} that share as few as they can: ${shared}, and (k - 2)f + 1 = ${(k - 2) * faults + 1} are needed.`),
        );
        const more = faults + 1;
        if (more <= n) {
            const size = n - more;
            $("counterexample").append(
                pictureOf(n, size),
                made("figcaption", {}, `Were f = ${more}: two sets of ${size} share ${Math.max(0, 2 * size - n)}, and (k - 2)f + 1 = ${(k - 2) * more + 1} would be needed. So ${more} are too many.`),
            );
        }
        this.weigh();
    }

    /** The weights of the members, where certificates are judged by them; else null. */
    weights() {
        return $("by-weight").checked ? parsedWeights($("weights").value) : null;
    }

    /** Shows a certificate of a field, and returns its signers; null where there is none. */
    showParts(name, element) {
        element.replaceChildren();
        let bytes, certificate, weights;
        try {
            bytes = parsed($(name).value);
            certificate = this.commonware.decodeCertificate(bytes);
            weights = this.weights();
        } catch (error) {
            element.append(made("p", { class: "hint" }, `No certificate: ${error.message}`));
            return null;
        }
        const { value, signers } = certificate;
        const { found, error } = this.checked(weights, bytes);
        const terms = [["signers", signers.join(", ") || "no one"]];
        if (error) {
            terms.push(["quorum", `no: ${error.message}`], ["value", told(value)]);
        } else {
            terms.push(["quorum", weights ? `yes, they weigh ${found.weight}` : "yes"]);
            terms.push(...(found.slot ? [["slot", told(found.slot)], ["decision", told(found.decision)]] : [["slot", "none"], ["value", told(value)]]));
        }
        element.append(list(terms));
        return signers;
    }

    /** Returns what is found of a certificate that a quorum signed, or the error. */
    checked(weights, bytes) {
        const { k, n } = this.model();
        try {
            return { found: weights ? this.commonware.weightedCheck(k, weights, bytes) : this.commonware.check(k, n, bytes) };
        } catch (error) {
            return { error };
        }
    }

    judge() {
        const first = this.showParts("first", $("first-parts"));
        const second = this.showParts("second", $("second-parts"));
        $("signers").replaceChildren();
        const { k, n } = this.model();
        if (!first || !second || n === null) {
            show($("both"), "", "Two certificates are needed.");
            return;
        }
        let weights = null;
        try {
            weights = this.weights();
            const members = weights ?? n;
            const inputs = [parsed($("first").value), parsed($("second").value)];
            this.say(k, members, weights, inputs);
        } catch (error) {
            show($("both"), "bad", `No one is named: ${error.message}.`);
        }
        const count = weights ? weights.length : n;
        $("signers").append(chipsOf(count, first, second));
    }

    /** Says what two certificates prove. */
    say(k, members, weights, inputs) {
        const call = (name) => {
            const full = weights ? `weighted${name[0].toUpperCase()}${name.slice(1)}` : name;
            const found = this.commonware[full](k, members, ...inputs);
            return weights ? found : { both: found };
        };
        const least = weights
            ? `weigh at least ${BigInt(k - 2) * this.commonware.weightsQuorum(k, weights).tolerated + 1n}`
            : `are at least ${(k - 2) * this.commonware.maxFaults(k, members) + 1}`;
        const named = ({ both, weight }) => `${both.length === 1 ? "Member" : "Members"} ${both.join(", ")}${weights ? `, who weigh ${weight},` : ""}`;
        const rest = k >= 3
            ? `Those who signed both ${least}, (k - 2)f + 1: more than may be faulty, so no set that may be faulty contains them all.`
            : `Those who signed both ${least}.`;
        try {
            const found = call("equivocation");
            show($("both"), "bad", made("strong", {}, `Equivocation: ${named(found)} signed two different decisions for one slot.`), `If the signatures are genuine, both certificates are of this committee, and honest members sign one decision for a slot, none of them is honest. ${rest}`);
        } catch (error) {
            if (error.name === "OtherSlot") {
                show($("both"), "", made("strong", {}, "Two different slots: this rule finds nothing."), OTHER_RULES);
            } else if (error.name === "SameValue") {
                show($("both"), "", made("strong", {}, "One decision for one slot: this rule finds nothing."), OTHER_RULES);
            } else if (error.name === "NoSlot") {
                const found = call("conflict");
                show($("both"), "", made("strong", {}, `${named(found)} signed two different values.`), `These values have no slot, so this is a fault only where both are for one. ${rest}`);
            } else {
                throw error;
            }
        }
    }

    weigh() {
        $("bars").replaceChildren();
        const { k } = this.model();
        try {
            const weights = parsedWeights($("weights").value);
            const { total, tolerated, quorum, smallerQuorum } = this.commonware.weightsQuorum(k, weights);
            show($("weight-numbers"), "good", `All weigh ${total}; at most ${tolerated} may be faulty, ${quorum} is a quorum, and ${smallerQuorum} is enough to share more than ${tolerated} with every quorum.`);
            $("bars").append(barsOf(weights, { total, tolerated, quorum }, table, made));
        } catch (error) {
            show($("weight-numbers"), "bad", `${error.message}.`);
        }
        this.judge();
    }
}

/** Returns the bytes of keys and values as pieces: the lengths, and each item beside the next in another shade. */
function pieces(keys, values, bytes) {
    const size = keys[0]?.length ?? 0;
    const isMap = values !== undefined;
    const columns = isMap ? [keys, values] : [keys];
    const all = columns.reduce((sum, it) => sum + it.reduce((total, item) => total + item.length, 0), 0);
    const length = (bytes.length - all) / columns.length;
    const found = [];
    let at = 0;
    for (const [column, items] of columns.entries()) {
        found.push(made("span", { class: "length", title: column ? "the number of values" : "the number of keys" }, hexOf(bytes.subarray(at, at + length))));
        at += length;
        for (const [index, item] of items.slice(0, 500).entries()) {
            const type = [index % 2 ? "" : "even", column ? "value" : ""].join(" ").trim();
            found.push(made("span", { class: type, title: `${column ? "value" : "key"} ${index}` }, hexOf(item)));
        }
        at += items.length * (column ? values[0]?.length ?? 0 : size);
    }
    return found;
}

/** The module inside the page, where it is a single file. */
function inlined() {
    const text = document.getElementById("module")?.textContent;
    return text ? Uint8Array.from(atob(text.trim()), (it) => it.charCodeAt(0)) : undefined;
}

try {
    new Page(await load(inlined()));
} catch (error) {
    $("status").className = "verdict bad";
    $("status").textContent = error.message;
}
