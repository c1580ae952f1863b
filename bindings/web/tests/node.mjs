// Tries the module in Node: the vectors, random cases, arguments, and how much memory the writers may take.
//
// Usage: node node.mjs CASES
//
// Each thing that is tried is a line, 'ok WHAT', or 'not ok WHAT' and below it why. What was counted or measured is a line
// '# ..'.

import { readFile } from "node:fs/promises";
import { resolve } from "node:path";
import { runInNewContext } from "node:vm";
import * as module from "../commonware.js";
import { faultOf } from "../fault.js";
import { tryFaults } from "./faults.js";
import { tryNative } from "./native.js";
import { numbers } from "./plain.js";
import { tryRandom } from "./random.js";
import { FILES, bytes, hex, tryVectors } from "./vectors.js";

const cases = Number(process.argv[2]);
const ROOT = resolve(import.meta.dirname, "../../..");
let failed = 0;

function note(good, what, why = "") {
    failed += good ? 0 : 1;
    console.log(good ? `ok ${what}` : `not ok ${what}\n    ${why}`);
}

/** Expects that a call throws an error of this name, which says this, and has these numbers. */
function refused(what, call, name, words, numbers = {}) {
    try {
        call();
        note(false, what, "nothing is thrown");
    } catch (error) {
        const has = Object.entries(numbers).every(([field, number]) => error[field] === number);
        note(error.name === name && error.message.includes(words) && has, what, `${error.name}: ${error.message}`);
    }
}

function tryArguments(commonware) {
    refused("a negative number", () => commonware.quorum(3, -1), "OutOfRange", "n is a whole number from 0 to 4294967295");
    refused("half a number", () => commonware.quorum(1.5, 1), "OutOfRange", "k is a whole number");
    refused("a number of 33 bits", () => commonware.maxFaults(3, 2 ** 32), "OutOfRange", "and not 4294967296");
    refused("a limit past 64 bits", () => commonware.readSet(1, new Uint8Array(1), { most: 2n ** 64n }), "OutOfRange", "most");
    refused("a signer past 32 bits", () => commonware.encodeCertificate(bytes("aa"), [2 ** 32]), "OutOfRange", "a signer");
    refused("a negative weight", () => commonware.weightsQuorum(3, [-1n]), "OutOfRange", "a weight");
    refused("a text for bytes", () => commonware.decodeCommittee("00"), "TypeError", "input is a Uint8Array");
    const wide = "a whole number from 0: a bigint below 2^64, or a number up to 2^53 - 1, and not";
    refused("a limit that isn't exact", () => commonware.readSet(1, new Uint8Array(1), { most: 2 ** 53 }), "OutOfRange", `most is ${wide} ${2 ** 53}`);
    refused("a negative bigint", () => commonware.weightsQuorum(3, [-1n]), "OutOfRange", `a weight is ${wide} -1`, { most: 2n ** 64n - 1n });
    refused("a key of another size", () => commonware.encodeSetDedup(2, [bytes("0102"), bytes("03")]), "WrongSize", "key 1 has 1 bytes");
    refused("a member too short", () => commonware.encodeCommitteeDedup([new Uint8Array(32), new Uint8Array(31)]), "WrongSize", "key 1 has 31 bytes");
    refused("half a member", () => commonware.encodeCommitteeDedup(new Uint8Array(33)), "NotWhole", "1 bytes after the last whole item", { count: 1 });
    refused("keys of no bytes", () => commonware.encodeSetDedup(0, new Uint8Array(3)), "NoSize", "keys of no bytes");
    refused("half a key", () => commonware.encodeSetDedup(2, new Uint8Array(3)), "NotWhole", "1 bytes after the last whole item");
    refused("k below 2", () => commonware.quorum(1, 4), "NoModel", "k is below 2");
    refused("no members", () => commonware.quorum(3, 0), "NoMembers", "no members");
    note(commonware.version === "2.0.0", "the version", commonware.version);
    note(commonware.positionInCommittee([], new Uint8Array(31)) === null, "a key of another size is no member");
    const { name, which } = (() => {
        try {
            return commonware.equivocation(3, 4, bytes("0301070003000102"), bytes("03010700"));
        } catch (error) {
            return error;
        }
    })();
    note(name === "EndOfInput" && which === 2, "an error says which certificate it is about", `${name} ${which}`);
    const part = new Uint8Array(40).fill(7).subarray(3, 36);
    part[0] = 1;
    note(commonware.decodeCommittee(part).length === 1, "a part of an array is read from where it begins");
    note(commonware.decodeCommittee(Buffer.from(part))[0].constructor === Uint8Array, "Node's Buffer is read, and results are Uint8Array");
    const members = commonware.decodeCommittee(part);
    part[1] = 9;
    note(members[0][0] === 7, "a result stays where its input changes");
}

/** The look-ups, of keys and lists that aren't as they are to be. */
function tryLookUps(commonware) {
    const calls = { positionInCommittee: commonware.positionInCommittee.bind(commonware), positionInSet: commonware.positionInSet.bind(commonware) };
    for (const [name, indexOf] of Object.entries(calls)) {
        const members = [bytes("01".repeat(32)), bytes("03".repeat(32))];
        const flat = bytes("01".repeat(32) + "03".repeat(32));
        const found = [members, flat].map((it) => members.map((key) => indexOf(it, key)));
        note(String(found) === "0,1,0,1", `${name} takes an array of keys, and their bytes`, String(found));
        note(indexOf(members, bytes("02".repeat(32))) === null, `${name}: a key that isn't there`);
        refused(`${name}: bytes after the last whole key`, () => indexOf(new Uint8Array(33), new Uint8Array(32)), "NotWhole", "1 bytes after the last whole item", { count: 1 });
        refused(`${name}: fewer bytes than a key`, () => indexOf(new Uint8Array(31), new Uint8Array(32)), "NotWhole", "31 bytes", { count: 31 });
        for (const size of [0, 1, 31, 33, 64]) {
            note(indexOf(members, new Uint8Array(size)) === null, `${name}: a key of ${size} bytes isn't there`);
        }
        const other = [members[0], new Uint8Array(31)];
        refused(`${name}: keys of two sizes`, () => indexOf(other, members[0]), "WrongSize", "key 1 has 31 bytes, and should have 32", { index: 1, length: 31, size: 32, part: "key" });
        note(indexOf([], new Uint8Array(32)) === null && indexOf(new Uint8Array(0), new Uint8Array(32)) === null, `${name}: no keys`);
    }
    const none = new Uint8Array(0);
    note(commonware.positionInSet(commonware.decodeSet(0, bytes("01")), none) === 0, "the key of no bytes is where its set has it");
    note(commonware.positionInSet(commonware.decodeSet(0, bytes("00")), none) === null, "the key of no bytes isn't in an empty set");
    note(commonware.positionInSet([none], bytes("07")) === null, "another key isn't in the set of the one of no bytes");
    refused("bytes of no keys", () => commonware.positionInSet(none, none), "NoSize", "keys of no bytes");
}

/** The first pair that is wrong is told, and which part of it. */
function tryPairs(commonware) {
    const pairs = [[bytes("0102"), bytes("07")], [bytes("0304"), bytes("0708")], [bytes("05"), bytes("07")]];
    for (const call of ["encodeMapDedup", "encodeMap"]) {
        const encode = (list) => commonware[call](2, 1, list);
        refused(`${call}: a value before a key`, () => encode(pairs), "WrongSize", "value 1 has 2 bytes, and should have 1", { index: 1, length: 2, size: 1, part: "value" });
        refused(`${call}: a key before a value`, () => encode([pairs[0], [bytes("05"), bytes("0708")]]), "WrongSize", "key 1 has 1 bytes, and should have 2", { index: 1, length: 1, size: 2, part: "key" });
        refused(`${call}: a size before a type`, () => encode([pairs[1], [bytes("0506"), "07"]]), "WrongSize", "value 0", { index: 0 });
    }
    let walked = 0;
    const walk = function* () {
        for (const pair of pairs) {
            walked++;
            yield pair;
        }
    };
    refused("pairs as they come", () => commonware.encodeMapDedup(2, 1, walk()), "WrongSize", "value 1", { part: "value" });
    note(walked === 2, "they are walked up to the first that is wrong", `${walked}`);
}

/** Arrays of another realm, as that of a frame, and arrays that another thread may write to. */
function tryMemories(commonware) {
    const [others, foreign] = runInNewContext("[Uint8Array, Uint8Array.from({ length: 33 }, (_, index) => index ? 7 : 1)]");
    note(!(foreign instanceof Uint8Array), "there are two realms");
    const members = commonware.decodeCommittee(foreign);
    note(members.length === 1 && members[0].constructor === Uint8Array, "an array of another realm is read");
    const key = others.from({ length: 32 }, () => 7);
    note(commonware.positionInCommittee([key], key) === 0 && commonware.positionInSet(key, key) === 0, "keys of another realm are found");
    const map = commonware.encodeMapDedup(32, 1, others.from({ length: 33 }, () => 7));
    note(hex(map) === `01${"07".repeat(32)}0107`, "pairs of another realm are written");
    for (const wrong of [new Uint16Array(1), new DataView(new ArrayBuffer(1)), new ArrayBuffer(1), { [Symbol.toStringTag]: "Uint8Array" }]) {
        refused(`${wrong.constructor.name} for bytes`, () => commonware.decodeCommittee(wrong), "TypeError", "input is a Uint8Array");
    }
    const shared = new Uint8Array(new SharedArrayBuffer(33)).fill(7);
    shared[0] = 1;
    // After the library has judged the bytes, and before they are taken apart, another thread writes to them.
    const { getUint32 } = DataView.prototype;
    DataView.prototype.getUint32 = function (...args) {
        shared[5] = 9;
        return getUint32.apply(this, args);
    };
    const [member] = commonware.decodeCommittee(shared);
    DataView.prototype.getUint32 = getUint32;
    note(shared[5] === 9 && hex(member) === "07".repeat(32), "what is returned of shared memory is what was judged", hex(member));
    note(member.buffer instanceof ArrayBuffer, "and isn't shared");
    const signed = commonware.encodeCertificate(shared.subarray(6), [1]);
    note(hex(commonware.decodeCertificate(signed).value) === "07".repeat(27), "a value in shared memory is written");
}

/** The vectors of native calls, over an instance of their own. */
async function tryNativeVectors() {
    const compiled = await WebAssembly.compile(await readFile(`${ROOT}/bindings/prebuilt/wasm64/commonware.wasm`));
    const { exports } = await WebAssembly.instantiate(compiled, {});
    const fileOf = async (name) => JSON.parse(await readFile(`${ROOT}/vectors/native/${name}.json`, "utf8"));
    const schema = await fileOf("schema");
    for (const name of schema.properties.name.enum) {
        const { count, wrong } = tryNative(exports, name, schema, await fileOf(name));
        note(count > 0 && wrong.length === 0, `node: the native vectors of ${name}`, wrong.slice(0, 3).join("; "));
    }
}

/** A module with a 64-bit memory, and with a version alone. */
function versioned(number) {
    const section = (id, ...content) => [id, content.length, ...content];
    const name = (text) => [text.length, ...new TextEncoder().encode(text)];
    // Groups of seven bits, of which the last has the sign.
    const groups = [0, 7, 14, 21].map((shift) => 128 | ((number >> shift) & 127));
    const body = [0, 0x41, ...groups, (number >> 28) & 127, 0x0b];
    const exports = [...name("memory"), 2, 0, ...name("__heap_base"), 3, 0, ...name("commonware_version"), 0, 0];
    return Uint8Array.of(
        0, 0x61, 0x73, 0x6d, 1, 0, 0, 0,
        ...section(1, 1, 0x60, 0, 1, 0x7f),
        ...section(3, 1, 0),
        ...section(5, 1, 4, 1),
        ...section(6, 1, 0x7e, 0, 0x42, 0, 0x0b),
        ...section(7, 3, ...exports),
        ...section(10, 1, body.length, ...body),
    );
}

/** Modules of other versions. */
async function tryVersions() {
    for (const [number, version] of [[3004005, "3.4.5"], [1999999, "1.999.999"], [20000000, "20.0.0"]]) {
        const said = await module.load(versioned(number)).catch((error) => error);
        note(said.name === "OtherVersion" && said.version === version && said.needed === 2, `a module of version ${version} is refused`, said);
        const words = `The module is version ${version} of the library: this package needs version 2.`;
        note(said.message === words, `version ${version} is said in a sentence`, said.message);
    }
    const made = new WebAssembly.Module(versioned(3004005));
    refused("a module of another version that is compiled", () => new module.Commonware(made), "OtherVersion", "3.4.5");
    const later = await module.load(versioned(2999999)).catch((error) => error);
    note(later.version === "2.999.999", "a module of a later minor version is loaded", later);
}

/** Errors that no byte of an input is to blame for. */
function tryBlame(commonware) {
    const kind = { name: "set", keySize: 2 ** 60, valueSize: 0 };
    const read = (part) => commonware.decodeSet(kind.keySize, part);
    refused("a size past 2^53", () => read(bytes("00")), "OutOfRange", "size is a whole number from 0 to 9007199254740991");
    for (const error of [new module.OutOfRange("size", 2 ** 60, 1), new module.OutOfMemory(), new RangeError("Invalid array length")]) {
        note(faultOf(kind, read, bytes("00"), error) === null, `no byte is wrong where there is ${error.name}`);
    }
}

/** Sets and maps that take more memory than the module begins with. */
function trySizes(commonware) {
    for (const count of [0, 1, 127, 128, 16383, 16384, 70000]) {
        // Keys that fall, each twice.
        const keys = new Uint8Array(2 * 32 * count);
        const view = new DataView(keys.buffer);
        for (let index = 0; index < 2 * count; index++) {
            view.setUint32(32 * index, count - (index % count || 0));
        }
        const encoded = commonware.encodeCommitteeDedup(keys);
        const length = count < 128 ? 1 : count < 16384 ? 2 : 3;
        const members = commonware.decodeCommittee(encoded);
        const rise = members.every((it, index) => new DataView(it.buffer).getUint32(0) === index + 1);
        note(encoded.length === length + 32 * count && members.length === count && rise, `${count} members of twice as many keys`);
        const pairs = members.map((it) => [it, it.slice(0, 4)]).reverse();
        const map = commonware.encodeMap(32, 4, pairs);
        const { values } = commonware.decodeBiMap(32, 4, map);
        note(values.length === count && values.every((it, at) => hex(it) === hex(members[at].slice(0, 4))), `a bimap of ${count} pairs`);
    }
}

function tryTotals(commonware) {
    let wrong = "";
    for (let k = 2; k <= 7; k++) {
        for (let n = 1; n <= 2000; n++) {
            const { faults, quorum, smaller } = numbers(k, n);
            const same = commonware.maxFaults(k, n) === faults && commonware.quorum(k, n) === quorum;
            wrong ||= same && commonware.smallerQuorum(k, n) === smaller ? "" : `k ${k}, n ${n}`;
        }
    }
    note(wrong === "", "the numbers of 1 to 2000 members at each k from 2 to 7", wrong);
}

if (!module.isSupported()) {
    const said = await module.load().catch((error) => error);
    note(said.name === "NoMemory64", "without 64-bit memory it says so", said);
    note(/^[^.]*\.$/.test(said.message), "in one sentence", said.message);
} else {
    const commonware = await module.load();
    for (const name of Object.keys(FILES)) {
        const file = JSON.parse(await readFile(`${ROOT}/vectors/${name}.json`, "utf8"));
        const { count, wrong } = tryVectors(commonware, name, file);
        note(count > 0 && wrong.length === 0, `node: the vectors of ${name}`, wrong.slice(0, 3).join("; "));
    }
    await tryNativeVectors();
    const { wrong, met } = tryRandom(commonware, cases, 2 ** 31);
    note(wrong.length === 0, "node: random cases", wrong.join("; "));
    const faults = tryFaults(commonware, Math.ceil(cases / 5));
    note(faults.wrong.length === 0, "node: the place of each fault of random inputs", faults.wrong.join("; "));
    console.log(`# node: ${cases} random cases, ${Object.keys(met).length} results of calls; the place of ${faults.refused} faults`);
    tryArguments(commonware);
    tryLookUps(commonware);
    tryPairs(commonware);
    tryMemories(commonware);
    tryBlame(commonware);
    await tryVersions();
    trySizes(commonware);
    tryTotals(commonware);
}
process.exit(failed ? 1 : 0);
