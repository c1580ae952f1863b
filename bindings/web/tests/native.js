// The vectors of native calls (vectors/native), over the exports of the module: each call is compared in every field of
// its view, in what it writes, and in what it leaves of its room.

import { RESULTS } from "../calls.js";

const PAGE = 65536;
// How many bytes the writers may allocate, beside four for each byte that they get.
const HEAP = 1 << 20;
// How many bytes an item of each kind has. Bytes of members are counted by 32, and one member isn't.
const SIZES = { bytes: 1, members: 1, member: 1, indices: 4, weights: 8 };
// What a byte of a room is before a call.
const BEFORE = 0xee;

const roundUp = (number) => 16 * Math.ceil(number / 16);
const kindOf = (schema) => schema.$ref.slice("#/$defs/".length);
const kindsOf = (schema) => Object.entries(schema.properties).map(([name, it]) => [name, kindOf(it)]);
const camel = (name) => name.replace(/_(\w)/g, (_, letter) => letter.toUpperCase());

function varint(number) {
    const found = [];
    for (; number > 127n; number >>= 7n) {
        found.push(Number(number & 127n) + 128);
    }
    return [...found, Number(number)];
}

/** Returns the bytes of a number of a size, the highest first. */
function sized(number, size) {
    return Array.from({ length: size }, (_, at) => Number((number >> BigInt(8 * (size - 1 - at))) & 255n));
}

/** Yields the numbers of a part that names the first and the last of them. */
function* numbersIn(part) {
    const [first, last, by] = [part.from, part.to, part.by ?? "1"].map(BigInt);
    const step = first <= last ? by : -by;
    for (let number = first; step > 0n ? number <= last : number >= last; number += step) {
        yield number;
    }
}

/** Returns the bytes that a text of hexadecimal, a part or a list of both stands for. */
function bytesOf(part) {
    if (typeof part === "string") {
        return (part.match(/../g) ?? []).map((it) => parseInt(it, 16));
    }
    if (Array.isArray(part)) {
        return part.flatMap(bytesOf);
    }
    if ("times" in part) {
        const once = bytesOf(part.of);
        return Array.from({ length: part.times * once.length }, (_, at) => once[at % once.length]);
    }
    return [...numbersIn(part)].flatMap((it) => (part.size === undefined ? varint(it) : sized(it, part.size)));
}

/** Returns the numbers that a list of numbers and of parts stands for. */
function listOf(parts) {
    const of = (part) => (part.times === undefined ? [...numbersIn(part)] : Array(part.times).fill(BigInt(part.of)));
    return parts.flatMap((part) => (typeof part === "object" ? of(part) : [BigInt(part)]));
}

/** Returns the bytes of an array of a kind as the module has them. */
function arrayOf(kind, value) {
    if (SIZES[kind] === 1) {
        return Uint8Array.from(bytesOf(value));
    }
    const numbers = listOf(value);
    const typed = kind === "indices" ? Uint32Array.from(numbers, Number) : BigUint64Array.from(numbers);
    return new Uint8Array(typed.buffer);
}

/** Makes the memory of the module as long as that. */
function grow(memory, size) {
    const pages = Math.ceil((size - memory.buffer.byteLength) / PAGE);
    if (pages > 0) {
        try {
            memory.grow(BigInt(pages));
        } catch {
            memory.grow(pages);
        }
    }
}

/** Returns the arguments of a call as words, and the arrays with where they are to be in memory. */
function placed(kinds, test, room, base) {
    const words = [], arrays = [];
    let top = base;
    const place = (bytes, ...lengths) => {
        words.push(BigInt(top), ...lengths.map(BigInt));
        arrays.push([top, bytes]);
        top = roundUp(top + bytes.length);
    };
    for (const [name, kind] of kinds) {
        if (kind in SIZES) {
            const bytes = arrayOf(kind, test.arguments[name]);
            const count = bytes.length / (kind === "members" ? 32 : SIZES[kind]);
            place(bytes, ...(kind === "member" ? [] : [count]));
        } else {
            words.push(kind === "u32" ? test.arguments[name] : BigInt(test.arguments[name]));
        }
    }
    if (room) {
        place(new Uint8Array(SIZES[room] * test.room).fill(BEFORE), test.room);
    }
    return { words, arrays, top };
}

const READ = {
    u32: (data, at) => BigInt(data.getUint32(at, true)),
    u64: (data, at) => data.getBigUint64(at, true),
    usize: (data, at) => data.getBigUint64(at, true),
};

/** Calls a function as a test says, and returns its view and its room after that. */
function called(exports, name, kinds, room, test) {
    const base = roundUp(Number(exports.__heap_base.value));
    const { words, arrays, top } = placed(kinds, test, room, base + 128);
    const call = exports[`commonware_${name}`];
    if (!(name in RESULTS)) {
        return { view: { result: BigInt(call(...words) >>> 0) } };
    }
    grow(exports.memory, top + HEAP + 4 * (top - base));
    const { buffer } = exports.memory;
    arrays.forEach(([at, bytes]) => new Uint8Array(buffer, at, bytes.length).set(bytes));
    exports.commonware_heap_reset(BigInt(top), BigInt(buffer.byteLength - top));
    call(BigInt(base), ...words);
    const data = new DataView(buffer, base, 128);
    const view = Object.fromEntries(RESULTS[name].map(([field, type, offset]) => [field, READ[type](data, offset)]));
    const [at, bytes] = arrays.at(-1) ?? [0, []];
    return { view, after: room && new Uint8Array(buffer, at, bytes.length) };
}

/** Returns what is wrong with what a call returns, or nothing. */
function difference(exports, name, schema, test) {
    const said = schema.$defs[name].properties;
    const kinds = kindsOf(said.arguments);
    const room = said.written && kindOf(said.written);
    const { view, after } = called(exports, name, kinds, room, test);
    const expected = Object.entries(test.view ?? { result: test.result }).map(([field, it]) => [camel(field), BigInt(it)]);
    if (String(Object.entries(view)) !== String(expected)) {
        return `${Object.entries(view)}, and not ${expected}`;
    }
    const written = room ? arrayOf(room, test.written) : [];
    const isRoom = !room || after.every((it, at) => it === (at < written.length ? written[at] : BEFORE));
    return isRoom && (!room || written.length <= after.length) ? "" : "what is written";
}

/** Tries the tests of a file over the exports of a module, and returns how many there are, and what differs. */
export function tryNative(exports, name, schema, file) {
    const wrong = [];
    for (const test of file.tests) {
        const why = difference(exports, name, schema, test);
        if (why) {
            wrong.push(`${name}/${test.tcId}: ${why}`);
        }
    }
    return { count: file.tests.length, wrong };
}
