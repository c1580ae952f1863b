// The proved functions as the module has them: arguments go into its memory, and a view comes out. The other files
// call them by this one alone.

import { MEMORY, RESULTS } from "./calls.js";
import { NoMemory64, OutOfMemory, OutOfRange } from "./errors.js";

export const U32_MAX = 2 ** 32 - 1;
export const U64_MAX = 2n ** 64n - 1n;

// The smallest module with a 64-bit memory.
const TINY = Uint8Array.of(0, 0x61, 0x73, 0x6d, 1, 0, 0, 0, 5, 3, 1, 4, 1);
const PAGE = 65536;
// Room for each view.
const VIEW_SIZE = 128;
// Returns the name of the type of a typed array, which nothing but one has.
const typeOf = Object.getOwnPropertyDescriptor(Object.getPrototypeOf(Uint8Array.prototype), Symbol.toStringTag).get;

/** Tells whether WebAssembly here has memories of 64 bits. */
export function isSupported() {
    return typeof WebAssembly === "object" && WebAssembly.validate(TINY);
}

/** Returns an argument that is a whole number from 0 to `most`. */
export function numberOf(name, number, most = U32_MAX) {
    if (typeof number !== "number" || !Number.isInteger(number) || number < 0 || number > most) {
        throw new OutOfRange(name, number, most);
    }
    return number;
}

/** Returns an argument of 64 bits, which is a bigint, or a number that is exact. */
export function wideOf(name, number) {
    const wide = Number.isSafeInteger(number) ? BigInt(number) : number;
    if (typeof wide !== "bigint" || wide < 0n || wide > U64_MAX) {
        throw new OutOfRange(name, number, U64_MAX);
    }
    return wide;
}

/** Tells whether an argument is a Uint8Array: of this realm or of another one, as that of a frame. */
export function isBytes(data) {
    return ArrayBuffer.isView(data) && typeOf.call(data) === "Uint8Array";
}

/** Returns the bytes of an argument. Of a subclass, as Node's Buffer, `slice` may be another function. Shared memory is
 * copied, since others may write to it: what is returned of it is then what was judged. */
export function bytesOf(name, data) {
    if (!isBytes(data)) {
        throw new TypeError(`${name} is a Uint8Array`);
    }
    if (Object.prototype.toString.call(data.buffer) === "[object SharedArrayBuffer]") {
        return new Uint8Array(data);
    }
    return data.constructor === Uint8Array ? data : new Uint8Array(data.buffer, data.byteOffset, data.length);
}

function roundUp(number) {
    return 16 * Math.ceil(number / 16);
}

// How a number of each type is read. One of 64 bits is a bigint, and a length a number, since none here reaches 2^53.
const READ = {
    u32: (data, at) => data.getUint32(at, true),
    u64: (data, at) => data.getBigUint64(at, true),
    usize: (data, at) => Number(data.getBigUint64(at, true)),
};

/** Returns the view of these fields in memory. */
function viewAt(data, fields) {
    return Object.fromEntries(fields.map(([name, type, offset]) => [name, READ[type](data, offset)]));
}

/** Room for as many numbers of a type, which a function fills. */
export class Room {
    constructor(Type, length) {
        this.Type = Type;
        this.length = length;
        this.byteLength = length * Type.BYTES_PER_ELEMENT;
    }
}

/** Bytes whose length is told as a number of items, or isn't told where `count` is null. */
export class Counted {
    constructor(bytes, count) {
        this.bytes = bytes;
        this.length = count;
        this.byteLength = bytes.byteLength;
    }
}

/** An instance of the module. */
export class Native {
    #exports;
    #base;
    #Pages;

    constructor(module) {
        if (!isSupported()) {
            throw new NoMemory64();
        }
        this.#exports = new WebAssembly.Instance(module, {}).exports;
        this.#base = roundUp(Number(this.#exports.__heap_base.value));
        try {
            this.#exports.memory.grow(0n);
            this.#Pages = BigInt;
        } catch {
            // Before memories of 64 bits were standard, they grew by a number.
            this.#Pages = Number;
        }
    }

    /** Calls a function of numbers alone. */
    number(name, ...numbers) {
        return this.#exports[`commonware_${name}`](...numbers) >>> 0;
    }

    /** Makes the memory as long as that, where it isn't yet. */
    #grow(size) {
        const { memory } = this.#exports;
        const pages = Math.ceil((size - memory.buffer.byteLength) / PAGE);
        if (pages > 0) {
            try {
                memory.grow(this.#Pages(pages));
            } catch {
                throw new OutOfMemory();
            }
        }
    }

    /** Calls a function, and returns its view, with what stands in a Room afterwards as `out`. The arguments are
     * numbers, bigints, typed arrays, and the two classes above. At least `heap` bytes may be allocated. */
    call(name, args, heap = 0) {
        // The view first, then each array, at multiples of 16.
        let top = this.#base + VIEW_SIZE;
        const words = [BigInt(this.#base)];
        const placed = [];
        for (const it of args) {
            if (typeof it === "number" || typeof it === "bigint") {
                words.push(it);
                continue;
            }
            words.push(BigInt(top), ...(it.length === null ? [] : [BigInt(it.length)]));
            placed.push([top, it]);
            top = roundUp(top + it.byteLength);
        }
        this.#grow(top + heap);
        const { buffer } = this.#exports.memory;
        for (const [at, it] of placed) {
            if (!(it instanceof Room)) {
                const from = it.bytes ?? it;
                new Uint8Array(buffer, at).set(new Uint8Array(from.buffer, from.byteOffset, from.byteLength));
            }
        }
        this.#exports.commonware_heap_reset(BigInt(top), BigInt(buffer.byteLength - top));
        this.#exports[`commonware_${name}`](...words);
        const view = viewAt(new DataView(buffer, this.#base, VIEW_SIZE), RESULTS[name]);
        for (const [at, it] of placed.filter(([, it]) => it instanceof Room)) {
            // A copy, since the next call takes the memory anew.
            view.out = new it.Type(buffer, at, it.length).slice();
        }
        return view;
    }

    /** The same, of a function that allocates, with more and more memory as long as there is some. */
    allocating(name, args) {
        const given = args.reduce((sum, it) => sum + (it.byteLength ?? 0), 0);
        for (let heap = PAGE + 4 * given; ; heap *= 4) {
            const view = this.call(name, args, heap);
            if (view.status !== MEMORY) {
                return view;
            }
        }
    }
}
