// Committees, sets, maps, bimaps, certificates and quorums of consensus nodes, by the proved functions of
// commonware.wasm: what is decoded, written and judged here, they decide. This file, which isn't proved but tested,
// carries bytes in and out.
//
//     import { load } from "./commonware.js";
//     const commonware = await load();
//     commonware.quorum(N3F1, 4); // 3

import { ABSENT, OK, REPEATED_VALUE, ROOM } from "./calls.js";
import { LeftOver, NoMembers, NoMemory64, NoModel, NotWhole, OtherVersion, RepeatedValue, WrongSize } from "./errors.js";
import { Counted, Native, Room, U64_MAX, bytesOf, isBytes, isSupported, numberOf, wideOf } from "./native.js";
import { checked } from "./statuses.js";

export * from "./errors.js";
export { isSupported } from "./native.js";

/** The k of the fault models N3f1 and N5f1, whose n participants are at least kf + 1. */
export const N3F1 = 3;
export const N5F1 = 5;

/** How many bytes a member of a committee has. */
export const MEMBER_SIZE = 32;

/** The major version of the library that this package needs. */
const NEEDED_MAJOR = 2;

/** Loads the module: the package's own, or the bytes that are given. Another major version of it is refused. */
export async function load(bytes = undefined) {
    if (!isSupported()) {
        throw new NoMemory64();
    }
    return new Commonware(await WebAssembly.compile(bytes ?? (await prebuilt())));
}

/** Returns the bytes of the package's own module, in a browser or in Node. */
async function prebuilt() {
    const place = new URL("../prebuilt/wasm64/commonware.wasm", import.meta.url);
    if (place.protocol === "file:" && typeof process === "object") {
        const { readFile } = await import("node:fs/promises");
        return readFile(place);
    }
    const answer = await fetch(place);
    if (!answer.ok) {
        throw new Error(`${place}: ${answer.status}`);
    }
    return answer.arrayBuffer();
}

/** Returns the least and the greatest number of items that are allowed. */
function limitsOf({ least = 0, most = U64_MAX } = {}) {
    return [wideOf("least", least), wideOf("most", most)];
}

/** Returns a size of items as the library has it. */
function sizeOf(name, size) {
    return BigInt(numberOf(name, size, Number.MAX_SAFE_INTEGER));
}

/** Returns the items of one size that stand from a place on. */
function itemsAt(input, start, size, count) {
    return Array.from({ length: count }, (_, index) => input.slice(start + index * size, start + (index + 1) * size));
}

/** Returns the bytes of an item of a list, which has this size. */
function itemOf(name, item, index, size, part = "key") {
    const bytes = bytesOf(name, item);
    if (bytes.length !== size) {
        throw new WrongSize(index, bytes.length, size, part);
    }
    return bytes;
}

/** Returns parts as bytes, one after another. */
function concatenated(parts) {
    const all = new Uint8Array(parts.reduce((sum, it) => sum + it.length, 0));
    let at = 0;
    for (const part of parts) {
        all.set(part, at);
        at += part.length;
    }
    return all;
}

/** Returns items of one size as bytes, one after another. */
function joined(name, items, size) {
    if (isBytes(items)) {
        return bytesOf(name, items);
    }
    return concatenated(Array.from(items, (it, index) => itemOf(name, it, index, size)));
}

/** Returns the pairs of a map as bytes, one after another. They are walked once: the first that is wrong is told. */
function joinedPairs(pairs, keySize, valueSize) {
    if (isBytes(pairs)) {
        return bytesOf("pairs", pairs);
    }
    const parts = [];
    let index = 0;
    for (const pair of pairs) {
        parts.push(itemOf("a key", pair[0], index, keySize));
        parts.push(itemOf("a value", pair[1], index, valueSize, "value"));
        index++;
    }
    return concatenated(parts);
}

/** Refuses bytes that follow the last whole item. Of items of no bytes the library tells that their number is unknown. */
function checkWhole(bytes, size) {
    const over = size > 0 ? bytes.length % size : 0;
    if (over > 0) {
        throw new NotWhole(over);
    }
}

/** Returns members one after another, with their number. */
function membersOf(members) {
    const bytes = joined("a member", members, MEMBER_SIZE);
    checkWhole(bytes, MEMBER_SIZE);
    return new Counted(bytes, bytes.length / MEMBER_SIZE);
}

function signersOf(signers) {
    return Uint32Array.from(signers, (it) => numberOf("a signer", it));
}

function weightsOf(weights) {
    return BigUint64Array.from(weights, (it) => wideOf("a weight", it));
}

/** The functions of one instance of the module. */
export class Commonware {
    #native;

    /** Makes an instance of a module: `new WebAssembly.Module(bytes)`. The functions of another major version may say
     * other things: OtherVersion. */
    constructor(module) {
        this.#native = new Native(module);
        if (this.#versionParts()[0] !== NEEDED_MAJOR) {
            throw new OtherVersion(this.version, NEEDED_MAJOR);
        }
    }

    /** The version of the library, as "2.0.0". */
    get version() {
        return this.#versionParts().join(".");
    }

    #versionParts() {
        const number = this.#native.number("version");
        return [number / 1e6, (number / 1e3) % 1e3, number % 1e3].map(Math.floor);
    }

    /** How many of n participants may be faulty at a resilience n >= kf + 1: the greatest f that fits. */
    maxFaults(k, n) {
        return this.#ofModel("max_faults", k, n);
    }

    /** How many of n participants make a quorum, n - f. */
    quorum(k, n) {
        return this.#ofModel("quorum", k, n);
    }

    /** The least size whose subsets share f + 1 participants with each quorum, 2f + 1. */
    smallerQuorum(k, n) {
        return this.#ofModel("smaller_quorum", k, n);
    }

    #ofModel(name, k, n) {
        if (numberOf("k", k) < 2) {
            throw new NoModel();
        }
        if (numberOf("n", n) === 0) {
            throw new NoMembers();
        }
        return this.#native.number(name, k, n);
    }

    /** Decodes a committee at the start of the input; `left` is what follows it. */
    readCommittee(input, limits = {}) {
        const { keys, left } = this.#keys("committee_read", [], MEMBER_SIZE, input, limits);
        return { members: keys, left };
    }

    /** Decodes a committee that is the whole input: its members in order. */
    decodeCommittee(input, limits = {}) {
        return whole(this.readCommittee(input, limits)).members;
    }

    /** Encodes the committee of these members, which may come in any order and repeat. */
    encodeCommitteeDedup(members) {
        const list = membersOf(members);
        return this.#written("committee_encode_dedup", [list], 5 + list.bytes.length);
    }

    /** Returns the index of a member, or null where the key is none, as one of another size never is. The members have
     * to be in order, as decodeCommittee returns them: else null says nothing. */
    positionInCommittee(members, key) {
        const list = membersOf(members);
        const sought = bytesOf("key", key);
        if (sought.length !== MEMBER_SIZE) {
            return null;
        }
        return this.#place("committee_position", [list, new Counted(sought, null)]);
    }

    /** Decodes a set of keys of `size` bytes at the start of the input; `left` is what follows it. */
    readSet(size, input, limits = {}) {
        return this.#keys("set_read", [sizeOf("size", size)], size, input, limits);
    }

    #keys(name, sizes, size, input, limits) {
        const bytes = bytesOf("input", input);
        const view = checked(this.#native.call(name, [...sizes, bytes, ...limitsOf(limits)]));
        return { keys: itemsAt(bytes, view.start, size, view.count), left: bytes.slice(bytes.length - view.left) };
    }

    /** Decodes a set that is the whole input: its keys in order. */
    decodeSet(size, input, limits = {}) {
        return whole(this.readSet(size, input, limits)).keys;
    }

    /** Encodes the set of these keys of `size` bytes, which may come in any order and repeat. */
    encodeSetDedup(size, keys) {
        const args = [sizeOf("size", size), joined("a key", keys, size)];
        return this.#written("set_encode_dedup", args, 5 + args[1].length);
    }

    /** Returns the index of a key among keys of one size, or null where it isn't there, as one of another size never
     * is. The keys have to be in order, as decodeSet returns them: else null says nothing. Where they are bytes one
     * after another, nothing but the key tells their size: NotWhole where they aren't whole keys of its size, NoSize
     * where it has no bytes. */
    positionInSet(keys, key) {
        const sought = bytesOf("key", key);
        const list = isBytes(keys) ? null : Array.from(keys);
        const size = list && list.length > 0 ? bytesOf("a key", list[0]).length : sought.length;
        const bytes = joined("a key", list ?? keys, size);
        checkWhole(bytes, size);
        if (sought.length !== size) {
            return null;
        }
        if (list && size === 0) {
            return list.length > 0 ? 0 : null;
        }
        return this.#place("set_position", [bytes, sought]);
    }

    /** Decodes a map of keys and values of these sizes at the start of the input; `left` is what follows it. */
    readMap(keySize, valueSize, input, limits = {}) {
        const bytes = bytesOf("input", input);
        const args = [sizeOf("keySize", keySize), sizeOf("valueSize", valueSize), bytes, ...limitsOf(limits)];
        const view = checked(this.#native.call("map_read", args));
        return columnsOf(keySize, valueSize, bytes, view);
    }

    /** Decodes a map that is the whole input: its keys in order, and the value of each. */
    decodeMap(keySize, valueSize, input, limits = {}) {
        const { keys, values } = whole(this.readMap(keySize, valueSize, input, limits));
        return { keys, values };
    }

    /** Encodes the map of these pairs, `[key, value]` each, in any order. Of pairs with equal keys the first stays. */
    encodeMapDedup(keySize, valueSize, pairs) {
        return this.#map("map_encode_dedup", keySize, valueSize, pairs);
    }

    /** Encodes the map of these pairs, no two of which may have one key: RepeatedKey where two do. */
    encodeMap(keySize, valueSize, pairs) {
        return this.#map("map_encode", keySize, valueSize, pairs);
    }

    #map(name, keySize, valueSize, pairs) {
        const sizes = [sizeOf("keySize", keySize), sizeOf("valueSize", valueSize)];
        const bytes = joinedPairs(pairs, keySize, valueSize);
        return this.#written(name, [...sizes, bytes], 10 + bytes.length);
    }

    /** Decodes a bimap, a map whose values all differ, at the start of the input; `left` is what follows it.
     * `byValue` has the indices of the pairs in the order of their values. */
    readBiMap(keySize, valueSize, input, limits = {}) {
        const bytes = bytesOf("input", input);
        const args = [sizeOf("keySize", keySize), sizeOf("valueSize", valueSize), bytes, ...limitsOf(limits)];
        const read = (length) => this.#native.call("bimap_read", [...args, new Room(Uint32Array, length)]);
        const view = this.#withRoom(read, (it) => it.number, REPEATED_VALUE);
        if (view.status === REPEATED_VALUE) {
            throw new RepeatedValue(view.first, view.second);
        }
        return { ...columnsOf(keySize, valueSize, bytes, view), byValue: [...view.out] };
    }

    /** Decodes a bimap that is the whole input. */
    decodeBiMap(keySize, valueSize, input, limits = {}) {
        const { keys, values, byValue } = whole(this.readBiMap(keySize, valueSize, input, limits));
        return { keys, values, byValue };
    }

    /** Decodes a certificate at the start of the input: its value, the indices of its signers in order, and `left`,
     * which is what follows it. */
    readCertificate(input, { mostBytes = U64_MAX, mostSigners = U64_MAX } = {}) {
        const bytes = bytesOf("input", input);
        const args = [bytes, wideOf("mostBytes", mostBytes), wideOf("mostSigners", mostSigners)];
        const read = (length) =>
            this.#native.call("certificate_read", [...args, new Room(Uint32Array, length)]);
        const view = this.#withRoom(read, (it) => it.signers);
        const value = bytes.slice(view.valueStart, view.valueStart + view.valueLength);
        return { value, signers: [...view.out], left: bytes.slice(bytes.length - view.left) };
    }

    /** Decodes a certificate that is the whole input. */
    decodeCertificate(input, limits = {}) {
        const { value, signers } = whole(this.readCertificate(input, limits));
        return { value, signers };
    }

    /** Encodes the certificate of a value and of the indices of its signers, which are strictly increasing. */
    encodeCertificate(value, signers) {
        const indices = signersOf(signers);
        const bytes = bytesOf("value", value);
        return this.#plain("certificate_encode", [bytes, indices], 10 + bytes.length + 5 * indices.length);
    }

    /** Encodes the value that a decision for a slot is. A slot is what an honest member signs at most once: chain,
     * committee, height, round and kind of vote, say. Members sign this value. */
    slotValue(slot, decision) {
        const parts = [bytesOf("slot", slot), bytesOf("decision", decision)];
        return this.#plain("slot_value", parts, 5 + parts[0].length + parts[1].length);
    }

    /** Judges whether a quorum of a committee of `members` signed a certificate: returns how many signed, the value,
     * and its slot and decision, which are null where it has none. No signature is looked at. */
    check(k, members, certificate) {
        const bytes = bytesOf("certificate", certificate);
        const args = [numberOf("k", k), numberOf("members", members), bytes];
        return checkedOf(bytes, checked(this.#native.call("check", args)));
    }

    /** Returns the indices of the members that signed both of two certificates for different values. No signature
     * is looked at. */
    conflict(k, members, first, second) {
        return this.#both("conflict", [numberOf("k", k), numberOf("members", members)], first, second).both;
    }

    /** The same of two certificates for different decisions for one slot: these members equivocated. */
    equivocation(k, members, first, second) {
        return this.#both("equivocation", [numberOf("k", k), numberOf("members", members)], first, second).both;
    }

    /** What the weights of a committee allow, as bigints: what all weigh, what may be faulty, a quorum, and the least
     * weight whose subsets share one more than may be faulty with each quorum. */
    weightsQuorum(k, weights) {
        const args = [numberOf("k", k), weightsOf(weights)];
        const view = checked(this.#native.call("weights_quorum", args));
        const { total, tolerated, quorum, smallerQuorum } = view;
        return { total, tolerated, quorum, smallerQuorum };
    }

    /** Judges whether members who weigh a quorum signed a certificate: what check returns, and their weight. */
    weightedCheck(k, weights, certificate) {
        const bytes = bytesOf("certificate", certificate);
        const args = [numberOf("k", k), weightsOf(weights), bytes];
        const view = checked(this.#native.call("weighted_check", args));
        return { ...checkedOf(bytes, view), weight: view.weight };
    }

    /** Returns the members that signed both of two certificates for different values, and what they weigh. */
    weightedConflict(k, weights, first, second) {
        const args = [numberOf("k", k), weightsOf(weights)];
        return this.#both("weighted_conflict", args, first, second);
    }

    /** The same of two certificates for different decisions for one slot: these members equivocated. */
    weightedEquivocation(k, weights, first, second) {
        const args = [numberOf("k", k), weightsOf(weights)];
        return this.#both("weighted_equivocation", args, first, second);
    }

    #both(name, committee, first, second) {
        const args = [...committee, bytesOf("first", first), bytesOf("second", second)];
        const find = (length) => this.#native.call(name, [...args, new Room(Uint32Array, length)]);
        const view = this.#withRoom(find, (it) => it.count);
        return view.weight === undefined ? { both: [...view.out] } : { both: [...view.out], weight: view.weight };
    }

    /** Calls with no room, and where some is needed again with as much. */
    #withRoom(call, needed, ...statuses) {
        const view = call(0);
        return checked(view.status === ROOM ? call(needed(view)) : view, ...statuses);
    }

    #place(name, args) {
        const view = checked(this.#native.call(name, args), ABSENT);
        return view.status === OK ? view.index : null;
    }

    #plain(name, args, most) {
        const view = this.#native.call(name, [...args, new Room(Uint8Array, most)]);
        return checked(view).out.slice(0, view.size);
    }

    #written(name, args, most) {
        const view = this.#native.allocating(name, [...args, new Room(Uint8Array, most)]);
        return checked(view).out.slice(0, view.size);
    }
}

/** Returns what was read, after which nothing may follow. */
function whole(read) {
    if (read.left.length > 0) {
        throw new LeftOver(read.left.length);
    }
    return read;
}

function columnsOf(keySize, valueSize, input, view) {
    return {
        keys: itemsAt(input, view.keys, keySize, view.count),
        values: itemsAt(input, view.values, valueSize, view.count),
        left: input.slice(input.length - view.left),
    };
}

function checkedOf(certificate, view) {
    const part = (start, length) => certificate.slice(start, start + length);
    const hasSlot = view.slotStart > 0;
    return {
        signers: view.signers,
        value: part(view.valueStart, view.valueLength),
        slot: hasSlot ? part(view.slotStart, view.slotLength) : null,
        decision: hasSlot ? part(view.decisionStart, view.decisionLength) : null,
    };
}
