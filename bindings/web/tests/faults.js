// Where the page says that random inputs are wrong, beside where the plain reader stands when it refuses them.

import { faultOf } from "../fault.js";
import { Fault, Reader, compare, encodeCertificate, encodeMap, encodeSetDedup, varint } from "./plain.js";
import { Chance } from "./random.js";

const LIMITS = { least: 0, most: 5 };
const KINDS = ["set", "map", "bimap", "certificate"];

/** Returns bytes of a kind, mostly with a change. */
function bytesFor({ name, keySize, valueSize }, chance) {
    const keys = chance.list(6, () => chance.bytes(keySize, 4));
    if (name === "set") {
        // Now and then out of order.
        return chance.one(encodeSetDedup(keys), [...varint(keys.length), ...keys.flat()]);
    }
    if (name === "certificate") {
        const signers = chance.list(6, () => chance.one(chance.below(9), 128, 300));
        const sorted = [...new Set(signers)].sort((one, other) => one - other);
        const unsorted = [1, 7, ...varint(signers.length), ...signers.flatMap(varint)];
        return chance.one(encodeCertificate(chance.bytes(chance.below(4)), sorted), unsorted);
    }
    return encodeMap(keys.map((it) => [it, chance.bytes(valueSize, 3)]));
}

/** Reads by the module. */
function reading(commonware, { name, keySize, valueSize }, bytes) {
    if (name === "certificate") {
        return commonware.decodeCertificate(bytes, { mostSigners: LIMITS.most });
    }
    if (name === "set") {
        return commonware.decodeSet(keySize, bytes, LIMITS);
    }
    return commonware[name === "map" ? "decodeMap" : "decodeBiMap"](keySize, valueSize, bytes, LIMITS);
}

/** Returns where the plain reader finds the fault, from which byte up to which, or null where there is none. */
function expected({ name, keySize, valueSize }, bytes) {
    const reader = new Reader(bytes);
    const most = LIMITS.most;
    const sizes = { set: [keySize, 0, most], certificate: [Infinity, most] }[name] ?? [keySize, valueSize, 0, most];
    try {
        reader[name](...sizes);
    } catch (error) {
        if (!(error instanceof Fault)) {
            throw error;
        }
        return placeOf(error, reader, { name, keySize, valueSize });
    }
    return reader.at < bytes.length ? [reader.at, bytes.length] : null;
}

/** Returns the place of a fault, by where the reader stands: for an order, after the last item that it read. */
function placeOf(error, reader, { name, keySize, valueSize }) {
    if (error.fault === "EndOfInput") {
        return [reader.bytes.length, reader.bytes.length];
    }
    if (error.fault === "RepeatedValue") {
        const count = new Reader(reader.bytes).varint();
        const from = reader.at - (count - error.number[1]) * valueSize;
        return [from, from + valueSize];
    }
    if (error.fault !== "NotStrict") {
        return [reader.from, reader.at];
    }
    const again = new Reader(reader.bytes);
    if (name === "certificate") {
        again.take(again.varint());
    }
    const count = again.varint();
    let before = null;
    for (let index = 0; index < count; index++) {
        const from = again.at;
        const item = name === "certificate" ? [again.varint()] : again.take(keySize);
        if (before && compare(before, item) >= 0) {
            return [from, again.at];
        }
        before = item;
    }
    throw new Error("the items are in order");
}

/** Tries as many random inputs, and returns what differs, and how many were refused. */
export function tryFaults(commonware, count) {
    const wrong = [];
    let refused = 0;
    for (let seed = 0; seed < count && wrong.length < 3; seed++) {
        const chance = new Chance(seed);
        const kind = { name: KINDS[seed % KINDS.length], keySize: chance.one(1, 2, 5), valueSize: chance.one(1, 2, 5) };
        const bytes = Uint8Array.from(chance.changed(bytesFor(kind, chance)));
        const read = (part) => reading(commonware, kind, part);
        const place = expected(kind, bytes);
        let said = null;
        try {
            read(bytes);
        } catch (error) {
            const { from, to } = faultOf(kind, read, bytes, error);
            said = [from, to];
            refused++;
        }
        if (String(said) !== String(place)) {
            wrong.push(`${kind.name}, seed ${seed}: ${said}, and not ${place}, of ${[...bytes]}`);
        }
    }
    return { refused, wrong };
}
