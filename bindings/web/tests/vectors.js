// The questions of the vectors (vectors/README.md) that the module can answer, and what it answers. Their answers were
// worked out by hand.

import { CommonwareError } from "../commonware.js";
import { Fault, Reader, varint } from "./plain.js";

// How many bytes an item of each type of a fixed length has.
const SIZES = { u8: 1, u32: 4, u64: 8, member: 32, bytes20: 20, bytes33: 33, bytes48: 48, bytes96: 96 };
// What an error of the module is called in the vectors, and which part of the answer has its number.
const NAMES = { EndOfInput: "EndOfBuffer", NotStrict: "Invalid", RepeatedValue: "Invalid", RepeatedKey: "DuplicateKey" };
Object.assign(NAMES, { SameValue: "EqualValues", NoMembers: "NoWeights" });
const COLLECTIONS = { NotStrict: "Set", RepeatedValue: "BiMap" };
const NUMBERS = { InvalidLength: ["length", "length"], LeftOver: ["left", "count"] };
Object.assign(NUMBERS, { ZeroWeight: ["participant", "index"], WeightOverflow: ["participant", "index"] });

/** The files, and how many of the questions of each can be asked of the module at least. */
export const FILES = {
    set_u8: 60, set_u32: 60, set_member: 60, set_bytes20: 60, set_bytes33: 60, set_bytes48: 60, set_bytes96: 60,
    map_u8_u8: 60, map_member_u8: 60, map_member_u64: 60, bimap_u8_u8: 60, bimap_member_member: 60,
    certificate: 80, build: 80, build_unique: 20, position: 100, faults: 60, quorum: 100, conflict: 70,
    equivocation: 100, weights: 100, weighted_quorum: 100, weighted_conflict: 80, weighted_equivocation: 90,
};

export const bytes = (hex) => Uint8Array.from(hex.match(/../g) ?? [], (it) => parseInt(it, 16));
export const hex = (data) => [...data].map((it) => it.toString(16).padStart(2, "0")).join("");

/** Returns the sizes of the items of a type, or null where some aren't of one length. */
function sizesOf(type) {
    const found = type.slice(type.indexOf("<") + 1, -1).split(",").map((it) => SIZES[it]);
    return found.every((it) => it) ? found : null;
}

/** Returns the limits of a range, as Rust writes it. */
function limitsOf(range) {
    const [least, end] = range.split("..");
    const limits = { least: BigInt(least || 0), most: 2n ** 64n - 1n };
    if (end) {
        limits.most = end.startsWith("=") ? BigInt(end.slice(1)) : BigInt(end) - 1n;
    }
    return limits.most < 0n ? { least: 1, most: 0 } : limits;
}

const kOf = (model) => ({ n3f1: 3, n5f1: 5 })[model] ?? Number(model.slice(2));

/** Returns the lists of items of these sizes that the bytes are, or throws a Fault where they are none. */
function listsOf(data, ...sizes) {
    const reader = new Reader(data);
    const lists = sizes.map((size) => reader.list(reader.varint(), () => Uint8Array.from(reader.take(size))));
    if (reader.left().length > 0 || lists.some((it) => it.length !== lists[0].length)) {
        throw new Fault("NoLists");
    }
    return lists;
}

function weightsOf(weights) {
    return listsOf(bytes(weights), 8)[0].map((it) => BigInt(`0x${hex(it)}`));
}

const asked = {
    read(commonware, { type, ranges, bytes: input }) {
        const sizes = sizesOf(type);
        if (type === "certificate") {
            const [value, signers] = ranges.map(limitsOf);
            if (value.least > 0 || signers.least > 0) {
                return null;
            }
            const limits = { mostBytes: value.most, mostSigners: signers.most };
            const read = commonware.readCertificate(bytes(input), limits);
            return { items: read.signers.length, left: read.left.length };
        }
        const call = { set: "readSet", map: "readMap", bimap: "readBiMap" }[type.split("<")[0]];
        const { keys, left } = commonware[call](...sizes, bytes(input), limitsOf(ranges[0]));
        return { items: keys.length, left: left.length };
    },
    build(commonware, question) {
        return built(commonware, question, "encodeMapDedup");
    },
    "build-unique"(commonware, question) {
        return question.type.startsWith("set") ? null : built(commonware, question, "encodeMap");
    },
    position(commonware, { type, set, item }) {
        const sizes = sizesOf(type);
        if (!sizes || item.length !== 2 * sizes[0]) {
            return null;
        }
        return { position: commonware.positionInSet(commonware.decodeSet(sizes[0], bytes(set)), bytes(item)) };
    },
    faults(commonware, { model, members }) {
        const k = kOf(model);
        const numbers = { faults: commonware.maxFaults(k, members), quorum: commonware.quorum(k, members) };
        return { ...numbers, mQuorum: commonware.smallerQuorum(k, members) };
    },
    quorum(commonware, { model, members, certificate }) {
        return quorumOf(commonware.check(kOf(model), members, bytes(certificate)));
    },
    conflict(commonware, { model, members, first, second }) {
        return bothOf(commonware.conflict(kOf(model), members, bytes(first), bytes(second)));
    },
    equivocation(commonware, { model, members, first, second }) {
        return ofDecisions(() => bothOf(commonware.equivocation(kOf(model), members, bytes(first), bytes(second))));
    },
    weights(commonware, { model, weights }) {
        const numbers = commonware.weightsQuorum(kOf(model), weightsOf(weights));
        return {
            totalWeight: String(numbers.total),
            toleratedWeight: String(numbers.tolerated),
            quorumWeight: String(numbers.quorum),
            mQuorumWeight: String(numbers.smallerQuorum),
        };
    },
    "weighted-quorum"(commonware, { model, weights, certificate }) {
        return quorumOf(commonware.weightedCheck(kOf(model), weightsOf(weights), bytes(certificate)));
    },
    "weighted-conflict"(commonware, question) {
        return weightedBoth(commonware, question, "weightedConflict");
    },
    "weighted-equivocation"(commonware, question) {
        return ofDecisions(() => weightedBoth(commonware, question, "weightedEquivocation"));
    },
};

function built(commonware, { type, listed }, call) {
    const sizes = sizesOf(type);
    if (!sizes || type.startsWith("bimap")) {
        return null;
    }
    const [keys, values] = listsOf(bytes(listed), ...sizes);
    return type.startsWith("set")
        ? { built: hex(commonware.encodeSetDedup(sizes[0], keys)) }
        : { built: hex(commonware[call](...sizes, keys.map((it, index) => [it, values[index]]))) };
}

function quorumOf({ signers, slot, decision, weight }) {
    const parts = { signers, slot: slot && hex(slot), decision: decision && hex(decision) };
    return weight === undefined ? parts : { ...parts, weight: String(weight) };
}

function bothOf(both) {
    return { both: hex([varint(both.length), ...both.map(varint)].flat()) };
}

/** The same decision for one slot is called so in the vectors. */
function ofDecisions(call) {
    try {
        return call();
    } catch (error) {
        error.name = error.name === "SameValue" ? "SameDecision" : error.name;
        throw error;
    }
}

function weightedBoth(commonware, { model, weights, first, second }, call) {
    const { both, weight } = commonware[call](kOf(model), weightsOf(weights), bytes(first), bytes(second));
    return { ...bothOf(both), weight: String(weight) };
}

/** Returns the answer of the module to a question, or null where it can't be asked. */
function answer(commonware, question) {
    try {
        return asked[question.ask]?.(commonware, question) ?? null;
    } catch (error) {
        if (error instanceof Fault) {
            return null;
        }
        if (!(error instanceof CommonwareError)) {
            throw error;
        }
        const [part, field] = NUMBERS[error.name] ?? [];
        const collection = COLLECTIONS[error.name];
        return {
            error: NAMES[error.name] ?? error.name,
            ...(part ? { [part]: error[field] } : {}),
            ...(collection ? { collection } : {}),
        };
    }
}

const sorted = (answer) => JSON.stringify(Object.entries(answer).sort());

/** Tries the tests of a file, and returns how many could be asked, and what differs. */
export function tryVectors(commonware, name, file) {
    let count = 0;
    const wrong = [];
    for (const test of file.tests) {
        const { rule, ...expected } = test.answer;
        const said = answer(commonware, test.question);
        if (said) {
            count++;
            if (sorted(said) !== sorted(expected)) {
                wrong.push(`${name}/${test.tcId}: ${JSON.stringify(said)}, and not ${JSON.stringify(expected)}`);
            }
        }
    }
    if (count < FILES[name]) {
        wrong.push(`${name}: only ${count} questions were asked`);
    }
    return { count, wrong };
}
