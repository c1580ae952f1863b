// Random cases of each call, beside the plain implementation.

import { CommonwareError } from "../commonware.js";
import * as plain from "./plain.js";

/** A generator of numbers below 2^32 (mulberry32), so that a case can be tried again by its seed. */
export class Chance {
    constructor(seed) {
        this.state = seed >>> 0;
    }

    next() {
        this.state = (this.state + 0x6d2b79f5) >>> 0;
        let mixed = Math.imul(this.state ^ (this.state >>> 15), 1 | this.state);
        mixed = (mixed + Math.imul(mixed ^ (mixed >>> 7), 61 | mixed)) ^ mixed;
        return (mixed ^ (mixed >>> 14)) >>> 0;
    }

    /** A number from 0 to below that. */
    below(end) {
        return this.next() % end;
    }

    one(...list) {
        return list[this.below(list.length)];
    }

    bytes(length, most = 256) {
        return Array.from({ length }, () => this.below(most));
    }

    list(most, item) {
        return Array.from({ length: this.below(most + 1) }, item);
    }

    /** Bytes with now and then a change: another byte, one less, one more. */
    changed(bytes) {
        const all = [...bytes];
        for (let left = this.one(0, 0, 0, 1, 1, 2); left > 0; left--) {
            const at = this.below(all.length + 1);
            const byte = this.one(0, 1, 2, 127, 128, 129, 255, this.below(256));
            all.splice(at, this.one(0, 1, 1), ...(this.one(true, false) ? [byte] : []));
        }
        return all;
    }
}

/** Returns what a call returns as text, or its error with its numbers. */
function outcome(call) {
    try {
        return text(call());
    } catch (error) {
        if (error instanceof plain.Fault) {
            return text([error.fault, error.number, error.which ?? null]);
        }
        if (!(error instanceof CommonwareError)) {
            throw error;
        }
        const { length, count, index, first, second } = error;
        const numbers = first === undefined ? (length ?? count ?? index ?? null) : [first, second];
        return text([error.name, numbers, error.which]);
    }
}

const text = (value) =>
    JSON.stringify(value, (_, it) => {
        if (typeof it === "bigint") {
            return `${it}n`;
        }
        if (it instanceof Uint8Array) {
            return [...it];
        }
        // In the order of the names, whatever order an object has.
        const isObject = it !== null && typeof it === "object" && !Array.isArray(it);
        return isObject ? Object.fromEntries(Object.entries(it).sort()) : it;
    });

const of = (bytes) => Uint8Array.from(bytes);
const limits = (chance) => (chance.one(true, true, false) ? [0, 2 ** 40] : [chance.below(4), chance.below(6)]);
const object = ([least, most]) => ({ least, most });

function keys(chance, size, most = 6) {
    return chance.list(most, () => chance.bytes(size, chance.one(2, 3, 256)));
}

/** A decoder: `what` of the reader beside a call of the module. */
function decoder(what, sizes, make, call) {
    return (commonware, chance) => {
        const sized = sizes(chance);
        const bytes = chance.changed(make(chance, ...sized));
        const allowed = limits(chance);
        const expected = () => {
            const { value, left } = plain.read(what, bytes, sized, allowed);
            return Array.isArray(value) ? { keys: value, left } : { ...value, left };
        };
        return [() => commonware[call](...sized, of(bytes), object(allowed)), expected];
    };
}

const oneSize = (chance) => [chance.one(0, 1, 1, 2, 3, 8, 20, 32, 33, 48)];
const twoSizes = (chance) => [chance.one(0, 1, 1, 2, 20, 32), chance.one(0, 1, 1, 2, 8, 32)];

function pairsOf(chance, keySize, valueSize) {
    return keys(chance, keySize).map((key) => [key, chance.bytes(valueSize, chance.one(2, 256))]);
}

function encodedMap(chance, keySize, valueSize) {
    return plain.encodeMap(pairsOf(chance, keySize, valueSize));
}

function someSigners(chance, most) {
    const drawn = Array.from({ length: most }, (_, index) => index).filter(() => chance.below(8) > 0);
    return chance.below(12) === 0 ? [...drawn, chance.one(most, 127, 128, 2 ** 32 - 1)] : drawn;
}

function value(chance) {
    const slot = chance.bytes(chance.below(3), 2);
    return chance.below(8) === 0 ? chance.bytes(chance.below(3)) : plain.slotValue(slot, chance.bytes(chance.below(3), 2));
}

function certificate(chance, members) {
    const signers = someSigners(chance, members).filter((it, at, all) => at === 0 || all[at - 1] < it);
    return plain.encodeCertificate(value(chance), signers);
}

const model = (chance) => chance.one(0, 1, 2, 3, 3, 3, 4, 5, 7);

function weight(chance) {
    const wide = BigInt(chance.next()) * 2n ** 32n + BigInt(chance.next());
    return chance.one(BigInt(chance.below(9)), BigInt(1 + chance.below(100)), wide >> BigInt(chance.below(64)));
}

/** The calls about certificates of a committee: by the number of members, and by weight. */
function judging(call, isWeighted, judge) {
    return (commonware, chance) => {
        const k = model(chance);
        const weights = chance.list(8, () => weight(chance));
        const members = isWeighted ? weights : chance.below(9);
        const count = isWeighted ? weights.length : members;
        const inputs = [0, 1].map(() => chance.one(true, true, true, false)
            ? certificate(chance, count)
            : chance.changed(certificate(chance, count)));
        const given = call.startsWith("check") ? inputs.slice(0, 1) : inputs;
        return [
            () => commonware[call](k, members, ...given.map(of)),
            () => judge(new plain.Judge(k, members), ...given),
        ];
    };
}

const CASES = {
    readSet: decoder("set", oneSize, (chance, size) => plain.encodeSetDedup(keys(chance, size)), "readSet"),
    readMap: decoder("map", twoSizes, encodedMap, "readMap"),
    readBiMap: decoder("bimap", twoSizes, encodedMap, "readBiMap"),
    readCommittee(commonware, chance) {
        const bytes = chance.changed(plain.encodeSetDedup(keys(chance, 32)));
        const allowed = limits(chance);
        const expected = () => {
            const { value: members, left } = plain.read("set", bytes, [32], allowed);
            return { members, left };
        };
        return [() => commonware.readCommittee(of(bytes), object(allowed)), expected];
    },
    readCertificate(commonware, chance) {
        const bytes = chance.changed(certificate(chance, 6));
        const [mostBytes, mostSigners] = chance.one([2 ** 40, 2 ** 40], [chance.below(6), chance.below(6)]);
        const expected = () => {
            const { value: found, left } = plain.read("certificate", bytes, [], [mostBytes, mostSigners]);
            return { ...found, left };
        };
        return [() => commonware.readCertificate(of(bytes), { mostBytes, mostSigners }), expected];
    },
    positionInSet(commonware, chance) {
        const size = chance.one(1, 2, 8, 32, 33);
        const set = plain.read("set", plain.encodeSetDedup(keys(chance, size, 20)), [size]).value;
        const key = chance.one(chance.bytes(size, 3), chance.one(...set, chance.bytes(size)));
        const index = set.findIndex((it) => plain.compare(it, key) === 0);
        return [() => commonware.positionInSet(set.map(of), of(key)), () => (index < 0 ? null : index)];
    },
    positionInCommittee(commonware, chance) {
        const set = plain.read("set", plain.encodeSetDedup(keys(chance, 32, 20)), [32]).value;
        const key = chance.one(chance.bytes(32, 3), chance.one(...set, chance.bytes(32)));
        const index = set.findIndex((it) => plain.compare(it, key) === 0);
        return [() => commonware.positionInCommittee(set.map(of), of(key)), () => (index < 0 ? null : index)];
    },
    encodeSetDedup(commonware, chance) {
        const size = chance.one(1, 2, 8, 32, 33);
        const given = keys(chance, size, 20);
        return [() => commonware.encodeSetDedup(size, given.map(of)), () => plain.encodeSetDedup(given)];
    },
    encodeCommitteeDedup(commonware, chance) {
        const given = keys(chance, 32, 20);
        return [() => commonware.encodeCommitteeDedup(given.map(of)), () => plain.encodeSetDedup(given)];
    },
    encodeMapDedup(commonware, chance) {
        const sizes = [chance.one(1, 2, 20, 32), chance.one(0, 1, 2, 8, 32)];
        const pairs = pairsOf(chance, ...sizes);
        return [() => commonware.encodeMapDedup(...sizes, pairs.map((it) => it.map(of))), () => plain.encodeMap(pairs)];
    },
    encodeMap(commonware, chance) {
        const sizes = [chance.one(1, 2, 20, 32), chance.one(0, 1, 2, 8, 32)];
        const pairs = pairsOf(chance, ...sizes);
        return [
            () => commonware.encodeMap(...sizes, pairs.map((it) => it.map(of))),
            () => plain.encodeMap(pairs, true),
        ];
    },
    encodeCertificate(commonware, chance) {
        const given = chance.bytes(chance.below(200));
        const signers = chance.one(someSigners(chance, 9), chance.list(4, () => chance.below(300)));
        return [
            () => commonware.encodeCertificate(of(given), signers),
            () => plain.encodeCertificate(given, signers),
        ];
    },
    slotValue(commonware, chance) {
        const parts = [chance.bytes(chance.below(200)), chance.bytes(chance.below(20))];
        return [() => commonware.slotValue(...parts.map(of)), () => plain.slotValue(...parts)];
    },
    numbers(commonware, chance) {
        const [k, n] = [0, 1].map(() => chance.one(chance.below(12), chance.next()));
        const said = () => ({
            faults: commonware.maxFaults(k, n),
            quorum: commonware.quorum(k, n),
            smaller: commonware.smallerQuorum(k, n),
        });
        return [said, () => plain.numbers(k, n)];
    },
    weightsQuorum(commonware, chance) {
        const k = chance.one(model(chance), chance.next());
        const weights = chance.list(8, () => weight(chance));
        return [() => commonware.weightsQuorum(k, weights), () => plain.weightsQuorum(k, weights)];
    },
    check: judging("check", false, (judge, only) => judge.check(only)),
    conflict: judging("conflict", false, (judge, one, two) => judge.both(one, two, false)),
    equivocation: judging("equivocation", false, (judge, one, two) => judge.both(one, two, true)),
    weightedCheck: judging("weightedCheck", true, (judge, only) => judge.check(only)),
    weightedConflict: judging("weightedConflict", true, (judge, one, two) => judge.both(one, two, false)),
    weightedEquivocation: judging("weightedEquivocation", true, (judge, one, two) => judge.both(one, two, true)),
};

/** Tries as many random cases, of each call in turn, and returns what differs and which results were met. */
export function tryRandom(commonware, count, seed) {
    const wrong = [];
    const met = new Map();
    const names = Object.keys(CASES);
    for (let index = 0; index < count && wrong.length < 5; index++) {
        const name = names[index % names.length];
        const [said, expected] = CASES[name](commonware, new Chance(seed + index)).map(outcome);
        if (said !== expected) {
            wrong.push(`${name}, seed ${seed + index}: ${said}, and not ${expected}`);
        }
        const result = `${name} ${/^\["[A-Z]/.test(said) ? said.split('"')[1] : "ok"}`;
        met.set(result, (met.get(result) ?? 0) + 1);
    }
    return { count, wrong, met: Object.fromEntries([...met].sort()) };
}
