// The same as the module, in plain JavaScript, by docs/FORMAT.md and by arithmetic: for comparison alone. A result is a
// value, or a list that begins with the name of an error.

/** Why an input or a committee is refused, by the name of the module's error and its number. */
export class Fault extends Error {
    constructor(name, number = null) {
        super(name);
        this.fault = name;
        this.number = number;
    }
}

/** Returns the order of two lists of bytes: a number below, at or above 0. */
export function compare(one, other) {
    for (let i = 0; i < one.length && i < other.length; i++) {
        if (one[i] !== other[i]) {
            return one[i] - other[i];
        }
    }
    return one.length - other.length;
}

/** Returns the items, which have to be strictly increasing. */
function strict(items, order) {
    if (items.some((it, index) => index > 0 && order(items[index - 1], it) >= 0)) {
        throw new Fault("NotStrict");
    }
    return items;
}

/** Reads from bytes, or throws a Fault. */
export class Reader {
    constructor(bytes) {
        this.bytes = [...bytes];
        this.at = 0;
    }

    byte() {
        if (this.at === this.bytes.length) {
            throw new Fault("EndOfInput");
        }
        return this.bytes[this.at++];
    }

    take(count) {
        if (this.bytes.length - this.at < count) {
            throw new Fault("EndOfInput");
        }
        this.at += count;
        return this.bytes.slice(this.at - count, this.at);
    }

    /** A number of up to 32 bits, seven in each byte, the lowest first. Its last byte isn't 0, but for the number 0. */
    varint() {
        this.from = this.at;
        let number = 0;
        for (let index = 0; index < 5; index++) {
            const byte = this.byte();
            if ((index === 4 && byte > 15) || (index > 0 && byte === 0)) {
                throw new Fault("InvalidVarint");
            }
            number += (byte % 128) * 128 ** index;
            if (byte < 128) {
                return number;
            }
        }
    }

    length(least, most) {
        const number = this.varint();
        if (number < least || number > most) {
            throw new Fault("InvalidLength", number);
        }
        return number;
    }

    /** Reads each item, before it looks at their order. */
    list(count, item) {
        const items = [];
        while (items.length < count) {
            items.push(item());
        }
        return items;
    }

    set(size, least, most) {
        const count = this.length(least, most);
        // Of keys of no bytes the first two are the same.
        const keys = this.list(size === 0 ? Math.min(count, 2) : count, () => this.take(size));
        return strict(keys, compare);
    }

    map(keySize, valueSize, least, most) {
        const keys = this.set(keySize, least, most);
        const count = this.length(keys.length, keys.length);
        return { keys, values: this.list(count, () => this.take(valueSize)) };
    }

    bimap(keySize, valueSize, least, most) {
        const { keys, values } = this.map(keySize, valueSize, least, most);
        const seen = new Map();
        for (const [index, value] of values.entries()) {
            if (seen.has(String(value))) {
                throw new Fault("RepeatedValue", [seen.get(String(value)), index]);
            }
            seen.set(String(value), index);
        }
        const byValue = [...keys.keys()].sort((i, j) => compare(values[i], values[j]));
        return { keys, values, byValue };
    }

    certificate(mostBytes, mostSigners) {
        const value = this.take(this.length(0, mostBytes));
        const count = this.length(0, mostSigners);
        return { value, signers: strict(this.list(count, () => this.varint()), (one, other) => one - other) };
    }

    left() {
        return this.bytes.slice(this.at);
    }
}

const ALL = [0, Infinity];

/** Reads a value by a method of the reader at the start of the bytes, and returns it with what is left. */
export function read(what, bytes, sizes = [], limits = ALL) {
    const reader = new Reader(bytes);
    const value = reader[what](...sizes, ...limits);
    return { value, left: reader.left() };
}

export function varint(number) {
    const bytes = [];
    for (let rest = number; ; rest = Math.floor(rest / 128)) {
        if (rest < 128) {
            return [...bytes, rest];
        }
        bytes.push((rest % 128) + 128);
    }
}

export function encodeSetDedup(keys) {
    const sorted = [...keys].sort(compare).filter((key, at, all) => at === 0 || compare(all[at - 1], key) !== 0);
    return [...varint(sorted.length), ...sorted.flatMap((it) => [...it])];
}

export function encodeMap(pairs, isUnique = false) {
    const found = new Map();
    for (const [index, [key, value]] of pairs.entries()) {
        if (!found.has(String(key))) {
            found.set(String(key), [key, value]);
        } else if (isUnique) {
            throw new Fault("RepeatedKey", index);
        }
    }
    const sorted = [...found.values()].sort((one, other) => compare(one[0], other[0]));
    const column = (at) => [...varint(sorted.length), ...sorted.flatMap((it) => [...it[at]])];
    return [...column(0), ...column(1)];
}

export function encodeCertificate(value, signers) {
    for (let index = 1; index < signers.length; index++) {
        if (signers[index - 1] >= signers[index]) {
            throw new Fault("NotStrict", index);
        }
    }
    return [...varint(value.length), ...value, ...varint(signers.length), ...signers.flatMap(varint)];
}

export function slotValue(slot, decision) {
    return [...varint(slot.length), ...slot, ...decision];
}

/** The numbers of n participants: f, n - f and 2f + 1. */
export function numbers(k, n) {
    if (k < 2) {
        throw new Fault("NoModel");
    }
    if (n === 0) {
        throw new Fault("NoMembers");
    }
    const faults = Math.floor((n - 1) / k);
    return { faults, quorum: n - faults, smaller: 2 * faults + 1 };
}

export function weightsQuorum(k, weights) {
    if (k < 2) {
        throw new Fault("NoModel");
    }
    if (weights.length === 0) {
        throw new Fault("NoMembers");
    }
    let total = 0n;
    for (const [index, weight] of weights.entries()) {
        if (weight === 0n) {
            throw new Fault("ZeroWeight", index);
        }
        total += weight;
        if (total >= 2n ** 64n) {
            throw new Fault("WeightOverflow", index);
        }
    }
    const tolerated = (total - 1n) / BigInt(k);
    return { total, tolerated, quorum: total - tolerated, smallerQuorum: 2n * tolerated + 1n };
}

/** Returns the slot and the decision of a value, or null. */
export function slotOf(value) {
    const reader = new Reader(value);
    try {
        const slot = reader.take(reader.varint());
        return { slot, decision: reader.left() };
    } catch {
        return null;
    }
}

/** A committee of n members, or one whose members have weights. */
export class Judge {
    constructor(k, committee) {
        this.weights = Array.isArray(committee) ? committee : null;
        const of = this.weights ? weightsQuorum(k, this.weights) : numbers(k, committee);
        this.members = this.weights ? this.weights.length : committee;
        this.quorum = BigInt(of.quorum);
    }

    weigh(signers) {
        return this.weights ? signers.reduce((sum, it) => sum + this.weights[it], 0n) : BigInt(signers.length);
    }

    only(bytes) {
        const { value, left } = read("certificate", bytes, [], [Infinity, Infinity]);
        if (left.length > 0) {
            throw new Fault("LeftOver", left.length);
        }
        return value;
    }

    mayAllSign(signers) {
        if (signers.some((it) => it >= this.members)) {
            throw new Fault("Outside");
        }
    }

    areEnough(signers) {
        if (this.weigh(signers) < this.quorum) {
            throw new Fault(this.weights ? "TooLight" : "TooFew");
        }
    }

    check(bytes) {
        const { value, signers } = this.only(bytes);
        this.mayAllSign(signers);
        this.areEnough(signers);
        const found = slotOf(value);
        const { slot, decision } = found ?? { slot: null, decision: null };
        const weight = this.weights ? { weight: this.weigh(signers) } : {};
        return { signers: signers.length, value, slot, decision, ...weight };
    }

    both(first, second, isForSlot) {
        const one = about(1, () => this.only(first));
        const two = about(2, () => this.only(second));
        this.areDifferent(one.value, two.value, isForSlot);
        about(1, () => this.mayAllSign(one.signers));
        about(2, () => this.mayAllSign(two.signers));
        about(1, () => this.areEnough(one.signers));
        about(2, () => this.areEnough(two.signers));
        const both = one.signers.filter((it) => two.signers.includes(it));
        return this.weights ? { both, weight: this.weigh(both) } : both;
    }

    areDifferent(one, two, isForSlot) {
        if (isForSlot) {
            const slots = [one, two].map(slotOf);
            for (const which of [1, 2]) {
                if (!slots[which - 1]) {
                    about(which, () => { throw new Fault("NoSlot"); });
                }
            }
            if (compare(slots[0].slot, slots[1].slot) !== 0) {
                throw new Fault("OtherSlot");
            }
        }
        if (compare(one, two) === 0) {
            throw new Fault("SameValue");
        }
    }
}

/** Has a fault say which of the two certificates it is about. */
function about(which, run) {
    try {
        return run();
    } catch (error) {
        error.which = which;
        throw error;
    }
}
