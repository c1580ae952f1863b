// Why an input is refused, why nothing can be written, and why two certificates name no one. Each error is a class
// with a name, below one base class.

/** The base of all errors of this module. `which` is 1 or 2 where one of two certificates is what it is about. */
export class CommonwareError extends Error {
    constructor(words) {
        super(words);
        this.name = this.constructor.name;
        this.which = null;
    }
}

/** There is no WebAssembly here whose memory has 64 bits. */
export class NoMemory64 extends CommonwareError {
    constructor() {
        super("WebAssembly with a 64-bit memory isn't supported here; Chromium has it from 133 on, Node from 24 on.");
    }
}

/** The module is this version of the library, and the package needs another major version, `needed`. */
export class OtherVersion extends CommonwareError {
    constructor(version, needed) {
        super(`The module is version ${version} of the library: this package needs version ${needed}.`);
        this.version = version;
        this.needed = needed;
    }
}

/** An argument with this name isn't a whole number from 0 to `most`. Where that is a bigint, the argument may be one:
 * a number is to be one that is exact. */
export class OutOfRange extends CommonwareError {
    constructor(argument, number, most) {
        const isWide = typeof most === "bigint";
        const allowed = isWide ? "from 0: a bigint below 2^64, or a number up to 2^53 - 1" : `from 0 to ${most}`;
        super(`${argument} is a whole number ${allowed}, and not ${String(number)}`);
        this.argument = argument;
        this.number = number;
        this.most = most;
    }
}

/** An allocation failed, which says nothing of the arguments. */
export class OutOfMemory extends CommonwareError {
    constructor() {
        super("out of memory");
    }
}

/** The input ends before the value does. */
export class EndOfInput extends CommonwareError {
    constructor() {
        super("unexpected end of input");
    }
}

/** A varint is longer than it has to be, or its number is past 4294967295. */
export class InvalidVarint extends CommonwareError {
    constructor() {
        super("invalid varint");
    }
}

/** This length is out of range. */
export class InvalidLength extends CommonwareError {
    constructor(length) {
        super(`length ${length} is out of range`);
        this.length = length;
    }
}

/** The items aren't strictly increasing. Where they were to be written, `index` is that of the first signer that
 * isn't greater than the one before it; of an input it is null. */
export class NotStrict extends CommonwareError {
    constructor(index = null) {
        super(index === null ? "items must be sorted and unique" : `signer ${index} isn't greater than the one before it`);
        this.index = index;
    }
}

/** This number of bytes follows the value, and none may. */
export class LeftOver extends CommonwareError {
    constructor(count) {
        super(`${count} bytes left over`);
        this.count = count;
    }
}

/** Two pairs of a bimap have the same value: `second` is the least index of a pair whose value an earlier pair has,
 * and `first` the index of that one. */
export class RepeatedValue extends CommonwareError {
    constructor(first, second) {
        super(`pairs ${first} and ${second} have the same value`);
        this.first = first;
        this.second = second;
    }
}

/** The pair at this index has the key of an earlier one. */
export class RepeatedKey extends CommonwareError {
    constructor(index) {
        super(`pair ${index} has the key of an earlier one`);
        this.index = index;
    }
}

/** Keys of no bytes: how many there are can't be told. */
export class NoSize extends CommonwareError {
    constructor() {
        super("keys of no bytes");
    }
}

/** This number of bytes follows the last whole key, or the last whole pair of a map. */
export class NotWhole extends CommonwareError {
    constructor(count) {
        super(`${count} bytes after the last whole item`);
        this.count = count;
    }
}

/** The key at this index of a list, or of the pair there the key or the value, has `length` bytes, and should have
 * `size`. `part` is "key" or "value". */
export class WrongSize extends CommonwareError {
    constructor(index, length, size, part = "key") {
        super(`${part} ${index} has ${length} bytes, and should have ${size}`);
        this.index = index;
        this.length = length;
        this.size = size;
        this.part = part;
    }
}

/** The k of a fault model is below 2. */
export class NoModel extends CommonwareError {
    constructor() {
        super("k is below 2");
    }
}

/** The committee has no members. */
export class NoMembers extends CommonwareError {
    constructor() {
        super("the committee has no members");
    }
}

/** Both certificates are for the same value; of an equivocation, for the same decision for one slot. */
export class SameValue extends CommonwareError {
    constructor() {
        super("both certificates are for the same value");
    }
}

/** A signer is no member of the committee. */
export class Outside extends CommonwareError {
    constructor() {
        super("a signer is no member of the committee");
    }
}

/** All signers are members, and they are fewer than a quorum. */
export class TooFew extends CommonwareError {
    constructor() {
        super("fewer signers than a quorum");
    }
}

/** The value is no decision for a slot. */
export class NoSlot extends CommonwareError {
    constructor() {
        super("a value without a slot");
    }
}

/** The values are for two different slots: this rule allows both. */
export class OtherSlot extends CommonwareError {
    constructor() {
        super("two different slots");
    }
}

/** The weight at this index is 0. */
export class ZeroWeight extends CommonwareError {
    constructor(index) {
        super(`weight ${index} is 0`);
        this.index = index;
    }
}

/** With the weight at this index the sum is past 18446744073709551615. */
export class WeightOverflow extends CommonwareError {
    constructor(index) {
        super(`with weight ${index} the sum is past 18446744073709551615`);
        this.index = index;
    }
}

/** All signers are members, and they weigh less than a quorum. */
export class TooLight extends CommonwareError {
    constructor() {
        super("the signers weigh less than a quorum");
    }
}
