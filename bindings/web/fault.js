// Where an input is wrong: the first byte of which the decoder doesn't accept, and the bytes that belong to it. The
// decoder says what is wrong, by its error; where that is, is found by asking it again for shorter inputs.

// The errors that say that an input is wrong. Of any other one, as of memory that is short, no byte is to blame.
const FAULTS = new Set(["EndOfInput", "InvalidVarint", "InvalidLength", "NotStrict", "LeftOver", "RepeatedValue"]);

/** Returns the name of the error of a call, or null where there is none. */
function nameOf(call) {
    try {
        call();
        return null;
    } catch (error) {
        return error.name;
    }
}

/** Returns how many bytes it takes until a decoder refuses them as it refuses all. Where fewer are there, the input
 * only ends too early. */
function needed(read, bytes, name) {
    let least = 0;
    let most = bytes.length;
    while (least < most) {
        const middle = Math.floor((least + most) / 2);
        if (nameOf(() => read(bytes.subarray(0, middle))) === name) {
            most = middle;
        } else {
            least = middle + 1;
        }
    }
    return most;
}

/** Returns the end of the varint that begins at a place. */
function varintEnd(bytes, at) {
    let end = at;
    while (end < bytes.length && end < at + 4 && bytes[end] >= 128) {
        end++;
    }
    return Math.min(end + 1, bytes.length);
}

/** Returns the number of a varint that is valid. */
function varintAt(bytes, at) {
    return bytes.subarray(at, varintEnd(bytes, at)).reduce((sum, byte, index) => sum + (byte % 128) * 128 ** index, 0);
}

function isGreater(one, other) {
    for (let i = 0; i < one.length; i++) {
        if (one[i] !== other[i]) {
            return one[i] > other[i];
        }
    }
    return false;
}

/** Returns the first key of a set that isn't greater than the one before it: its index, and where it stands. */
function firstDescent(bytes, start, size) {
    const key = (index) => bytes.subarray(start + index * size, start + (index + 1) * size);
    let index = 1;
    while (isGreater(key(index), key(index - 1))) {
        index++;
    }
    return { index, from: start + index * size, to: start + (index + 1) * size };
}

/** The same of the signers of a certificate, which are varints. */
function firstSignerDescent(bytes) {
    const count = varintEnd(bytes, 0) + varintAt(bytes, 0);
    let before = varintEnd(bytes, count);
    let at = varintEnd(bytes, before);
    let index = 1;
    while (varintAt(bytes, at) > varintAt(bytes, before)) {
        [before, at] = [at, varintEnd(bytes, at)];
        index++;
    }
    return { index, from: at, to: varintEnd(bytes, at) };
}

/** Returns which bytes are wrong, from `from` up to `to`, and a sentence on them, or null where the error is none of
 * the decoder's. `kind` has the name of what is read and its sizes, and `read` reads it. */
export function faultOf(kind, read, bytes, error) {
    if (!FAULTS.has(error.name)) {
        return null;
    }
    const say = (from, to, words) => ({ from, to, words });
    if (error.name === "LeftOver") {
        const from = bytes.length - error.count;
        return say(from, bytes.length, `The value ends before byte ${from}. ${many(error.count, "byte")} too many.`);
    }
    if (error.name === "EndOfInput") {
        return say(bytes.length, bytes.length, `The input ends after ${many(bytes.length, "byte")}, before the value does.`);
    }
    if (error.name === "RepeatedValue") {
        const { keySize, valueSize } = kind;
        const count = varintAt(bytes, 0);
        const start = 2 * varintEnd(bytes, 0) + count * keySize + error.second * valueSize;
        const words = `The values of pairs ${error.first} and ${error.second} are the same, and a bimap's all differ.`;
        return say(start, start + valueSize, words);
    }
    if (error.name === "NotStrict") {
        const isCertificate = kind.name === "certificate";
        const at = isCertificate ? firstSignerDescent(bytes) : firstDescent(bytes, varintEnd(bytes, 0), kind.keySize);
        const item = isCertificate ? "Signer" : "Key";
        const words = `${item} ${at.index} isn't greater than ${item.toLowerCase()} ${at.index - 1}: each stands once, in order.`;
        return say(at.from, at.to, words);
    }
    const to = needed(read, bytes, error.name);
    let from = to - 1;
    // The bytes before it of the same varint say that another one follows; that of a length stands after whole items.
    while (from > 0 && to - from < 5 && bytes[from - 1] >= 128 && isVarint(kind, bytes, from - 1)) {
        from--;
    }
    const words = error.name === "InvalidLength"
        ? `The length ${error.length} is out of range here.`
        : "A varint is longer than it has to be, or its number is past 4294967295.";
    return say(from, to, words);
}

/** Tells whether a byte belongs to a varint and not to a key or a value. */
function isVarint({ name, keySize }, bytes, at) {
    const end = varintEnd(bytes, 0);
    if (at < end) {
        return true;
    }
    return at >= end + varintAt(bytes, 0) * (name === "certificate" ? 1 : keySize);
}

/** Returns a number of things in words. */
export function many(count, thing) {
    return `${count} ${thing}${count === 1 ? "" : "s"}`;
}
