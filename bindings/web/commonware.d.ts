/** The types of commonware.js, which documents each function. */

/** The k of the fault models N3f1 and N5f1. */
export const N3F1: 3;
export const N5F1: 5;
/** How many bytes a member of a committee has. */
export const MEMBER_SIZE: 32;

/** A whole number from 0: a bigint below 2^64, or a number up to 2^53 - 1. */
export type Wide = number | bigint;
/** Items of one size: an array of each, or their bytes one after another. */
export type Items = Iterable<Uint8Array> | Uint8Array;
/** Pairs of a key and a value: an array of each, or their bytes one after another. */
export type Pairs = Iterable<readonly [Uint8Array, Uint8Array]> | Uint8Array;

/** How many items are allowed: all numbers where nothing is said. */
export interface Limits {
    least?: Wide;
    most?: Wide;
}

export interface CertificateLimits {
    mostBytes?: Wide;
    mostSigners?: Wide;
}

/** What follows the value that was read. */
export interface Left {
    left: Uint8Array;
}

export interface Committee {
    members: Uint8Array[];
}

export interface Keys {
    keys: Uint8Array[];
}

/** Keys in order, and the value of each at its index. */
export interface Pairing extends Keys {
    values: Uint8Array[];
}

export interface BiMap extends Pairing {
    /** The indices of the pairs in the order of their values. */
    byValue: number[];
}

export interface Certificate {
    value: Uint8Array;
    /** The indices of the signers, strictly increasing. */
    signers: number[];
}

/** A certificate that a quorum signed. */
export interface Checked {
    /** How many members signed. */
    signers: number;
    value: Uint8Array;
    /** The slot of the value, and the decision for it; null where the value has none. */
    slot: Uint8Array | null;
    decision: Uint8Array | null;
}

export interface WeightedChecked extends Checked {
    /** What the signers weigh. */
    weight: bigint;
}

/** Who signed both of two certificates, and what they weigh. */
export interface Named {
    both: number[];
    weight: bigint;
}

export interface WeightNumbers {
    total: bigint;
    /** What faulty members may weigh together. */
    tolerated: bigint;
    quorum: bigint;
    smallerQuorum: bigint;
}

/** Tells whether WebAssembly here has memories of 64 bits. */
export function isSupported(): boolean;
/** Loads the module: that beside commonware.js, or the bytes that are given. Throws NoMemory64, and OtherVersion. */
export function load(bytes?: BufferSource): Promise<Commonware>;

export class Commonware {
    /** Throws NoMemory64, and OtherVersion. */
    constructor(module: WebAssembly.Module);
    get version(): string;
    maxFaults(k: number, n: number): number;
    quorum(k: number, n: number): number;
    smallerQuorum(k: number, n: number): number;
    readCommittee(input: Uint8Array, limits?: Limits): Committee & Left;
    decodeCommittee(input: Uint8Array, limits?: Limits): Uint8Array[];
    /** The members may come in any order and repeat. Throws WrongSize for the first of another size, and NotWhole for
     * bytes after the last whole member. */
    encodeCommitteeDedup(members: Items): Uint8Array;
    /** The members have to be in order, as decodeCommittee returns them. Null where the key is none of them, as one of
     * another size than theirs never is. Throws WrongSize and NotWhole as encodeCommitteeDedup does. */
    positionInCommittee(members: Items, key: Uint8Array): number | null;
    readSet(size: number, input: Uint8Array, limits?: Limits): Keys & Left;
    decodeSet(size: number, input: Uint8Array, limits?: Limits): Uint8Array[];
    encodeSetDedup(size: number, keys: Items): Uint8Array;
    /** The keys have to be in order, as decodeSet returns them. Null where the key isn't there, as one of another size
     * than theirs never is. Throws WrongSize for one of them that has another size than the first. Where they are bytes
     * one after another, they are taken as keys of the size of the key: NotWhole where they are none, and NoSize where
     * the key has no bytes. */
    positionInSet(keys: Items, key: Uint8Array): number | null;
    readMap(keySize: number, valueSize: number, input: Uint8Array, limits?: Limits): Pairing & Left;
    decodeMap(keySize: number, valueSize: number, input: Uint8Array, limits?: Limits): Pairing;
    /** Throws WrongSize for the first key or value of another size. */
    encodeMapDedup(keySize: number, valueSize: number, pairs: Pairs): Uint8Array;
    encodeMap(keySize: number, valueSize: number, pairs: Pairs): Uint8Array;
    readBiMap(keySize: number, valueSize: number, input: Uint8Array, limits?: Limits): BiMap & Left;
    decodeBiMap(keySize: number, valueSize: number, input: Uint8Array, limits?: Limits): BiMap;
    readCertificate(input: Uint8Array, limits?: CertificateLimits): Certificate & Left;
    decodeCertificate(input: Uint8Array, limits?: CertificateLimits): Certificate;
    encodeCertificate(value: Uint8Array, signers: Iterable<number>): Uint8Array;
    slotValue(slot: Uint8Array, decision: Uint8Array): Uint8Array;
    check(k: number, members: number, certificate: Uint8Array): Checked;
    conflict(k: number, members: number, first: Uint8Array, second: Uint8Array): number[];
    equivocation(k: number, members: number, first: Uint8Array, second: Uint8Array): number[];
    /** Here and below a weight is that of the member at its index, which is a place in the order of the keys. */
    weightsQuorum(k: number, weights: Iterable<Wide>): WeightNumbers;
    weightedCheck(k: number, weights: Iterable<Wide>, certificate: Uint8Array): WeightedChecked;
    weightedConflict(k: number, weights: Iterable<Wide>, first: Uint8Array, second: Uint8Array): Named;
    weightedEquivocation(k: number, weights: Iterable<Wide>, first: Uint8Array, second: Uint8Array): Named;
}

/** The base of all errors. */
export class CommonwareError extends Error {
    /** 1 or 2 where one of two certificates is what the error is about. */
    which: 1 | 2 | null;
    constructor(words: string);
}
export class NoMemory64 extends CommonwareError {
    constructor();
}
/** The module isn't of the major version that is needed. */
export class OtherVersion extends CommonwareError {
    /** The module's version, as "2.3.4". */
    version: string;
    needed: number;
    constructor(version: string, needed: number);
}
export class OutOfMemory extends CommonwareError {
    constructor();
}
export class OutOfRange extends CommonwareError {
    argument: string;
    number: unknown;
    most: Wide;
    constructor(argument: string, number: unknown, most: Wide);
}
export class EndOfInput extends CommonwareError {
    constructor();
}
export class InvalidVarint extends CommonwareError {
    constructor();
}
export class InvalidLength extends CommonwareError {
    length: number;
    constructor(length: number);
}
export class NotStrict extends CommonwareError {
    /** The index of a signer that was to be written; null of an input. */
    index: number | null;
    constructor(index?: number | null);
}
export class LeftOver extends CommonwareError {
    count: number;
    constructor(count: number);
}
export class RepeatedValue extends CommonwareError {
    first: number;
    second: number;
    constructor(first: number, second: number);
}
export class RepeatedKey extends CommonwareError {
    index: number;
    constructor(index: number);
}
export class NoSize extends CommonwareError {
    constructor();
}
export class NotWhole extends CommonwareError {
    count: number;
    constructor(count: number);
}
export class WrongSize extends CommonwareError {
    index: number;
    length: number;
    size: number;
    /** What has that length: the key, also of a set or a committee, or the value of a pair. */
    part: "key" | "value";
    constructor(index: number, length: number, size: number, part?: "key" | "value");
}
export class NoModel extends CommonwareError {
    constructor();
}
export class NoMembers extends CommonwareError {
    constructor();
}
export class SameValue extends CommonwareError {
    constructor();
}
export class Outside extends CommonwareError {
    constructor();
}
export class TooFew extends CommonwareError {
    constructor();
}
export class NoSlot extends CommonwareError {
    constructor();
}
export class OtherSlot extends CommonwareError {
    constructor();
}
export class ZeroWeight extends CommonwareError {
    index: number;
    constructor(index: number);
}
export class WeightOverflow extends CommonwareError {
    index: number;
    constructor(index: number);
}
export class TooLight extends CommonwareError {
    constructor();
}
