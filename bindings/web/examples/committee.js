// Prints the members of a committee, how many make a quorum, and which members signed two different values.
import { N3F1, load } from "../commonware.js";

const commonware = await load();
const text = (words) => new TextEncoder().encode(words);

const keys = [3, 1, 0, 2].map((byte) => new Uint8Array(32).fill(byte));
const members = commonware.decodeCommittee(commonware.encodeCommitteeDedup(keys));
for (const member of members) {
    console.log(Array.from(member, (byte) => byte.toString(16).padStart(2, "0")).join(""));
}
const [faults, quorum] = [commonware.maxFaults(N3F1, members.length), commonware.quorum(N3F1, members.length)];
console.log(`of ${members.length} members ${faults} may be faulty, and ${quorum} are a quorum`);

const first = commonware.encodeCertificate(commonware.slotValue(text("view 7"), text("A")), [0, 1, 2]);
const second = commonware.encodeCertificate(commonware.slotValue(text("view 7"), text("B")), [1, 2, 3]);
const both = commonware.equivocation(N3F1, members.length, first, second);
console.log(`[${both.join(", ")}] signed both`);
