// The examples that the page offers. A field that an example doesn't name is that of the first one.

const member = (byte) => byte.repeat(32);
const address = (byte, end) => byte.repeat(19) + end;

// Four members; two certificates for one slot, "view 7", signed by three of them each.
const COMMITTEE = `04 ${["01", "3b", "7e", "c4"].map(member).join(" ")}`;
const FIRST = "08 06 76 69 65 77 20 37 41 03 00 01 02";
const SECOND = "08 06 76 69 65 77 20 37 42 03 01 02 03";

export const EXAMPLES = [
    {
        name: "A committee of four",
        fields: {
            kind: "committee",
            "key-size": 32,
            "value-size": 8,
            least: 1,
            most: 256,
            bytes: COMMITTEE,
            k: 3,
            members: 4,
            first: FIRST,
            second: SECOND,
            weights: "40 30 20 10",
        },
    },
    { name: "Members out of order", fields: { bytes: `04 ${["01", "7e", "3b", "c4"].map(member).join(" ")}` } },
    { name: "A length in too many bytes", fields: { bytes: `84 00 ${["01", "3b", "7e", "c4"].map(member).join(" ")}` } },
    { name: "It ends too early", fields: { bytes: `04 ${["01", "3b", "7e"].map(member).join(" ")} c4c4c4` } },
    { name: "Bytes left over", fields: { bytes: `${COMMITTEE} 00ff` } },
    {
        name: "A map of addresses to balances",
        fields: {
            kind: "map",
            "key-size": 20,
            "value-size": 8,
            bytes: `03 ${address("0a", "01")} ${address("0a", "02")} ${address("d1", "00")} 03 00000000000003e8 0000000000000000 00000000000f4240`,
        },
    },
    {
        name: "A bimap whose values repeat",
        fields: { kind: "bimap", "key-size": 4, "value-size": 2, bytes: "03 00000001 00000002 000000ff 03 0a0a 0b0b 0a0a" },
    },
    { name: "Ten members", fields: { bytes: `0a ${[..."0123456789"].map((it) => member(`${it}0`)).join(" ")}`, members: 10 }, at: "picture" },
    {
        name: "Two slots: no offence by this rule",
        fields: { second: "08 06 76 69 65 77 20 38 42 03 01 02 03" },
        at: "both",
    },
    {
        name: "Equivocation by stake",
        fields: { first: "08 06 76 69 65 77 20 37 41 02 00 01", second: "08 06 76 69 65 77 20 37 42 02 00 01", weights: "40 30 20 10" },
        isByWeight: true,
        at: "both",
    },
];
