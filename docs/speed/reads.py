#!/usr/bin/env python3
"""Searches for the inputs of which the native decoders read a byte most often.

Usage: reads.py ROUNDS [CALL..]
       reads.py --sought

It compiles reads.c beside it over the library of the repository, and runs it under valgrind's lackey, which names each load. For
each call, or those that are named, it draws inputs, keeps the worst, changes them and goes on, and prints a line of what it found:
how many inputs were tried, of the accepted ones and of the refused ones how often a byte was read at most, and how many reads a
byte took on average at most. A look-up is accepted where it finds the key.

With --sought it looks up each of some keys of 32 bytes, and a key in each gap between them, where all share their first 24 bytes,
and prints how often a byte of the sought key and a byte of the others was read at most.
"""
import pathlib
import random
import re
import subprocess
import sys
import tempfile

HERE = pathlib.Path(__file__).resolve().parent
BASE, PAGE = 1 << 33, 4096
BATCH = 100
LOAD = re.compile(rb"^ [LM] ([0-9a-f]+),(\d+)$")
# A call with its number in reads.c, and the sizes of its keys and values.
CALLS = {
    "set of 4": (0, 4, 0),
    "set of 8": (0, 8, 0),
    "set of 20": (0, 20, 0),
    "set of 32": (0, 32, 0),
    "set of 96": (0, 96, 0),
    "map of 32 to 8": (1, 32, 8),
    "certificate": (2, 0, 0),
    "index in keys of 8": (3, 8, 0),
    "index in keys of 32": (3, 32, 0),
}


def keys(dice, size, count):
    """Draws keys, which share long prefixes or few bytes, most of them in order, and some of these with one twice."""
    shared = dice.randbytes(size)
    # Those of one list share as many bytes, or each as many as it comes.
    places = [0, 7, 8, 15, 16, 23, size - 1, size]
    places = places if dice.random() < 0.5 else [dice.choice(places)]
    found = []
    for _ in range(count):
        at = dice.choice(places)
        found.append((shared[:at] + dice.randbytes(size))[:size])
    order = dice.random()
    if order < 0.8:
        found = sorted(set(found))
    if order < 0.3 and found:
        found.insert(at := dice.randrange(len(found)), found[at])
    return found


def draw(dice, call):
    """Draws an input of a call."""
    number, size, value = CALLS[call]
    # Of a look-up as many keys as a page has, since it reads few of them.
    most = PAGE // size - 2 if number == 3 else 13
    items = keys(dice, max(size, 1), dice.randrange(0, most + 1))
    if number == 2:
        signers = sorted(dice.sample(range(0, 1 << dice.choice([6, 8, 15, 31])), dice.randrange(0, 14)))
        text = dice.randbytes(dice.randrange(0, 40))
        return varint(len(text)) + text + varint(len(signers)) + b"".join(map(varint, signers))
    text = b"".join(items)
    if number == 3:
        sought = dice.choice(items or [bytes(size)]) if dice.random() < 0.7 else dice.randbytes(size)
        return sought + text
    if number == 1:
        return varint(len(items)) + text + varint(len(items)) + dice.randbytes(value * len(items))
    return varint(len(items)) + text


def varint(number):
    """Returns the varint of a number."""
    out = bytearray()
    while number >= 128:
        out.append(number % 128 | 128)
        number //= 128
    return bytes(out + bytes([number]))


def changed(dice, text):
    """Changes a byte or two, cuts, or goes on."""
    out = bytearray(text)
    for _ in range(dice.randrange(1, 3)):
        kind = dice.randrange(4)
        if kind == 0 and out:
            out[dice.randrange(len(out))] = dice.choice([0, 1, 127, 128, 255, dice.randrange(256)])
        elif kind == 1 and out:
            del out[dice.randrange(len(out)) :]
        elif kind == 2 and len(out) > 1:
            at, to = dice.randrange(len(out)), dice.randrange(len(out))
            out[to : to + 8] = out[at : at + 8]
        else:
            out += dice.randbytes(dice.randrange(9))
    return bytes(out[: PAGE - 1])


def reads(program, call, texts):
    """Returns of each input its status, and how often each of its bytes was read."""
    number, size, value = CALLS[call]
    lines = "".join(f"{number} {size} {value} {text.hex()}\n" for text in texts)
    with tempfile.TemporaryDirectory() as folder:
        path = pathlib.Path(folder)
        (path / "in").write_text(lines)
        # Nearly every line of the trace is an instruction: grep drops those faster.
        traced = subprocess.run(
            ["sh", "-c", 'valgrind --tool=lackey --trace-mem=yes --log-fd=9 "$1" <"$2/in" 9>&1 >"$2/out" | grep "^ [LM] 2"'
             " || true", "sh", program, folder],
            stdout=subprocess.PIPE, check=True,
        )
        statuses = (path / "out").read_text().split()
    if len(statuses) != len(texts):
        sys.exit(f"reads: the program answered {len(statuses)} of {len(texts)} inputs")
    counts = [[0] * len(text) for text in texts]
    for match in map(LOAD.match, traced.stdout.splitlines()):
        page, place = divmod(int(match[1], 16) - BASE, PAGE)
        if 0 <= page < len(texts):
            for i in range(place, min(place + int(match[2]), len(texts[page]))):
                counts[page][i] += 1
    return list(zip(map(int, statuses), counts))


def look_up(program):
    """Prints how often the look-ups among keys that share their first 24 bytes read a byte."""
    print("keys,found_sought,found_others,absent_sought,absent_others")
    for count in (1, 3, 7, 15, 31, 63, 126):
        key = lambda number: bytes(24) + number.to_bytes(8, "big")
        text = b"".join(key(2 * i + 1) for i in range(count))
        found = reads(program, "index in keys of 32", [key(i) + text for i in range(2 * count + 1)])
        most = [max(max(reads_of[part]) for _, reads_of in found[absent::2])
                for absent in (1, 0) for part in (slice(32), slice(32, None))]
        print(count, *most, sep=",", flush=True)


def main():
    top = HERE.parent.parent
    archive = top / "bindings/prebuilt/x86_64-linux/libcommonware.a"
    with tempfile.TemporaryDirectory() as folder:
        program = f"{folder}/reads"
        subprocess.run(["cc", "-O2", f"-I{top}/bindings/c", HERE / "reads.c", archive, "-o", program], check=True)
        if sys.argv[1] == "--sought":
            look_up(program)
            return
        rounds = int(sys.argv[1])
        print("call,inputs,accepted_most,accepted_mean,refused_most,refused_mean")
        for call in sys.argv[2:] or CALLS:
            dice = random.Random(call)
            kept, worst, tried = [], {True: (0, 0.0), False: (0, 0.0)}, 0
            for _ in range(rounds):
                texts = [changed(dice, dice.choice(kept)) if kept and dice.random() < 0.6 else draw(dice, call)
                         for _ in range(BATCH)]
                scored = []
                for text, (status, count) in zip(texts, reads(program, call, texts)):
                    tried += 1
                    most, mean = max(count, default=0), sum(count) / max(len(count), 1)
                    good = status == 0
                    worst[good] = (max(worst[good][0], most), max(worst[good][1], mean))
                    scored.append((most + mean, text))
                kept = [text for _, text in sorted(scored, reverse=True)[:60]]
            yes, no = worst[True], worst[False]
            print(f"{call},{tried},{yes[0]},{yes[1]:.2f},{no[0]},{no[1]:.2f}", flush=True)


if __name__ == "__main__":
    main()
