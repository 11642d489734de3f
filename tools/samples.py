#!/usr/bin/env python3
"""Works out crates/samples/stdout from documents 01 and 02, by brute force over all strings; nothing here follows the code.

The last five lines are not worked out but stand here as text: the house settings, and calls that are turned down, after 01's list of
refusals, with one repair that is done."""
from itertools import product

from runs import place, run

# published outputs of xorshift with shifts 13, 17, 5 from the seed 2463534242
PUBLISHED = [723471715, 2497366906, 2064144800, 2008045182, 3532304609, 374114282, 1350636274, 691148861, 746858951, 2653896249]


def row(key, i):
    for _ in range(i):
        key ^= key << 13 & 0xFFFFFFFF
        key ^= key >> 17
        key ^= key << 5 & 0xFFFFFFFF
    return key


def hashed(bits, h, key):
    total = 0
    for i, bit in enumerate(bits, 1):
        if bit == "1":
            total ^= row(key, i) & (1 << h) - 1
    return total


def syndrome(bits):
    return sum(i for i, bit in enumerate(bits, 1) if bit == "1") % (len(bits) + 1)


def strings(n):
    return ["".join(bits) for bits in product("01", repeat=n)]


def deletions(bits):
    return {bits[:i] + bits[i + 1:] for i in range(len(bits))}


def put_in(bits, a):
    found = [x for x in strings(len(bits) + 1) if syndrome(x) == a and bits in deletions(x)]
    assert len(found) == 1
    return found[0]


def take_out(bits, a):
    found = [x for x in deletions(bits) if syndrome(x) == a]
    assert len(found) <= 1
    return (found[0] or "empty") if found else "none"


def line(*words):
    print(*words)


assert [row(2463534242, i) for i in range(1, 11)] == PUBLISHED
line("xorshift from 2463534242:", *PUBLISHED)
line("rows of key 1:", *[row(1, i) for i in range(1, 10)])
line("1011, h 8, key 1:", hashed("1011", 8, 1))
line("010011000, h 8, key 1:", hashed("010011000", 8, 1))
line("empty, h 32, key 4294967295:", hashed("", 32, 4294967295))
line("1111111111111111, h 32, key 4294967295:", hashed("1" * 16, 32, 4294967295))
put_ins = 0
for n in range(9):
    for bits in strings(n):
        more = [put_in(bits, a) for a in range(n + 2)] if n < 8 else []
        less = [take_out(bits, a) for a in range(n)] if n > 0 else []
        put_ins += len(more)
        blank = lambda words: "".join(" " + word for word in words)
        print(" %s: %d;%s;%s" % (bits or "empty", syndrome(bits), blank(more), blank(less)))
line("put-ins:", put_ins)


def messages(letter, x, y):
    """The questions (Q) or answers (A) of a run, each as numbers, the opening's question left out."""
    shown = []
    run(8, 8, 1, 1, 100, x, y, shown.append)
    found = [bytes.fromhex(text[2:]) for text in shown if text[0] == letter]
    return "".join(" " + " ".join(str(b) for b in message) + ";" for message in found)


def questions(x, y):
    return messages("Q", x, y).split(";", 1)[1] + " finished;"


# copies that are more than 32 bits longer, so that step 4 comes first
print("questions for 63 bits, copy of 104 zeros:" + questions("1" * 63, "0" * 104).split(";")[0] + ";")
print("questions for 64 ones, copy of 104 zeros:" + questions("1" * 64, "0" * 104))
print("answers for 100:" + messages("A", "100", "0000"))
print("questions for 100, copy 0000:" + questions("100", "0000"))
ones = ["0" * r + "1" * 8 + "0" * (58 - r) for r in range(59)]
places = [place("1" * 8, 28, 64, copy, 1) for copy in ones]
assert [r for r in places if r is not None] == list(range(21, 38))
line("eight ones at 0 to 58:", *["none" if r is None else r for r in places])
tie = place("01010101", 28, 64, "1" * 28 + "0101010101" + "1" * 28, 1)
assert tie == 28
line("01010101 at 28 and 30:", tie)
line("house settings: 16 16 2 1 4096")
line("hash with h 7, h 33, key 0, a spare bit: R 1 R 1 R 1 R 2")
line("syndrome with a spare bit, a byte too many, one too few: R 2 R 2 R 2")
line("repair of 1011 to 4 bits, to 6, to 5 with syndrome 5, with syndrome 6: R 8 R 8 done R 8")
line("repair with a spare bit, to 65537 bits, to 9 bits in one byte: R 2 R 8 R 9")
