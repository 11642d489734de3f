#!/usr/bin/env python3
"""Prints what documents 01 and 02 want of the demonstration program, for the three lines on standard input.

Written from the text of 01 and of 02's CR 1 and nothing else: pieces are a list of texts, repairs are found by trying every candidate, a hash
by adding rows, an anchor's place by trying every r, a column by taking every B-th bit. data/runs/NAME.out is what this program prints for
data/runs/NAME.in.
"""
import sys
from math import isqrt

LIMITS = [(8, 64), (8, 32), (1, 8), (1, 2**32 - 1), (0, 16384)]


class TurnedDown(Exception):
    pass


def settings_of(line):
    words = line.split(" ")
    if len(words) != 5 or not all(word.isascii() and word.isdigit() for word in words):
        raise TurnedDown(1)
    values = [int(word) for word in words]
    if not all(low <= value <= high for value, (low, high) in zip(values, LIMITS)):
        raise TurnedDown(1)
    return values


def string_of(lines, number):
    if number >= len(lines) or len(lines[number]) > 65536 or set(lines[number]) - set("01"):
        raise TurnedDown(2)
    return lines[number]


# ---- syndrome, repair, hash
def syndrome(bits):
    return sum(i for i, bit in enumerate(bits, 1) if bit == "1") % (len(bits) + 1)


def put_in(bits, a):
    candidates = {bits[:i] + bit + bits[i:] for i in range(len(bits) + 1) for bit in "01"}
    [found] = [x for x in candidates if syndrome(x) == a]
    return found


def take_out(bits, a):
    found = [x for x in {bits[:i] + bits[i + 1:] for i in range(len(bits))} if syndrome(x) == a]
    return found[0] if found else None


def columns(bits, B):
    return [bits[j::B] for j in range(B)]


def woven(parts):
    """The string whose columns these are."""
    bits = [None] * sum(len(part) for part in parts)
    for j, part in enumerate(parts):
        bits[j::len(parts)] = part
    return "".join(bits)


def repair_run(bits, n, syndromes):
    """The n bits got by one put-in or take-out in each column, or None if a column has none."""
    repair = put_in if len(bits) < n else take_out
    parts = [repair(column, a) for column, a in zip(columns(bits, len(syndromes)), syndromes)]
    return None if None in parts else woven(parts)


def hash_of(bits, h, key):
    total, v = 0, key
    for bit in bits:
        v ^= v << 13 & 0xFFFFFFFF
        v ^= v >> 17
        v ^= v << 5 & 0xFFFFFFFF
        if bit == "1":
            total ^= v % 2**h
    return total


# ---- messages
def number(v):
    return bytes([v]) if v < 128 else bytes([128 + v % 128]) + number(v // 128)


def packed(bits):
    filled = bits + "0" * (-len(bits) % 8)
    return bytes(int(filled[i:i + 8], 2) for i in range(0, len(filled), 8))


def question_bytes(kind, *fields):
    return number(kind) + b"".join(number(field) for field in fields)


def answer_bytes(X, h, key, kind, start, length, B=None):
    piece = X[start:start + length]
    if kind == 1:
        return number(1) + number(hash_of(piece, h, key))
    if kind == 2:
        return number(2) + number(syndrome(piece)) + number(hash_of(piece, h, key))
    if kind == 4:
        return number(4) + b"".join(number(syndrome(column)) for column in columns(piece, B)) + number(hash_of(piece, h, key))
    return number(3) + packed(piece)


# ---- the rebuilder
def place(anchor, s, p, copy, k):
    q, m = len(copy), len(anchor)
    fits = [r for r in range(q - m + 1) if copy[r:r + m] == anchor and abs(2 * r - (2 * s + q - p)) <= 2 * k * isqrt(q)]
    return min(fits, key=lambda r: (abs(2 * r - (2 * s + q - p)), r)) if fits else None


def work(ask, X, m, h, k, key, start, copy, p):
    """The steps 1 to 4, and CR 1's between 3 and 4, on the piece X[start:start + p] with its copy: gives rows (start, length, how, bits) as they
    settle."""
    q = len(copy)
    if p == 0:
        return
    piece = X[start:start + p]
    if q == p:
        ask(1, start, p)
        if hash_of(copy, h, key) == hash_of(piece, h, key):
            yield start, p, 1, copy
            return
    if q in (p - 1, p + 1):
        ask(2, start, p)
        trial = put_in(copy, syndrome(piece)) if q < p else take_out(copy, syndrome(piece))
        if trial is not None and hash_of(trial, h, key) == hash_of(piece, h, key):
            yield start, p, 2 if q < p else 3, trial
            return
    B = abs(p - q)
    if 2 <= B <= 32:
        ask(4, start, p, B)
        trial = repair_run(copy, p, [syndrome(column) for column in columns(piece, B)])
        if trial is not None and hash_of(trial, h, key) == hash_of(piece, h, key):
            yield start, p, 6, trial
            return
    if p >= 4 * (m + h) and q >= m:
        c = (p - m) // 2
        for s in (c, c + m, c - m):
            ask(3, start + s, m)
            anchor = piece[s:s + m]
            r = place(anchor, s, p, copy, k)
            if r is not None:
                yield start + s, m, 4, anchor
                yield from work(ask, X, m, h, k, key, start, copy[:r], s)
                yield from work(ask, X, m, h, k, key, start + s + m, copy[r + m:], p - s - m)
                return
    ask(3, start, p)
    yield start, p, 5, piece


class CeilingPassed(Exception):
    pass


def run(m, h, k, key, ceiling, X, Y, show):
    count = asked = 0

    def exchange(question, answer):
        show("Q " + question.hex())
        show("A " + answer.hex())

    def ask(*fields):
        # the ceiling is looked at before each question: a piece waits
        nonlocal count, asked
        if count > ceiling and fields != (3, 0, len(X)):
            raise CeilingPassed
        answer = answer_bytes(X, h, key, *fields)
        exchange(question_bytes(*fields), answer)
        count += len(answer)
        asked += 1

    exchange(question_bytes(0, 1, h, key), number(0) + number(len(X)))
    rows = []
    try:
        for row in work(ask, X, m, h, k, key, 0, Y, len(X)):
            rows.append(row)
    except CeilingPassed:
        ask(3, 0, len(X))
        rows = [(0, len(X), 5, X)]
    for start, length, how, _ in rows:
        show("P %d %d %d" % (start, length, how))
    text = "".join(bits for _, _, _, bits in sorted(rows))
    show("X %s %d %d" % (text, asked, count))


def main():
    lines = sys.stdin.read().split("\n")
    try:
        values = settings_of(lines[0])
        run(*values, string_of(lines, 1), string_of(lines, 2), print)
    except TurnedDown as refusal:
        print("R", refusal.args[0])


if __name__ == "__main__":
    main()
