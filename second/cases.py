#!/usr/bin/env python3
"""Writes sheets to test readers with, in order and damaged, as CASES (docs/SECOND.md). Always the same bytes.

    python3 second/cases.py                       CASES
    python3 second/cases.py sheets DIRECTORY      the sample sheets

It knows how sheets are built, not how they are judged: no answer is worked out here.
"""
import itertools
import os
import sys

KINDS = b"GTXCBUSZ"


class Chance:
    """A linear congruential generator of its own, so that no version of Python matters."""

    def __init__(self, seed):
        self.state = seed

    def below(self, n):
        self.state = (self.state * 6364136223846793005 + 1442695040888963407) % 2 ** 64
        return (self.state >> 33) % n

    def pick(self, items):
        return items[self.below(len(items))]

    def once_in(self, n):
        return self.below(n) == 0

    def shuffled(self, items):
        items = list(items)
        for last in range(len(items) - 1, 0, -1):
            other = self.below(last + 1)
            items[last], items[other] = items[other], items[last]
        return items


# Records. Fields may be anything that fits its bytes. ---------------------------------------------------------

def G(groups, pots):
    return bytes([0x47, groups, pots])


def T(pot, ball, association=0, code=None):
    if code is None:
        code = bytes([65 + pot, 65 + ball, 65 + (7 * pot + 3 * ball) % 26])
    return bytes([0x54, pot, ball, association]) + code


def X(a, b):
    return bytes([0x58, a, b])


def C(association, cap):
    return bytes([0x43, association, cap])


def B(number, bits):
    return bytes([0x42, number]) + bits.to_bytes(2, "big")


def U(seed):
    return b"\x55" + seed.to_bytes(8, "big")


def S(pot, balls, rest=()):
    """The balls, then the rest, then 255 to the end."""
    return (bytes([0x53, pot]) + bytes(balls) + bytes(rest)).ljust(18, b"\xff")


Z = b"\x5a"


def ts(groups, pots):
    return [T(pot, ball) for pot in range(pots) for ball in range(groups)]


def ss(groups, pots):
    return [S(pot, range(groups)) for pot in range(pots)]


def plain(groups, pots, *more):
    """Shape, teams and the given records, without a Z."""
    return [G(groups, pots)] + ts(groups, pots) + list(more)


def joined(*parts):
    return b"".join(parts)


WORKED = [
    G(2, 2),
    T(0, 0, 1, b"AAA"), T(0, 1, 2, b"BBB"), T(1, 0, 1, b"CCC"), T(1, 1, 3, b"DDD"),
    C(1, 1),
    S(0, [1, 0]), S(1, [1, 0]),
    Z,
]
# Every kind but S, in one short sheet; every kind but U, in another.
ALL_BUT_S = [G(2, 1), T(0, 0, 5, b"KLM"), T(0, 1, 0, b"NOP"), X(0, 1), C(5, 5), B(1, 2), U(0x0102030405060708), Z]
ALL_BUT_U = [G(2, 2), T(1, 1, 9), T(0, 0, 64), T(1, 0), T(0, 1, 9), X(0, 16), C(9, 1), B(17, 1), S(1, [0, 1]), S(0, [1, 0]), Z]
SHORTEST = [G(1, 1), T(0, 0, 1, b"ONE"), U(7), Z]
# One group, and the forms of a listing's lines that WORKED has not.
ONE_GROUP = [G(1, 2), T(0, 0, 0, b"ESP"), T(1, 0, 12, b"FRA"), X(0, 16), X(16, 0), C(12, 2), C(1, 6), B(0, 1), B(16, 0), U(42), Z]
# The cup of docs/RUN.md, and the same with group E barred where D was meant.
CUP = [
    G(4, 3),
    T(0, 0, 1, b"RIV"), T(0, 1, 2, b"HAR"), T(0, 2, 3, b"OAK"), T(0, 3, 4, b"NOR"),
    T(1, 0, 1, b"CAS"), T(1, 1, 2, b"MIL"), T(1, 2, 0, b"LAK"), T(1, 3, 3, b"EAS"),
    T(2, 0, 1, b"FEN"), T(2, 1, 0, b"BAY"), T(2, 2, 4, b"TOW"), T(2, 3, 2, b"WES"),
    X(1, 16),
    C(1, 1),
    B(3, 2 ** 3),
    U(20260611),
    Z,
]
CUP_DAMAGED = [B(3, 2 ** 4) if record == B(3, 2 ** 3) else record for record in CUP]


def largest(chance, urn=False):
    """As many records of each kind as a sheet can have."""
    body = [T(pot, ball, chance.below(65), code(chance)) for pot in range(6) for ball in range(16)]
    body += [some_pair(chance, range(96)) for _ in range(64)]
    body += [some_cap(chance, association) for association in range(1, 65)]
    body += [some_bars(chance, number, 16) for number in range(96)]
    if urn:
        body.append(U(2 ** 64 - 1))
    body += [S(pot, chance.shuffled(range(16))) for pot in range(6)]
    return [G(16, 6)] + body + [Z]


def some_pair(chance, numbers):
    a, b = chance.shuffled(numbers)[:2]
    return X(a, b)


def some_cap(chance, association):
    return C(association, 1 + chance.below(6))


def some_bars(chance, number, groups):
    return B(number, chance.below(2 ** groups))


def code(chance):
    return bytes(65 + chance.below(26) for _ in range(3))


def valid(chance, groups, pots, most_pairs=4):
    """A random sheet in order, as its records; those between G and Z in random order."""
    numbers = [16 * pot + ball for pot in range(pots) for ball in range(groups)]
    body = [T(n // 16, n % 16, chance.pick([0, 1, 2, 3, 12, 63, 64]), code(chance)) for n in numbers]
    if len(numbers) > 1:
        body += [some_pair(chance, numbers) for _ in range(chance.below(most_pairs + 1))]
    for association in chance.shuffled([1, 2, 3, 12, 63, 64])[:chance.below(4)]:
        body.append(some_cap(chance, association))
    for number in chance.shuffled(numbers)[:chance.below(4)]:
        body.append(some_bars(chance, number, groups))
    if chance.once_in(2):
        body.append(U(chance.below(2 ** 31) * 2 ** 33 + chance.below(2 ** 31)))
    else:
        body += [S(pot, chance.shuffled(range(groups))) for pot in range(pots)]
    return [G(groups, pots)] + chance.shuffled(body) + [Z]


# The collector. ------------------------------------------------------------------------------------------------

class Cases:
    def __init__(self):
        self.seen = set()
        self.lines = []

    def add(self, *parts):
        self.put("", parts)

    def show(self, *parts):
        self.put("list ", parts)

    def put(self, word, parts):
        line = word + b"".join(part if isinstance(part, bytes) else b"".join(part) for part in parts).hex()
        if line not in self.seen:
            self.seen.add(line)
            self.lines.append(line)


# Families of cases. --------------------------------------------------------------------------------------------

EDGES = [0, 1, 2, 3, 5, 6, 7, 8, *range(14, 19), 31, 32, 33, 47, 48, *range(63, 67), 79, 80, 81, *range(94, 98), 112, 127, 128, 254, 255]


def beginnings(out):
    out.add(b"")
    for byte in range(256):
        out.add(G(1, 1), bytes([byte]))
    for byte in sorted({*EDGES, *KINDS, *KINDS.lower(), *(kind + 1 for kind in KINDS), *(kind - 1 for kind in KINDS)}):
        out.add(bytes([byte]))
        out.add(bytes([byte]), SHORTEST[0][1:], SHORTEST[1:])
    # Each kind first: cut at every length, whole, whole with a good sheet behind it.
    for record in (G(1, 1), T(0, 0), X(0, 1), C(1, 1), B(0, 0), U(1), S(0, [0]), Z):
        for length in range(1, len(record) + 1):
            out.add(record[:length])
            out.add(G(2, 1), record[:length])
        out.add(record, SHORTEST)
        out.add(record, Z)
    for byte in KINDS:
        out.add(bytes([byte, byte, byte]))


def bytewise(out):
    worked = b"".join(WORKED)
    for base in (worked, b"".join(ALL_BUT_S), b"".join(ALL_BUT_U), b"".join(SHORTEST)):
        for length in range(len(base) + 1):
            out.add(base[:length])
        for tail in (b"\x00", b"Z", b"G", b"\xff\xff", base):
            out.add(base, tail)
    for base, kinds in ((worked, b"GTXZ"), (b"".join(ALL_BUT_S), KINDS)):
        for at, old in enumerate(base):
            values = [0, 1, 2, 16, 17, 255, (old + 1) % 256, (old - 1) % 256, *kinds]
            if old == 255:
                values = [0, 1, 2, 254]
            for value in values:
                if value != old:
                    out.add(base[:at], bytes([value]), base[at + 1:])
    base = b"".join(SHORTEST)
    for at in range(len(base)):
        out.add(base[:at], base[at + 1:])
        for value in (0, 0x41, 255, *b"GTZ"):
            out.add(base[:at], bytes([value]), base[at:])


def recordwise(out):
    for base in (WORKED, ALL_BUT_S, ALL_BUT_U):
        places = range(len(base))
        for i, j in itertools.combinations(places, 2):
            swapped = list(base)
            swapped[i], swapped[j] = swapped[j], swapped[i]
            out.add(swapped)
        for i in places:
            rest = base[:i] + base[i + 1:]
            out.add(rest)
            for j in range(len(rest) + 1):
                out.add(rest[:j], base[i], rest[j:])
        for i in places:
            out.add(base[:i], base[i], base[i:])
            out.add(base[:-1], base[i], Z)
            out.add(base, base[i])
            out.add(base[i], base)
    for i in range(len(ALL_BUT_S)):
        for j in range(len(ALL_BUT_S)):
            out.add(ALL_BUT_S[:j], ALL_BUT_S[i], ALL_BUT_S[j:])


def shapes(out):
    for groups in (0, 1, 2, 15, 16, 17, 18, 255):
        for pots in (0, 1, 2, 5, 6, 7, 8, 255):
            out.add(G(groups, pots))
            out.add(G(groups, pots), T(0, 0), U(0), Z)
    for value in EDGES:
        out.add(G(value, 1))
        out.add(G(1, value))
    for groups in range(1, 17):
        for pots in range(1, 7):
            source = [U(groups * 256 + pots)] if (groups + pots) % 2 else ss(groups, pots)
            out.add(plain(groups, pots, *source), Z)
            # The highest team and the first numbers that are none.
            top = 16 * (pots - 1) + groups - 1
            out.add(G(groups, pots), B(top, 1))
            out.add(G(groups, pots), B(top + 1, 1))
            if groups in (1, 2, 15, 16):
                out.add(G(groups, pots), B(top + 16, 1))
    # One T short, one T too many.
    for missing in range(6):
        teams = ts(3, 2)
        del teams[missing]
        out.add(G(3, 2), teams, U(1), Z)
        out.add(G(3, 2), teams, teams[0], U(1), Z)
    out.add(G(3, 2), U(1), Z)
    out.add(G(3, 2), ts(3, 2)[:3], U(1), Z)
    out.add(G(3, 2), ts(3, 2)[3:], U(1), Z)
    out.add(G(16, 6), ts(16, 6)[:95], U(1), Z)
    out.add(G(16, 6), ts(16, 6)[1:], U(1), Z)


def teams(out):
    for pot in (0, 1, 2, 3, 6, 16, 255):
        for ball in (0, 1, 2, 3, 4, 15, 16, 17, 255):
            out.add(G(3, 2), T(0, 1), bytes([0x54, pot, ball, 1]) + b"XYZ")
    for value in EDGES:
        out.add(G(1, 1), T(0, 0, value, b"ABC"), U(3), Z)
    for value in (0, 1, 2, 63, 64, 65, 66, 128, 255):
        out.add(G(2, 1), T(0, 0, value, b"ABC"), T(0, 1, value, b"ABC"), U(3), Z)
    for position in range(3):
        for value in (0x00, 0x20, 0x2d, 0x30, 0x40, 0x41, 0x42, 0x59, 0x5a, 0x5b, 0x60, 0x61, 0x7a, 0xc1, 0xff):
            letters = bytearray(b"MMM")
            letters[position] = value
            out.add(G(1, 1), T(0, 0, 1, bytes(letters)), U(4), Z)
    for letters in (b"AAA", b"ZZZ", b"AZA", b"ZAZ", b"---", b"abc"):
        out.add(G(1, 1), T(0, 0, 1, letters), U(4), Z)
    # A second T, alike or not, in range or not; the same ball of another pot is no second T.
    for again in (T(0, 0, 1, b"AAA"), T(0, 0, 2, b"BBB"), T(0, 0, 65, b"AAA"), T(0, 0, 1, b"A@A"), T(1, 0, 1, b"AAA"),
                  T(0, 1, 1, b"AAA"), T(1, 1, 64, b"AAA"), T(2, 0, 1, b"AAA"), T(0, 2, 1, b"AAA"), T(0, 16, 1, b"AAA")):
        out.add(G(2, 2), T(0, 0, 1, b"AAA"), again)
        out.add(G(2, 2), again, T(0, 0, 1, b"AAA"))
        out.add(G(2, 2), again, T(0, 0, 1, b"AAA"), U(1), Z, b"Q")


def pairs(out):
    for number in range(100):
        out.add(G(5, 3), X(number, 0))
    for number in EDGES:
        out.add(G(5, 3), X(2, number))
        out.add(G(16, 6), X(95, number))
        out.add(G(16, 6), X(number, 94))
        out.add(G(1, 6), X(80, number))
    for number in (0, 15, 16, 95, 96, 255):
        out.add(G(16, 6), X(number, number))
        out.add(G(1, 1), X(number, number))
    two = plain(2, 1, U(1))
    many = [X(k % 2, 1 - k % 2) for k in range(70)]
    for count in (1, 2, 3, 32, 63, 64, 65, 66, 70):
        out.add(two, many[:count], Z)
        out.add(two, [X(0, 1)] * count, Z)
        out.add(G(2, 1), many[:count])
    # The 65th: out of range, equal, cut short, other kinds in its stead, after other records.
    full = [G(2, 1)] + many[:64]
    for last in (X(0, 1), X(1, 0), X(0, 0), X(0, 2), X(2, 0), X(16, 0), X(0, 255), b"X", b"X\x00", b"X\x02", C(1, 1), C(0, 1), T(0, 0),
                 B(0, 1), U(9), S(0, [0, 1]), S(0, [0, 0]), G(2, 1), b"G", Z, b"\x00", b"Z!", b""):
        out.add(full, last)
    out.add(G(2, 1), many[:30], T(0, 0), many[30:64], B(1, 1), T(0, 1), U(5), Z)
    out.add(G(2, 1), many[:30], T(0, 0), many[30:64], B(1, 1), T(0, 1), U(5), X(0, 1), Z)
    wide = [X(a, b) for a in range(0, 96, 7) for b in range(95, 0, -11) if a != b]
    out.add(G(16, 6), wide[:64])
    out.add(G(16, 6), wide[:65])
    out.add(G(16, 6), wide[:65], Z)
    out.add(plain(4, 2), [X(a, 16 + b) for a in range(4) for b in range(4)] * 4, ss(4, 2), Z)
    out.add(plain(4, 2), [X(a, 16 + b) for a in range(4) for b in range(4)] * 4, X(0, 1), ss(4, 2), Z)


def caps(out):
    for association in (0, 1, 2, 63, 64, 65, 255):
        for cap in (0, 1, 2, 3, 4, 5, 6, 7, 8, 16, 255):
            out.add(G(1, 1), C(association, cap), T(0, 0, 1), U(1), Z)
    for value in EDGES:
        out.add(G(1, 1), C(value, 1))
        out.add(G(1, 1), C(1, value))
    everyone = [C(association, (6, 1, 5, 2, 4)[association % 5]) for association in range(1, 65)]
    out.add(SHORTEST[:-1], everyone, Z)
    out.add(SHORTEST[:-1], everyone[::-1], Z)
    for again in (C(1, 2), C(1, 4), C(1, 0), C(1, 7), C(64, 1), C(0, 1), C(65, 1), C(2, 2)):
        out.add(SHORTEST[:-1], C(1, 2), again, Z)
        out.add(SHORTEST[:-1], everyone, again, Z)
        out.add(SHORTEST[:-1], everyone[1:], again, Z)


def bars(out):
    for groups in range(1, 17):
        top = 2 ** (groups - 1)
        base = plain(groups, 1, U(groups))
        for bits in sorted({0, 1, top, 2 * top - 1, 2 ** 15, 2 ** 16 - 1, 2 ** 8, 2 ** 7, 2 * top % 2 ** 16, (2 * top + 1) % 2 ** 16}):
            out.add(G(groups, 1), B(0, bits))
            if bits in (0, top, 2 * top - 1) or groups < 5:
                out.add(base, B(groups - 1, bits), Z)
    for number in EDGES:
        out.add(G(7, 4), B(number, 64))
        out.add(G(16, 6), B(number, 2 ** 15))
    three = plain(3, 2, U(8))
    for again in (B(1, 5), B(1, 0), B(1, 8), B(17, 5), B(2, 5), B(3, 0), B(33, 0)):
        for before in (B(1, 5), B(1, 0)):
            out.add(three, before, again, Z)
            out.add(three, again, before, Z)
    out.add(three, [B(16 * pot + ball, 7) for pot in range(2) for ball in range(3)], Z)
    out.add(three, [B(16 * pot + ball, 0) for pot in (1, 0) for ball in (2, 1, 0)], Z)


def scripts(out):
    for triple in itertools.product((0, 1, 2, 3, 255), repeat=3):
        out.add(G(3, 1), S(0, triple))
    for groups in (1, 2, 3, 8, 15, 16):
        balls = list(range(groups))
        tails = [[], balls[:-1], balls[:-1] + [255], balls[:-1] + [groups], balls[:-1] + [0], [1] + balls[1:], balls[::-1],
                 balls[1:] + balls[:1], [255] + balls[1:], [255] + balls[:-1], [16] + balls[1:], [254] + balls[1:], [0] * groups, [0] * 16]
        if groups < 16:
            tails += [balls + [groups], balls + [0], balls + [254], [255] + balls, balls + [255] * (15 - groups) + [0],
                      balls + [255] * (15 - groups) + [groups], balls + [255] * (15 - groups) + [254], list(range(16))]
        for tail in tails + [balls]:
            out.add(G(groups, 1), S(0, tail))
            if groups < 9:
                out.add(plain(groups, 1), S(0, tail), Z)
    for at in range(16):
        for value in (0, 1, 2, 254, 255):
            order = bytearray(S(0, [1, 0, 2])[2:])
            order[at] = value
            out.add(G(3, 1), S(0, order))
            order = bytearray(S(0, range(16))[2:])
            order[at] = value
            out.add(G(16, 1), S(0, order))
    for pots in range(1, 7):
        for pot in (0, pots - 1, pots, pots + 1, 16, 255):
            out.add(G(2, pots), S(pot, [0, 1]))
            out.add(G(2, pots), S(pot, [0, 2]))
    for again in (S(0, [0, 1]), S(0, [1, 0]), S(0, [0, 0]), S(0, []), S(1, [0, 1]), S(1, [0, 0]), S(2, [0, 1]), S(2, [0, 0])):
        out.add(G(2, 2), S(0, [0, 1]), again)
        out.add(plain(2, 2, S(0, [0, 1])), again, Z)
        out.add(plain(2, 2, again), S(0, [0, 1]), Z)


def sources(out):
    for seed in (0, 1, 42, 255, 256, 2 ** 31, 2 ** 32, 2 ** 32 - 1, 2 ** 53 + 1, 2 ** 63 - 1, 2 ** 63, 2 ** 64 - 2, 2 ** 64 - 1, 10 ** 19, 10 ** 19 - 1,
                 0x0102030405060708, 0x5A5A5A5A5A5A5A5A, 0x4747474747474747, 0x0A0A0A0A0A0A0A0A):
        out.add(SHORTEST[:2], U(seed), Z)
        out.add(SHORTEST[:2], U(seed), U(seed), Z)
    for seed, other in ((1, 2), (0, 1), (1, 0)):
        out.add(SHORTEST[:2], U(seed), U(other), Z)
    # Seed 0 is a seed like any other.
    for some in (ss(1, 2), ss(1, 2)[:1], ss(1, 2)[1:]):
        out.add(plain(1, 2), U(0), some, Z)
        out.add(plain(1, 2), some, U(0), Z)
    # With three pots: every choice of scripts, with and without a U, in either order.
    for choice in itertools.product((False, True), repeat=3):
        some = [script for script, taken in zip(ss(2, 3), choice) if taken]
        out.add(plain(2, 3), some, Z)
        out.add(plain(2, 3), some, U(1), Z)
        out.add(plain(2, 3), U(1), some, Z)
        out.add(G(2, 3), some, ts(2, 3), Z)
        out.add(G(2, 3), some, ts(2, 3)[1:], Z)
        out.add(plain(2, 3), some, Z, Z)
        out.add(plain(2, 3), some, U(1), U(1), Z)


def ends(out):
    for tail in (b"\x00", b"Z", b"ZZ", b"G", b"\xff", b"\n", b"T" * 7, G(1, 1)):
        out.add(SHORTEST, tail)
        out.add(SHORTEST[:-2], Z, tail)
        out.add(G(1, 1), Z, tail)
        out.add(Z, tail)
        out.add(SHORTEST[:-1], S(0, [0]), Z, tail)
    out.add(SHORTEST[:-1], S(0, [0]), Z)
    out.add(SHORTEST[:-1])
    out.add(G(1, 1), Z)
    out.add(G(0, 1), Z)


def long_ones(out, chance):
    out.add(WORKED, b"\x5a" * 4100)
    out.add(G(2, 2), b"\xff" * 4200)
    out.add(Z * 4097)
    out.add(largest(chance))
    records = largest(chance)
    out.add(records[0], chance.shuffled(records[1:-1]), Z)
    # The latest place that any record can have: a U beside six S, then every way to fail or end.
    records = largest(chance, urn=True)
    last = records[0], chance.shuffled(records[1:-1])
    for end in (b"", Z, Z + b"!", b"\x00", b"G", G(1, 1), T(5, 15), X(0, 1), X(1, 1), C(64, 1), B(95, 0), U(0), S(5, range(16)), S(5, range(16))[:17],
                S(6, range(16))):
        out.add(*last, end)


def random_valid(out, chance):
    for _ in range(400):
        out.add(valid(chance, 1 + chance.below(4), 1 + chance.below(3)))
    for _ in range(30):
        out.add(valid(chance, 1 + chance.below(16), 1 + chance.below(6), 20))


def random_full_of_pairs(out, chance):
    """About as many pairs as a sheet can have, among other records, sometimes with one of them damaged."""
    for _ in range(80):
        groups, pots = 2 + chance.below(2), 1 + chance.below(2)
        records = valid(chance, groups, pots, 0)
        numbers = [16 * pot + ball for pot in range(pots) for ball in range(groups)]
        body = records[1:-1] + [some_pair(chance, numbers) for _ in range(chance.pick([64, 65, 65, 66]))]
        body = chance.shuffled(body)
        if chance.once_in(4):
            body[-1 - chance.below(4)] = chance.pick([X(0, 0), X(0, 96), X(255, 0), C(1, 7), Z, b"\x00"])
        out.add(records[0], body, Z)


def random_damage(out, chance):
    for _ in range(480):
        sheet = bytearray(b"".join(valid(chance, 1 + chance.below(3), 1 + chance.below(2))))
        for _ in range(1 + chance.below(2)):
            at = chance.below(len(sheet))
            value = chance.pick([chance.below(256), chance.below(18), chance.pick(KINDS)])
            way = chance.below(4)
            if way < 2:
                sheet[at] = value
            elif way == 2:
                sheet.insert(at, value)
            else:
                del sheet[at]
        out.add(bytes(sheet))
    # The same with whole records: kinds and lengths stay right, so that the later tests are reached.
    for _ in range(440):
        records = valid(chance, 1 + chance.below(3), 1 + chance.below(2))
        for _ in range(1 + chance.below(2)):
            at = 1 + chance.below(len(records) - 1)
            way = chance.below(6)
            if way == 0 and len(records) > 2:
                del records[at]
            elif way == 1:
                records.insert(at, chance.pick(records))
            elif way == 2:
                records.insert(at, chance.pick([U(3), S(0, [0]), S(0, [0, 1]), S(1, [1, 0]), X(0, 1), B(0, 1), C(1, 1), Z, G(2, 1)]))
            elif len(records[at]) > 1:
                record = bytearray(records[at])
                record[1 + chance.below(len(record) - 1)] = chance.pick([0, 1, 2, 4, 16, 17, 64, 65, 66, 255])
                records[at] = bytes(record)
        out.add(records)


def listed(out, chance):
    """Cases that want the whole listing: every form of its lines."""
    out.show(WORKED)
    out.show(SHORTEST)
    out.show(ALL_BUT_S)
    out.show(ALL_BUT_U)
    out.show(ONE_GROUP)
    out.show(CUP)
    out.show(plain(1, 1), S(0, [0]), Z)
    out.show(plain(1, 6, U(0)), Z)
    out.show(plain(16, 1, U(2 ** 64 - 1)), Z)
    out.show(plain(2, 1, U(10)), B(0, 3), B(1, 0), Z)
    out.show(plain(2, 1, U(9)), X(0, 1), X(1, 0), X(0, 1), Z)
    out.show(plain(16, 1, *ss(16, 1)), B(15, 2 ** 16 - 1), B(9, 2 ** 15), B(10, 1), B(0, 0x8001), Z)
    out.show(plain(3, 2, *ss(3, 2)[::-1]), C(64, 6), C(9, 1), C(10, 2), C(1, 3), Z)
    out.show(plain(11, 2, U(5)), X(9, 10), X(10, 9), X(26, 9), X(0, 26), B(26, 1024), Z)
    out.show(plain(2, 1, U(1)), [X(0, 1)] * 64, Z)
    records = largest(chance)
    out.show(records)
    out.show(records[0], chance.shuffled(records[1:-1]), Z)
    for _ in range(16):
        out.show(valid(chance, 1 + chance.below(5), 1 + chance.below(4), 6))
    out.show(valid(chance, 16, 6, 64))
    # Refused: the listing is the refusal line.
    out.show(b"\x00")
    out.show(WORKED[:-1])
    out.show(Z)
    out.show(G(17, 6))
    out.show(WORKED[:2], T(0, 0, 2, b"BBB"), WORKED[3:])
    out.show(CUP_DAMAGED)
    out.show(plain(2, 1, U(1)), [X(0, 1)] * 65, Z)
    out.show(plain(2, 1), S(0, [0, 0]), Z)
    out.show(WORKED, Z)
    out.show(plain(2, 2, S(0, [0, 1])), U(1), Z)
    out.show(SHORTEST, b"\x00" * 4200)


def all_cases():
    out = Cases()
    chance = Chance(20240607)
    beginnings(out)
    bytewise(out)
    recordwise(out)
    shapes(out)
    teams(out)
    pairs(out)
    caps(out)
    bars(out)
    scripts(out)
    sources(out)
    ends(out)
    long_ones(out, chance)
    random_valid(out, chance)
    random_full_of_pairs(out, chance)
    random_damage(out, chance)
    listed(out, chance)
    return out.lines


def write_sheets(directory):
    samples = {
        "worked.sheet": WORKED,
        "damaged.sheet": WORKED[:2] + [T(0, 0, 2, b"BBB")] + WORKED[3:],
        "largest.sheet": largest(Chance(1)),
        "one_group.sheet": ONE_GROUP,
        "cup.sheet": CUP,
        "cup_damaged.sheet": CUP_DAMAGED,
    }
    for name, records in samples.items():
        with open(os.path.join(directory, name), "wb") as file:
            file.write(b"".join(records))


def main(words):
    if not words:
        sys.stdout.buffer.write("".join(line + "\n" for line in all_cases()).encode("ascii"))
        sys.stdout.buffer.flush()
    elif len(words) == 2 and words[0] == "sheets":
        write_sheets(words[1])
    else:
        sys.exit("usage: cases.py [sheets DIRECTORY]")


if __name__ == "__main__":
    main(sys.argv[1:])
