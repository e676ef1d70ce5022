#!/usr/bin/env python3
"""The arguments that the program `elementary_points` tries, with the results that it accepts:
python3 points.py > crates/elementary_points/stdin

A line is a letter (e: exp, l: ln, p: powf), the bit patterns of x and y, and the least and the largest pattern
of an accepted result. The exact values come from python's decimal, whose exp and ln are correctly rounded, at 100
digits; the accepted results are all f32 within the promised number of steps of the exact value. Where an f32 lies
nearer than 2^-200 of a unit to the edge of what is accepted, the value is taken as the fraction that it then is, as
in 3^2. Results between the ranges that the promise names are not listed. Needs python3 alone."""
import random
import struct
from decimal import Decimal, getcontext

getcontext().prec = 100
getcontext().Emax = 10**9
getcontext().Emin = -(10**9)
INF, NAN, ONE, SIGN = 0x7F800000, 0x7FC00000, 0x3F800000, 0x80000000
LN2 = Decimal(2).ln()
UNIT = 2**220  # a unit, 2^-149, is this many parts


def parts(bits):
    """The size of a finite f32 in parts."""
    f, t = bits >> 23 & 255, bits & 0x7FFFFF
    return (t if f == 0 else (t + 2**23) << (f - 1)) * UNIT


def decimal(bits):
    d = Decimal(parts(bits)) / Decimal(UNIT * 2**149)
    return -d if bits >> 31 else d


def scaled(d):
    """A decimal above 0 in parts; one that is a whole number of 2^-60 units but for rounding is taken as that."""
    v = int(d * Decimal(UNIT * 2**149))
    w = (v + 2**159) >> 160 << 160
    return w if abs(v - w) < 2**20 else v


def step(v):
    """The spacing of the f32 at v, in parts."""
    return UNIT << max((v // UNIT).bit_length() - 24, 0)


def accepted(v, tolerance):
    """The least and the largest pattern within the tolerance of v."""
    a = 0
    for k in range(30, -1, -1):  # the largest pattern below v - tolerance
        if a + 2**k < INF and parts(a + 2**k) < v - tolerance:
            a += 2**k
    b = a
    while b + 1 < INF and parts(b + 1) <= v + tolerance:
        b += 1
    return (a + 1 if parts(a) < v - tolerance else a), b


def exp_row(x):
    if x & ~SIGN > INF:
        return NAN, NAN
    if x & ~SIGN == 0:
        return ONE, ONE
    if 0x42B17218 <= x < SIGN:
        return INF, INF
    if x >= 0xC2AEAC50:
        return 0, 0
    v = scaled(decimal(x).exp())
    return accepted(v, step(v))


def ln_row(x):
    if x & ~SIGN > INF:
        return NAN, NAN
    if x & ~SIGN == 0:
        return INF | SIGN, INF | SIGN
    if x > SIGN:
        return NAN, NAN
    if x == INF:
        return INF, INF
    if x == ONE:
        return 0, 0
    v = decimal(x).ln()
    size = scaled(abs(v))
    a, b = accepted(size, max(step(size), UNIT << 109))
    sign = SIGN if v < 0 else 0
    return a | sign, b | sign


def odd(y):
    whole, rest = divmod(parts(y & ~SIGN), UNIT << 149)
    return rest == 0 and whole % 2 == 1


def pow_row(x, y):
    ax, ay = x & ~SIGN, y & ~SIGN
    if ay == 0 or x == ONE:
        return ONE, ONE
    if ax > INF or ay > INF:
        return NAN, NAN
    if ax == 0:
        r = 0 if y < SIGN else INF
        if ay != INF and odd(y):
            r |= x & SIGN
        return r, r
    if x >= SIGN:
        return NAN, NAN
    if x == INF:
        r = INF if y < SIGN else 0
        return r, r
    if ay == INF:
        r = INF if (x > ONE) == (y < SIGN) else 0
        return r, r
    power = decimal(y) * decimal(x).ln()
    if power < -127 * LN2 - Decimal(10) ** -50:
        return 0, 0
    if power > 129 * LN2 - Decimal(10) ** -50:
        return INF, INF
    v = scaled(power.exp())
    if v < UNIT << 23 or v > UNIT << 276:
        return None
    return accepted(v, 2 * step(v))


def main():
    draw = random.Random(1)
    rows = set()

    def add(kind, x, y, r):
        if r is not None:
            rows.add((kind, x, y) + r)

    def near(p, k):
        return [q for q in range(p - k, p + k + 1) if 0 <= q < 2**32]

    special = [0, 1, 2, 0x7FFFFF, 0x800000, 0x800001, ONE - 1, ONE, ONE + 1, 0x40000000, 0x7F7FFFFF, INF, INF + 1, NAN]
    special += [p | SIGN for p in special]
    # exp: the ends of its range, the binades of x, and the arguments where e^x crosses a power of two
    xs = set(special) | set(near(0x42B17218, 12)) | set(near(0xC2AEAC50, 12))
    for f in range(0, 255, 2):
        xs |= set(near(f << 23, 1)) | {p | SIGN for p in near(f << 23, 1)}
    for k in range(-126, 128, 3):
        x = struct.unpack("<I", struct.pack("<f", float(k * LN2)))[0]
        xs |= set(near(x, 1))
    xs |= {draw.randrange(0x33000000, 0x42B17218) | draw.choice((0, SIGN)) for _ in range(300)}
    for x in xs:
        add("e", x, 0, exp_row(x))
    # ln: around 1, the binades, subnormal arguments
    xs = set(special) | set(near(ONE, 24))
    for f in range(0, 255, 2):
        xs |= set(near(f << 23, 1))
    xs |= {1 << k for k in range(23)} | {(1 << k) + 1 for k in range(23)} | {(2 << k) - 1 for k in range(23)}
    xs |= {draw.randrange(1, INF) for _ in range(300)}
    for x in xs:
        add("l", x, 0, ln_row(x))
    # powf: every pair of special arguments; random pairs; results near the ends of the range
    ys = special + [p | s for p in (0x3F000000, 0x40400000, 0x40800000, 0x4B000000, 0x4B7FFFFF, 0x4B800000, 0x43000000) for s in (0, SIGN)]
    for x in special:
        for y in ys:
            add("p", x, y, pow_row(x, y))
    two = 0x40000000
    for k in list(range(-128, 129, 4)) + [-127, -126, -125, 125, 126, 127]:
        y = struct.unpack("<I", struct.pack("<f", float(k)))[0]
        add("p", two, y, pow_row(two, y))
    for _ in range(500):
        x = draw.randrange(0x38D1B717, 0x4E6E6B28)
        y = struct.unpack("<I", struct.pack("<f", draw.uniform(-4, 1)))[0]
        add("p", x, y, pow_row(x, y))
    for _ in range(400):
        x = draw.randrange(1, INF)
        size = abs(float(decimal(x).ln())) or 1.0
        y = struct.unpack("<I", struct.pack("<f", draw.choice((-1, 1)) * min(128.0, draw.uniform(0, 95) / size)))[0]
        add("p", x, y, pow_row(x, y))
    for _ in range(120):
        x = draw.randrange(1, INF)
        size = float(decimal(x).ln()) or 1.0
        for end in (-127.01, -127.001, -126.0, -125.99, 126.99, 127.0, 129.001, 129.01):
            want = end * 0.6931471805599453 / size
            if abs(want) <= 128:
                y = struct.unpack("<I", struct.pack("<f", want))[0]
                if draw.random() < 0.5:
                    add("p", x, y, pow_row(x, y))
    # exponents above 128: x near 1 with results within the range and near its ends, and results far beyond
    for _ in range(300):
        x = ONE + draw.choice((-1, 1)) * draw.randrange(1, 1 << draw.randrange(1, 22))
        want = draw.choice((draw.uniform(-126, 127), draw.choice((-127.01, -126.0, 127.0, 129.01)))) * 0.6931471805599453 / float(decimal(x).ln())
        y = struct.unpack("<I", struct.pack("<f", want))[0]
        add("p", x, y, pow_row(x, y))
    for x in near(ONE, 2) + [1, 0x3F000000, two, 0x7F7FFFFF]:
        for y in near(0x43000000, 1) + [0x43800000, 0x4E800000, 0x4F000000, 0x5F000000, 0x7F000000, 0x7F7FFFFF]:
            add("p", x, y, pow_row(x, y))
            add("p", x, y | SIGN, pow_row(x, y | SIGN))
    for row in sorted(rows):
        print(row[0], *("%08X" % p for p in row[1:]))


if __name__ == "__main__":
    main()
