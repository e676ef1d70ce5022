#!/usr/bin/env python3
"""The tables of the crates `elementary` and `power_tables`, by exact arithmetic: python3 tables.py

Prints each table as the list of specs/ has it. With --check REPO it compares them, and the
tables of src/, with the files in REPO instead. Needs python3 alone."""
import re
import sys
from fractions import Fraction


def exp_floor(p, q, scale):
    """floor(scale * e^(p/q)), by partial sums until the remainder cannot matter."""
    x, term, total, n = Fraction(p, q), Fraction(1), Fraction(1), 0
    while True:
        n += 1
        term = term * x / n
        total += term
        low = scale * total
        high = scale * (total + 2 * term)  # for x <= n / 2 the rest is below the last term
        if 2 * x <= n and low.__floor__() == high.__floor__():
            return low.__floor__()


def ln_floor(a, b, scale):
    """floor(scale * ln(a/b)) for a >= b, by ln(r) = 2 artanh((r - 1)/(r + 1))."""
    if a == b:
        return 0
    z = Fraction(a - b, a + b)
    term, total, n = z, z, 1
    while True:
        term = term * z * z
        n += 2
        total += term / n
        low = 2 * scale * total
        high = low + 2 * scale * term * z * z / (n + 2) / (1 - z * z)
        if low.__floor__() == high.__floor__():
            return low.__floor__()


def coarse():
    return [exp_floor(i, 16, 2**31) for i in range(16)]


def fine():
    return [exp_floor(i, 512, 2**31) for i in range(32)]


def first():
    rows = []
    for i in range(128):
        c = -(-(2**22) // (128 + i))
        rows.append(c + 2**16 * ln_floor(2**15, c, 2**47))
    return rows


def second():
    rows = []
    for j in range(128):
        c = -(-(2**31) // (16384 + j))
        rows.append(c + 2**18 * ln_floor(2**17, c, 2**52))
    return rows


def log2_floor(a, b, scale):
    """floor(scale * log2(a/b)) for a >= b, where a/b is no power of two but 1."""
    wide = 2**160
    low, ln2 = ln_floor(a, b, wide), ln_floor(2, 1, wide)
    p, q = scale * low // (ln2 + 1), scale * (low + 1) // ln2
    assert a == b or p == q
    return 0 if a == b else p


def heights():
    return [log2_floor(512 + i, 512, 2**35) - i * 2**26 + 7 for i in range(512)]


def powers():
    """floor(2^31 * 2^(i/128)): the largest t with t^128 <= 2^(31 * 128 + i)."""
    rows = []
    for i in range(128):
        low, high = 2**31, 2**32
        while high - low > 1:
            m = (low + high) // 2
            low, high = (m, high) if m**128 <= 2 ** (31 * 128 + i) else (low, m)
        rows.append(low)
    return rows


def rounded(low, high):
    """The nearest whole number to both."""
    a, b = (low + Fraction(1, 2)).__floor__(), (high + Fraction(1, 2)).__floor__()
    assert a == b
    return a


LN2 = (Fraction(ln_floor(2, 1, 2**160), 2**160), Fraction(ln_floor(2, 1, 2**160) + 1, 2**160))
SLOPE = rounded(*sorted((1 - Fraction(3, 2**22)) * 2**35 / v for v in LN2))
CURVATURE = rounded(*sorted((1 - Fraction(1, 2**9)) / 2 * 2**39 / v for v in LN2))
FIRST = rounded(*sorted((v - v**3 * Fraction(3, 2**19)) * 2**31 for v in LN2))
SECOND = rounded(*sorted((v**2 / 2 + v**3 / 512) * 2**32 for v in LN2))


def lines():
    """The height with the slope in one word, as the code has them."""
    return [a * 2**32 + SLOPE // (512 + i) for i, a in enumerate(heights())]


def curvatures():
    return [CURVATURE // (512 + i) ** 2 for i in range(512)]


def words():
    """A power less its straight line and with half a step, above the power itself."""
    return [(t + 128 - i * 2**24) * 2**32 + t for i, t in enumerate(powers())]


# (list of specs/ or none, table of src/ or none, the rows), each with its file; words stand in specs/ as formulas
TABLES = [
    ("elementary/specs/Exp coarse", "elementary/src/exp_tables coarse_at", coarse),
    ("elementary/specs/Exp fine", "elementary/src/exp_tables FINE", fine),
    ("elementary/specs/Ln first", "elementary/src/ln_tables FIRST", first),
    ("elementary/specs/Ln second", "elementary/src/ln_tables SECOND", second),
    ("power_tables/specs/Tables heights", None, heights),
    ("power_tables/specs/Tables powers", None, powers),
    (None, "power_tables/src/lib LINES", lines),
    (None, "power_tables/src/lib CURVATURES", curvatures),
    (None, "power_tables/src/lib POWERS", words),
]


def listed(repo, place):
    path, name = place.split()
    text = open(f"{repo}/crates/{path}.antt").read()
    body = text[text.index(f"\n{name} =") :]
    return [int(v) for v in re.findall(r"(\d+)\s*∷", body[: body.index("[]")])]


def coded(repo, place):
    """The entries of a const array, or the arms of a function's `match`."""
    path, name = place.split()
    code = open(f"{repo}/crates/{path}.rt").read()
    if name.isupper():
        body = code[code.index(f"const {name}: ") :]
        return [int(v) for v in re.findall(r"\d+", body[body.index("= [") : body.index("];")])]
    body = code[code.index(f"fn {name}(") :]
    return [int(v) for v in re.findall(r"=> (\d+),", body[: body.index("\n}\n")])]


def check(repo):
    bad = 0
    for spec, source, make in TABLES:
        rows = make()
        same = (spec is None or listed(repo, spec) == rows) and (source is None or coded(repo, source) == rows)
        bad += not same
        print(spec or source, len(rows), "numbers:", "as computed" if same else "DIFFERENT")
    ln2 = {48: 195103586505167, 52: 3121657384082679}
    for k, v in ln2.items():
        same = ln_floor(2, 1, 2**k) == v
        bad += not same
        print(f"2^{k} ln 2:", "as computed" if same else "DIFFERENT")
    same = (SLOPE, CURVATURE, FIRST, SECOND) == (49570588694, 395790452196, 1488518144, 1034558604)
    bad += not same
    print("the four factors of powf:", "as computed" if same else "DIFFERENT")
    return bad


def main():
    if len(sys.argv) == 3 and sys.argv[1] == "--check":
        sys.exit(1 if check(sys.argv[2]) else 0)
    for spec, source, make in TABLES:
        rows = make()
        print(f"{(spec or source).split()[1]} =")
        for i in range(0, len(rows), 8):
            print("    " + " ∷ ".join(str(v) for v in rows[i : i + 8]) + (" ∷" if i + 8 < len(rows) else " ∷ []"))


if __name__ == "__main__":
    main()
