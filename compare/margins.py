#!/usr/bin/env python3
"""Demand 3 by exact whole numbers, independent of the proof: reads the lines that `compare margins` writes (the numbers of one sum and the
value that the proved call handed back, as bit patterns) and checks each finite value against the exact sum of its terms.

    compare/run margins FILE [COUNT [SEED]] && python3 compare/margins.py FILE

Every finite double is a whole multiple of 2^-1074; the inequalities are those of crates/rounding/specs/Margins.antt, both sides times
2^4349 for a grid and 2^3275 for an average. It prints how many values were checked and how much of the margin the worst of them used.
"""
import sys
from fractions import Fraction

UNIT = 1 << 1074


def units(bits):
    """A finite double as a whole number of 2^-1074; None for an infinity or NaN."""
    sign, exponent, fraction = bits >> 63, bits >> 52 & 0x7FF, bits & (1 << 52) - 1
    if exponent == 0x7FF:
        return None
    size = fraction if exponent == 0 else (1 << 52 | fraction) << exponent - 1
    return -size if sign else size


def terms(kind, lists, n, m, k):
    """The two exact terms of the pair (n, m), which stands at k."""
    if kind == "grid":
        f, p, c, s, cos, sin = lists
        return f[n] * p[k] * c[k] * cos[m], f[n] * p[k] * s[k] * sin[m]
    f, c, s, kc, ks = lists
    return f[n] * c[k] * kc[k], f[n] * s[k] * ks[k]


def check(line):
    """None where the value is not finite, else the distance from the exact sum and the margin."""
    words = line.split()
    kind, degree, numbers = words[0], int(words[1]), [units(int(w, 16)) for w in words[2:]]
    size, order = (degree + 1) * (degree + 2) // 2, degree + 1
    lengths = [order, size, size, size, order, order] if kind == "grid" else [order, size, size, size, size]
    assert len(numbers) == sum(lengths) + 1
    lists, at = [], 0
    for length in lengths:
        lists.append(numbers[at:at + length])
        at += length
    value = numbers[at]
    if value is None:
        return None
    # A finite value has no infinity and no NaN in its sum.
    assert all(x is not None for part in lists for x in part), line
    total, sizes = 0, 0
    for n in range(order):
        for m in range(n + 1):
            for term in terms(kind, lists, n, m, n * (n + 1) // 2 + m):
                total += term
                sizes += abs(term)
    if kind == "grid":
        scale = UNIT ** 3
        distance = abs(value * scale - total) << 53
        margin = (2 * degree + 7) * sizes + (2 * (degree + 1) * (degree + 3) * scale << 53)
    else:
        largest = max([UNIT] + [abs(f) for f in lists[0]])
        distance = abs(value * lists[3][0] * UNIT - total) << 53
        margin = (size + 5) * sizes + ((3 * size * largest + UNIT) * UNIT << 53)
    return kind, distance, margin


def main():
    checked, worst, outside, infinite = {}, {}, 0, 0
    for line in open(sys.argv[1]):
        result = check(line)
        if result is None:
            infinite += 1
            continue
        kind, distance, margin = result
        checked[kind] = checked.get(kind, 0) + 1
        worst[kind] = max(worst.get(kind, Fraction(0)), Fraction(distance, margin))
        if distance > margin:
            outside += 1
            print("outside its margin:", line[:200])
    for kind in sorted(checked):
        print(f"{kind}: {checked[kind]} finite values within their margins, the worst used {float(worst[kind]):.3f} of it")
    print(f"{infinite} values not finite, {outside} outside")
    sys.exit(1 if outside or len(checked) < 2 else 0)


main()
