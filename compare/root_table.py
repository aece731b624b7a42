#!/usr/bin/env python3
"""The parabolas of crates/number/src/root_estimate.rt: for each of 32 pieces of [1, 4) the a, b, c with a - b x + c x^2 closest to
1 / sqrt(x) in relative error (Remez' exchange), rounded to nine decimals. Prints them, and says whether the source has them.

    python3 compare/root_table.py
"""
import pathlib
import re
from decimal import Decimal, getcontext

getcontext().prec = 40


def solve(rows):
    """Gaussian elimination of a system whose rows end in their right-hand side."""
    for i in range(len(rows)):
        p = max(range(i, len(rows)), key=lambda r: abs(rows[r][i]))
        rows[i], rows[p] = rows[p], rows[i]
        for r in range(len(rows)):
            if r != i:
                f = rows[r][i] / rows[i][i]
                rows[r] = [u - f * v for u, v in zip(rows[r], rows[i])]
    return [row[-1] / row[i] for i, row in enumerate(rows)]


def parabola(lo, hi):
    """a, b, c of the parabola a + b x + c x^2 of least relative error on [lo, hi]."""
    points = [lo, lo + (hi - lo) / 4, hi - (hi - lo) / 4, hi]
    for _ in range(8):
        a, b, c, _error = solve([[x.sqrt(), x * x.sqrt(), x * x * x.sqrt(), (-1) ** (k + 1), 1] for k, x in enumerate(points)])
        root = (9 * b * b - 20 * a * c).sqrt()
        points = [lo, (-3 * b - root) / (10 * c), (-3 * b + root) / (10 * c), hi]
    return a, b, c


def pieces():
    for i in range(32):
        lo, width = (1 + Decimal(i) / 16, Decimal(1) / 16) if i < 16 else (2 + Decimal(i - 16) / 8, Decimal(1) / 8)
        a, b, c = parabola(lo, lo + width)
        yield "%.9f" % a, "%.9f" % -b, "%.9f" % c


def main():
    table = list(pieces())
    for i, row in enumerate(table):
        print(i, *row)
    source = (pathlib.Path(__file__).parent.parent / "crates/number/src/root_estimate.rt").read_text()
    stated = re.findall(r"=> (\d\.\d{9}),", source)
    wanted = [row[k] for k in range(3) for row in table]
    print("the source has them" if stated == wanted else "the source differs")
    raise SystemExit(stated != wanted)


if __name__ == "__main__":
    main()
