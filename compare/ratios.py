#!/usr/bin/env python3
"""The speed table: reads what `compare/run bench` printed and sets each row that has a limit beside it.

    compare/run bench > FILE && python3 compare/ratios.py FILE

A ratio is our time by the Rust's in one run, or by that of our own `new` or `compute` where the row says so; the limits of the root and of the last row
of the recursion coefficients are in nanoseconds a call, a model file's in GB/s at least. Times depend on the machine and on what else it does, so a row
beyond its limit is said and is no failure; a row that the benchmark did not print is one.
"""
import sys

# The work, the benchmark's line, what is held against the limit, the limit.
ROWS = [
    ("root, a call, ns", "root", "ours", 14.0),
    ("Legendre::new N = 96", "Legendre::new, N = 96", "ratio", 4.0),
    ("Legendre::new N = 2700", "Legendre::new, N = 2700", "ratio", 2.0),
    ("grow, 2699 to 2700, ns", "grow, 2699 to 2700, lists at hand", "ours", 1e6),
    ("grow, ten steps to 2700, beside our new", "grow, ten steps to 2700, beside our new", "ratio", 1.1),
    ("compute N = 96", "compute, N = 96", "ratio", 0.6),
    ("compute N = 2700", "compute, N = 2700", "ratio", 0.2),
    ("compute_with_derivative N = 96", "compute_with_derivative, N = 96", "ratio", 1.5),
    ("compute_with_derivative N = 2700", "compute_with_derivative, N = 2700", "ratio", 0.6),
    ("mirror N = 96", "mirror, N = 96", "ratio", 0.5),
    ("mirror N = 2700", "mirror, N = 2700", "ratio", 0.5),
    ("mirror N = 96, beside our compute", "mirror, N = 96, beside our compute", "ratio", 0.5),
    ("mirror N = 2700, beside our compute", "mirror, N = 2700, beside our compute", "ratio", 0.5),
    ("mirror with derivative N = 96", "mirror with derivative, N = 96", "ratio", 0.2),
    ("mirror with derivative N = 2700", "mirror with derivative, N = 2700", "ratio", 0.2),
    ("mirror with derivative N = 96, beside ours", "mirror with derivative, N = 96, beside ours", "ratio", 0.2),
    ("mirror with derivative N = 2700, beside ours", "mirror with derivative, N = 2700, beside ours", "ratio", 0.3),
    ("grid 181 x 361, N = 96", "grid 181 x 361, N = 96", "ratio", 0.75),
    ("grid, a row of 361, N = 2700, no tables", "grid, a row of 361, N = 2700, no tables", "ratio", 0.25),
    ("basin_average N = 96", "basin_average, N = 96", "ratio", 1.0),
    ("basin_average N = 2700", "basin_average, N = 2700", "ratio", 1.0),
    ("partials N = 96", "partials N = 96", "ratio", 2.5),
    ("partials_along N = 96, a point", "partials_along N = 96, a point", "ratio", 0.4),
    ("second_partials N = 96", "second_partials N = 96", "ratio", 1.4),
    ("second_partials_along N = 96, a point", "second_partials_along N = 96, a point", "ratio", 0.3),
    ("analysis N = 96", "analysis N = 96", "ratio", 0.7),
    ("gauss_legendre n = 181", "gauss_legendre, n = 181", "ratio", 1.0),
    ("symmetric_eigen n = 32", "symmetric_eigen n = 32", "ratio", 0.9),
    ("symmetric_eigen n = 33", "symmetric_eigen n = 33", "ratio", 1.0),
    ("symmetric_eigen n = 181", "symmetric_eigen n = 181", "ratio", 0.6),
    ("symmetric_eigen n = 512", "symmetric_eigen n = 512", "ratio", 0.6),
    ("polar_cap L = 60", "polar_cap L = 60", "ratio", 0.8),
    ("polar_cap L = 180", "polar_cap L = 180", "ratio", 0.8),
    ("concentration_matrix L = 10", "concentration_matrix L = 10", "ratio", 0.7),
    ("concentration_matrix L = 21", "concentration_matrix L = 21", "ratio", 0.35),
    ("region L = 10", "region L = 10", "ratio", 0.7),
    ("region L = 21", "region L = 21", "ratio", 0.7),
    ("polygon intervals V = 60", "polygon intervals, V = 60", "ratio", 1.3),
    ("polygon intervals V = 300", "polygon intervals, V = 300", "ratio", 1.3),
    ("polygon intervals V = 4096", "polygon intervals, V = 4096", "ratio", 1.3),
    ("polygon breaks V = 60", "polygon breaks, V = 60", "ratio", 3.0),
    ("polygon breaks V = 300", "polygon breaks, V = 300", "ratio", 3.0),
    ("polygon breaks V = 4096", "polygon breaks, V = 4096", "ratio", 3.0),
    ("polygon intervals V = 60, jagged", "polygon intervals, V = 60, jagged", "ratio", 1.3),
    ("polygon intervals V = 300, jagged", "polygon intervals, V = 300, jagged", "ratio", 1.3),
    ("polygon intervals V = 4096, jagged", "polygon intervals, V = 4096, jagged", "ratio", 1.3),
    ("polygon breaks V = 60, jagged", "polygon breaks, V = 60, jagged", "ratio", 3.0),
    ("polygon breaks V = 300, jagged", "polygon breaks, V = 300, jagged", "ratio", 3.0),
    ("polygon breaks V = 4096, jagged", "polygon breaks, V = 4096, jagged", "ratio", 3.0),
    ("basin_kernel L = 96", "basin_kernel L = 96, 472 nodes", "ratio", 0.6),
    ("basin_kernel L = 2700", "basin_kernel L = 2700, 4 nodes", "ratio", 0.3),
    ("model file read N = 2700, GB/s", "model_read, N = 2700, GB/s", "rate", 1.0),
    ("model file write N = 2700, GB/s", "model_write, N = 2700, GB/s", "rate", 1.0),
    ("model file read, dated, N = 2700, GB/s", "model_read, dated, N = 2700, GB/s", "rate", 1.0),
    ("model file write, dated, N = 2700, GB/s", "model_write, dated, N = 2700, GB/s", "rate", 1.0),
]


def lines(file):
    """The three numbers of each line, by its name."""
    found = {}
    for line in open(file, encoding="utf-8"):
        words = line.split()
        try:
            found[" ".join(words[:-3])] = [float(w) for w in words[-3:]]
        except ValueError:
            continue
    return found


def main():
    printed = lines(sys.argv[1])
    print(f"{'work':<42}{'ours':>16}{'Rust':>16}{'ours/Rust':>11}{'limit':>12}")
    absent, beyond = 0, 0
    for work, name, kind, limit in ROWS:
        if name not in printed:
            absent += 1
            print(f"{work:<42}  not in the benchmark")
            continue
        ours, rust, ratio = printed[name]
        met = ours >= limit if kind == "rate" else (ours if kind == "ours" else ratio) <= limit
        beyond += not met
        print(f"{work:<42}{ours:>16.2f}{rust:>16.2f}{ratio:>11.2f}{limit:>12.2f}{'' if met else '  beyond'}")
    print(f"{len(ROWS)} rows, {beyond} beyond their limit, {absent} absent; times in ns a call where the row says nothing else")
    sys.exit(1 if absent else 0)


if __name__ == "__main__":
    main()
