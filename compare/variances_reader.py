#!/usr/bin/env python3
"""A reader of model files that shares nothing with the proved one, written from document 01 and change request W1 alone.

  variances_reader.py print           read a file from standard input, print what `variances` must print
  variances_reader.py files DIR       write test files to DIR: NAME.in, and in NAME.out what must be printed
  variances_reader.py replay          print what the program replay_variances must print
  variances_reader.py replay-source   print the source of replay_variances, to be formatted by `rt fmt`
"""
import os
import random
import struct
import sys

SIZE, SHORT, KIND, AFTER, TIDE = 1, 6, 7, 8, 9

# The numbers of a body by the record's kind: a head has gm, radius, tide and N, and a dated one the days from 2000-01-01 behind them.
HEAD_BODIES = {1: "<ddBH", 4: "<ddBHi"}
PAIR_BODY = {2: "<dd"}
END_BODY = {3: "<"}


class Refused(Exception):
    pass


class Cursor:
    """Takes records from the front of a file."""

    def __init__(self, data):
        self.data, self.at = data, 0

    def record(self, bodies):
        """the numbers of the next record, which is of one of these kinds"""
        if self.at >= len(self.data):
            raise Refused(SHORT)
        if self.data[self.at] not in bodies:
            raise Refused(KIND)
        form = bodies[self.data[self.at]]
        end = self.at + 1 + struct.calcsize(form)
        body = self.data[self.at + 1 : end]
        if len(self.data) < end:
            raise Refused(SHORT)
        self.at = end
        return struct.unpack(form, body)


def power(base, exponent):
    """document 01's powi"""
    result = 1.0
    while exponent:
        if exponent % 2:
            result = result * base
        exponent //= 2
        if exponent:
            base = base * base
    return result


def variances(data):
    """the degree variances of a file; raises Refused"""
    file = Cursor(data)
    gm, radius, tide, top, *date = file.record(HEAD_BODIES)
    if tide > 3:
        raise Refused(TIDE)
    if top > 2700 or top > 86:
        raise Refused(SIZE)
    sums = []
    for n in range(top + 1):
        total = 0.0
        for m in range(n + 1):
            c, s = file.record(PAIR_BODY)
            total = total + (power(c, 2) + power(s, 2))
        sums.append(total)
    file.record(END_BODY)
    if file.at < len(data):
        raise Refused(AFTER)
    return sums


def report(data):
    try:
        sums = variances(data)
    except Refused as why:
        return "refused %d\n" % why.args[0]
    lines = ["degree variance\n"]
    for n, total in enumerate(sums):
        bits = 0x7FF8000000000000 if total != total else struct.unpack("<Q", struct.pack("<d", total))[0]
        lines.append("%d %016x\n" % (n, bits))
    return "".join(lines)


# ---- test files


def head(top, tide=3, gm=0x3FF0000000000000, radius=0x3FF0000000000000, days=None):
    body = struct.pack("<QQBH", gm, radius, tide, top)
    return b"\x01" + body if days is None else b"\x04" + body + struct.pack("<i", days)


def pair(c, s):
    return b"\x02" + struct.pack("<QQ", c, s)


END = b"\x03"
ONE, TWO, HALF = 0x3FF0000000000000, 0x4000000000000000, 0x3FE0000000000000
EXAMPLE = head(0) + pair(ONE, 0) + END
PAIRS_1 = pair(ONE, 0) + pair(HALF, 0x8000000000000000) + pair(TWO, 0xBFF0000000000000)
DEGREE_1 = head(1, 0) + PAIRS_1 + END
PATTERNS = [
    0, 1 << 63, ONE, ONE | 1 << 63, TWO, HALF, 1, (1 << 52) - 1, 1 << 52, 0x7FEFFFFFFFFFFFFF, 0x7FF0000000000000, 0xFFF0000000000000,
    0x7FF8000000000000, 0xFFF8000000000000, 0x7FF0000000000001, 0xFFFFFFFFFFFFFFFF, 0x5FF0000000000000, 0x2000000000000000, 0x3CA0000000000000,
    0x3FF0000000000001, 0x3FD5555555555555, 0x1FF6A09E667F3BCD,
]
DAYS = [0, 1, -1, 8840, 0x04030201, 0x02020202, -(1 << 31), (1 << 31) - 1]


def replay():
    """the inputs of replay_variances, by name"""
    return [
        ("the example of document 01", EXAMPLE),
        ("no byte at all", b""),
        ("a first byte of kind 2", b"\x02" + EXAMPLE[1:]),
        ("a head that is cut", EXAMPLE[:19]),
        ("tide 4, and a degree too high", head(2701, 4)),
        ("degree 2701", head(2701)),
        ("degree 87 with no body", head(87)),
        ("degree 86 with no body", head(86)),
        ("a pair of kind 3", head(0) + b"\x03" + EXAMPLE[21:]),
        ("cut at a kind byte", DEGREE_1[:37]),
        ("cut in a pair", DEGREE_1[:50]),
        ("cut before the end", DEGREE_1[:-1]),
        ("an end of kind 2", EXAMPLE[:-1] + b"\x02"),
        ("a byte too many", EXAMPLE + b"\x00"),
        ("degree 1", DEGREE_1),
        ("a NaN with its sign and a payload, an infinity", head(1) + pair(0xFFF0000000000001, ONE) + pair(0, 0xFFF0000000000000) + pair(ONE, ONE) + END),
        ("an overflow, the least subnormal", head(1, 1, 0xFFFFFFFFFFFFFFFF, 0) + pair(0x7FEFFFFFFFFFFFFF, 0) + pair(1, 1) + pair(0x8000000000000000, 0) + END),
        ("degree 1 with the date 1999-12-31", head(1, 0, days=-1) + PAIRS_1 + END),
        ("degree 0 with the date 2000-01-01", head(0, days=0) + EXAMPLE[20:]),
        ("a dated head that is cut, with tide 4", head(0, 4, days=0)[:23]),
        ("a dated head with tide 4", head(0, 4, days=0)),
        ("degree 87 and a date, with no body", head(87, days=8840)),
        ("a dated head in the place of a pair", EXAMPLE[:20] + head(0, days=0)),
    ]


def some(rng):
    kind = rng.randrange(4)
    if kind == 0:
        return rng.choice(PATTERNS)
    if kind == 1:
        return rng.getrandbits(64)
    return struct.unpack("<Q", struct.pack("<d", rng.uniform(-1, 1) * 2.0 ** rng.randrange(-40, 3)))[0]


def model(rng, top, days=None):
    pairs = b"".join(pair(some(rng), some(rng)) for _ in range((top + 1) * (top + 2) // 2))
    return head(top, rng.randrange(4), some(rng), some(rng), days) + pairs + END


def any_days(rng):
    """no date, a count at an edge, or any"""
    return rng.choice([None, None, rng.choice(DAYS), rng.randrange(-(1 << 31), 1 << 31)])


def whole(rng):
    for top in [0, 1, 2, 3, 4, 5, 9, 10, 11, 86]:
        for i in range(40 if top < 86 else 6):
            yield "model_%d_%02d" % (top, i), model(rng, top, any_days(rng))
    for i, days in enumerate(DAYS):
        yield "days_%d" % i, model(rng, 1, days)


def damaged(rng, name, small):
    """a small file: every truncation, and every byte changed in several ways"""
    for n in range(len(small)):
        yield "%s_cut_%03d" % (name, n), small[:n]
        for new in sorted({0, 1, 2, 3, 4, 5, 127, 255, small[n] ^ 1, small[n] ^ 128, rng.randrange(256)} - {small[n]}):
            yield "%s_byte_%03d_%03d" % (name, n, new), small[:n] + bytes([new]) + small[n + 1 :]
        yield "%s_drop_%03d" % (name, n), small[:n] + small[n + 1 :]
    for n in range(len(small) + 1):
        yield "%s_insert_%03d" % (name, n), small[:n] + bytes([rng.randrange(5)]) + small[n:]


def heads(name, days):
    """every tide, degrees around each limit, with and without a body, and cut"""
    for tide in list(range(8)) + [127, 255]:
        for top in [0, 1, 85, 86, 87, 88, 255, 256, 2699, 2700, 2701, 2702, 65535]:
            data = head(top, tide, days=days)
            yield "%s_head_%d_%d" % (name, tide, top), data
            yield "%s_head_pair_%d_%d" % (name, tide, top), data + pair(ONE, 0)
            if tide in [0, 4] and top in [0, 86, 87, 2700, 2701]:
                for n in range(18, len(data)):
                    yield "%s_head_cut_%d_%d_%d" % (name, tide, top, n), data[:n]


def around_the_buffer(rng, name, days):
    """the buffer has 65,536 bytes"""
    full, above, start = model(rng, 86, days), model(rng, 87, days), len(head(0, days=days))
    assert (len(full), len(above)) == ((65097, 66593) if days is None else (65101, 66597))
    yield name + "_full", full
    room = 65536 - len(full)
    for more in [1, 2, room - 2, room - 1, room, room + 1, room + 2, 1000, 70000]:
        yield "%s_after_%d" % (name, more), full + bytes(rng.randrange(5) for _ in range(more))
    for n in [start, start + 1, start + 17, len(full) - 18, len(full) - 17, len(full) - 2, len(full) - 1]:
        yield "%s_full_cut_%d" % (name, n), full[:n]
    for n in [start - 1, start, 65535, 65536, 65537, len(above) - 1, len(above)]:
        yield "%s_above_%d" % (name, n), above[:n]
    yield name + "_above_bad_pair", above[:60000] + b"\x09" + above[60001:]
    for kind in [1, 3, 4]:
        yield "%s_full_bad_pair_%d" % (name, kind), full[:start] + bytes([kind]) + full[start + 1 :] + bytes(1000)
        last = len(full) - 18
        yield "%s_full_bad_last_%d" % (name, kind), full[:last] + bytes([kind]) + full[last + 1 :]
    for kind in [2, 4]:
        yield "%s_full_bad_end_%d" % (name, kind), full[:-1] + bytes([kind]) + bytes(1000)


def random_bytes(rng):
    """bytes of small values, and damaged models"""
    for i in range(600):
        yield "small_bytes_%03d" % i, rng.choice([b"", b"\x01", b"\x04"]) + bytes(rng.randrange(6) for _ in range(rng.randrange(120)))
    for i in range(1000):
        data = bytearray(model(rng, rng.randrange(6), any_days(rng)))
        for _ in range(rng.randrange(1, 4)):
            at = rng.randrange(rng.choice([25, len(data)]))
            data[at : at + rng.randrange(2)] = bytes(rng.randrange(6) for _ in range(rng.randrange(2)))
        yield "damaged_%03d" % i, bytes(data)


def cases():
    """name and bytes of every test file"""
    for i, (_, data) in enumerate(replay()):
        yield "replay_%02d" % i, data
    rng = random.Random(1)
    yield from whole(rng)
    for name, days in [("undated", None), ("dated", 0x0204FFFF)]:
        yield from damaged(rng, name, model(rng, 2, days))
        yield from heads(name, days)
        yield from around_the_buffer(rng, name, days)
    yield from random_bytes(rng)


def replay_text():
    return "".join("%s\n%s" % (name, report(data)) for name, data in replay())


def replay_source():
    text = ["// Prints, for each of some model files, its name and what `variances` prints for it.", "#![tactic(auto)]", ""]
    text += ["use std::io::{Result, Stdout, Write};", "", "fn print(mut stdout: Stdout, name: &[u8], bytes: &[u8]) -> Result<()> {"]
    text += ["    stdout.write_all(name)?;", "    let mut text = [0u8; 1756];", "    let k = variance_report::report(bytes, &mut text);"]
    text += ["    stdout.write_all(&text[..k])", "}", ""]
    parts = [("print_heads", 0, 8), ("print_damaged", 8, 14), ("print_whole", 14, 17), ("print_dated", 17, None)]
    for part, start, end in parts:
        text += ["fn %s(stdout: Stdout) -> Result<()> {" % part]
        calls = ['    print(stdout, b"%s\\n", b"%s")' % (name, "".join("\\x%02x" % b for b in data)) for name, data in replay()[start:end]]
        text += [call + "?;" for call in calls[:-1]] + calls[-1:]
        text += ["}", ""]
    calls = ["    %s(stdout)" % part for part, _, _ in parts]
    text += ["fn main(rt: HostRuntime) -> Result<()> {", "    let stdout = rt.stdout();"] + [call + "?;" for call in calls[:-1]] + calls[-1:]
    return "\n".join(text + ["}", ""])


if __name__ == "__main__":
    words = sys.argv[1:]
    if words == ["print"]:
        sys.stdout.write(report(sys.stdin.buffer.read()))
    elif len(words) == 2 and words[0] == "files":
        os.makedirs(words[1], exist_ok=True)
        for name, data in cases():
            open(os.path.join(words[1], name + ".in"), "xb").write(data)
            open(os.path.join(words[1], name + ".out"), "x").write(report(data))
    elif words == ["replay"]:
        sys.stdout.write(replay_text())
    elif words == ["replay-source"]:
        sys.stdout.write(replay_source())
    else:
        sys.exit(__doc__)
