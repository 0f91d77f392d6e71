#!/usr/bin/env python3
"""Holds replay's reader of script lines to the oracle's on damaged lines.

usage: compare_lines.py ORACLE FIRST LAST     run at the repository's root, after `rt run` in crates/replay

ORACLE is the oracle's folder (cases/ in it, and target/release/oracle, which `./build.sh` there builds; Rust is needed, and no network). Each seed is
a hundred lines: lines of the oracle's cases with characters and words taken away, put in, doubled or exchanged, and random ones, in printable ASCII. Each is
played by itself, in a session or in a handshake, with `last_serial` or a name behind it, so that it shows whether it was a call, none, or the end of the trail.
A line that may be the release of a seat or of an interface is played in a handshake (releases.py).
"""
import glob
import os
import random
import subprocess
import sys

HERE = os.path.dirname(os.path.abspath(__file__))
sys.path.insert(0, HERE)
import check_differences  # noqa: E402
import releases  # noqa: E402

LETTERS = [chr(c) for c in range(0x20, 0x7F)]
LIKELY = "0123456789abcdefx-:t. "


def damaged(r, line):
    for _ in range(r.choice([0, 1, 1, 1, 2, 3])):
        words = line.split(" ")
        at = r.randrange(len(line) + 1)
        letter = r.choice(LIKELY) if r.random() < 0.7 else r.choice(LETTERS)
        word = r.randrange(len(words))
        line = r.choice([
            lambda: line[:at] + line[at + 1:],
            lambda: line[:at] + letter + line[at:],
            lambda: line[:at] + letter + line[at + 1:],
            lambda: line[:at],
            lambda: " ".join(words[:word] + words[word + 1:]),
            lambda: " ".join(words[:word] + [words[word]] + words[word:]),
            lambda: " ".join(words[:word] + [r.choice(["none", "nan", "0x", "t:", "-1", "18446744073709551616", "0X1", "00000000000000000000001"])] + words[word + 1:]),
        ])()
    return line


def main():
    if len(sys.argv) != 4:
        sys.exit(__doc__)
    oracle = os.path.join(sys.argv[1], "target/release/oracle")
    known = sorted({line for path in glob.glob(os.path.join(sys.argv[1], "cases/*.script")) for line in open(path).read().splitlines() if line and line[0] != "#"})
    session = list(check_differences.lines_of(os.path.join(check_differences.SCRIPTS, "emulating.begin")))
    lines = ends = 0
    for seed in range(int(sys.argv[2]), int(sys.argv[3]) + 1):
        r = random.Random(seed)
        for _ in range(100):
            line = damaged(r, r.choice(known)) if r.random() < 0.9 else "".join(r.choice(LETTERS) for _ in range(r.randrange(20)))
            within = r.random() < 0.7 and not releases.is_release(line)
            script = session + [line, "last_serial"] if within else ["start 7", line, "handshake.name t:61"]
            theirs, ours = (check_differences.play([program], script) for program in (oracle, "crates/replay/out/replay"))
            if theirs != ours:
                sys.exit(f"seed {seed}, line {line!r}: the oracle has {theirs[-2:]}, replay {ours[-2:]}")
            lines += 1
            ends += ours[-1].startswith("error line")
    print(f"{lines} lines, no difference: {lines - ends} were calls, settings or comments, {ends} ended the trail")


if __name__ == "__main__":
    main()
