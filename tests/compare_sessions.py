#!/usr/bin/env python3
"""Holds the program replay to the oracle on random sessions.

usage: compare_sessions.py ORACLE FIRST LAST [CALLS [REPLAY]]     run at the repository's root, after `rt run` in crates/replay

ORACLE is the oracle's folder (gen.py in it; `./build.sh` there builds target/release/oracle; Rust is needed, and no network). For each seed from FIRST to
LAST, one script of about CALLS calls (400) for each of gen.py's six profiles, with seats that are given negotiated capabilities alone (negotiation.py) and
without its seat and interface releases (releases.py). Trails are compared line by line; the first line that differs of each script is printed with its call.
What the answers were is counted, so that it can be seen what the scripts reached.
"""
import collections
import subprocess
import sys

import negotiation
import releases

PROFILES = ["mixed", "limits", "touch", "text", "removal", "frames"]


def main():
    if len(sys.argv) not in (4, 5, 6):
        sys.exit(__doc__)
    oracle, first, last = sys.argv[1], int(sys.argv[2]), int(sys.argv[3])
    count = sys.argv[4] if len(sys.argv) > 4 else "400"
    replay = sys.argv[5] if len(sys.argv) > 5 else "crates/replay/out/replay"
    answers = collections.Counter()
    scripts = calls = different = 0
    for seed in range(first, last + 1):
        for profile in PROFILES:
            script = releases.without(negotiation.script(oracle, seed, count, "--profile", profile))
            theirs = subprocess.run([f"{oracle}/target/release/oracle"], input=script.encode(), capture_output=True)
            ours = subprocess.run([replay], input=script.encode(), capture_output=True)
            if theirs.returncode:
                sys.exit(f"seed {seed} {profile}: the oracle ended with {theirs.returncode}")
            a, b = theirs.stdout.decode().splitlines(), ours.stdout.decode().splitlines()
            scripts += 1
            calls += len(a)
            for line in a:
                word = line.split(" |")[0].split()
                answers[" ".join(word[:2]) if word[0] == "refused" else "a number" if word[0].isdigit() else word[0]] += 1
            if a != b:
                different += 1
                place = next((i for i, pair in enumerate(zip(a, b)) if pair[0] != pair[1]), min(len(a), len(b)))
                print(f"seed {seed} {profile}, call {place + 1}: {list(filter(releases.is_call, script.splitlines()))[place]}")
                print(f"  oracle: {a[place] if place < len(a) else '(nothing)'}\n  replay: {b[place] if place < len(b) else '(nothing)'}")
    print(f"{scripts} scripts, {calls} calls, {different} scripts that differ")
    for answer, n in sorted(answers.items()):
        print(f"  {answer}: {n}")
    sys.exit(1 if different else 0)


main()
