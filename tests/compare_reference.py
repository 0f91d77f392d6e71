#!/usr/bin/env python3
"""Holds a program to the reference, an executable second reading of the scope and its change requests, where the crate does not decide.

usage: compare_reference.py REFERENCE FIRST LAST [CALLS [REPLAY]]     run at the repository's root, after `rt run` in crates/replay

REFERENCE is the reference's folder (check.py, against.py and what they need in it; Python alone is needed). Two things are compared, with the requests that
have landed: its cases, whose lines are by hand, those that other requests are required for left out; and for each seed from FIRST to LAST one random script of
about CALLS calls (400) of each of four kinds, which have seat and interface releases in them, whole reads, a client's bytes with events written as messages and
read back, and handshakes that leave many interfaces out, with seats that are given them all the same. REPLAY is the program (crates/replay/out/replay), which
gets each script on standard input. What differs is printed with its call, and the last line has the counts.
"""
import os
import subprocess
import sys

# The change requests that have landed, and the kinds of random scripts that try what they have changed.
LANDED = "1-6,10"
PROFILES = ["release", "read", "messages", "versions"]


def main():
    if len(sys.argv) not in (4, 5, 6):
        sys.exit(__doc__)
    reference, first, last = sys.argv[1:4]
    calls = sys.argv[4] if len(sys.argv) > 4 else "400"
    replay = os.path.abspath(sys.argv[5] if len(sys.argv) > 5 else "crates/replay/out/replay")
    runs = [["check.py", "--requests", LANDED, replay]]
    runs += [["against.py", "--requests", LANDED, "--profile", profile, "--calls", calls, first, last, replay] for profile in PROFILES]
    failed, counts = False, []
    for program, *words in runs:
        done = subprocess.run([sys.executable, os.path.join(reference, program), *words], capture_output=True, text=True)
        said = done.stdout.splitlines() or ["nothing"]
        failed = failed or done.returncode != 0
        counts.append(said[-1])
        print("\n".join(said[:-1]) + done.stderr, end="\n" if said[:-1] else "")
    print("; ".join(counts))
    sys.exit(1 if failed else 0)


if __name__ == "__main__":
    main()
