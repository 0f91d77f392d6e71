#!/usr/bin/env python3
"""Holds a program to the oracle's cases and to the scripts of tests/released and of tests/negotiated.

usage: compare_cases.py ORACLE [PROGRAM [ARG ...]]     run at the repository's root, after `rt run` in crates/replay

ORACLE is the oracle's folder (cases/ in it; `./build.sh` there builds target/release/oracle; Rust is needed, and no network). PROGRAM, crates/replay/out/replay
where none is named, gets each script on standard input. Its trail has to be the oracle's, and what the script has by hand from the first seat or interface
release of a session on, or the first seat that is given what was not negotiated; the oracle's cases with one of these are left out (releases.py).
"""
import subprocess
import sys

import releases


def main():
    if len(sys.argv) < 2 or sys.argv[1] in ("-h", "--help"):
        sys.exit(__doc__)
    program = sys.argv[2:] or ["crates/replay/out/replay"]
    scripts = lines_by_hand = calls = different = 0
    for path, lines in releases.cases(sys.argv[1]):
        script = ("\n".join(lines) + "\n").encode()
        theirs = subprocess.run([f"{sys.argv[1]}/target/release/oracle"], input=script, capture_output=True, check=True)
        ran = subprocess.run(program, input=script, capture_output=True)
        wanted, hand = releases.expected(lines, theirs.stdout.decode().splitlines())
        given = ran.stdout.decode().splitlines()
        scripts, lines_by_hand, calls = scripts + 1, lines_by_hand + hand, calls + len(wanted)
        if given != wanted or ran.returncode:
            different += 1
            place = next((i for i, pair in enumerate(zip(wanted, given)) if pair[0] != pair[1]), min(len(wanted), len(given)))
            told = [trail[place] if place < len(trail) else "(nothing)" for trail in (wanted, given)]
            print(f"{path}, call {place + 1}, exit status {ran.returncode}\n  wanted: {told[0]}\n  given:  {told[1]}")
    print(f"{scripts} scripts, {calls} calls, {lines_by_hand} lines by hand, {different} scripts that differ")
    sys.exit(1 if different else 0)


if __name__ == "__main__":
    main()
