#!/usr/bin/env python3
"""Writes the scripts that the gate runs and the trails that are expected of them. The trails are the oracle's, which is the crate's own Rust; from the first
seat or interface release of a session on, its first seat that is given what was not negotiated, or its first read or message, they are by hand, and so is each
line of an event.

usage: write_trials.py [--check] ORACLE [FOLDER]     run at the repository's root

ORACLE is the oracle's folder (cases/ in it; `./build.sh` there builds target/release/oracle, for which Rust is needed, and no network; or the program is that
of FOLDER). crates/trials gets the trial lines, the five false friends, the oracle's other cases and the scripts of tests/released, of tests/negotiated, of
tests/reads, of tests/messages and of tests/events, one session behind the other; crates/replay gets examples/token.script. Of that script and of
rust/tests/every.script, the Rust crate's tests get the trails. The oracle's cases that the crate does not decide are left out, and each has to have its like in
tests/released or in tests/negotiated. The lines `#= LINE`, by hand from the scope, stay in the script behind their calls. Where the crate decides, the oracle's
trail is held to them here, and where it does not, every call has to have its own (releases.py). With --check nothing is written: the files have to be what would
be written.
"""
import glob
import os
import subprocess
import sys

import releases

HERE = os.path.dirname(os.path.abspath(__file__))
PARTS = [
    ("Trial lines", lambda n: n < 20),
    ("False friends", lambda n: 20 <= n < 30),
    ("The oracle's other cases", lambda n: 30 <= n),
]
# The folders of tests whose lines are by hand where the crate does not decide.
OWN = {"Releases": "released", "Not negotiated": "negotiated", "Reads": "reads", "Messages": "messages", "Events": "events"}
SETTINGS = ["now 0", "out 4096", "buffer 254"]


def held_ids(cases):
    """The false friend that has no case of its own: with 16 held, Down of each of them is 4, never 5."""
    begun = open(cases[5]).read().splitlines()
    first = next(i for i, line in enumerate(begun) if line.startswith("touchscreen.down"))
    downs = [line for line in begun if line.startswith("touchscreen.down")][:16]
    lines = ["# False friend: testing held ids before the count of 16. 16 held, Down of each of them: 4."] + begun[1:first] + downs
    for down in downs:
        lines += [down, "#= refused 4"]
    return lines


def without_reads(lines):
    """The lines with a release of no seat in the place of each read and its records: the crate has no such call, and behind a release all is by hand."""
    kept, left = [], 0
    for line in lines:
        if left and releases.is_call(line):
            left -= 1
        elif line.startswith("read "):
            kept.append("seat.release 0")
            left = int(line.split(" ")[1], 0)
        else:
            kept.append(line)
    return kept


def without_messages(script):
    """The script with a release of no seat in the place of each message, which the crate's program has not either: it is a call in a handshake too. An event's
    line is left out: it may stand where there is no handshake, and changes nothing."""
    lines = (line for line in script.splitlines() if not releases.is_event(line))
    return "".join(("seat.release 0" if line.startswith("message ") else line) + "\n" for line in lines)


def run(oracle, script):
    done = subprocess.run([oracle], input=without_messages(script).encode(), capture_output=True)
    if done.returncode:
        sys.exit(f"the oracle ended with {done.returncode}: {done.stderr.decode()}")
    return done.stdout.decode().splitlines()


def read(folder):
    """The scripts of a folder, by the number that their name begins with."""
    return {int(os.path.basename(path)[:2]): path for path in glob.glob(f"{folder}/*.script")}


def main():
    check = sys.argv[1:2] == ["--check"]
    folders = sys.argv[1 + check:]
    if len(folders) not in (1, 2):
        sys.exit(__doc__)
    cases = read(f"{folders[0]}/cases")
    own = {part: read(f"{HERE}/{folder}") for part, folder in OWN.items()}
    oracle = f"{folders[-1]}/target/release/oracle"
    scripts = {number: open(path).read().splitlines() for number, path in cases.items()}
    for number in [number for number, script in scripts.items() if releases.within(script)]:
        if not any(os.path.basename(paths.get(number, "")) == os.path.basename(cases[number]) for paths in own.values()):
            sys.exit(f"{cases[number]} is not the crate's to decide, and no folder of ours has a script of that name")
        del scripts[number]
    scripts[24] = held_ids(cases)
    parts = [(part, [(number, scripts[number]) for number in sorted(filter(chosen, scripts))]) for part, chosen in PARTS]
    for part, paths in own.items():
        parts.append((part, [(number, open(paths[number]).read().splitlines()) for number in sorted(paths)]))
    lines = ["# Written by tests/write_trials.py. A line that begins with #= is what the call above it answers, by hand from the scope; stdout is what the crate's own "
             "Rust answers; from the first seat or interface release of a session on, its first seat that is given what was not negotiated, or its first read or "
             "message, and of an event, it is what these lines say."]
    one_by_one = []
    for part, chosen in parts:
        lines += ["", f"# ---- {part}"]
        for number, script in chosen:
            title = script[0].replace("* ", "").replace("# ", "")
            lines += ["", f"# {number:02}: {title}"] + SETTINGS + script[1:]
            plain = without_reads(script)
            one_by_one += releases.expected(plain, run(oracle, "\n".join(plain) + "\n"))[0]
    plain = without_reads(lines)
    trail, hand = releases.expected(plain, run(oracle, "\n".join(plain) + "\n"))
    if one_by_one != trail:
        sys.exit("the trail is not that of the scripts one by one")
    token, every = open("examples/token.script").read(), open("rust/tests/every.script").read()
    files = {"crates/trials/stdin": lines, "crates/trials/stdout": trail, "crates/replay/stdin": token.splitlines()}
    files["crates/replay/stdout"] = files["rust/tests/token.trail"] = run(oracle, token)
    files["rust/tests/every.trail"] = releases.expected(every.splitlines(), run(oracle, every))[0]
    for path, content in files.items():
        content = "".join(line + "\n" for line in content)
        if check and open(path).read() != content:
            sys.exit(f"{path} is not what would be written")
        if not check:
            with open(path, "w") as f:
                f.write(content)
    print(f"{len(scripts) + sum(map(len, own.values()))} scripts, {len(trail)} calls, {hand} lines by hand")


main()
