#!/usr/bin/env python3
"""Counts the instructions of each exported function on sessions alike in all but payload, and of texts by make-up.

usage: timing.py [ARCHIVE]     run at the repository's root, after `rt lib` in crates/bozterrun

ARCHIVE is the library (crates/bozterrun/out/libbozterrun.a). gcc, cargo and valgrind are needed. tests/c/twins.c is run
under callgrind with ten seeds and with texts of 20 and of 240 bytes: its sessions differ in their payload alone, and
the texts of odd seeds are not ASCII. For each function the instructions of all its calls are added, what it calls
included. tests/c/texts.c is run with texts of several lengths and make-ups. Two tables are printed. The rounds of
rust/examples/twins.rs, which go through the Rust crate, are counted as a whole. The exit status is 1 where the answers
of two seeds differ, where a function other than text_utf8, handle_requests, whose reads have a text each, and
pending_request, to which a text is sent in each round, has another count at another seed, where those have another
count at another even seed, where ASCII texts of one length do, or where the rounds through Rust do.
"""
import os
import re
import subprocess
import sys

HERE = os.path.dirname(os.path.abspath(__file__))
ROOT = os.path.dirname(HERE)
BUILD = os.path.join(ROOT, "target/c/timing")
SEEDS = range(1, 11)
LENGTHS = [20, 240]
TEXT_LENGTHS = [1, 7, 8, 19, 20, 24, 64, 254]
ASCII = [("digits", 1), ("digits", 2), ("letters", 3), ("ascii", 4), ("ascii", 5)]
WIDE = ["2-byte", "3-byte", "4-byte", "mixed"]
TAKES = 10  # how often texts.c sends its text
TEXTUAL = ("text_utf8", "handle_requests", "pending_request")  # which are handed texts, and may take longer over one that is not ASCII


def build(name, archive):
    program = os.path.join(BUILD, name)
    source = os.path.join(HERE, "c", name + ".c")
    # Bound before the first call, so that no function is charged with finding memcpy.
    subprocess.run(["gcc", "-std=c11", "-O2", "-Wl,-z,now", "-I", os.path.join(ROOT, "include"), source, archive,
                    "-o", program], check=True)
    return program


def instructions(text, prefix):
    """For each function of the prefix its calls and its instructions, of a file that callgrind wrote.

    `fn=` begins a function, whose lines are a place and a cost. `calls=` has the calls of the function of the last
    `cfn=`, and its next line their cost, what they call included. Names are given once, then by number.
    """
    names, calls, costs = {}, {}, {}

    def named(word):
        number, name = re.match(r"\((\d+)\)(?: (.*))?", word).groups()
        if name:
            names[number] = name
        return names[number]

    here = called = None
    for line in text.split("\n"):
        if line.startswith("fn="):
            here, called = named(line[3:]), None
        elif line.startswith("cfn="):
            called = named(line[4:])
        elif line.startswith("calls="):
            calls[called] = calls.get(called, 0) + int(line[6:].split()[0])
        elif here and re.match(r"[0-9+*-]", line):
            costs[here] = costs.get(here, 0) + int(line.split()[1])
    wanted = [name for name in costs if name.startswith(prefix) and name in calls]
    return {name: (calls[name], costs[name]) for name in wanted}


def count(command, prefix="bozterrun_"):
    """What a program writes, and the instructions of its calls of the functions of the prefix."""
    path = os.path.join(BUILD, "callgrind.out")
    done = subprocess.run(["valgrind", "--tool=callgrind", f"--callgrind-out-file={path}", *command],
                          capture_output=True, text=True)
    if done.returncode:
        sys.exit(f"{' '.join(command)}: {done.stdout}{done.stderr}")
    with open(path) as file:
        return done.stdout, instructions(file.read(), prefix)


def compare_twins(program):
    """The first table; how much is wrong."""
    wrong = []
    print(f"Instructions of all calls of a session, {len(SEEDS)} sessions alike in all but payload:\n")
    print("| function | calls | " + " | ".join(f"texts of {n} bytes" for n in LENGTHS) + " | over the seeds |")
    print("|---|---|" + "---|" * len(LENGTHS) + "---|")
    runs = {length: [count([program, str(seed), str(length)]) for seed in SEEDS] for length in LENGTHS}
    for length, done in runs.items():
        if len({text for text, _ in done}) != 1:
            wrong.append(f"the answers of two seeds differ, texts of {length} bytes")
    # Calls of the session's beginning say nothing here.
    beginning = ("handshake_", "add_")
    for name in sorted(runs[LENGTHS[0]][0][1]):
        short = name[len("bozterrun_"):]
        if short.startswith(beginning):
            continue
        cells, equal = [], "equal"
        for length, done in runs.items():
            costs = [found[name][1] for _, found in done]
            told = sorted(set(costs))
            cells.append(str(told[0]) if len(told) == 1 else f"{told[0]} to {told[-1]}")
            even = {cost for seed, cost in zip(SEEDS, costs) if seed % 2 == 0}
            if len(told) > 1:
                equal = "equal for ASCII" if len(even) == 1 else "DIFFER"
                if short not in TEXTUAL or len(even) > 1:
                    equal = "DIFFER"
                    wrong.append(f"{short}, texts of {length} bytes: {costs} for the seeds {list(SEEDS)}")
        calls = {found[name][0] for done in runs.values() for _, found in done}
        print(f"| {short} | {'/'.join(map(str, sorted(calls)))} | {' | '.join(cells)} | {equal} |")
    return wrong


def compare_texts(program):
    """The second table; how much is wrong."""
    wrong = []
    print("\nInstructions of one text_utf8, and of one next_request that gives the text:\n")
    print("| bytes | ASCII | " + " | ".join(WIDE) + " | next_request |")
    print("|---|---|" + "---|" * len(WIDE) + "---|")
    for length in TEXT_LENGTHS:
        found = {key: count([program, str(length), key[0], str(key[1])])[1] for key in ASCII + [(m, 1) for m in WIDE]}
        sent = {key: f["bozterrun_text_utf8"] for key, f in found.items()}
        taken = {f["bozterrun_next_request"] for f in found.values()}
        if any(calls != TAKES for calls, _ in sent.values()):
            sys.exit(f"texts.c sent {sent}, not {TAKES} texts")
        if len({sent[key] for key in ASCII}) != 1:
            wrong.append(f"ASCII texts of {length} bytes: {[sent[key][1] for key in ASCII]} for {ASCII}")
        if len(taken) != 1:
            wrong.append(f"next_request with texts of {length} bytes: {sorted(taken)}")
        cells = [sent[ASCII[0]][1] / TAKES] + [sent[m, 1][1] / TAKES for m in WIDE]
        # Two requests are taken for each text: the text and its frame.
        calls, cost = sorted(taken)[0]
        print(f"| {length} | " + " | ".join(f"{c:.0f}" for c in cells) + f" | {2 * cost / calls:.0f} with its frame |")
    return wrong


def compare_rust(archive):
    """The rounds through the Rust crate; how much is wrong."""
    env = dict(os.environ, BOZTERRUN_LIB=os.path.abspath(os.path.dirname(archive)))
    manifest = os.path.join(ROOT, "rust/Cargo.toml")
    subprocess.run(["cargo", "build", "--quiet", "--offline", "--release", "--example", "twins", "--manifest-path",
                    manifest], env=env, check=True)
    program = os.path.join(ROOT, "rust/target/release/examples/twins")
    done = [count([program, str(seed)], "twins::rounds") for seed in SEEDS]
    costs = [sum(cost for _, cost in found.values()) for _, found in done]
    print(f"\nThrough the Rust crate, {done[0][0].strip()} deliveries: {costs[0]} instructions at each of "
          f"{len(costs)} seeds" if len(set(costs)) == 1 else f"\nThrough the Rust crate: {costs}")
    wrong = [] if len({text for text, _ in done}) == 1 else ["the Rust crate delivers more at one seed than at another"]
    return wrong + ([] if len(set(costs)) == 1 and costs[0] else [f"the rounds through the Rust crate: {costs}"])


def main():
    if len(sys.argv) > 2 or "-h" in sys.argv or "--help" in sys.argv:
        sys.exit(__doc__)
    archive = sys.argv[1] if len(sys.argv) > 1 else os.path.join(ROOT, "crates/bozterrun/out/libbozterrun.a")
    if not os.path.exists(archive):
        sys.exit(f"{archive} is not there: run `rt lib` in crates/bozterrun")
    os.makedirs(BUILD, exist_ok=True)
    wrong = compare_twins(build("twins", archive)) + compare_texts(build("texts", archive))
    wrong += compare_rust(archive)
    print()
    for line in wrong:
        print(f"DIFFERS: {line}")
    good = "no count hangs on payload but that of texts which are not ASCII"
    print("timing: " + (f"{len(wrong)} differences" if wrong else good))
    sys.exit(1 if wrong else 0)


main()
