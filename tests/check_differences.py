#!/usr/bin/env python3
"""Holds docs/DIFFERENCES.md to the program, to the oracle and to the crate's files.

usage: check_differences.py [ORACLE]      run at the repository's root, after `rt run` in crates/replay
       check_differences.py --print NAME  the call script of tests/differences/NAME.script, to be played by hand

Each tests/differences/NAME.script is played by crates/replay/out/replay (or by the command in the variable REPLAY). In a script, beside the lines of
docs/CALL-SCRIPTS.md:

  #< NAME     the lines of tests/differences/NAME.begin
  #* N CALL   the call, N times
  #= ANSWER   what the call above answers (the last, where it is repeated)
  #~ ANSWER   what the crate answers to it, where that is something else

Every script has to be named in docs/DIFFERENCES.md or docs/DECISIONS.md, and every script that is named there has to exist. With ORACLE, the oracle's folder
(`./build.sh` in it builds target/release/oracle; Rust is needed, and no network), the oracle has to give the same answers, and with `--source-only` the
answers `#~`, which it has to give without that too where a script has a session that the crate does not decide (releases.py); and each quotation of
DIFFERENCES.md has to stand in the crate's files (ORACLE/../docs/src/src) from the line that it is given with.
"""
import os
import re
import shlex
import subprocess
import sys

import releases

HERE = os.path.dirname(os.path.abspath(__file__))
SCRIPTS = os.path.join(HERE, "differences")
PAGE = os.path.join(HERE, "../docs/DIFFERENCES.md")
READINGS = os.path.join(HERE, "../docs/DECISIONS.md")
FILES = {"protocol": "eiproto_eis.rs", "eiproto_eis.rs": "eiproto_eis.rs", "eiproto_enum.rs": "eiproto_enum.rs", "request.rs": "request.rs",
         "handshake.rs": "handshake.rs", "backend.rs": "wire/backend.rs"}


def lines_of(path):
    """The plain lines of a script, with its marks `#=` and `#~` left in."""
    for line in open(path).read().splitlines():
        if line.startswith("#< "):
            yield from lines_of(os.path.join(SCRIPTS, line[3:] + ".begin"))
        elif line.startswith("#* "):
            _, count, call = line.split(" ", 2)
            yield from [call] * int(count)
        else:
            yield line


def play(command, lines):
    done = subprocess.run(command, input=("\n".join(lines) + "\n").encode(), capture_output=True)
    return done.stdout.decode().splitlines()


def differing(lines, trail, marks):
    """What a trail has where the script says otherwise: for each call the last of `marks` that stands behind it."""
    place, told, found = -1, {}, []
    for line in lines:
        if releases.is_call(line):
            place += 1
        elif line[:2] in marks and line[2:3] == " ":
            told.setdefault(place, {})[line[:2]] = line[3:]
    for at, answers in told.items():
        wanted = next(answers[m] for m in reversed(marks) if m in answers)
        got = trail[at] if at < len(trail) else "(nothing)"
        if got != wanted:
            found.append(f"call {at + 1}: {wanted!r} is wanted, {got!r} was answered")
    if len(trail) != place + 1:
        found.append(f"{place + 1} calls, {len(trail)} answers")
    return found, len(told)


def quotations(page):
    """The quotations of the page: file, line and words of each `FILE LINE “WORDS”`; further ones of the same file follow as `LINE “WORDS”`."""
    flat = re.sub(r"\s+", " ", page)
    file = None
    for found in re.finditer(r"(?:\b(%s) )?\b(\d+) “([^”]+)”" % "|".join(map(re.escape, FILES)), flat):
        file = found.group(1) or file
        yield file, int(found.group(2)), found.group(3)


def plain(text):
    return re.sub(r"\s+", " ", re.sub(r"(?m)^\s*//[/!]?", " ", text)).strip()


def stands(source, file, line, words):
    """Whether each part of the words (parted by ..) stands, in order, in what begins at the line; the first part begins in that very line."""
    lines = open(os.path.join(source, FILES[file])).read().split("\n")[line - 1:line + 14]
    if not lines:
        return False
    first, rest = plain(lines[0]), plain("\n".join(lines))
    at = 0
    for number, part in enumerate(p.strip() for p in words.split("..")):
        found = rest.find(part, at)
        if found < 0 or (number == 0 and found >= len(first)):
            return False
        at = found + len(part)
    return True


def main():
    if sys.argv[1:2] == ["--print"] and len(sys.argv) == 3:
        print("\n".join(lines_of(os.path.join(SCRIPTS, sys.argv[2] + ".script"))))
        return
    if len(sys.argv) > 2 or sys.argv[1:2] in (["-h"], ["--help"]):
        sys.exit(__doc__)
    oracle = sys.argv[1] if len(sys.argv) == 2 else None
    replay = shlex.split(os.environ.get("REPLAY", "crates/replay/out/replay"))
    page = open(PAGE).read()
    named = set(re.findall(r"`differences/([a-z0-9-]+)`", page + open(READINGS).read()))
    there = {name[:-7] for name in os.listdir(SCRIPTS) if name.endswith(".script")}
    faults = [f"{name}: named in the docs, and no such script" for name in sorted(named - there)]
    faults += [f"{name}: a script that the docs do not name" for name in sorted(there - named)]
    answers = quoted = 0
    for name in sorted(there):
        lines = list(lines_of(os.path.join(SCRIPTS, name + ".script")))
        runs = [("replay", replay, ["#="])]
        if oracle:
            binary = os.path.join(oracle, "target/release/oracle")
            runs.append(("the oracle", [binary], ["#=", "#~"] if releases.within(lines) else ["#="]))
            if any(line.startswith("#~ ") for line in lines):
                runs.append(("the crate alone", [binary, "--source-only"], ["#=", "#~"]))
        for who, command, marks in runs:
            found, count = differing(lines, play(command, lines), marks)
            faults += [f"{name}, {who}, {fault}" for fault in found]
            answers += count
            if count == 0:
                faults.append(f"{name}: no answer is told")
    if oracle:
        source = os.path.join(oracle, "../docs/src/src")
        found = list(quotations(page))
        if len(found) != page.count("“"):
            faults.append(f"{page.count('“')} quotations, and {len(found)} of them have a file and a line")
        for file, line, words in found:
            quoted += 1
            if not stands(source, file, line, words):
                faults.append(f"{file} {line}: “{words}” does not stand there")
    print("\n".join(faults), end="\n" if faults else "")
    print(f"{len(there)} scripts, {answers} answers" + (f", {quoted} quotations" if oracle else "") + f", {len(faults)} faults")
    sys.exit(1 if faults else 0)


if __name__ == "__main__":
    main()
