#!/usr/bin/env python3
"""Holds the definitions of the crate `model` to the oracle, on random call scripts or on the oracle's own cases and those of tests/released and tests/negotiated.

usage: hold_model.py ORACLE FIRST LAST [N]     run at the repository's root
       hold_model.py ORACLE cases

ORACLE is the oracle's folder (gen.py and cases/ in it; `./build.sh` there builds target/release/oracle; Rust is needed, and no network). For the seeds
FIRST to LAST and every profile of gen.py a script of about N calls (300) is made, or each script of cases/ is taken, and run through the oracle; equations.py
turns script and trail into closed equations, and antt checks these (`rt check`) in a copy of model_cases and of the crates that it stands on, which begins
with the libraries that `rt lib` in crates/model_cases has made, where it has. In the random scripts seats are given negotiated capabilities alone
(negotiation.py), and seat and interface releases are taken out of them. The cases that the crate does not decide are left out, and those of tests/released and
tests/negotiated are taken, with what they have by hand (releases.py). It prints what was compared, and stops with 1 at the first batch that does not agree.
"""
import os
import shutil
import subprocess
import sys
import tempfile

HERE = os.path.dirname(os.path.abspath(__file__))
sys.path.insert(0, HERE)
import equations  # noqa: E402
import negotiation  # noqa: E402
import releases  # noqa: E402

PROFILES = ["mixed", "limits", "touch", "text", "removal", "frames"]
BATCH = 30


def made(oracle, seed, profile, calls):
    return releases.without(negotiation.script(oracle, seed, calls, "--profile", profile))


def scripts_of(oracle, words):
    """What is to be compared: for each script the name of its module, its title, and how to get it."""
    if words == ["cases"]:
        for path, lines in releases.cases(oracle):
            number, _, name = os.path.basename(path)[:-len(".script")].partition("-")
            yield f"Case{number}", f"Case {number}, {name}.", lambda lines=lines: "\n".join(lines) + "\n"
        return
    calls = words[2] if len(words) == 3 else "300"
    for seed in range(int(words[0]), int(words[1]) + 1):
        for profile in PROFILES:
            yield f"{profile.capitalize()}{seed}", f"Seed {seed}, profile {profile}.", lambda seed=seed, profile=profile: made(oracle, seed, profile, calls)


def below(crate):
    """The crate and those of the repository that it stands on, with their lines of crates.txt."""
    with open("crates.txt") as file:
        lines = dict(line.split(":", 1) for line in file.read().split("\n") if line and not line.startswith("#"))
    wanted, found = [crate], {}
    for name in wanted:
        if name in lines and name not in found:
            found[name] = f"{name}:{lines[name]}"
            wanted += lines[name].split()
    return found


def copied(crates, copy):
    """Copies these crates: of what was made of them only the libraries."""
    with open(os.path.join(copy, "crates.txt"), "w") as file:
        file.write("".join(line + "\n" for line in crates.values()))
    for name in crates:
        shutil.copytree(f"crates/{name}", f"{copy}/crates/{name}", ignore=shutil.ignore_patterns("out"))
        if os.path.isdir(f"crates/{name}/out/rlib"):
            shutil.copytree(f"crates/{name}/out/rlib", f"{copy}/crates/{name}/out/rlib")


def main():
    words = sys.argv[2:]
    if len(sys.argv) < 2 or (words != ["cases"] and len(words) not in (2, 3)):
        sys.exit(__doc__)
    oracle, work = sys.argv[1], list(scripts_of(sys.argv[1], words))
    scripts = sessions = turns = 0
    with tempfile.TemporaryDirectory() as copy:
        copied(below("model_cases"), copy)
        crate = os.path.join(copy, "crates/model_cases")
        proofs = os.path.join(crate, "proofs")
        for at in range(0, len(work), BATCH):
            for old in os.listdir(proofs):
                os.remove(os.path.join(proofs, old))
            modules = []
            for module, title, get in work[at:at + BATCH]:
                text = get()
                ran = subprocess.run([os.path.join(oracle, "target/release/oracle")], input=text, capture_output=True, text=True, check=True)
                script = text.split("\n")
                trail, _ = releases.expected(script, ran.stdout.splitlines())
                found = equations.sessions(script, trail)
                scripts, sessions, turns = scripts + 1, sessions + len(found), turns + sum(len(s["turns"]) for s in found)
                modules.append(module)
                with open(os.path.join(proofs, module + ".antt"), "w") as f:
                    f.write(equations.module(title, script, trail))
            with open(os.path.join(proofs, "Lib.antt"), "w") as f:
                f.write("".join(f"pub mod {m}\n" for m in modules))
            done = subprocess.run(["rt", "check"], cwd=crate, capture_output=True, text=True)
            if done.returncode != 0:
                print("\n".join(line[:600] for line in (done.stdout + done.stderr).split("\n") if "error" in line or "differ" in line))
                sys.exit(f"not all of {modules[0]} to {modules[-1]} agree")
            print(f"agree: {scripts} scripts, {sessions} sessions, {turns} calls", flush=True)


if __name__ == "__main__":
    main()
