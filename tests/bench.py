#!/usr/bin/env python3
"""Times this module and the crate reis on the same turns, in one run: called from Rattle, through the C interface and through the Rust crate.

usage: bench.py ORACLE [ROUNDS]     run at the repository's root

ORACLE is the oracle's folder (its ./build.sh builds target/release/oracle; Rust is needed, and no network). What is not there yet is built: the oracle, the
programs bench and bench_reads (`rt run` in crates/bench and in crates/bench_reads), the library (`rt lib` in crates/bozterrun), and the programs
tests/c/bench.c and rust/examples/bench.rs, anew each time. Each of the oracle's five workloads is run ROUNDS times (81, a minute and a half) by turns, ours and
the crate's: for all a turn is the same calls, and making the requests is counted in. The time of ours is that of the program less that of its start, divided by
the calls. Medians are printed, and how many times faster ours is. Where valgrind is at hand, the instructions of a call follow, from the difference of two
runs.

Below the line: the queue's own turns, called from Rattle: a Disconnect queued and taken (push and pop), and frames of 1 and of 64 keys with their delivery.
Last, 31 keys and their frame with their delivery: one by one, gathered in a read that is handed over in one call (from Rattle in an array of 32, by the
program bench_reads), and from C and Rust as a client's bytes. All are told for each of the 32 requests. The crate has no reads, and the oracle none of
these workloads.
"""
import os
import re
import shutil
import statistics
import subprocess
import sys
import time

CALLS = {"keys": 7, "touches": 9, "texts": 5, "eight": 7, "deep": 6}
OWN = {"push": 2, "frame1": 4, "frame64": 130}
READS = {"single32": "one by one", "read32": "in a read", "messages": "as messages"}
READ = 32
ARCHIVE = "crates/bozterrun/out/libbozterrun.a"
PROGRAMS = {"Rattle": "crates/bench/out/bench", "C": "target/c/bench", "Rust": "rust/target/release/examples/bench"}
READ_PROGRAMS = dict(PROGRAMS, Rattle="crates/bench_reads/out/bench_reads")


def build(oracle):
    made = os.path.join(oracle, "target/release/oracle")
    for path, command, cwd in [(made, ["./build.sh"], oracle), (PROGRAMS["Rattle"], ["rt", "run"], "crates/bench"),
                               (READ_PROGRAMS["Rattle"], ["rt", "run"], "crates/bench_reads"), (ARCHIVE, ["rt", "lib"], "crates/bozterrun")]:
        if not os.path.exists(path):
            done = subprocess.run(command, cwd=cwd, stdin=subprocess.DEVNULL, stdout=subprocess.PIPE, stderr=subprocess.STDOUT, text=True)
            if done.returncode:
                print("\n".join(done.stdout.rstrip().split("\n")[-40:]))
                sys.exit(f"`{' '.join(command)}` in {cwd} has failed")
    os.makedirs("target/c", exist_ok=True)
    subprocess.run(["gcc", "-std=c11", "-O2", "-Iinclude", "tests/c/bench.c", ARCHIVE, "-o", PROGRAMS["C"]], check=True)
    env = dict(os.environ, BOZTERRUN_LIB=os.path.abspath(os.path.dirname(ARCHIVE)))
    subprocess.run(["cargo", "build", "--quiet", "--offline", "--release", "--example", "bench", "--manifest-path", "rust/Cargo.toml"], env=env, check=True)


def seconds(command):
    began = time.perf_counter()
    subprocess.run(command, capture_output=True, check=True)
    return time.perf_counter() - began


def ours(program, workload, calls):
    turns = 3000000 // calls
    start = min(seconds([program, workload, "0"]) for _ in range(3))
    return (seconds([program, workload, str(turns)]) - start) * 1e9 / (turns * calls)


def theirs(oracle, workload):
    told = subprocess.run([f"{oracle}/target/release/oracle", "--bench", "20000", workload], capture_output=True, check=True).stdout.decode()
    return float(re.search(r"median ([0-9.]+) ns", told).group(1))


def instructions(commands, calls):
    counts = []
    for command in commands:
        told = subprocess.run(["valgrind", "--tool=callgrind", "--callgrind-out-file=/dev/null", *command], capture_output=True, check=True)
        counts.append(int(re.search(r"Collected : (\d+)", told.stderr.decode()).group(1)))
    return (counts[1] - counts[0]) / calls


def main():
    if len(sys.argv) not in (2, 3):
        sys.exit(__doc__)
    oracle, rounds = sys.argv[1], int(sys.argv[2]) if len(sys.argv) > 2 else 81
    build(oracle)
    names = [*PROGRAMS, "crate"]
    print("| workload | " + " | ".join(f"{name} ns" for name in names) + " | " + " | ".join(f"{name}, times faster" for name in PROGRAMS) + " |", flush=True)
    print("|---" * (2 * len(names)) + "|")
    for workload, calls in CALLS.items():
        taken = {name: [] for name in names}
        for _ in range(rounds):
            for name, program in PROGRAMS.items():
                taken[name].append(ours(program, workload, calls))
            taken["crate"].append(theirs(oracle, workload))
        median = {name: statistics.median(times) for name, times in taken.items()}
        ratios = [f"{median['crate'] / median[name]:.1f}" for name in PROGRAMS]
        print(f"| {workload} | " + " | ".join(f"{median[name]:.1f}" for name in names) + " | " + " | ".join(ratios) + " |", flush=True)
    read_times = {(name, workload): [] for name in PROGRAMS for workload in READS if (name, workload) != ("Rattle", "messages")}
    for _ in range(rounds):
        for name, workload in read_times:
            read_times[name, workload].append(ours(READ_PROGRAMS[name], workload, READ))
    if not shutil.which("valgrind"):
        for (name, workload), times in read_times.items():
            print(f"{READ} requests {READS[workload]}, {name}: {statistics.median(times):.1f} ns a request")
        return
    print("\n| workload | " + " | ".join(f"{name} instructions" for name in names) + " |")
    print("|---" * (1 + len(names)) + "|")
    for workload, calls in CALLS.items():
        counts = [instructions([[program, workload, "1000"], [program, workload, "3000"]], 2000 * calls) for program in PROGRAMS.values()]
        # the oracle repeats its turns in nine rounds
        crate = [f"{oracle}/target/release/oracle", "--bench"]
        counts.append(instructions([crate + ["200", workload], crate + ["600", workload]], 400 * 9 * calls))
        print(f"| {workload} | " + " | ".join(f"{count:.1f}" for count in counts) + " |", flush=True)
    print()
    for workload, calls in OWN.items():
        a = statistics.median(ours(PROGRAMS["Rattle"], workload, calls) for _ in range(rounds))
        mine = instructions([[PROGRAMS["Rattle"], workload, "1000"], [PROGRAMS["Rattle"], workload, "3000"]], 2000)
        print(f"{workload:10} {a * calls:12.1f} ns a turn of {calls} calls, {mine:.0f} instructions", flush=True)
    for (name, workload), times in read_times.items():
        program = READ_PROGRAMS[name]
        mine = instructions([[program, workload, "1000"], [program, workload, "3000"]], 2000 * READ)
        print(f"{READ} requests {READS[workload]}, {name}: {statistics.median(times):.1f} ns a request, {mine:.0f} instructions", flush=True)


main()
