#!/usr/bin/env python3
"""Holds the program replay to the oracle on random handshakes.

usage: compare_handshakes.py ORACLE FIRST LAST     run at the repository's root, after `rt run` in crates/replay

ORACLE is the oracle's folder (`./build.sh` there builds target/release/oracle; Rust is needed, and no network). Each seed is a script of twenty handshakes,
refused and odd calls among them: texts that are not UTF-8 or too long, unknown and repeated names, versions at the ends of their range, requests of other
interfaces, a short `out`, a Finish that is refused and tried again. (A Finish that succeeds is the last call of its handshake here; sessions are in
compare_sessions.py.) Trails are compared line by line; what they answered is counted, so that it can be seen what the scripts reached.
"""
import collections
import random
import subprocess
import sys

NAMES = ["connection", "callback", "pingpong", "seat", "device", "pointer", "pointer_absolute", "scroll", "button", "keyboard", "touchscreen", "text"]
TEXTS = [b"", b"a", b"ei_", b"ei_seat ", b"EI_SEAT", b"ei_handshake", b"a" * 254, b"a" * 255, "\u00e9".encode() * 127, b"\x80", b"\xc0\x80", b"\xed\xa0\x80", b"\xf4\x90\x80\x80",
         b"a" * 300 + b"\xff", "\U0010ffff".encode()]
OTHERS = ["connection.sync 5 7", "connection.disconnect", "pingpong.done", "seat.release 0xff00000000000001", "seat.bind 3 4", "device.frame 1 2 3", "keyboard.key 5 30 1",
          "touchscreen.down 9 1 nan 0x3f800000", "scroll.scroll_discrete 7 -120 120", "text.utf8 5 t:80", "text.utf8 5 t:61", "pointer.release 0"]


def handshake(r, lines):
    def word(data):
        return "t:" + data.hex()

    def interface():
        return b"ei_" + r.choice(NAMES).encode() if r.random() < 0.85 else r.choice(TEXTS)

    known = set()

    def negotiate(name, version):
        known.add(name)
        lines.append(f"handshake.interface_version {word(name)} {version}")

    if r.random() < 0.2:
        lines.append(f"out {r.choice([0, 13, 14, 15])}")
    lines.append(f"start {r.choice([0, 1, 7, 2**32 - 1, r.getrandbits(32)])}")
    lines.append("out 4096")
    if r.random() < 0.7:
        for name in ("connection", "callback", "pingpong"):
            negotiate(b"ei_" + name.encode(), r.choice([0, 1, 2, 2**32 - 1]))
    for _ in range(r.randrange(30)):
        kind = r.random()
        if kind < 0.5:
            negotiate(interface(), r.choice([0, 1, 2, 3, 4, 2**32 - 1, r.getrandbits(32)]))
        elif kind < 0.65:
            lines.append(f"handshake.name {word(r.choice(TEXTS))}")
        elif kind < 0.75:
            lines.append(f"handshake.context_type {r.choice([1, 2])}")
        elif kind < 0.8:
            lines.append(f"handshake.handshake_version {r.getrandbits(32)}")
        elif kind < 0.88:
            lines.append(r.choice(OTHERS))
        elif kind < 0.93:
            # Refused for sure: an interface is missing, or the connection record has no room.
            missing = not {b"ei_connection", b"ei_callback", b"ei_pingpong"} <= known
            lines.append(f"out {r.choice([0, 14, 15, 30, 4096]) if missing else r.randrange(26)}")
            lines.append("handshake.finish")
        else:
            lines.append(f"out {r.choice([0, 25, 26, 15 * r.randrange(13), 15 * r.randrange(13) + 25, 15 * r.randrange(13) + 26, 4096])}")
    lines.append(f"out {15 * r.randrange(13) + r.choice([0, 14, 25, 26])}")
    lines.append("handshake.finish")


def main():
    if len(sys.argv) != 4:
        sys.exit(__doc__)
    oracle = sys.argv[1] + "/target/release/oracle"
    scripts = calls = 0
    answers = collections.Counter()
    for seed in range(int(sys.argv[2]), int(sys.argv[3]) + 1):
        r, lines = random.Random(seed), []
        for _ in range(20):
            handshake(r, lines)
        script = "\n".join(lines) + "\n"
        wanted = subprocess.run([oracle], input=script, capture_output=True, text=True).stdout.split("\n")
        found = subprocess.run(["crates/replay/out/replay"], input=script, capture_output=True, text=True).stdout.split("\n")
        for at, (w, f) in enumerate(zip(wanted + ["(end)"], found + ["(end)"])):
            if w != f:
                sys.exit(f"seed {seed}, trail line {at + 1}: the oracle has {w!r}, replay {f!r}")
        scripts, calls = scripts + 1, calls + len(wanted) - 1
        # Record 18, the connection, is what a Finish that succeeds writes last.
        answers.update("finished" if " 901a" in w else w.partition(" |")[0] for w in wanted if w)
    print(f"agree: {scripts} scripts, {20 * scripts} handshakes, {calls} calls")
    print(", ".join(f"{n} {a}" for a, n in sorted(answers.items())))


if __name__ == "__main__":
    main()
