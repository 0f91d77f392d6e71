#!/usr/bin/env python3
"""Capabilities that were not negotiated: what is compared with the crate where a seat is given some, and what judges the rest.

usage: negotiation.py ORACLE SEED [N] [--profile P] [--tame]     prints a random script, as gen.py in the oracle's folder ORACLE does with the other words

A seat's set is cut down to the negotiated capabilities; in the crate it stays as it was given, and what follows differs (docs/DIFFERENCES.md). So a session is
compared with the crate only where every seat is given negotiated capabilities. Devices may be given any: what their seat has not, the crate passes over too.

Random scripts are made so (`script`): a seat's set is drawn as gen.py draws it, and what the handshake has not negotiated is taken out of it before the line is
written, so that what gen.py knows of ids and lengths stays right. Handshakes that leave interfaces out stay, and so does a set with a bit above bit 6, which is
refused with 13 whatever was negotiated. Scripts that are at hand are followed (`Negotiated`): from the first seat of a session on that is given more than was
negotiated, every line is by hand (releases.py), and the one of the oracle's cases that has such a seat gives way to its like in tests/negotiated.
"""
import importlib.util
import os
import subprocess
import sys

REQUIRED = {"connection", "callback", "pingpong"}
CAPABILITIES = ["pointer", "pointer_absolute", "keyboard", "touchscreen", "scroll", "button", "text"]    # by bit
NAMES = {"t:" + f"ei_{name}".encode().hex(): name for name in [*REQUIRED, "seat", "device", *CAPABILITIES]}


def mask(names):
    """The capabilities whose interfaces are among these names, with whatever version, 0 too."""
    return sum(1 << bit for bit, name in enumerate(CAPABILITIES) if name in names)


class Negotiated:
    """What the lines of a script have negotiated, one after another."""

    def __init__(self):
        self.out, self.names, self.running = 4096, set(), False

    def beyond(self, line):
        """Takes the line in, and tells whether it gives a seat a capability that was not negotiated."""
        verb, *words = line.split(" ")
        if verb == "out":
            self.out = int(words[0], 0)
        elif verb == "start":
            self.names, self.running = set(), False
        elif verb == "handshake.interface_version" and not self.running:
            self.names |= {NAMES[word] for word in [words[0].lower()] if word in NAMES}
        elif verb == "handshake.finish":
            # Each interface version has 15 bytes, the connection 26. A Finish that is refused settles nothing.
            self.running = self.running or REQUIRED <= self.names and 15 * len(self.names) + 26 <= self.out
        return verb == "add_seat" and int(words[1], 0) < 128 and int(words[1], 0) & ~mask(self.names) != 0


def script(oracle, seed, calls, *more):
    """A random script of about so many calls; `more` are gen.py's other words. The hash seed is fixed, so that a set has one order at each run."""
    words = [sys.executable, os.path.abspath(__file__), oracle, str(seed), str(calls), *more]
    return subprocess.run(words, env=dict(os.environ, PYTHONHASHSEED="0"), capture_output=True, text=True, check=True).stdout


def main():
    if len(sys.argv) < 3 or sys.argv[1] in ("-h", "--help"):
        sys.exit(__doc__)
    sys.dont_write_bytecode = True
    spec = importlib.util.spec_from_file_location("gen", os.path.join(sys.argv.pop(1), "gen.py"))
    gen = importlib.util.module_from_spec(spec)
    spec.loader.exec_module(gen)

    class Drawn(gen.Gen):
        def add_seat(self, given=None):
            given = self.mask(wrong=0.04, add=True) if given is None else given
            super().add_seat(given & mask(self.negotiated) if given < 128 else given)

    gen.Gen = Drawn
    gen.main()


if __name__ == "__main__":
    main()
