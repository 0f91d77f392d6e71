"""Where the crate decides: what is compared with it, and what judges the rest.

In a running session the crate answers a seat's or an interface's release in another way than the scope now has it (docs/DIFFERENCES.md), and what follows
it too. So no session with one is compared with the crate. Of a random script the releases are taken out before it is played (`without`): it stays a
script, and all the rest of it is compared, where whole sessions would be lost otherwise. Those of the oracle's cases that have one (`within`) give way to
the scripts of tests/released: up to the first release of a session their trail is the oracle's, from there on every line is by hand (`expected`). A
release during the handshake is refused there, like any other request, and stays. So does a device's release, which only tells the station.

The same goes for a seat that is given a capability that was not negotiated (negotiation.py, which makes random scripts without one): from the first of a session
on every line is by hand, and the oracle's case with one gives way to tests/negotiated.

A client's bytes (`message`) are a call that the crate's program has not: from the first of a session or of a handshake on every line is by hand too. So are
an event's record and message (`write_message`, `read_message`), which change nothing: their own lines are by hand, and no others.
"""
import glob
import os
import sys

import negotiation

HERE = os.path.dirname(os.path.abspath(__file__))
RELEASES = {f"{name}.release" for name in ("seat", "pointer", "pointer_absolute", "scroll", "button", "keyboard", "touchscreen", "text")}
EVENTS = ("write_message", "read_message")
SETTINGS = ("now", "out", "buffer")


def is_call(line):
    return line and not line.startswith("#") and line.split()[0] not in SETTINGS


def is_release(line):
    return line.split(" ")[0] in RELEASES


def is_event(line):
    return line.split(" ")[0] in EVENTS


def marked(lines):
    """Each line, and whether the crate does not decide it: its session has a release, a message or a seat given what was not negotiated in it or above it. Behind
    a Finish a session is taken to run, though that Finish may be refused."""
    running = ours = False
    negotiated = negotiation.Negotiated()
    for line in lines:
        if line.startswith("start "):
            running = ours = False
        running = running or line == "handshake.finish"
        ours = negotiated.beyond(line) or ours or line.startswith("message ") or running and is_release(line)
        yield line, ours


def within(lines):
    return any(ours for _, ours in marked(lines))


def cases(oracle):
    """The oracle's cases that the crate decides, then the scripts of tests/released and of tests/negotiated: the path of each, and its lines."""
    for folder in (os.path.join(oracle, "cases"), os.path.join(HERE, "released"), os.path.join(HERE, "negotiated")):
        for path in sorted(glob.glob(os.path.join(folder, "*.script"))):
            lines = open(path).read().splitlines()
            if path.startswith(HERE) or not within(lines):
                yield path, lines


def without(script):
    return "".join(line + "\n" for line, ours in marked(script.splitlines()) if not (ours and is_release(line)))


def expected(lines, trail):
    """The trail that a script has to have, of the oracle's and the script's lines by hand; and how many these are. The oracle's has no line of an event."""
    calls, hand = [], {}
    for line, ours in marked(lines):
        if line.startswith("#= "):
            hand[len(calls) - 1] = line[3:]
        elif is_call(line):
            calls.append((line, ours))
    played = sum(not is_event(call) for call, _ in calls)
    if played != len(trail):
        sys.exit(f"{lines[0]}\n{len(trail)} lines for {played} calls")
    theirs, wanted = iter(trail), []
    for place, (call, ours) in enumerate(calls):
        answer = hand.get(place) if is_event(call) else next(theirs)
        if (ours or is_event(call)) and place not in hand:
            sys.exit(f"{lines[0]}\ncall {place + 1}, {call}: no line by hand, though the crate does not decide it")
        if not ours and hand.get(place, answer) != answer:
            sys.exit(f"{lines[0]}\ncall {place + 1}, {call}: by hand {hand[place]}, the oracle {answer}")
        wanted.append(hand[place] if ours else answer)
    return wanted, len(hand)
