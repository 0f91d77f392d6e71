#!/usr/bin/env python3
"""Each press in one frame, checked on trails: replay's, and where the crate has the calls, the crate's own (docs/PROMISES.md has the theorems).

usage: check_frames.py ORACLE REFERENCE FIRST LAST [CALLS [REPLAY]]     run at the repository's root, after `rt run` in crates/replay

ORACLE and REFERENCE are the folders of the oracle and of the reference (compare_sessions.py, compare_reference.py). For each seed from FIRST to LAST one random
script of about CALLS calls (400) of each of the oracle's six kinds, as compare_sessions.py has them, played by both programs, and of each of the reference's
kinds that have releases, whole reads, a client's bytes and interfaces left out of the handshake, played by replay. In each script the payloads are numbers that
no other request has, where they have room for one; those of a client's bytes stay as they are. Of a script three beginnings, each with its session begun, are
played too, since the property is to hold after every call.

What was taken on each device, and what closed its frames, is told from the calls and their answers. A script then goes on until all that it queued was delivered,
and closes the frame of each device that has pending requests: so every place can be seen. To hold then:
- all that was delivered is a list of blocks: an untimed request that is no Frame, or an unbroken run of one device's timed requests with one time, closed by that
  device's Frame with that time;
- of each device that stands, what was delivered is what was taken, in order, payload and all; of each that was removed, that but for the last requests, as many
  as were taken since its frame was last closed;
- a frame takes all: the runs, in order, are those that requests closed, each with all that was taken on its device since the last, and with the Frame's own time
  or the clock's;
- no device holds more than 16 touches, and what is destroyed is what a removal or a release takes out.
Of each trail wrong ones are made besides: a request or a Frame given twice, not given, with another time or of another device; a request before the one before
it, or behind its Frame. The check has to refuse every one of them. What fails is printed, and the last line has the counts.
"""
import collections
import os
import random
import re
import subprocess
import sys

import compare_reference
import negotiation
import releases

BASE = ["mixed", "limits", "touch", "text", "removal", "frames"]
ADDED = compare_reference.PROFILES + ["all"]
BEGINNINGS = 3
# the number of each interface of a device, as event records have it
INTERFACES = {"pointer": 6, "pointer_absolute": 7, "scroll": 8, "button": 9, "keyboard": 10, "touchscreen": 11, "text": 12}
CLOSING = ("device.frame", "device.ready", "device.start_emulating", "device.stop_emulating", "device.release")
TIMED = {
    "pointer.motion_relative": ("PointerMotion", "dx:f", "dy:f"),
    "pointer_absolute.motion_absolute": ("PointerMotionAbsolute", "dx_absolute:f", "dy_absolute:f"),
    "scroll.scroll": ("ScrollDelta", "dx:f", "dy:f"),
    "scroll.scroll_discrete": ("ScrollDiscrete", "discrete_dx:n", "discrete_dy:n"),
    "scroll.scroll_stop": ("ScrollStop", "x:b", "y:b"),
    "button.button": ("Button", "button:n", "state:n"),
    "keyboard.key": ("KeyboardKey", "key:n", "state:n"),
    "touchscreen.down": ("TouchDown", "touch_id:n", "x:f", "y:f"),
    "touchscreen.motion": ("TouchMotion", "touch_id:n", "x:f", "y:f"),
    "touchscreen.up": ("TouchUp", "touch_id:n"),
    "touchscreen.cancel": ("TouchCancel", "touch_id:n"),
    "text.keysym": ("TextKeysym", "keysym:n", "state:n"),
    "text.utf8": ("TextUtf8", "text:t"),
}
KINDS = {row[0] for row in TIMED.values()} | {"ScrollCancel"}
# the word of a line that a number is put in: 32 bits of any kind
NUMBERED = {"pointer.motion_relative": 2, "pointer_absolute.motion_absolute": 2, "scroll.scroll": 2, "scroll.scroll_discrete": 2, "button.button": 2,
            "keyboard.key": 2, "touchscreen.down": 3, "touchscreen.motion": 3, "text.keysym": 2}


class Wrong(Exception):
    """The property does not hold of a trail."""


def shown(way, word):
    """A field of a request as a trail has it, from the word of its line."""
    if way == "t":
        return word
    if word == "nan":
        return "nan"
    number = int(word, 0)
    if way == "b":
        return "true" if number else "false"
    if way == "f":
        return "nan" if number & 0x7FFFFFFF > 0x7F800000 else "0x%08x" % number
    return str(number)


def numbered(script):
    """The script with a number of its own in each payload that has room for one."""
    lines, n = [], 0
    for line in script.splitlines():
        words = line.split(" ")
        if words[0] in NUMBERED and len(words) > NUMBERED[words[0]]:
            n += 1
            words[NUMBERED[words[0]]] = f"{n:#010x}"
        lines.append(" ".join(words))
    return lines


class Call:
    """A line of a script with the clock that is set there, and of a read its records."""

    def __init__(self, line, now):
        self.words, self.now, self.records = line.split(" "), now, []
        self.verb = self.words[0]
        self.left = int(self.words[1], 0) if self.verb == "read" else 0


def calls_of(lines):
    calls, now = [], 0
    for line in lines:
        if line.startswith("now "):
            now = int(line.split(" ")[1], 0)
        if releases.is_call(line):
            if calls and calls[-1].left:
                calls[-1].records.append(line)
                calls[-1].left -= 1
            else:
                calls.append(Call(line, now))
    return calls


class Checker:
    """What a trail tells, call by call."""

    def __init__(self, messages):
        self.messages = messages
        self.seats, self.seat_of = set(), {}
        self.interfaces = {}                                # id -> interface number, device
        self.held = collections.defaultdict(set)
        self.taken = collections.defaultdict(list)          # device -> what was taken on it
        self.closed = collections.Counter()                 # device -> how many of these its frames have closed
        self.runs = []                                      # what requests have closed: device, time, what was taken since the last
        self.history = []                                   # delivered: (kind, device, time, fields)

    def call(self, call, answer):
        answer, _, events = answer.partition(" |")
        events = [bytes.fromhex(word) for word in events.split()]
        said, gone = answer.split(" "), set()
        if call.verb == "next_request":
            if said[0] not in ("none", "refused"):
                self.given(said)
        elif call.verb == "read":
            texts = bytes.fromhex(call.words[2][2:])
            for record in call.records[:int(said[1])]:
                self.request([self.part(word, texts) for word in record.split(" ")], call.now, gone)
        elif call.verb == "message":
            if said[0] == "accepted":
                read = self.messages.read_request(bytes.fromhex(call.words[1][2:]), self.interface, 0)
                self.request([read[2]] + [str(word) for word in read[3]], call.now, gone)
        elif said[0] == "seat":
            self.seats.add(int(said[1], 16))
        elif said[0] == "device":
            device = int(said[1], 16)
            self.seat_of[device] = int(call.words[1], 0)
            for event in events:
                if event[0] >> 3 == 8:
                    self.interfaces[int.from_bytes(event[10:18], "big")] = (event[18], device)
        elif said[0] == "accepted":
            self.request(call.words, call.now, gone)
        destroyed = [int.from_bytes(event[2:10], "big") for event in events if event[0] >> 3 == 5]
        if sorted(destroyed) != sorted(gone):
            raise Wrong(f"destroyed {destroyed}, and gone are {sorted(gone)}")

    def interface(self, ident):
        """The number of an object's interface, with any version: the handshake, a seat, a device, an interface of one, or else the connection."""
        return (0 if ident == 0 else 4 if ident in self.seats else 5 if ident in self.seat_of else self.interfaces.get(ident, (1, 0))[0], 1)

    @staticmethod
    def part(word, texts):
        if not word.startswith("p:"):
            return word
        first, length = (int(n, 0) for n in word[2:].split(":"))
        return "t:" + texts[first:first + length].hex()

    def request(self, words, now, gone):
        """A call that was accepted: a client's request, or one of the station's that takes devices out."""
        verb = words[0]
        of_object = verb in TIMED or verb in CLOSING or verb in releases.RELEASES or verb in ("paused", "remove_device", "remove_seat")
        target = int(words[1], 0) if of_object else None
        if verb in TIMED:
            self.timed(verb, target, words[2:])
        elif verb in CLOSING and target in self.seat_of:
            waited = self.taken[target][self.closed[target]:]
            if waited:
                self.runs.append((target, str(int(words[3], 0) if verb == "device.frame" else now), waited))
            self.closed[target] = len(self.taken[target])
        elif verb == "paused":
            self.held[target].clear()
        elif verb == "remove_device":
            self.remove(target, gone)
        elif verb in ("remove_seat", "seat.release") and target in self.seats:
            self.retire(target, gone)
        elif verb == "disconnected":
            for seat in list(self.seats):
                self.retire(seat, gone)
        elif verb in releases.RELEASES and self.interfaces.get(target, (0, 0))[0] == INTERFACES.get(verb.split(".")[0]):
            del self.interfaces[target]
            gone.add(target)

    def retire(self, seat, gone):
        for device in [d for d, s in self.seat_of.items() if s == seat]:
            self.remove(device, gone)
        self.seats.discard(seat)
        gone.add(seat)

    def remove(self, device, gone):
        for ident in [i for i, (_, d) in self.interfaces.items() if d == device]:
            del self.interfaces[ident]
            gone.add(ident)
        del self.seat_of[device]
        gone.add(device)

    def timed(self, verb, ident, args):
        """A timed request that was not refused: taken, where it is not ignored."""
        number, device = self.interfaces.get(ident, (0, 0))
        if number != INTERFACES[verb.split(".")[0]]:
            return
        kind, *fields = TIMED[verb]
        if verb == "touchscreen.cancel":
            args = args[1:]
        if verb.startswith("touchscreen."):
            touch = int(args[0], 0)
            held = self.held[device]
            if kind == "TouchDown":
                held.add(touch)
                if len(held) > 16:
                    raise Wrong(f"{len(held)} touches held")
            elif touch not in held:
                return
            elif kind in ("TouchUp", "TouchCancel"):
                held.remove(touch)
        if kind == "ScrollStop" and int(args[2], 0):
            kind = "ScrollCancel"
        self.taken[device].append((kind, *(f"{name}={shown(way, word)}" for (name, _, way), word in zip((f.partition(":") for f in fields), args))))

    def given(self, said):
        fields = dict(word.split("=", 1) for word in said[1:])
        device = int(fields["device"], 16) if "device" in fields else None
        time = fields.get("time") if said[0] in KINDS or said[0] == "Frame" else None
        rest = tuple(word for word in said[1:] if not word.startswith(("device=", "time=")))
        self.history.append((said[0], device, time, rest))

    def waiting(self):
        """The devices that have pending requests."""
        return [device for device in self.seat_of if len(self.taken[device]) > self.closed[device]]

    def end(self):
        """All that was queued is delivered now, and no device that stands has anything pending."""
        runs, run = [], None
        for kind, device, time, rest in self.history:
            if kind in KINDS:
                if run and run[:2] != (device, time):
                    raise Wrong("a run is broken, or has two times")
                run = run or (device, time, [])
                run[2].append((kind, *rest))
            elif kind == "Frame":
                if not run or run[:2] != (device, time):
                    raise Wrong("a Frame that closes no run of its device with its time")
                runs.append(run)
                run = None
            elif run:
                raise Wrong("a run is broken")
        if run:
            raise Wrong("a run that no Frame closes")
        given = collections.defaultdict(list)
        for kind, device, _, rest in self.history:
            if kind in KINDS:
                given[device].append((kind, *rest))
        lost = 0
        for device in set(self.taken) | set(given):
            most = len(self.taken[device]) if device in self.seat_of else self.closed[device]
            lost += len(self.taken[device]) - most
            if given[device] != self.taken[device][:most]:
                raise Wrong(f"device {device:#x}: what was delivered is not what was taken")
        if runs != self.runs:
            raise Wrong("a frame that does not take all, or has not the time that it was closed with")
        return len(runs), sum(map(len, given.values())), lost


def begin(lines, end):
    """So many lines, and a read that is not whole left out."""
    lines = lines[:end]
    calls = calls_of(lines)
    if calls and calls[-1].left:
        return lines[:max(i for i, line in enumerate(lines) if line.startswith("read "))]
    return lines


def play(program, lines):
    done = subprocess.run([program], input="".join(line + "\n" for line in lines).encode(), capture_output=True)
    return done.stdout.decode().splitlines()


def checked(messages, calls, trail):
    if len(calls) != len(trail):
        raise Wrong(f"{len(calls)} calls, {len(trail)} answers")
    if [call.verb for call in calls].count("start") != 1:
        sys.exit("a script of one session is wanted")
    checker = Checker(messages)
    for call, answer in zip(calls, trail):
        checker.call(call, answer)
    return checker


def whole(program, messages, lines):
    """The script with all that it queued delivered, then all that is pending on each device that stands."""
    drain = ["next_request"] * 257
    lines = lines + ["out 4096", "buffer 254"] + drain
    checker = checked(messages, calls_of(lines), play(program, lines))
    for device in checker.waiting():
        lines = lines + [f"device.frame {device:#018x} 0 77"] + drain
    return lines


def spoiled(calls, trail, rng):
    """Wrong trails made of a right one, by what `next_request` answers."""
    asked = [i for i, call in enumerate(calls) if call.verb == "next_request" and not trail[i].startswith("refused")]
    answers = [trail[i] for i in asked]
    given = [i for i, answer in enumerate(answers) if answer != "none"]
    timed = [i for i in given if answers[i].split(" ")[0] in KINDS]
    if not timed:
        return

    def answered(changed):
        wrong = list(trail)
        for place, answer in zip(asked, changed):
            wrong[place] = answer
        return wrong

    def swapped(one, other):
        changed = list(answers)
        changed[one], changed[other] = answers[other], answers[one]
        return answered(changed)

    def changed(place, name, value):
        return answered(answers[:place] + [re.sub(rf"\b{name}=\w+", f"{name}={value}", answers[place])] + answers[place + 1:])

    place = rng.choice(timed)
    frame = next(i for i in given if i > place and answers[i].startswith("Frame "))
    for what, i in (("a request", place), ("a Frame", frame)):
        before, this, behind = answers[:i], answers[i], answers[i + 1:]
        time = int(re.search(r"\btime=(\d+)", this).group(1))
        yield f"{what} given twice", answered(before + [this, this] + behind[:-1])
        yield f"{what} not given", answered(before + behind + ["none"])
        yield f"{what} with another time", changed(i, "time", time + 1)
        yield f"{what} of another device", changed(i, "device", "0xff0000000000ffff")
    earlier = [i for i in given if i < place]
    if earlier and answers[earlier[-1]] != answers[place]:
        yield "a request before the one before it", swapped(earlier[-1], place)
    yield "a request behind its Frame", swapped(place, frame)


def main():
    if len(sys.argv) not in (5, 6, 7):
        sys.exit(__doc__)
    oracle, reference, first, last = sys.argv[1], sys.argv[2], int(sys.argv[3]), int(sys.argv[4])
    count = sys.argv[5] if len(sys.argv) > 5 else "400"
    replay = os.path.abspath(sys.argv[6] if len(sys.argv) > 6 else "crates/replay/out/replay")
    sys.path.insert(0, reference)
    import messages
    env = dict(os.environ, PYTHONHASHSEED="0")
    theirs = f"{oracle}/target/release/oracle"
    totals, failed = collections.Counter(), 0
    for seed in range(first, last + 1):
        for kind in BASE + ADDED:
            base = kind in BASE
            if base:
                script = releases.without(negotiation.script(oracle, seed, count, "--profile", kind))
            else:
                words = [f"{reference}/gen02.py", str(seed), count, "--profile", kind, "--requests", compare_reference.LANDED]
                script = subprocess.run([sys.executable, *words], env=env, capture_output=True, check=True).stdout.decode()
            lines = numbered(script)
            rng = random.Random(f"{seed}/{kind}")
            running = next(i for i, line in enumerate(lines) if line.startswith("add_seat "))
            ends = [len(lines)] + [rng.randrange(running, len(lines)) + 1 for _ in range(BEGINNINGS)]
            for end in ends:
                begun = begin(lines, end)
                for name, program in [("replay", replay)] + ([("the crate", theirs)] if base else []):
                    try:
                        played = whole(program, messages, begun)
                        calls, trail = calls_of(played), play(program, played)
                        blocks, delivered, lost = checked(messages, calls, trail).end()
                    except Wrong as why:
                        failed += 1
                        print(f"seed {seed} {kind}, {end} lines, {name}: {why}")
                        continue
                    totals.update({f"{name}: trails": 1, f"{name}: calls": len(calls), f"{name}: frames": blocks, f"{name}: timed requests delivered": delivered,
                                   f"{name}: lost at a removal": lost})
                    for what, wrong in spoiled(calls, trail, rng):
                        try:
                            checked(messages, calls, wrong).end()
                        except Wrong:
                            totals["wrong trails, found wrong"] += 1
                        else:
                            failed += 1
                            print(f"seed {seed} {kind}, {end} lines, {name}: {what}, and not found")
            totals["scripts"] += 1
    for name, n in sorted(totals.items()):
        print(f"  {name}: {n}")
    print(f"{totals['scripts']} scripts, {failed} failures")
    sys.exit(1 if failed else 0)


if __name__ == "__main__":
    main()
