#!/usr/bin/env python3
"""Holds programs to the reference and to the crate's own parser on a client's bytes: the line `message` of call scripts.

usage: compare_messages.py ORACLE REFERENCE FIRST LAST [PROGRAM ..]     run at the repository's root, after `rt run` in crates/replay

ORACLE is the oracle's folder (`./build.sh` there builds target/release/oracle), REFERENCE the reference's (reference.py and messages.py are needed). Each seed
from FIRST to LAST is a script of some 450 messages; seeds 1 to 250 have more than 100,000. Sessions are begun by messages, with versions at random, and get
seats and devices with all interfaces or some; objects are released, removed and disconnected among the messages. Each script goes through one request
whole, the next seed through the next, 35 in turn: as it is, cut at every place, lengthened, each byte of its header and of its string's length changed,
lengths and opcodes at the edges, press states and context types from 0 to 3, bad UTF-8, on dead ids, and for Sync ids around the last one. Then one list is
filled past its end, and messages of all requests follow, a third of them damaged at random, and random bytes. PROGRAM gets the script on standard input
(crates/replay/out/replay without one).

Each message is judged in three ways:
- The trail of each program is that of the reference, line by line.
- The case that the crate's parser tells of the same bytes is the trail's, where the crate decides. It is asked with a fresh backend each time, in which the
  objects live that the trail's own records have announced and not ended, and which takes the ids behind the last accepted Sync; so it has met no refused
  Sync. Where it does not decide, by docs/DIFFERENCES.md, the answer is compared with what is said there: a dead object comes before a length and before
  waiting, lengths above 1,024 (there 1 MiB) are malformed, and bytes left over come before a Sync's id.
- A script that has, for each message that the crate's parser took, the line of the request that it read, and no other message, has the same trail but for
  `taken`, which is the message's length.
"""
import collections
import os
import random
import struct
import subprocess
import sys

import compare_reference

FIRST = 0xFF00000000000000
IDS = 64                                # the oracle's parser knows so many ids of a server
HEADER = struct.Struct("<QII")
INTERFACES = ["handshake", "connection", "callback", "pingpong", "seat", "device", "pointer", "pointer_absolute", "scroll", "button", "keyboard", "touchscreen",
              "text"]
# By interface and opcode, the arguments: u 32 bits, q 64, f an f32, c context type, p press state, n a new id, s a string.
REQUESTS = {0: ["u", "", "c", "s", "su"], 1: ["nu", ""], 4: ["", "q", "q"], 5: ["", "uu", "u", "uq", ""], 6: ["", "ff"], 7: ["", "ff"],
            8: ["", "ff", "uu", "uuu"], 9: ["", "up"], 10: ["", "up"], 11: ["", "uff", "uff", "u", "u"], 12: ["", "up", "s"]}
TURNS = [(interface, opcode) for interface in REQUESTS for opcode in range(len(REQUESTS[interface]))]
CHARACTERS = ["\x00", "a", "7", "\x7f", "\x80", "\u00e9", "\u07ff", "\u0800", "\ud7ff", "\ue000", "\uffff", "\U00010000", "\U0010ffff"]
BAD = [b"\x80", b"\xbf", b"\xc0\x80", b"\xc1\xbf", b"\xc3", b"\xe0\x9f\xbf", b"\xe2\x82", b"\xed\xa0\x80", b"\xf0\x8f\xbf\xbf", b"\xf0\x9f\x98",
       b"\xf4\x90\x80\x80", b"\xf5\x80\x80\x80", b"\xff"]
FLOATS = [0, 1, 0x80000000, 0x3F800000, 0x7F800000, 0xFF800000, 0x7F800001, 0x7FC00000, 0xFFFFFFFF, 0x7F7FFFFF]


class Script:
    """A script, with the reference beside it, which tells the generator what lives; what the crate is asked goes by the trail alone."""

    def __init__(self, seed, reference):
        self.r = random.Random(f"messages/{seed}")
        self.reference, self.runner = reference, reference.Runner(reference.read_requests(compare_reference.LANDED))
        self.lines, self.trail, self.of = [], [], []      # of: the line of each answer
        self.messages = 0
        self.begin()
        self.sweep(*TURNS[seed % len(TURNS)])
        self.fill(seed % 4)
        most = self.messages + 160
        while self.messages < most:
            self.odd_call()
            self.say(self.any_message())
        for _ in range(20):
            self.emit("next_request") if self.session() else None
        self.emit("last_serial") if self.session() else None

    # The session.

    def emit(self, line):
        self.lines.append(line)
        answer = self.runner.line(line)
        if answer is not None:
            self.trail.append(answer)
            self.of.append(len(self.lines) - 1)
        return answer

    def say(self, data):
        self.messages += 1
        return self.emit("message t:" + data.hex())

    def session(self):
        return isinstance(self.runner.state, self.reference.Session)

    def live(self):
        return self.runner.state.live

    def begin(self):
        """A handshake, mostly by messages and mostly to its end, a seat and a device or more."""
        r = self.r
        self.emit(f"out {r.choice([13, 14]) if r.random() < 0.03 else 4096}")
        self.emit(f"start {r.choice([0, 7, 2**32 - 3, r.getrandbits(32)])}")
        self.emit("out 4096")
        if r.random() < 0.3:
            self.finish_handshake(r.sample(range(1, 13), r.randrange(13)))
        if not self.session() and r.random() < 0.9:
            self.to_session()

    def finish_handshake(self, wanted):
        r = self.r
        for interface in wanted:
            name = b"ei_" + INTERFACES[interface].encode()
            version = r.choice([1, 1, 2, 2, 3, 9, 0, 2**32 - 1])
            self.say(self.pack(0, 4, self.string(name) + version.to_bytes(4, "little")))
            if r.random() < 0.15:
                self.say(self.damaged(self.message(0, r.choice([0, 2, 3, 4]), 0)))
        self.say(self.pack(0, 1, b""))

    def to_session(self):
        r = self.r
        self.emit("out 4096")
        wanted = list(range(4, 13))
        if r.random() < 0.4:
            wanted = r.sample(wanted, r.randrange(10))
        wanted += [1, 2, 3]
        r.shuffle(wanted)
        self.finish_handshake(wanted)
        while not self.session():
            self.finish_handshake([1, 2, 3])
        for _ in range(r.choice([1, 1, 2])):
            self.emit(f"add_seat {r.choice(['none', 't:41'])} {r.choice([127, 127, 127, r.randrange(128)])}")
        for _ in range(r.choice([1, 2, 3])):
            self.add_device()

    def add_device(self):
        seats = sorted(self.runner.state.seats)
        if seats and self.runner.state.next_id + 8 <= FIRST + IDS:
            self.emit(f"add_device {self.r.choice(seats):#x} none {self.r.choice([1, 2])} {self.r.choice([127, 127, self.r.randrange(128)])}")

    def of_interface(self, interface):
        return sorted(ident for ident, (number, _) in self.live().items() if number == interface)

    def ensure(self, interface):
        """An object of this interface lives, begun anew where there is none."""
        if interface == 0:
            if self.session():
                self.emit(f"start {self.r.getrandbits(32)}")
            return
        for _ in range(40):
            if not self.session():
                self.to_session()
            if self.of_interface(interface):
                return
            self.emit("out 4096")
            room = self.runner.state.next_id + 9 <= FIRST + IDS
            made = interface <= 5 or interface in self.runner.state.negotiated      # else none is made in this session
            if not room or not made or FIRST not in self.live():
                self.emit(f"start {self.r.getrandbits(32)}")
                continue
            wide = [ident for ident, seat in self.runner.state.seats.items() if seat.capabilities == self.runner.state.negotiated_mask()]
            if not wide:
                if len(self.runner.state.seats) == 4:
                    self.emit(f"remove_seat {min(self.runner.state.seats):#x}")
                self.emit("add_seat none 127")
                wide = [max(self.runner.state.seats)]
            if interface > 4:
                if len(self.runner.state.devices) == 8:
                    self.emit(f"remove_device {min(self.runner.state.devices):#x}")
                self.emit(f"add_device {wide[0]:#x} none 1 127")
        raise AssertionError(f"no {INTERFACES[interface]} could be made to live")

    def odd_call(self):
        """What a station does among the messages."""
        r = self.r
        if not self.session():
            if r.random() < 0.1:
                self.to_session()
            return
        state, chance = self.runner.state, r.random()
        if FIRST not in self.live() and r.random() < 0.04 or state.next_id + 9 > FIRST + IDS and chance < 0.02:
            self.begin()
        elif chance < 0.10 or len(state.queue) > 230 and chance < 0.3:
            for _ in range(r.choice([1, 2, 40, 300])):
                if self.emit("next_request") == "none":
                    break
        elif chance < 0.13 or not state.devices and chance < 0.5:
            self.add_device()
        elif chance < 0.14 or not state.seats and chance < 0.7:
            if len(state.seats) < 4 and state.next_id + 1 <= FIRST + IDS:
                self.emit(f"add_seat none {r.choice([127, r.randrange(128)])}")
        elif chance < 0.145 and state.devices:
            self.emit(f"remove_device {r.choice(sorted(state.devices)):#x}")
        elif chance < 0.148 and state.seats:
            self.emit(f"remove_seat {r.choice(sorted(state.seats)):#x}")
        elif chance < 0.150:
            self.emit(f"disconnected {r.randrange(6)} none")
        elif chance < 0.16 and state.devices:
            self.emit(f"paused {r.choice(sorted(state.devices)):#x}")
        elif chance < 0.18:
            self.emit(f"connection.sync {r.choice([1, 5, state.next_peer % FIRST])} 1")
        elif chance < 0.20:
            self.emit(f"now {r.getrandbits(64)}")
        elif chance < 0.25:
            self.emit(f"out {r.choice([0, 13, 14, 17, 18, 28, 111, 112, 4096, 4096, 4096, 4096])}")

    # Messages.

    def pack(self, ident, opcode, arguments, length=None):
        return HEADER.pack(ident, 16 + len(arguments) if length is None else length, opcode) + arguments

    def string(self, text, count=None):
        """A string as an argument; its closing byte and its padding, which are not looked at, are often no zeros."""
        size = len(text) + 1
        behind = 1 + -size % 4
        filler = bytes(behind) if self.r.random() < 0.6 else self.r.randbytes(behind)
        return (size if count is None else count).to_bytes(4, "little") + text + filler

    def text(self):
        r = self.r
        size = r.choice([0, 1, 2, 3, 4, 5, 7, 8, 20, 40, 253, 254, 255, 256, 600, 990, 999, 1000, 1003])
        text = b""
        while len(text) < size:
            character = r.choice(CHARACTERS) if r.random() < 0.4 else chr(r.randrange(32, 127))
            text += character.encode()[:size - len(text)] if r.random() < 0.01 else character.encode()
        while len(text) > 1003:
            text = text[:-1]
        if r.random() < 0.15:
            place = r.randrange(len(text) + 1)
            text = (text[:place] + r.choice(BAD) + text[place:])[:1003]
        return text

    def argument(self, kind):
        r = self.r
        if kind == "s":
            return self.string(self.text() if r.random() < 0.7 else b"ei_" + r.choice(INTERFACES).encode())
        if kind == "q":
            masks = [127, r.randrange(128), 1 << r.randrange(7), 1 << r.randrange(64), r.getrandbits(64)]
            return r.choice(masks).to_bytes(8, "little")
        if kind == "n":
            peer = self.runner.state.next_peer if self.session() else 1
            ids = [peer, peer, peer, peer - 1, peer + 1, peer + r.randrange(9), 0, 1, FIRST, FIRST + 1, r.getrandbits(64), 2**64 - 1]
            number = r.choice(ids) if r.random() < 0.995 else FIRST - 1
            # Few ids as high as that, for none is left behind them.
            number = number if number < 2**40 or number >= FIRST - 1 else number % 2**20
            return number.to_bytes(8, "little")
        if kind == "f":
            return r.choice(FLOATS + [r.getrandbits(32)] * 4).to_bytes(4, "little")
        if kind in "cp":
            known = [1, 2] if kind == "c" else [0, 1]
            return (r.choice(known) if r.random() < 0.85 else r.choice([0, 1, 2, 3, 256, 65536, 2**31, 2**32 - 1])).to_bytes(4, "little")
        return r.choice([0, 1, 1, 2, 3, r.randrange(24), 255, 2**31 - 1, 2**31, 2**32 - 1, r.getrandbits(32)]).to_bytes(4, "little")

    def message(self, interface, opcode, ident):
        return self.pack(ident, opcode, b"".join(map(self.argument, REQUESTS[interface][opcode])))

    def odd_id(self):
        r, given = self.r, self.runner.state.next_id
        once = [r.randrange(FIRST, given + 1) for _ in range(2)]
        return r.choice([0, 1, 5, 999, 2**64 - 1, FIRST - 1, FIRST, given, given - 1, *once, r.getrandbits(64)])

    def any_message(self):
        r = self.r
        live = sorted(self.live())
        if not live or r.random() < 0.07:
            interface = r.choice(list(REQUESTS))
            data = self.message(interface, r.randrange(len(REQUESTS[interface])), self.odd_id())
        else:
            ident = r.choice(live)
            interface = self.live()[ident][0]
            opcodes = range(len(REQUESTS[interface]))
            if r.random() < 0.5:                        # the connection and seats are few, and a release ends what it is sent to
                ident = r.choice([one for one in live if self.live()[one][0] > 4] or live)
                interface = self.live()[ident][0]
                opcodes = range(len(REQUESTS[interface]))
            opcode = r.choice(opcodes)
            if opcode == 0 and interface >= 4 and r.random() < 0.8:
                opcode = opcodes[-1]
            if interface == 5 and opcode == 4 and r.random() < 0.6:
                opcode = 3
            data = self.message(interface, opcode, ident)
        if r.random() < 0.35:
            data = self.damaged(data)
        return data + (r.randbytes(r.choice([1, 4, 16, 24])) if r.random() < 0.1 else b"")

    def damaged(self, data):
        r, which = self.r, self.r.randrange(11)
        ident, length, opcode = HEADER.unpack_from(data)
        if which == 0:
            return data[:r.randrange(len(data))]
        if which == 1:                                  # shorter or longer, and the length says so
            body = data[16:][:r.randrange(len(data) - 15)] if r.random() < 0.5 else data[16:] + r.randbytes(r.choice([1, 2, 4, 8, 60]))
            return self.pack(ident, opcode, body)
        if which == 2:
            lengths = [0, 15, 16, length - 4, length - 1, length + 1, length + 4, 1024, 1025, 2**20, 2**20 + 1, 2**32 - 1]
            return self.pack(ident, opcode, data[16:], r.choice(lengths))
        if which == 3:
            return self.pack(ident, r.choice([0, 1, 2, 3, 4, 5, 6, 256, 2**32 - 1]), data[16:])
        if which == 4:
            return self.pack(self.odd_id(), opcode, data[16:])
        if which == 5:                                  # random bytes behind a header that stands
            return data[:16] + r.randbytes(len(data) - 16)
        if which == 6:
            return r.randbytes(r.choice([0, 1, 15, 16, 17, 24, 28, 40, 1100]))
        if which == 7:
            size = r.choice([1004, 1008, 1009, 1020]) if r.random() < 0.3 else 8
            return self.pack(ident, opcode, (data[16:] + bytes(size))[:size])
        if which == 8 and len(data) >= 20:              # another count of a string's bytes, or a first argument
            return data[:16] + r.choice([0, 0, 1, 2, 3, len(data) - 20, 2**32 - 1]).to_bytes(4, "little") + data[20:]
        changed = bytearray(data)
        for _ in range(r.choice([1, 1, 1, 2, 3])):
            place = r.randrange(16) if r.random() < 0.4 else r.randrange(len(changed))
            changed[place] = r.choice([0, 1, 2, 255, changed[place] ^ 1, changed[place] ^ 128, r.getrandbits(8)])
        return bytes(changed)

    def fill(self, which):
        """A list up to its end and past it: held touches, pending requests, texts that wait, the queue."""
        interface, opcode, most = [(11, 1, 20), (10, 1, 66), (12, 2, 36), (1, 1, 258)][which]
        self.ensure(interface)
        ident = self.r.choice(self.of_interface(interface))
        arguments = {11: b"%c\0\0\0\0\0\x80?\0\0\0\xff", 10: b"%c\0\0\0\1\0\0\0", 12: b"\2\0\0\0%c\0\0\0", 1: b""}[interface]
        for count in range(most):
            self.say(self.pack(ident, opcode, arguments % (count + 65) if interface > 1 else b""))

    # One request whole.

    def sweep(self, interface, opcode):
        r, kinds = self.r, REQUESTS[interface][opcode]

        def fresh():
            """A message of this request on an object that lives, of a moderate length."""
            self.ensure(interface)
            while True:
                data = self.message(interface, opcode, r.choice(self.of_interface(interface) or [0]))
                if len(data) < 80:
                    return data

        def tried(change):
            data = fresh()
            self.say(change(data, *HEADER.unpack_from(data)))
            if r.random() < 0.1:
                self.odd_call()

        def changed(place, value):
            return lambda data, *_: data[:place] + bytes([value(data[place])]) + data[place + 1:]

        for _ in range(8):
            tried(lambda data, *_: data)
        for more in (1, 5, 16):
            tried(lambda data, *_: data + r.randbytes(more))
        whole = fresh()
        for place in range(len(whole) + 1):
            self.ensure(interface)
            self.say(HEADER.pack(r.choice(self.of_interface(interface)), *HEADER.unpack_from(whole)[1:])[:place] + whole[16:place])
        for place in range(16):
            for value in (lambda old: old ^ 1, lambda old: old ^ 1 << r.randrange(8), lambda old: r.getrandbits(8)):
                tried(changed(place, value))
        for number in (0, 1, 15, 16, 17, 20, 1023, 1024, 1025, 1028, 2**16, 2**20, 2**20 + 1, 2**31, 2**32 - 1):
            tried(lambda data, ident, length, op: self.pack(ident, op, data[16:], number))
            if 16 <= number < 1030:                     # and as long as it says
                tried(lambda data, ident, length, op: self.pack(ident, op, (data[16:] + bytes(number))[:number - 16]))
        for number in (-8, -5, -4, -3, -2, -1, 1, 2, 3, 4, 5, 8):
            tried(lambda data, ident, length, op: self.pack(ident, op, (data[16:] + r.randbytes(8))[:max(length - 16 + number, 0)]))
            tried(lambda data, ident, length, op: self.pack(ident, op, data[16:], length + number))
        for number in (0, 1, 2, 3, 4, 5, 6, 255, 256, 2**31, 2**32 - 1):
            tried(lambda data, ident, length, op: self.pack(ident, number, data[16:]))
        for _ in range(6):
            tried(lambda data, ident, length, op: self.pack(self.odd_id(), op, data[16:]))
            tried(lambda data, ident, length, op: self.pack(ident, op, r.randbytes(length - 16)))
        if kinds.startswith("s"):
            self.sweep_string(tried, changed, len(kinds) > 1)
        if kinds.endswith(("c", "p")):
            for number in (0, 1, 2, 3, 4, 256, 257, 65536, 2**24, 2**31, 2**32 - 1):
                tried(lambda data, ident, length, op: self.pack(ident, op, data[16:-4] + number.to_bytes(4, "little")))
                tried(lambda data, ident, length, op: self.pack(ident, op, data[16:-4] + number.to_bytes(4, "little") + bytes(4)))
        if kinds == "nu":
            self.sweep_sync()

    def sweep_string(self, tried, changed, version):
        r, behind = self.r, b"\x01\x00\x00\x00" if version else b""
        for place in range(16, 20):
            for value in (lambda old: old ^ 1, lambda old: old ^ 1 << r.randrange(8), lambda old: 255, lambda old: r.getrandbits(8)):
                tried(changed(place, value))
        for count in (*range(14), 2**31, 2**32 - 4, 2**32 - 3, 2**32 - 2, 2**32 - 1):
            tried(lambda data, ident, length, op: self.pack(ident, op, self.string(b"abcdef7", count) + behind))
        for size in (0, 1, 2, 3, 4, 5, 253, 254, 255, 256, 998, 999, 1000, 1002, 1003, 1004):
            tried(lambda data, ident, length, op: self.pack(ident, op, self.string(b"x" * size) + behind))
        for bad in BAD:
            tried(lambda data, ident, length, op: self.pack(ident, op, self.string(bad) + behind))
            tried(lambda data, ident, length, op: self.pack(ident, op, self.string(b"abc" + bad + b"d") + behind))
            tried(lambda data, ident, length, op: self.pack(ident, op, self.string(bad)[:-1]))
        for character in CHARACTERS:
            tried(lambda data, ident, length, op: self.pack(ident, op, self.string(character.encode()) + behind))

    def sweep_sync(self):
        """Ids around the last one, refused Syncs before the same id, and the last id of all."""
        def sync(ident, version=1, more=b""):
            self.ensure(1)
            return self.say(self.pack(FIRST, 0, ident.to_bytes(8, "little") + version.to_bytes(4, "little") + more))

        self.emit("out 4096")
        for step in (0, 1, 2, 9, 1000):
            self.ensure(1)
            at = self.runner.state.next_peer + step
            for near in (at - 1, at, at, at - 1, at + 1, at, 0):
                sync(near % 2**64)
            peer = self.runner.state.next_peer
            for version in (0, 2, 2**32 - 1, 1, 1):
                sync(peer, version)
            peer = self.runner.state.next_peer
            for more in (b"\0", bytes(4), bytes(9), b""):
                sync(peer, 1, more)
            sync(peer, 1, bytes(4))
            sync(peer, 2, bytes(4))
        for room in (0, 17, 18):
            self.emit(f"out {room}")
            sync(self.runner.state.next_peer if self.session() else 1)
        self.emit("out 4096")
        for high in (FIRST, FIRST + 1, 2**64 - 1, FIRST - 2, FIRST - 2, FIRST - 1, FIRST - 1, FIRST, 0, 1):
            sync(high)
        self.emit("start 7")


class Followed:
    """What a trail's records say of lives: the objects announced and not ended, and the id behind the last Sync that a message brought."""

    def __init__(self):
        self.live, self.peer = {}, 1

    def after(self, line, answer):
        if line.startswith("start "):
            self.live, self.peer = {0: (0, 1)}, 1
        for record in map(bytes.fromhex, answer.partition(" |")[2].split()):
            kind, ident = record[0] >> 3, int.from_bytes(record[2:10], "big")
            new, last = int.from_bytes(record[10:18], "big"), int.from_bytes(record[-4:], "big")
            if kind in (1, 6):
                self.live[new] = ({1: 4, 6: 5}[kind], last)
            elif kind == 8:
                self.live[new] = (record[18], last)
            elif kind == 18:
                del self.live[0]
                self.live[new] = (1, last)
            elif kind in (5, 14):
                self.live.pop(ident, None)
            elif kind == 15 and line.startswith("message "):
                self.peer = ident + 1


def asked(lines, trail, of):
    """The lines for the crate's parser, and of each message its place in the trail, its bytes and the live ids."""
    followed, objects, questions, places = Followed(), None, [], []
    for place, (at, answer) in enumerate(zip(of, trail)):
        line = lines[at]
        if line.startswith("message "):
            now = " ".join(f"{ident:#x}:{interface}:{version}" for ident, (interface, version) in sorted(followed.live.items()))
            if now != objects:
                objects = now
                questions.append(f"objects {now}".rstrip())
            questions.append(f"parse {followed.peer} {line.split(' ')[1]}")
            places.append((place, bytes.fromhex(line[10:]), set(followed.live)))
        followed.after(line, answer)
    return questions, places


def wanted(data, live, said):
    """What the crate's first answer asks of the trail's: which class it is counted in, and the answer, or None for any that a parsed message may have."""
    if len(data) < 16:
        return "wait", said
    ident, length, _ = HEADER.unpack_from(data)
    if ident not in live:
        if length < 16 or length > min(len(data), 2**20):
            return "listed: a dead object first", "refused 24"
        return "no object", "refused 24" if said == f"object {ident:#018x}" else said
    if 1024 < length <= 2**20:
        return "listed: above 1,024", f"refused 23 HeaderLength {length}"
    if said == "wait":
        return "wait", "wait"
    if said.startswith("InvalidId "):
        return ("InvalidId", "refused 25") if length == 28 else ("listed: left over before the id", f"refused 23 MessageLength {2 * length - 28} {length}")
    if said[0].isupper():
        return said.split(" ")[0], f"refused 23 {said}"
    return "parsed", None


def main():
    if len(sys.argv) < 5:
        sys.exit(__doc__)
    oracle, first, last = os.path.join(sys.argv[1], "target/release/oracle"), int(sys.argv[3]), int(sys.argv[4])
    sys.path.insert(0, sys.argv[2])
    import reference
    programs = sys.argv[5:] or ["crates/replay/out/replay"]
    answers, classes, requests = collections.Counter(), collections.Counter(), collections.Counter()
    messages = calls = lines_held = different = 0

    def played(command, lines):
        done = subprocess.run(command, input="\n".join(lines) + "\n", capture_output=True, text=True)
        return done.stdout.splitlines() + ([f"exit status {done.returncode}"] if done.returncode else [])

    def held(what, seed, lines, of, ours, theirs):
        """Tells the first difference of two trails."""
        nonlocal different
        for place in range(max(len(ours), len(theirs))):
            a, b = (trail[place] if place < len(trail) else "(no line)" for trail in (ours, theirs))
            if a != b:
                different += 1
                print(f"seed {seed}, {what}: {lines[of[place]][:300] if place < len(of) else '(no call)'}\n  wanted {a[:300]}\n  found  {b[:300]}", flush=True)
                return False
        return True

    for seed in range(first, last + 1):
        script = Script(seed, reference)
        lines, trail, of = script.lines, script.trail, script.of
        calls += len(trail)
        messages += script.messages
        for program in programs:
            held(f"{program} beside the reference", seed, lines, of, trail, played([program], lines))

        # The crate's parser, beside the reference's trail, which is that of the programs where nothing was told above.
        questions, places = asked(lines, trail, of)
        told = played([oracle, "--messages"], questions)
        assert len(told) == len(places), f"seed {seed}: the oracle ended with {told[-1:]}"
        instead, dropped = {}, set()
        for (place, data, live), said in zip(places, told):
            said = said.split(" ; ")[0]
            head = trail[place].partition(" |")[0]
            kind, want = wanted(data, live, said)
            classes[kind] += 1
            answers[" ".join(head.split(" ")[:3 if head.startswith("refused 23") else 2]) if head.startswith("refused") else head.split(" ")[0]] += 1
            if want is None:
                instead[of[place]] = said
                requests[said.split(" ")[0]] += 1
                taken = f"accepted taken {int.from_bytes(data[8:12], 'little')}"
                right = head == taken or head.startswith("refused ") and int(head.split(" ")[1]) not in range(21, 26)
            else:
                dropped.add(of[place])
                right = head == want
            if not right:
                different += 1
                print(f"seed {seed}, the crate's parser: {lines[of[place]][:300]}\n  the crate {said[:300]}\n  the trail {head[:300]}", flush=True)

        # The same script with the requests that the crate's parser read.
        singles = [instead.get(at, line) for at, line in enumerate(lines) if at not in dropped]
        kept = [(place, at) for place, at in enumerate(of) if at not in dropped]
        shown = []
        for place, at in kept:
            head, bar, records = trail[place].partition(" |")
            shown.append(("accepted" if at in instead and head.startswith("accepted") else head) + bar + records)
        lines_held += len(instead)
        held("the requests that the crate read, as lines", seed, [instead.get(at, line) for at, line in enumerate(lines)], [at for _, at in kept],
             shown, played([programs[0]], singles))

    print(", ".join(f"{count} {name}" for name, count in sorted(answers.items())))
    print("by the crate's parser: " + ", ".join(f"{count} {name}" for name, count in sorted(classes.items())))
    print(f"{len(requests)} requests read: " + ", ".join(f"{count} {name}" for name, count in sorted(requests.items())))
    print(f"{messages} messages in {last - first + 1} scripts of {calls} calls, {lines_held} played as lines too, {len(programs)} programs: {different} differ")
    sys.exit(1 if different else 0)


if __name__ == "__main__":
    main()
