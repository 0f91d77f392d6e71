#!/usr/bin/env python3
"""Turns a call script and its trail into closed equations about the definitions of the crate `model`.

usage: equations.py SCRIPT TRAIL > NAME.antt

TRAIL is what the oracle writes of SCRIPT (target/release/oracle in its folder, which `./build.sh` there builds; Rust is needed, and no network).
From where the crate does not decide a session, the lines by hand of SCRIPT are taken in its stead (releases.py). A session begins with
each accepted handshake.finish; the handshake itself is no part of the definitions, and what it settled (connection, serial, versions) is read
off the trail. An equation says that the trail of the session's calls, as the definitions compute it, is the given one: each call's answer, its
event records as one number (0x1 and then the bytes, so that none is lost) and what next_request gave. antt checks it by computation, with the
trail as a literal on the right.
"""
import sys

import negotiation
import releases

INTERFACES = ["connection", "callback", "pingpong", "seat", "device", "pointer", "pointer_absolute", "scroll", "button", "keyboard",
              "touchscreen", "text"]
CAPABILITY = {"pointer": "Pointer", "pointer_absolute": "PointerAbsolute", "keyboard": "Keyboard", "touchscreen": "Touch", "scroll": "Scroll",
              "button": "Button", "text": "Text"}
BY_BIT = ["Pointer", "PointerAbsolute", "Keyboard", "Touch", "Scroll", "Button", "Text"]
REASONS = ["Disconnected", "Error", "Mode", "Protocol", "Value", "Transport"]
TYPES = {1: "Virtual", 2: "Physical"}
STATES = ["Released", "Press"]


def number(word):
    return int(word, 0)


def num(word):
    return str(number(word))


def ident(word):
    return f"{number(word):#018x}"


def integer(word):
    n = number(word)
    return f"(pos {n})" if n >= 0 else f"(negsuc {-n - 1})"


def real(word):
    bits = 0x7fc00000 if word == "nan" else number(word)
    if bits & 0x7f800000 == 0x7f800000 and bits & 0x007fffff:
        return "nan"
    return f"(f32 {bits:#010x})"


def byte_list(data):
    return "[]" if not data else "(" + " ∷ ".join(f"{b:#04x}" for b in data) + " ∷ [])"


def text(word):
    return byte_list(bytes.fromhex(word[2:]))


def optional(word):
    return "none" if word == "none" else f"(some {text(word)})"


def truth(word):
    return "true" if word in ("true", "1") else "false"


def handshake(verb, w):
    return {
        "handshake_version": lambda: f"HandshakeVersion {num(w[0])}",
        "finish": lambda: "Finish",
        "context_type": lambda: f"ContextType {num(w[0])}",
        "name": lambda: f"Name {text(w[0])}",
        "interface_version": lambda: f"InterfaceVersion {text(w[0])} {num(w[1])}",
    }[verb]()


PLAIN = {
    "connection.sync": lambda w: f"sync {num(w[0])} {num(w[1])}",
    "connection.disconnect": lambda w: "disconnect",
    "pingpong.done": lambda w: "pingpong_done",
    "seat.release": lambda w: f"seat_release {ident(w[0])}",
    "seat.bind": lambda w: f"bind {ident(w[0])} {num(w[1])}",
    "seat.request_device": lambda w: f"request_device {ident(w[0])} {num(w[1])}",
    "device.release": lambda w: f"device_release {ident(w[0])}",
    "device.start_emulating": lambda w: f"device_start_emulating {ident(w[0])} {num(w[1])} {num(w[2])}",
    "device.stop_emulating": lambda w: f"device_stop_emulating {ident(w[0])} {num(w[1])}",
    "device.frame": lambda w: f"device_frame {ident(w[0])} {num(w[1])} {num(w[2])}",
    "device.ready": lambda w: f"device_ready {ident(w[0])}",
    "next_request": lambda w: "next_request",
    "add_seat": lambda w: f"add_seat {optional(w[0])} {num(w[1])}",
    "add_device": lambda w: f"add_device {ident(w[0])} {optional(w[1])} DeviceType.{TYPES[number(w[2])]} {num(w[3])}",
    "remove_seat": lambda w: f"remove_seat {ident(w[0])}",
    "remove_device": lambda w: f"remove_device {ident(w[0])}",
    "resumed": lambda w: f"resumed {ident(w[0])}",
    "paused": lambda w: f"paused {ident(w[0])}",
    "start_emulating": lambda w: f"start_emulating {ident(w[0])} {num(w[1])}",
    "stop_emulating": lambda w: f"stop_emulating {ident(w[0])}",
    "frame": lambda w: f"frame {ident(w[0])} {num(w[1])}",
    "disconnected": lambda w: f"disconnected DisconnectReason.{REASONS[number(w[0])]} {optional(w[1])}",
    "last_serial": lambda w: "last_serial",
    "has_interface": lambda w: f"has_interface {text(w[0])}",
    "interface_version": lambda w: f"interface_version {text(w[0])}",
    "has_capability": lambda w: f"has_capability {ident(w[0])} DeviceCapability.{BY_BIT[number(w[1]).bit_length() - 1]}",
}

TIMED = {
    "pointer.motion_relative": lambda w: f"MotionRelative {real(w[0])} {real(w[1])}",
    "pointer_absolute.motion_absolute": lambda w: f"MotionAbsolute {real(w[0])} {real(w[1])}",
    "scroll.scroll": lambda w: f"Scroll {real(w[0])} {real(w[1])}",
    "scroll.scroll_discrete": lambda w: f"ScrollDiscrete {integer(w[0])} {integer(w[1])}",
    "scroll.scroll_stop": lambda w: f"ScrollStop {num(w[0])} {num(w[1])} {num(w[2])}",
    "button.button": lambda w: f"Button {num(w[0])} ButtonState.{STATES[number(w[1])]}",
    "keyboard.key": lambda w: f"Key {num(w[0])} KeyState.{STATES[number(w[1])]}",
    "touchscreen.down": lambda w: f"Down {num(w[0])} {real(w[1])} {real(w[2])}",
    "touchscreen.motion": lambda w: f"Motion {num(w[0])} {real(w[1])} {real(w[2])}",
    "touchscreen.up": lambda w: f"Up {num(w[0])}",
    "touchscreen.cancel": lambda w: f"Cancel {num(w[1])}",
    "text.keysym": lambda w: f"Keysym {num(w[0])} KeyState.{STATES[number(w[1])]}",
    "text.utf8": lambda w: f"Utf8 {text(w[0])}",
}


def call(words):
    """A call as a term of `Call Input`."""
    verb, w = words[0], words[1:]
    if verb.startswith("handshake."):
        return f"plain (handshake (HandshakeRequest.{handshake(verb[10:], w)}))"
    if verb.endswith(".release") and verb[:-8] in CAPABILITY:
        return f"plain (interface_release DeviceCapability.{CAPABILITY[verb[:-8]]} {ident(w[0])})"
    if verb in TIMED:
        # Of the timed requests only Cancel states its object's version in a script.
        version = num(w[1]) if verb == "touchscreen.cancel" else "1"
        return f"timed {ident(w[0])} {version} (Input.{TIMED[verb](w[1:])})"
    return f"plain (Plain.{PLAIN[verb](w)})"


LOADS = {
    "PointerMotion": ("dx", "dy"), "PointerMotionAbsolute": ("dx_absolute", "dy_absolute"), "ScrollDelta": ("dx", "dy"),
    "TouchDown": ("x", "y"), "TouchMotion": ("x", "y"),
}


def given(words):
    """A delivered request as a term of `Queued Load`."""
    kind, f = words[0], dict(w.split("=", 1) for w in words[1:])
    untimed = {
        "Disconnect": [], "Bind": ["seat", "capabilities"], "DeviceClosed": ["device"], "RequestDevice": ["seat", "capabilities"],
        "Frame": ["device", "last_serial", "time"], "Ready": ["device"], "DeviceStartEmulating": ["device", "last_serial", "sequence"],
        "DeviceStopEmulating": ["device", "last_serial"],
    }
    if kind in untimed:
        words = "".join(" " + (ident(f[n]) if n in ("seat", "device") else num(f[n])) for n in untimed[kind])
        return f"untimed (Untimed.{kind}{words})"
    size = len(f["text"]) // 2 - 1 if kind == "TextUtf8" else 0
    if kind in LOADS:
        load = "Point " + " ".join(real(f[n]) for n in LOADS[kind])
    elif kind == "Button":
        load = f"ButtonPress {num(f['button'])} ButtonState.{STATES[number(f['state'])]}"
    elif kind in ("KeyboardKey", "TextKeysym"):
        load = f"KeyPress {num(f['key' if kind == 'KeyboardKey' else 'keysym'])} KeyState.{STATES[number(f['state'])]}"
    elif kind == "ScrollDiscrete":
        load = f"Discrete {integer(f['discrete_dx'])} {integer(f['discrete_dy'])}"
    elif kind in ("ScrollStop", "ScrollCancel"):
        load = f"Axes {truth(f['x'])} {truth(f['y'])}"
    elif kind == "TextUtf8":
        load = f"Text {text(f['text'])}"
    else:
        load = "None"
    touch = num(f.get("touch_id", "0"))
    return f"timed {ident(f['device'])} {num(f['time'])} (an Kind.{kind} {touch} {size} (Load.{load}))"


def answer(verb, line):
    """A trail's line as a term of `Line`."""
    said, _, records = line.partition(" |")
    words, gave = said.split(" "), "[]"
    if words[0] == "refused":
        outcome = f"refused {words[1]}"
        if words[1] == "2":
            outcome = f"refused_version {words[2].split('=')[1]} {words[3].split('=')[1]}"
    elif verb == "next_request" and words[0] != "none":
        outcome, gave = "Result.given", f"(Queued.{given(words)} ∷ [])"
    elif words[0] in ("seat", "device"):
        outcome = f"Result.{words[0]} {ident(words[1])}"
    elif words[0] in ("true", "false"):
        outcome = f"truth {words[0]}"
    elif words[0] == "none":
        outcome = "Result.none"
    elif words[0] == "accepted":
        outcome = "accepted"
    else:
        outcome = f"value {num(words[0])}"
    return f"line ({outcome}) 0x1{records.replace(' ', '')} {gave}"


def sessions(script, trail):
    """The sessions of a script: what each started from, its calls with clock and room, and their trail."""
    lines, now, out, buffer = iter(trail), 0, 4096, 254
    serial, running, found = 0, None, []
    for text_line in script:
        if not text_line or text_line.startswith("#"):
            continue
        words = text_line.split(" ")
        if words[0] == "now":
            now = number(words[1])
        elif words[0] == "out":
            out = number(words[1])
        elif words[0] == "buffer":
            buffer = number(words[1])
        else:
            line = next(lines)
            if words[0] == "start":
                serial, running = number(words[1]), None
            elif running is not None:
                running["turns"].append((call(words), now, buffer if words[0] == "next_request" else out))
                running["lines"].append(answer(words[0], line))
            elif words[0] == "handshake.finish" and line.startswith("accepted"):
                records = line.partition(" | ")[2].split(" ")
                versions = ["none"] * 12
                for r in records[:-1]:
                    versions[int(r[20:22], 16) - 1] = f"(some {int(r[22:30], 16)})"
                connection = int(records[-1][20:36], 16)
                running = {"start": (connection, serial, connection + 1, versions), "turns": [], "lines": []}
                found.append(running)
    return found


USES = """-- {title}
-- Made by tests/equations.py from a call script and {source}. Assumes nothing.
use mathlib.Core.Path.{{◌≡◌, refl}}
use mathlib.Core.Bool.{{true, false}}
use mathlib.Core.List.{{List, [], ◌∷◌}}
use mathlib.Core.Option.{{Option, none, some}}
use lib.IntN.{{pos, negsuc}}
use lib.Ieee.{{nan}}
use Rattle.eiproto.specs.declared.eiproto_enum.ButtonState.{{ButtonState}}
use Rattle.eiproto.specs.declared.eiproto_enum.DeviceType.{{DeviceType}}
use Rattle.eiproto.specs.declared.eiproto_enum.DisconnectReason.{{DisconnectReason}}
use Rattle.eiproto.specs.declared.eiproto_enum.KeyState.{{KeyState}}
use Rattle.eiproto.specs.declared.event.DeviceCapability.{{DeviceCapability}}
use Rattle.model.specs.Call.{{Kind, Input, Load, HandshakeRequest, handshake, interface_release, Plain, timed, plain, Turn}}
use Rattle.model.specs.Session.{{Untimed, Queued}}
use Rattle.model.specs.Plan.{{Result, accepted, refused, refused_version, value, truth}}
use Rattle.model_cases.specs.Line.{{Line, line, f32, an, turn, computed}}
"""


def module(title, script, trail):
    first = "seat of a session on that is given what was not negotiated" if any(map(negotiation.Negotiated().beyond, script)) else "release of a session on"
    source = f"its trail: the oracle's, and by hand from the first {first}" if releases.within(script) else "the oracle's trail of it"
    parts = [USES.format(title=title, source=source)]
    for k, s in enumerate(sessions(script, trail), 1):
        connection, serial, following, versions = s["start"]
        turns = " ∷\n    ".join(f"turn ({c}) {now} {room}" for c, now, room in s["turns"])
        lines = " ∷\n    ".join(s["lines"])
        end = " ∷ []" if s["turns"] else "[]"
        parts.append(f"abbrev calls{k} : List Turn\ncalls{k} =\n    {turns}{end}\n")
        parts.append(f"abbrev trail{k} : List Line\ntrail{k} =\n    {lines}{end}\n")
        start = f"{connection:#018x} {serial} {following:#018x} ({' ∷ '.join(versions)} ∷ [])"
        parts.append(f"pub agrees{k} : computed {start} calls{k} ≡ trail{k}\nunfolding computed\nagrees{k} = refl\n")
    return "\n".join(parts)


def main():
    if len(sys.argv) != 3:
        sys.exit(__doc__)
    with open(sys.argv[1]) as f:
        script = f.read().split("\n")
    with open(sys.argv[2]) as f:
        trail, _ = releases.expected(script, f.read().splitlines())
    title = script[0][2:] if script[0].startswith("# ") else "A random script."
    print(module(title, script, trail), end="")


if __name__ == "__main__":
    main()
