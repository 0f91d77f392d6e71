#!/usr/bin/env python3
"""Holds write_message and read_message to the crate and to the reference.

usage: compare_events.py ORACLE REFERENCE FIRST LAST [PROGRAM ..]     run at the repository's root

ORACLE is the oracle's folder, with its program built; REFERENCE the reference's. For each seed from FIRST to LAST the oracle plays a random script with
`--wire` and tells every message that the crate's own backend wrote, with the interface of its object and its record. Each PROGRAM (crates/replay/out/replay
without one) has to write that message of the record, and read that record back from the message; one with a zero byte inside a text, a listed difference, it
has to refuse. Then records of every kind that are made here, sound and not, and damaged copies of all: a byte changed, cut, lengthened, to an object of another
interface, with too little room. What these are answered is told by the reference's messages.py; of the sound ones the crate's own proxies are asked too
(`--messages`). The last line has the counts; the exit status is 1 where an answer differs.
"""
import os
import random
import subprocess
import sys

ROOM = 4096
WIDTHS = {"u32": 4, "u64": 8, "interface": 1, "reason": 4, "device_type": 4}


def made(rng, messages):
    """A record of a random kind, most of them sound, and an interface."""
    kind = rng.randint(1, 18)
    _, interfaces, fields, _ = messages.EVENTS[kind]
    body = b""
    for _, field in fields:
        if field in ("text", "explanation"):
            text = rng.choice([b"", b"a", b"abc", "Zähler é€😀".encode(), b"x" * rng.choice([252, 253, 254, 255]), b"a\0b", b"\x80", b"\xed\xa0\x80"])
            text = text[:rng.randint(0, len(text))] if rng.random() < 0.2 else text
            if field == "explanation":
                given = rng.choice([0x80, 0x80, 0x80, 0, 0, 1, 0x81, 0xff])
                body += bytes([given]) + (b"" if given == 0 and rng.random() < 0.8 else text)
            else:
                body += text
        else:
            most = {"interface": 14, "reason": 6, "device_type": 3}.get(field, 256 ** WIDTHS[field] - 1)
            value = rng.choice([0, 1, most, rng.randint(0, most), rng.randint(0, most)])
            body += value.to_bytes(WIDTHS[field], "big")
    head = kind << 11 | (10 + len(body)) & 0x7FF
    record = head.to_bytes(2, "big") + rng.getrandbits(64).to_bytes(8, "big") + body
    return rng.choice(sorted(interfaces)) if rng.random() < 0.9 else rng.randint(0, 255), record


def damaged(rng, bytes_):
    """The bytes with one thing wrong, or nothing."""
    what = rng.randrange(5)
    if what == 0 and bytes_:
        at = rng.randrange(len(bytes_)) if rng.random() < 0.5 else rng.randrange(max(0, len(bytes_) - 6), len(bytes_))
        return bytes_[:at] + bytes([rng.choice([0, 1, 0x80, 0xFF, bytes_[at] ^ 1 << rng.randrange(8)])]) + bytes_[at + 1:]
    if what == 1:
        return bytes_[:rng.randint(0, len(bytes_))]
    if what == 2:
        return bytes_ + bytes(rng.randint(1, 5))
    if what == 3:
        return bytes(rng.randrange(256) for _ in range(rng.randint(0, 40)))
    return bytes_


def zero_inside(record):
    """The listed difference: a text with a zero byte inside, which the crate sends."""
    return {2: 0 in record[10:], 14: 0 in record[19:]}.get(record[0] >> 3, False)


def expected(messages, verb, interface, bytes_, room):
    answer = (messages.write_message if verb == "write_message" else messages.read_message)(interface, bytes_)
    if answer is None:
        return "refused 26" if verb == "write_message" else "refused 23"
    if len(answer) > room:
        return "refused 19"
    return ("message t:" if verb == "write_message" else "record t:") + answer.hex()


def lines_of(seed, oracle, messages, sent):
    """Lines of a script with what each is to be answered; `sent` counts the crate's own messages."""
    rng = random.Random(seed)
    script = subprocess.run([os.path.join(oracle, "gen.py"), str(seed), "500"], capture_output=True, text=True, check=True).stdout
    wired = subprocess.run([os.path.join(oracle, "target/release/oracle"), "--wire"], input=script, capture_output=True, text=True, check=True).stdout
    lines, seen = [], []
    for line in wired.splitlines():
        if line.startswith("wire "):
            _, interface, message, record = line.split()
            listed = zero_inside(bytes.fromhex(record[2:]))
            sent["listed"] += listed
            lines.append((f"write_message {interface} {record}", "refused 26" if listed else f"message {message}"))
            lines.append((f"read_message {interface} {message}", "refused 23" if listed else f"record {record}"))
            seen.append((int(interface), bytes.fromhex(record[2:]), bytes.fromhex(message[2:])))
            sent["kinds"].add(seen[-1][1][0] >> 3)
    sent["messages"] += len(seen)
    records = [made(rng, messages) for _ in range(400)] + [(i, r) for i, r, _ in rng.sample(seen, min(len(seen), 100))]
    asked = [(i, r) for i, r in records if messages.write_message(i, r) is not None]
    crate = subprocess.run([os.path.join(oracle, "target/release/oracle"), "--messages"], input="".join(f"send {i} t:{r.hex()}\n" for i, r in asked),
                           capture_output=True, text=True, check=True).stdout.split("\n")
    for (interface, record), told in zip(asked, crate):
        # What its types cannot express: a new object whose id is not the next one.
        if told != "unrepresentable":
            lines.append((f"write_message {interface} t:{record.hex()}", told))
            sent["proxies"] += 1
    for interface, record in records:
        for verb, bytes_ in (("write_message", record), ("read_message", messages.write_message(interface, record) or record)):
            for turn in range(3):
                b = bytes_ if turn == 0 else damaged(rng, bytes_)
                i = interface if rng.random() < 0.8 else rng.randint(0, 14)
                room = ROOM if rng.random() < 0.9 else rng.randint(0, 40)
                if room != ROOM:
                    lines.append((f"out {room}", None))
                lines.append((f"{verb} {i} t:{b.hex()}", expected(messages, verb, i, b, room)))
                sent["others"] += 1
                if room != ROOM:
                    lines.append((f"out {ROOM}", None))
    return lines


def main():
    if len(sys.argv) < 5:
        sys.exit(__doc__)
    oracle, reference, first, last = sys.argv[1], sys.argv[2], int(sys.argv[3]), int(sys.argv[4])
    programs = sys.argv[5:] or ["crates/replay/out/replay"]
    sys.path.insert(0, reference)
    import messages

    sent, faults = {"messages": 0, "listed": 0, "proxies": 0, "others": 0, "kinds": set()}, 0
    for seed in range(first, last + 1):
        lines = lines_of(seed, oracle, messages, sent)
        script = "".join(line + "\n" for line, _ in [(f"out {ROOM}", None)] + lines)
        asked = [(line, answer) for line, answer in lines if answer is not None]
        for program in programs:
            trail = subprocess.run([program], input=script, capture_output=True, text=True).stdout.splitlines()
            for (line, answer), got in zip(asked, trail + ["nothing"] * len(asked)):
                if got != answer:
                    faults += 1
                    if faults <= 10:
                        print(f"{program}, seed {seed}: {line}\n  {got}\n  {answer}")
    kinds = len(sent["kinds"])
    print(f"{last - first + 1} scripts: {sent['messages']} messages of the crate's backend, of {kinds} kinds, {sent['listed']} with a zero byte in a text, {sent['proxies']} of its proxies, "
          f"{sent['others']} other lines, through {len(programs)} programs: {faults} differ")
    sys.exit(1 if faults else 0)


if __name__ == "__main__":
    main()
