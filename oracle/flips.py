#!/usr/bin/env python3
"""Turns one bit of a recorded answer and looks whether the program that replays the list says so.

    flips.py FOLDER [COUNT] [SEED]

FOLDER has the compiled programs at NAME/out/NAME (crates, after `rt run` in the folder of each). Of every field of every list COUNT bits (default 5) are
turned, one at a time, in records that a seeded generator picks, and the program is run over the list so damaged. A line
for each field: how many of the turned bits changed what the program prints. An expected value that is not compared would
stand out with 0; the exit status is then 1. Fields of the input are turned too, for what they tell; some have no effect
on the answer (a payload's bytes where it is refused), so nothing is asked of them.
"""
import os
import random
import shutil
import subprocess
import sys
import tempfile

HERE = os.path.dirname(os.path.dirname(os.path.abspath(__file__)))
HEADER = (("type", 1), ("connection", 2), ("timestamp", 4), ("difference", 4), ("window", 4), ("sequence", 2), ("ack", 2))
SETTINGS = tuple((name, 8) for name in ("initial", "target", "first timeout", "minimum timeout", "largest", "increase", "gain", "delay window"))


class Fields:
    """A list taken apart: for each field the places of its bytes, by the program's input or its expected answer."""

    def __init__(self, data):
        self.data, self.at, self.places = data, 0, {}

    def more(self):
        return self.at < len(self.data)

    def take(self, side, name, size):
        self.places.setdefault((side, name), []).append((self.at, size))
        self.at += size
        return int.from_bytes(self.data[self.at - size:self.at], "big")

    def given(self, name, size):
        return self.take("input", name, size)

    def wanted(self, name, size):
        return self.take("expected", name, size)

    def skip(self, size):
        """Counts and sources: they say how the list is read, or where an answer comes from."""
        self.at += size
        return int.from_bytes(self.data[self.at - size:self.at], "big")


def decode(f):
    f.given("datagram", f.skip(2))
    if f.wanted("answer", 1) == 0:
        for name, size in HEADER + (("sack at", 2), ("sack length", 2), ("payload at", 2), ("payload length", 2)):
            f.wanted(name, size)


def encode(f):
    for name, size in HEADER:
        f.given(name, size)
    f.given("sack", f.skip(2))
    f.given("payload", f.skip(2))
    f.given("room", 4)
    f.wanted("answer", 1)
    f.skip(1)
    f.wanted("written", f.skip(4))


def recv(f):
    f.given("length", 4)
    f.given("initial", 2)
    f.wanted("making", 1)
    for _ in range(f.skip(4)):
        kind = f.skip(1)
        if kind == 1:
            f.given("write number", 2)
            f.given("write payload", f.skip(2))
            f.wanted("write answer", 1)
            f.skip(1)
            f.wanted("already there", 1)
            f.wanted("write available", 4)
        elif kind == 2:
            f.given("output length", 4)
            f.wanted("read answer", 1)
            f.skip(1)
            f.wanted("read bytes", f.skip(4))
            f.wanted("read available", 4)
        elif kind == 3:
            f.given("sack room", 2)
            f.wanted("ack answer", 1)
            f.skip(1)
            f.wanted("ack number", 2)
            f.wanted("sack", f.skip(2))
        elif kind == 4:
            f.given("asked", 2)
            f.wanted("ask answer", 1)
            f.skip(1)
            for name, size in (("written", 1), ("empty", 1), ("available", 4), ("ready", 4), ("waiting", 4), ("payloads", 2), ("c", 2)):
                f.wanted("asked " + name, size)
        else:
            f.skip(2)
            f.wanted("run answer", 1)
            f.skip(1)
            f.wanted("run c", 2)


def settings(f):
    for name, size in SETTINGS:
        f.given(name, size)
    f.wanted("making", 1)
    return f.skip(4)


def congestion(f):
    for _ in range(settings(f)):
        f.skip(1)
        for name, size in (("once", 1), ("length", 4), ("now", 8), ("delay", 8), ("sent at", 8)):
            f.given(name, size)
        f.wanted("answer", 1)
        f.skip(1)
        for name, size in (("in flight", 4), ("maximum", 4), ("timeout", 8), ("round trip", 8), ("variance", 8)):
            f.wanted(name, size)


def sent(f):
    for _ in range(settings(f)):
        kind = f.skip(1)
        f.given("type", 1)
        f.given("number", 2)
        count = f.skip(4)
        f.given("now", 8)
        f.given("delay", 8)
        if kind == 2:
            f.given("sack", count)
        f.wanted("answer", 1)
        f.skip(1)
        for name, size in (("in flight", 4), ("maximum", 4), ("timeout", 8), ("ack_num", 2)):
            f.wanted(name, size)
        for _ in range(f.skip(2)):
            for name, size in (("lost number", 2), ("lost type", 1), ("lost tag", 4)):
                f.wanted(name, size)


LISTS = (("packet_cases", "decode.bin", decode), ("packet_cases", "encode.bin", encode), ("recv_cases", "recv.bin", recv),
         ("congestion_cases", "congestion.bin", congestion), ("congestion_cases", "congestion-clock.bin", congestion),
         ("sent_cases", "sent.bin", sent), ("sent_long", "sent-long.bin", sent))


def run(program, room):
    return subprocess.run([program], cwd=room, capture_output=True, check=False).stdout


def tried(folder, program, name, form, count, dice):
    room = tempfile.mkdtemp()
    data = os.path.join(HERE, "crates", program, "data")
    for other in os.listdir(data):
        shutil.copy(os.path.join(data, other), room)
    good = open(os.path.join(data, name), "rb").read()
    fields = Fields(good)
    while fields.more():
        form(fields)
    program, path, blind = os.path.join(folder, program, "out", program), os.path.join(room, name), 0
    before = run(program, room)
    for (side, field), places in fields.places.items():
        places = [place for place in places if place[1] > 0]
        noticed, unnoticed = 0, []
        for at, size in dice.sample(places, min(count, len(places))):
            byte, bit = at + dice.randrange(size), dice.randrange(8)
            bad = bytearray(good)
            bad[byte] ^= 1 << bit
            open(path, "wb").write(bad)
            if run(program, room) != before:
                noticed += 1
            else:
                unnoticed.append(f"{byte}.{bit}")
        if places:
            few = side == "expected" and unnoticed
            blind += bool(few)
            print(f"{name} {side} {field}: {noticed} of {noticed + len(unnoticed)}" + (" at " + " ".join(unnoticed) if few else ""), flush=True)
    shutil.rmtree(room)
    return blind


def main(words):
    if not 1 <= len(words) <= 3:
        print(__doc__, file=sys.stderr)
        return 2
    count, seed = int(words[1]) if words[1:] else 5, int(words[2]) if words[2:] else 1
    dice = random.Random(seed)
    return int(sum(tried(os.path.abspath(words[0]), *of, count, dice) for of in LISTS) > 0)


if __name__ == "__main__":
    sys.exit(main(sys.argv[1:]))
