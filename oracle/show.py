#!/usr/bin/env python3
"""Prints a list as text, a line a record, for looking up a case that a replay reports.

    show.py decode|encode|recv|congestion|sent FILE

congestion-clock.bin has the form of congestion.bin, sent-long.bin that of sent.bin. Reads the formats as README.md
gives them, with Python's standard library only.
"""
import struct
import sys


class Reader:
    def __init__(self, data):
        self.data, self.at = data, 0

    def number(self, size):
        return int.from_bytes(self.bytes(size), "big")

    def numbers(self, *sizes):
        return [self.number(size) for size in sizes]

    def bytes(self, count):
        if self.at + count > len(self.data):
            sys.exit(f"cut short at byte {self.at}")
        self.at += count
        return self.data[self.at - count:self.at]

    def more(self):
        return self.at < len(self.data)


def shown(data):
    return data.hex() or "-"


def decode(reader, index):
    datagram = reader.bytes(reader.number(2))
    answer = reader.number(1)
    line = f"{index} {shown(datagram)} -> {answer}"
    if answer == 0:
        parts = reader.numbers(1, 2, 4, 4, 4, 2, 2)
        sack_at, sack_length, at, length = reader.numbers(2, 2, 2, 2)
        line += f" parts {parts} sack {sack_length} at {sack_at} payload {length} at {at}"
    print(line)


def encode(reader, index):
    parts = reader.numbers(1, 2, 4, 4, 4, 2, 2)
    sack = reader.bytes(reader.number(2))
    payload = reader.bytes(reader.number(2))
    room, answer, source = reader.numbers(4, 1, 1)
    written = reader.bytes(reader.number(4))
    print(f"{index} parts {parts} sack {shown(sack)} payload {shown(payload)} room {room} -> {answer} ({source}) {shown(written)}")


def recv(reader, index):
    length, initial, answer, events = reader.numbers(4, 2, 1, 4)
    print(f"session {index} length {length} initial {initial} -> {answer}, {events} events")
    for event in range(events):
        kind = reader.number(1)
        if kind == 1:
            number = reader.number(2)
            payload = reader.bytes(reader.number(2))
            answer, source, already, available = reader.numbers(1, 1, 1, 4)
            text = f"write {number} {shown(payload)} -> {answer} ({source}) already {already} available {available}"
        elif kind == 2:
            output, answer, source = reader.numbers(4, 1, 1)
            data = reader.bytes(reader.number(4))
            text = f"read {output} -> {answer} ({source}) {shown(data)} available {reader.number(4)}"
        elif kind == 3:
            room, answer, source, ack = reader.numbers(2, 1, 1, 2)
            text = f"ack room {room} -> {answer} ({source}) ack {ack} sack {shown(reader.bytes(reader.number(2)))}"
        elif kind == 4:
            number, answer, source, written, empty, available, ready, waiting, packets, c = reader.numbers(2, 1, 1, 1, 1, 4, 4, 4, 2, 2)
            text = (f"ask {number} -> {answer} ({source}) written {written} empty {empty} available {available} "
                    f"ready {ready} waiting {waiting} in {packets} c {c}")
        elif kind == 5:
            count, answer, source, c = reader.numbers(2, 1, 1, 2)
            text = f"run of {count} -> {answer} ({source}) c {c}"
        else:
            sys.exit(f"unknown kind {kind} at byte {reader.at}")
        print(f"  {event} {text}")


def settings(reader, index):
    initial, target, first, minimum, largest, increase, gain, window = reader.numbers(8, 8, 8, 8, 8, 8, 8, 8)
    answer, events = reader.numbers(1, 4)
    gain = struct.unpack(">d", struct.pack(">Q", gain))[0]
    print(f"session {index} initial {initial} target {target} first timeout {first} minimum timeout {minimum} largest {largest} "
          f"increase {increase} gain {gain!r} delay window {window} -> {answer}, {events} events")
    return events


def congestion(reader, index):
    for event in range(settings(reader, index)):
        kind, once, length, now, delay, sent_at = reader.numbers(1, 1, 4, 8, 8, 8)
        answer, source, in_flight, maximum, timeout, round_trip, variance = reader.numbers(1, 1, 4, 4, 8, 8, 8)
        text = {1: f"transmit {length} at {now}", 2: f"ack of {length} sent at {sent_at} once {once} delay {delay} at {now}",
                3: "timeout", 4: "loss"}[kind]
        print(f"  {event} {text} -> {answer} ({source}) in flight {in_flight} maximum {maximum} timeout {timeout} "
              f"r {round_trip} v {variance}")


def sent(reader, index):
    for event in range(settings(reader, index)):
        kind, packet, number, count, now, delay = reader.numbers(1, 1, 2, 4, 8, 8)
        sack = reader.bytes(count) if kind == 2 else b""
        answer, source, in_flight, maximum, timeout, ack_num, lost = reader.numbers(1, 1, 4, 4, 8, 2, 2)
        packets = [tuple(reader.numbers(2, 1, 4)) for _ in range(lost)]
        text = {1: f"transmit {number} type {packet} length {count} at {now}", 2: f"ack {number} sack {shown(sack)} delay {delay} at {now}",
                3: "timeout", 4: f"run of {delay} from {number} type {packet} length {count} at {now}"}[kind]
        print(f"  {event} {text} -> {answer} ({source}) in flight {in_flight} maximum {maximum} timeout {timeout} "
              f"ack_num {ack_num} lost {packets}")


def main(words):
    forms = {form.__name__: form for form in (decode, encode, recv, congestion, sent)}
    if len(words) != 2 or words[0] not in forms:
        print(__doc__, file=sys.stderr)
        return 2
    reader, index = Reader(open(words[1], "rb").read()), 0
    while reader.more():
        forms[words[0]](reader, index)
        index += 1
    return 0


if __name__ == "__main__":
    sys.exit(main(sys.argv[1:]))
