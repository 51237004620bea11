"""Replays recorded sessions and damaged files with the program `replay`, and compares every line that it prints.

    python3 tests/replay.py COMMAND...    runs every case; exit status 1 where one fails
    python3 tests/replay.py --sample      writes the sample session of crates/replay/data and its lines again

The sessions are those of oracle/README.md (sent.bin, sent-long.bin), written out in the format of document 02, No. 3: their expected numbers come from the
Rust with its one edit, or from document 01 where it departs or refuses. The refusals of a file are document 02's.
"""
import pathlib
import struct
import subprocess
import sys
import tempfile

ROOT = pathlib.Path(__file__).resolve().parent.parent
ONE = struct.unpack(">Q", struct.pack(">d", 1.0))[0]
SETTINGS = [100, 100000, 1000000, 500000, 1000, 3000, ONE, 120000000]


def event(kind, number=0, size=0, clock=0, delay=0, type=0, sack=b""):
    return (kind, type, number, len(sack) if kind == 2 else size, clock, delay), sack


def session(settings, events, count=None, sack_count=None):
    """The bytes of a session: `count` and `sack_count` in place of the true ones."""
    head = struct.pack(">I", len(settings)) + b"".join(struct.pack(">Q", s) for s in settings)
    body = struct.pack(">I", len(events) if count is None else count) + b"".join(struct.pack(">BBHIQQ", *fields) for fields, _ in events)
    sack = b"".join(bytes for _, bytes in events)
    return head + body + struct.pack(">I", len(sack) if sack_count is None else sack_count) + sack


class Reader:
    def __init__(self, data):
        self.data, self.at = data, 0

    def take(self, form):
        values = struct.unpack_from(form, self.data, self.at)
        self.at += struct.calcsize(form)
        return values if len(values) > 1 else values[0]

    def bytes(self, count):
        self.at += count
        return self.data[self.at - count:self.at]

    def more(self):
        return self.at < len(self.data)


def recorded(path):
    """Yield (settings, answer, events, lines) of a list of tracker sessions. A run of transmits is written out; a line that the list does not tell is None."""
    reader = Reader(path.read_bytes())
    while reader.more():
        settings = list(reader.take(">8Q"))
        answer, count = reader.take(">BI")
        events, lines = [], []
        for _ in range(count):
            kind, type, number, size, clock, delay = reader.take(">BBHIQQ")
            sack = reader.bytes(size) if kind == 2 else b""
            told, _ = reader.take(">BB")
            in_flight, maximum, timeout, _ = reader.take(">IIQH")
            lost = reader.take(">H")
            reader.bytes(7 * lost)
            if kind == 4:
                for k in range(delay):
                    events.append(((1, type, (number + k) % 65536, size, clock, 0), b""))
                    lines.append(None)
            else:
                events.append(((kind, type, number, size, clock, delay), sack))
                lines.append(None)
            lines[-1] = f"{len(lines) - 1} {told} {in_flight} {maximum} {timeout} {lost}"
        yield settings, answer, events, lines


# The session of recorded ones that is the sample: five packets, a SACK that shows the second as lost, an ack of the initial number, a timeout.
SAMPLE = 1


def text(lines):
    return "".join(line + "\n" for line in lines)


def sample():
    settings, _, events, lines = list(recorded(ROOT / "crates/sent_cases/data/sent.bin"))[SAMPLE]
    return session(settings, events), text(lines)


def bad_files():
    """Yield (name, bytes, expected) of files that are refused, and of some beside them that are not."""
    two = [event(1, 101, 1000, 0), event(2, 101, clock=100000, delay=100000)]
    acks = [event(1, 101, 1000, 0), event(2, 101, clock=1, sack=b"\0\0\0\0"), event(2, 101, clock=1, sack=b"\0\0\0")]
    whole = "0 0 1000 2000 1000000 0\n1 0 0 5000 500000 0\n"
    good = session(SETTINGS, two)
    yield "the whole case of document 02, No. 3", good, whole
    yield "no bytes", b"", "bad 20\n"
    for n in range(len(good)):
        yield f"the whole case cut to {n} bytes", good[:n], "bad 20\n"
    sacked = session(SETTINGS, acks)
    for n in range(len(sacked)):
        yield f"a session with SACK bytes cut to {n} bytes", sacked[:n], "bad 20\n"
    for more in (1, 2, 24, 4096):
        yield f"{more} bytes left over", good + bytes(more), "bad 20\n"
    for count in (0, 1, 7, 9, 16, 2**32 - 1):
        yield f"settings count {count}", struct.pack(">I", count) + good[4:], "bad 20\n"
    yield "9 settings", session(SETTINGS + [2], two), "bad 20\n"
    yield "7 settings", session(SETTINGS[:7], two), "bad 20\n"
    for count in (0, 1, 3, 2**32 - 1):
        yield f"event count {count} for 2", session(SETTINGS, two, count=count), "bad 20\n"
    for count in (1, 4, 2**32 - 1):
        yield f"SACK count {count} with no SACK bytes", session(SETTINGS, two, sack_count=count), "bad 20\n"
    yield "SACK bytes that no ack counts", session(SETTINGS, two, sack_count=4) + bytes(4), "bad 20\n"
    yield "one SACK byte fewer than the acks count", session(SETTINGS, acks, sack_count=6)[:-1], "bad 20\n"
    yield "one SACK byte more than the acks count", session(SETTINGS, acks, sack_count=8) + b"\0", "bad 20\n"
    for initial in (65536, 2**32, 2**64 - 1):
        yield f"initial number {initial}", session([initial] + SETTINGS[1:], two), "bad 20\n"
    yield "initial number 65,535", session([65535] + SETTINGS[1:], two), "0 12 0 2000 1000000 0\n1 12 0 2000 1000000 0\n"
    for kind in (0, 4, 5, 255):
        yield f"kind {kind}", session(SETTINGS, two + [event(kind)]), "bad 20\n"
    for type in (5, 6, 255):
        yield f"type {type} in a transmit", session(SETTINGS, [event(1, 101, 1000, 0, type=type)]), "bad 20\n"
    for type in range(5):
        yield f"type {type} in a transmit", session(SETTINGS, [event(1, 101, 1000, 0, type=type)]), "0 0 1000 2000 1000000 0\n"
    # What is ignored: a transmit's delay, an ack's type, all of a timeout but its kind.
    ignored = [event(1, 101, 1000, 0, delay=2**64 - 1), event(2, 101, clock=100000, delay=100000, type=255), ((3, 255, 65535, 2**32 - 1, 2**64 - 1, 2**64 - 1), b"")]
    yield "fields that are ignored", session(SETTINGS, ignored), whole + "2 0 0 2000 1000000 0\n"
    # 10, each end of each range, and 20 before it.
    ranges = [(1, 1000, 2**32 - 1), (2, 1, 2**50), (3, 1, 2**50), (4, 1, 65535), (5, 1, 2**20), (7, 1, 2**50)]
    for place, low, high in ranges:
        for value in (low - 1, high + 1, 2**64 - 1):
            changed = SETTINGS[:place] + [value] + SETTINGS[place + 1:]
            yield f"setting {place} is {value}", session(changed, two), "bad 10\n"
            yield f"setting {place} is {value}, and a byte is left over", session(changed, two) + b"\0", "bad 20\n"
            yield f"setting {place} is {value}, and the last event's kind is 0", session(changed, two + [event(0)]), "bad 20\n"
        for value in (low, high):
            yield f"setting {place} is {value}", session(SETTINGS[:place] + [value] + SETTINGS[place + 1:], []), ""
    gain = lambda bits: session(SETTINGS[:6] + [bits] + SETTINGS[7:], [])
    tenth = struct.unpack(">Q", struct.pack(">d", 2.0**-10))[0]
    for bits in (tenth, ONE):
        yield f"gain bits {bits:x}", gain(bits), ""
    # one step past each end, both zeros, the infinities, NaNs of both signs and kinds, a negative gain
    for bits in (tenth - 1, ONE + 1, 0, 2**63, 0x7FF << 52, 0xFFF << 52, (0x7FF << 52) + 1, (0x7FF << 52) + 2**51, 2**64 - 1, 2**63 + ONE):
        yield f"gain bits {bits:x}", gain(bits), "bad 10\n"
    yield "no events", session(SETTINGS, []), ""
    # SACK bytes go to the acks in event order, a refused ack's too: the third ack's four bytes show that packet 103 arrived.
    order = [event(1, 101, 100, 0), event(1, 102, 100, 0), event(1, 103, 100, 0), event(2, 101, clock=1, delay=1, sack=b"\xff\xff\xff"),
             event(2, 99, clock=1, delay=1, sack=b"\xff\xff\xff\xff"), event(2, 101, clock=1, delay=1, sack=b"\x01\0\0\0")]
    yield "SACK bytes of refused acks", session(SETTINGS, order), "0 0 100 2000 1000000 0\n1 0 200 2000 1000000 0\n2 0 300 2000 1000000 0\n3 5 300 2000 1000000 0\n4 12 300 2000 1000000 0\n5 0 100 4500 500000 0\n"


def run(program, data, folder, by_name=False):
    if by_name:
        path = folder / "session"
        path.write_bytes(data)
        return subprocess.run([*program, path], capture_output=True, timeout=600)
    return subprocess.run(program, input=data, capture_output=True, timeout=600)


def main():
    if sys.argv[1] == "--sample":
        data, lines = sample()
        (ROOT / "crates/replay/data/sample.session").write_bytes(data)
        (ROOT / "crates/replay/stdout").write_text(lines)
        return 0
    program, failed, count = sys.argv[1:], [], 0
    with tempfile.TemporaryDirectory() as name:
        folder = pathlib.Path(name)

        def case(title, data, expected, by_name=False):
            nonlocal count
            count += 1
            ran = run(program, data, folder, by_name)
            found = ran.stdout.decode()
            if isinstance(expected, str):
                fine = found == expected
            else:
                lines = found.split("\n")
                fine = len(lines) == len(expected) + 1 and lines[-1] == "" and all(want is None or want == line for want, line in zip(expected, lines))
            if not fine or ran.stderr:
                failed.append(f"{title}: printed {found[:200]!r}, said {ran.stderr[:200]!r}")

        data, lines = sample()
        case("the sample is the stored one", (ROOT / "crates/replay/data/sample.session").read_bytes(), lines)
        if data != (ROOT / "crates/replay/data/sample.session").read_bytes():
            failed.append("the stored sample is not the recorded session")
        for title, data, expected in bad_files():
            case(title, data, expected)
        answers = set()
        for k, (settings, answer, events, lines) in enumerate(recorded(ROOT / "crates/sent_cases/data/sent.bin")):
            answers.update(line.split()[1] for line in lines)
            case(f"recorded session {k}", session(settings, events), text(lines) if answer == 0 else f"bad {answer}\n", by_name=k % 2 == 0)
        for k, (settings, answer, events, lines) in enumerate(recorded(ROOT / "crates/sent_long/data/sent-long.bin")):
            answers.update(line.split()[1] for line in lines if line)
            case(f"recorded long session {k}, {len(events)} events", session(settings, events), lines, by_name=True)
        missing = {"0", "5", "6", "8", "11", "12", "13", "14", "15"} - answers
        if missing:
            failed.append(f"no recorded event is answered with {sorted(missing)}")
        # A session as long as the program holds, and one that is a byte longer.
        held = 4194304
        filler = event(2, 101, clock=0, sack=bytes(held - len(session(SETTINGS, [event(2)]))))
        longest = session(SETTINGS, [filler])
        case(f"{len(longest)} bytes", longest, "0 8 0 2000 1000000 0\n", by_name=True)
        for by_name in (True, False):
            count += 1
            ran = run(program, longest + b"\0", folder, by_name)
            if ran.stdout or b"larger than 4194304 bytes" not in ran.stderr:
                failed.append(f"a session of {held + 1} bytes: printed {ran.stdout[:80]!r}, said {ran.stderr[:80]!r}")
        for path, words in ((folder / "none", b"none: No such file"), (folder, b"")):
            count += 1
            ran = subprocess.run([*program, path], capture_output=True, timeout=600)
            if ran.stdout or not ran.stderr or words not in ran.stderr:
                failed.append(f"{path}: printed {ran.stdout[:80]!r}, said {ran.stderr[:80]!r}")
    print("\n".join(failed) if failed else f"{count} sessions, each printed as expected")
    return 1 if failed else 0


if __name__ == "__main__":
    sys.exit(main())
