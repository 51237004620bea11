#!/usr/bin/env python3
"""Holds what `inspect` prints for a capture against tshark's reading of the same datagrams.

    tshark.py compare LINES TSV [DGRAMS]          LINES: what inspect printed, or - for standard input
    tshark.py counts DGRAMS                       document 01's answers over a flat file of datagrams, by number
    tshark.py sample DGRAMS TSV OUT.dgrams OUT.lines
                                                  the sample of crates/inspect, and the lines it must print

DGRAMS is flat: a 2-byte big-endian length and the bytes, over and over. TSV is tshark's, line k + 1 for datagram k.
Where tshark declines a datagram (its columns are empty) it is no judge; with DGRAMS given, every line, those included, is
also held against document 01's rules as worked out here. Python's standard library only.
"""
import collections
import struct
import sys

COLUMNS = ["type", "connection", "timestamp", "difference", "window", "sequence", "ack", "sack", "at", "length"]
TSHARK = {"type": "bt-utp.type", "connection": "bt-utp.connection_id", "timestamp": "bt-utp.timestamp_us",
          "difference": "bt-utp.timestamp_diff_us", "window": "bt-utp.wnd_size", "sequence": "bt-utp.seq_nr",
          "ack": "bt-utp.ack_nr"}


def read_datagrams(name):
    data = open(name, "rb").read()
    at, datagrams = 0, []
    while at < len(data):
        (length,) = struct.unpack_from(">H", data, at)
        if at + 2 + length > len(data):
            sys.exit(f"{name}: the last datagram is cut")
        datagrams.append(data[at + 2:at + 2 + length])
        at += 2 + length
    return datagrams


def read_table(name):
    lines = open(name, encoding="ascii").read().split("\n")
    heads = lines[0].split("\t")
    return [dict(zip(heads, line.split("\t"))) for line in lines[1:] if line]


def chain_of(datagram):
    """The extensions as (number, place, length), or None where the chain runs past the end."""
    number, at, chain = datagram[1], 20, []
    while number != 0:
        if at + 2 > len(datagram) or at + 2 + datagram[at + 1] > len(datagram):
            return None
        chain.append((number, at + 2, datagram[at + 1]))
        number, at = datagram[at], at + 2 + datagram[at + 1]
    return chain


def sack_refused(length):
    return 5 if length < 4 else 6 if length % 4 else None


def by_document(datagram):
    """Document 01's answer, as the fields of inspect's line after the index."""
    if len(datagram) < 20:
        return ["1"]
    if datagram[0] >> 4 > 4:
        return ["2"]
    if datagram[0] & 15 != 1:
        return ["3"]
    chain = chain_of(datagram)
    if chain is None:
        return ["4"]
    sack = next(((place, length) for number, place, length in chain if number == 1), None)
    if sack and sack_refused(sack[1]):
        return [str(sack_refused(sack[1]))]
    at = max([20] + [place + length for _, place, length in chain])
    if datagram[0] >> 4 == 0 and at == len(datagram):
        return ["7"]
    numbers = struct.unpack(">HIIIHH", datagram[2:20])
    shown = datagram[sack[0]:sack[0] + sack[1]].hex() if sack else "-"
    return ["0"] + [str(value) for value in (datagram[0] >> 4, *numbers)] + [shown, str(at), str(len(datagram) - at)]


def by_tshark(row):
    """The same from tshark's columns alone, or None where tshark does not take the datagram for uTP."""
    if row["bt-utp.type"] == "":
        return None
    if row["bt-utp.ver"] != "1":
        return ["3"]
    numbers = [int(word) for word in row["bt-utp.next_extension_type"].split(",")]
    lengths = [int(word) for word in row["bt-utp.extension_len"].split(",") if word]
    masks = [word for word in row["bt-utp.extension_bitmask"].split(",") if word]
    if numbers[-1] != 0 or len(numbers) != len(lengths) + 1:
        return ["4"]
    sack = None
    for number, length in zip(numbers, lengths):
        mask = masks.pop(0) if number in (1, 2) else None
        if number == 1 and sack is None:
            if len(mask) != 2 * length:
                sys.exit(f"tshark's frame {row['frame.number']}: bit mask and length differ")
            sack = (mask.lower(), length)
    if sack and sack_refused(sack[1]):
        return [str(sack_refused(sack[1]))]
    length = int(row["bt-utp.len"])
    if row["bt-utp.type"] == "0" and length == 0:
        return ["7"]
    at = int(row["udp.length"]) - 8 - length
    if at != 20 + sum(2 + length for length in lengths):
        sys.exit(f"tshark's frame {row['frame.number']}: its lengths do not add up")
    fields = {name: row[column] for name, column in TSHARK.items()}
    fields.update(sack=sack[0] if sack else "-", at=str(at), length=str(length))
    return ["0"] + [fields[name] for name in COLUMNS]


def difference(words, expected):
    if words[0] != expected[0]:
        return f"answer {words[0]}, expected {expected[0]}"
    if len(words) != len(expected):
        return f"{len(words)} fields, expected {len(expected)}"
    for name, word, wanted in zip(COLUMNS, words[1:], expected[1:]):
        if word != wanted:
            return f"{name} {word}, expected {wanted}"
    return None


def compare(lines_name, table_name, datagrams_name=None):
    lines = (sys.stdin if lines_name == "-" else open(lines_name, encoding="ascii")).read().split("\n")
    lines = lines[:-1] if lines and lines[-1] == "" else lines
    table = read_table(table_name)
    datagrams = read_datagrams(datagrams_name) if datagrams_name else None
    faults = []
    if len(lines) != len(table):
        faults.append(f"{len(lines)} lines, tshark has {len(table)}")
    if datagrams is not None and len(datagrams) != len(table):
        faults.append(f"{len(datagrams)} datagrams, tshark has {len(table)}")
    agreeing, silent = collections.Counter(), collections.Counter()
    for index, (line, row) in enumerate(zip(lines, table)):
        words = line.split(" ")
        if words[0] != str(index) or len(words) not in (2, 12) or (len(words) == 12) != (words[1] == "0"):
            faults.append(f"line {index + 1} is not a line of inspect: {line!r}")
            continue
        expected = by_tshark(row)
        if expected is None:
            silent[words[1]] += 1
        else:
            fault = difference(words[1:], expected)
            if fault:
                faults.append(f"{index}: {fault} by tshark")
            else:
                agreeing[words[1]] += 1
        if datagrams is not None:
            fault = difference(words[1:], by_document(datagrams[index]))
            if fault:
                faults.append(f"{index}: {fault} by document 01")
    print(f"{len(lines)} lines; accepted, every field as tshark has it: {agreeing['0']}")
    for name, counter in (("refused, and so by tshark's columns", agreeing), ("tshark silent", silent)):
        for number in sorted(counter):
            if counter is silent or number != "0":
                print(f"{name}: answer {number}, {counter[number]}")
    if datagrams is not None:
        print("every line was also held against document 01's rules")
    for fault in faults[:20]:
        print(f"DIFFERS {fault}")
    print(f"{len(faults)} differences")
    return 1 if faults else 0


def counts(datagrams_name):
    datagrams = read_datagrams(datagrams_name)
    found = collections.Counter(by_document(datagram)[0] for datagram in datagrams)
    print(f"{len(datagrams)} datagrams: " + ", ".join(f"answer {number} {found[number]}" for number in sorted(found)))
    return 0


def kind_of(datagram):
    chain = chain_of(datagram)
    shape = "past the end" if chain is None else ",".join(f"{number}:{length}" for number, _, length in chain)
    return (datagram[0], shape)


def sample(datagrams_name, table_name, out_datagrams, out_lines):
    datagrams, table = read_datagrams(datagrams_name), read_table(table_name)
    taken = collections.Counter()
    picked = set()
    for index, datagram in enumerate(datagrams):
        kind = kind_of(datagram)
        room = 12 if kind == (0x01, "") else 2 if kind[1].startswith("1:") else 4
        # A short Data packet says as much as a long one; the longest of all is added below.
        if taken[kind] < room and len(datagram) < 300:
            taken[kind] += 1
            picked.add(index)
    picked.add(max(range(len(datagrams)), key=lambda index: len(datagrams[index])))
    with open(out_datagrams, "wb") as flat, open(out_lines, "w", encoding="ascii") as lines:
        for place, index in enumerate(sorted(picked)):
            datagram = datagrams[index]
            flat.write(struct.pack(">H", len(datagram)) + datagram)
            expected = by_tshark(table[index])
            if expected is not None and expected != by_document(datagram):
                sys.exit(f"datagram {index}: tshark and document 01 differ")
            lines.write(" ".join([str(place)] + (expected or by_document(datagram))) + "\n")
    print(f"{len(picked)} datagrams; kinds {len({kind_of(datagrams[index]) for index in picked})} of "
          f"{len({kind_of(datagram) for datagram in datagrams})}")
    return counts(out_datagrams)


def main(words):
    if words[:1] == ["compare"] and len(words) in (3, 4):
        return compare(*words[1:])
    if words[:1] == ["counts"] and len(words) == 2:
        return counts(words[1])
    if words[:1] == ["sample"] and len(words) == 5:
        return sample(*words[1:])
    print(__doc__, file=sys.stderr)
    return 2


if __name__ == "__main__":
    sys.exit(main(sys.argv[1:]))
