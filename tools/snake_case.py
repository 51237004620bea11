#!/usr/bin/env python3
"""Spells the project's own antt names as Rattle does today: definitions, lemmas, fields and constructors in snake case.

    python3 tools/snake_case.py        at the top; rewrites crates/ and the code spans of the pages in place, and prints what fell together

`plusOf` becomes `plus_of`, and `plus-of-offset` becomes `plus_of_offset`; a dash stays where each side of it is by itself a definition of the project or a
word of the library, as in `length-put`. Run once, right after the port's own script: a name that it renames is then gone.
"""
import collections
import pathlib
import re

ROOT = pathlib.Path(__file__).resolve().parent.parent
CRATES = ROOT / "crates"
WORD = r"[A-Za-z_][\w'₀-₉]*(?:-[\w'₀-₉≡≢≤≥∷<>*+]+)*"
TOKEN = re.compile(rf"(?<![\w'◌·-]){WORD}(?![\w'◌·-])")
# a declaration at any depth: its name before a colon, or names of constructors and fields
DECLARED = re.compile(r"^\s*(?:(?:pub|abbrev|unfoldable)\s+)*([^\s:(){}.,;@\"]+)\s*:(?:\s|$)")
DEFINED = re.compile(r"^\s*(?:abbrev|unfoldable) pub ([^\s:(){}.,;@\"]+)\s*:")
BOUND = re.compile(r"[({]([^(){}:→=]+) :(?=\s)")
LIBRARY = set("length take drop set append get_or map reverse sum suc cond slice_index fold".split())


def camel(word):
    return re.sub(r"(?<=[a-z0-9])([A-Z])", lambda m: "_" + m.group(1).lower(), word)


def declared():
    """All names, and those of definitions that others may use."""
    names, words = set(), set()
    for path in sorted(CRATES.rglob("*.antt")):
        if path.name in ("Proof.antt", "Answers.antt", "Invariants.antt") or "out" in path.relative_to(CRATES).parts:
            continue
        for line in path.read_text().split("\n"):
            if line.lstrip().startswith("--"):
                continue
            m = DEFINED.match(line)
            if m and "-" not in m.group(1):
                words.add(m.group(1))
            found = [w for m in BOUND.finditer(line) for w in m.group(1).split()]
            m = DECLARED.match(line)
            if m:
                found.append(m.group(1))
            names |= {n for n in found if re.fullmatch(WORD, n)}
    return names, words


def spelled(names, words):
    """The new name of each that changes."""
    plain = {camel(n) for n in words} | LIBRARY
    new = {}
    for n in names:
        if n[0].isupper() and "-" not in n:
            continue
        parts = [camel(p) if p[0].islower() else p for p in n.split("-")]
        joined = "_".join(parts)
        for i in range(1, len(parts)):
            left, right = "_".join(parts[:i]), "_".join(parts[i:])
            if left in plain and right in plain:
                joined = left + "-" + right
                break
        if joined != n:
            new[n] = joined
    return new


# names that were in snake case already, of steps inside one law, and would fall together with a definition that the law speaks of
TAKEN = {"crates/recv/specs/Laws/Reading.antt": "ready_for", "crates/recv/specs/Laws/Runs.antt": "ready_for"}

# names of files of specs/ that are called Answers.antt, as answers to goals are, and names by which a file imports another's
SECOND = {
    "answer-other": "answer_other", "answer-rule": "answer_rule", "answer-unsound": "answer_unsound", "badNumber": "bad_number",
    "beginOf": "begin_of", "chainRead": "chain_read", "freshReceiver": "fresh_receiver", "freshSender": "fresh_sender",
    "headerNumber": "header_number", "last-test": "last_test", "length-next": "length_next", "lostTold": "lost_told", "memberRow": "member_row",
    "not-refused": "not_refused", "numberTold": "number_told", "other-answer": "other_answer", "pairText": "pair_text", "rangeTold": "range_told",
    "readyRun": "ready_run", "reasonNumber": "reason_number", "receiverSound": "receiver_sound", "refusalNumber": "refusal_number",
    "rule-ahead": "rule_ahead", "rule-limit": "rule_limit", "rule-long": "rule_long", "rule-stored": "rule_stored", "rule-there": "rule_there",
    "sackNumber": "sack_number", "sentBy": "sent_by", "sentIn": "sent_in", "sentParts": "sent_parts", "sentWhole": "sent_whole",
    "seqTold": "seq_told", "stepNumber": "step_number", "stored-length": "stored_length", "stored-rule": "stored_rule",
    "stored-sound": "stored_sound", "truthTold": "truth_told", "typeRead": "type_read", "unwrittenNumber": "unwritten_number",
    "written-room-is": "written_room_is", "wroteOf": "wrote_of",
}


def main():
    for place, n in TAKEN.items():
        (ROOT / place).write_text(re.sub(rf"\b{n}\b", n + "_lem", (ROOT / place).read_text()))
    names, words = declared()
    new = {n: w for n, w in spelled(names, words).items() if "promise" not in n} | {n: n.replace("-", "_") for n in names if n.endswith("-promise")}
    to = collections.defaultdict(set)
    for n in names:
        to[new.get(n, n)].add(n)
    for n, olds in sorted(to.items()):
        # a lemma that would have its function's name gets `_lem`
        lemmas = [o for o in olds if "-" in o]
        if len(olds) > 1 and lemmas:
            for o in lemmas:
                new[o] = n + "_lem"
        if len(olds) > 1:
            print("fall together:", n, "of", ", ".join(sorted(olds)), "now", ", ".join(new.get(o, o) for o in sorted(olds)))

    def turn(text):
        return TOKEN.sub(lambda m: new.get(m.group(0), m.group(0)), text)

    def turn_line(line):
        # in a comment only what stands as a name
        code, mark, words = line, "", ""
        m = re.search(r"(^|\s)(--|//)(\s|$)", line)
        if m:
            code, mark, words = line[: m.start(2)], m.group(2), line[m.end(2) :]
        words = re.sub(r"`[^`\n]+`", lambda m: turn(m.group(0)), words)
        return turn(code) + mark + words

    # modules are in camel case
    modules = {}
    for path in sorted(CRATES.rglob("specs/**/*_*.antt")):
        modules[path.stem] = "".join(w[0].upper() + w[1:] for w in path.stem.split("_"))
        path.rename(path.with_stem(modules[path.stem]))
    new |= modules
    for path in sorted(CRATES.rglob("*")):
        if path.suffix not in (".antt", ".rt", ".edit") or "out" in path.relative_to(CRATES).parts:
            continue
        old = path.read_text()
        text = "\n".join(map(turn_line, old.split("\n")))
        if text != old:
            seen = {m.group(0) for m in TOKEN.finditer(old)}
            for n in sorted(seen & set(new)):
                if new[n] in seen:
                    print("in use:", path.relative_to(ROOT), n, "->", new[n])
            path.write_text(text)
    def pages():
        for path in sorted(ROOT.glob("*.md")) + sorted(ROOT.glob("docs/*.md")) + sorted(ROOT.glob("oracle/*.md")):
            old = path.read_text()
            text = re.sub(r"`[^`\n]+`", lambda m: turn(m.group(0)), old)
            if text != old:
                path.write_text(text)

    pages()
    new = SECOND
    for path in sorted(CRATES.rglob("*")):
        if path.suffix in (".antt", ".rt", ".edit") and "out" not in path.relative_to(CRATES).parts:
            old = path.read_text()
            if turn(old) != old:
                path.write_text(turn(old))
    pages()


if __name__ == "__main__":
    main()
