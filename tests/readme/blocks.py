"""Takes README.md apart for tests/readme_test.sh.

    python3 tests/readme/blocks.py README.md FOLDER     writes every code block to FOLDER/NN.LANGUAGE
    python3 tests/readme/blocks.py --printed FILE       the lines that a `console` block says are printed

A block is fenced and names its language. `console` is one command after `$ `, and then what it prints, where a
remark may stand after three spaces or on a line of its own that starts with a space. Beside the blocks it writes
FOLDER/commands, the commands in the text that start with `./` and have an argument; FOLDER/datagram, the worked
example's bytes; FOLDER/promises, each `ensures` in the text; FOLDER/dependency, the line for a Cargo.toml.
"""
import pathlib
import re
import sys

LANGUAGES = {"c", "rust", "rattle", "sh", "console", "text"}


def blocks(text):
    """The blocks as (language, lines), and the text outside of them."""
    found, outside, language, before = [], [], None, ""
    for number, line in enumerate(text.split("\n"), 1):
        if line.startswith("```"):
            if language is None:
                language = line[3:]
                if language not in LANGUAGES:
                    sys.exit(f"README.md, line {number}: a block of {language!r}, of which no test knows what to do")
                found.append((language, []))
            else:
                language = None
        elif language is not None:
            found[-1][1].append(line)
        else:
            if line.startswith("    ") and before == "":
                sys.exit(f"README.md, line {number}: an indented block, which names no language")
            outside.append(line)
        before = line
    if language is not None:
        sys.exit("README.md: a block has no end")
    return found, "\n".join(outside)


def one(spans, form):
    """The one span of the text that has the form."""
    found = [span for span in spans if re.fullmatch(form, span)]
    if len(found) != 1:
        sys.exit(f"README.md: {len(found)} spans of the form {form}, and there has to be one")
    return found[0]


def main():
    if sys.argv[1] == "--printed":
        for line in pathlib.Path(sys.argv[2]).read_text().split("\n")[1:]:
            if line and not line.startswith(" "):
                print(re.split(" {3,}", line)[0])
        return
    found, outside = blocks(pathlib.Path(sys.argv[1]).read_text())
    folder = pathlib.Path(sys.argv[2])
    for number, (language, lines) in enumerate(found, 1):
        (folder / f"{number:02}.{language}").write_text("".join(line + "\n" for line in lines))
    spans = re.findall(r"`([^`]+)`", outside.replace("\n", " "))
    write = lambda name, lines: (folder / name).write_text("".join(line + "\n" for line in lines))
    write("commands", [span for span in spans if re.match(r"\./\S+ \S", span)])
    write("promises", [span for span in spans if span.startswith("ensures {")])
    write("datagram", [one(spans, r"[0-9a-f]{2}( [0-9a-f]{2}){20,}")])
    write("dependency", [one(spans, r'ribsaddle = \{ path = ".*" \}')])


main()
