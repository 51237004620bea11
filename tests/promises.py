"""Every public function of a library: no `requires`, an `ensures`, and a promise in its crate's proofs/Promises.antt and on docs/PROMISES.md.

A public function is a `pub fn` (not `pub(crate) fn`) in a file of crates/NAME/src of a crate that has src/lib.rt; its proof's module is
proofs/FILE/TYPE/NAME, without FILE for lib.rt and without TYPE outside an `impl`. Of an exported function over a state behind a pointer the record is an
`Exported` of its clauses (crates/ribsaddle/proofs/Exported.antt). A method of a public trait is public too: its clauses stand in the trait, and each instance
has a record of it, over proofs/FILE/TYPETRAIT/NAME. So is the function of a `From`, whose clause is `from_gives`. Exit status 1 where anything is missing.
"""
import pathlib
import re
import sys

# Crates of programs' helpers, which are no part of the port's interface.
HELPERS = set()
HELPERS.update(line.strip() for line in pathlib.Path("tests/helpers.txt").read_text().splitlines() if line.strip() and not line.startswith("#"))


def functions(source):
    """Yield (line number, type or None, name, text of the contract) for every public function of a file."""
    lines = source.splitlines()
    owner, owner_indent = None, 0
    for i, line in enumerate(lines):
        stripped = line.lstrip()
        indent = len(line) - len(stripped)
        impl = re.match(r"impl (\w+)", stripped)
        if impl:
            owner, owner_indent = impl.group(1), indent
        elif stripped == "}" and indent == owner_indent:
            owner = None if owner and indent == owner_indent else owner
        found = re.match(r'pub (?:extern "C" )?fn (\w+)', stripped)
        if found:
            contract = []
            for rest in lines[i + 1:]:
                contract.append(rest)
                if rest.strip() == "{" or rest.rstrip().endswith(" {") and "ensures" not in rest and "requires" not in rest:
                    break
            yield i + 1, owner if indent > 0 else None, found.group(1), "\n".join(contract)


def traits(libraries):
    """Yield (file, line number, trait, method, text of the contract) for every method of a public trait of these crates."""
    for file in libraries:
        lines = file.read_text().splitlines()
        trait = None
        for i, line in enumerate(lines):
            declared = re.match(r"pub trait (\w+)", line)
            if declared:
                trait = declared.group(1)
            elif line == "}":
                trait = None
            method = trait and re.match(r"    fn (\w+)", line)
            if method:
                contract = []
                for rest in lines[i + 1:]:
                    contract.append(rest)
                    if rest.rstrip().endswith(";") or rest.strip() in ("}", ""):
                        break
                yield file, i + 1, trait, method.group(1), "\n".join(contract)


def instances(file):
    """Yield (line number, trait with its arguments, type, text of the block) for every `impl` of a trait in a file."""
    lines = file.read_text().splitlines()
    for i, line in enumerate(lines):
        found = re.match(r"impl(?:<.*?>)? (\w+(?:<.*>)?) for (.+) \{$", line)
        if found:
            end = lines.index("}", i)
            yield i + 1, found.group(1), found.group(2), "\n".join(lines[i:end])


def module_name(text):
    """A type or a trait with its arguments as a module's name has it: `[Packet; 512]` is ArrayPacket512."""
    return ("Array" if text.startswith("[") else "") + re.sub(r"\W", "", re.sub(r"<.*", lambda m: re.sub(r"\W", "", m[0]), text))


def main():
    problems, count = [], 0
    page = pathlib.Path("docs/PROMISES.md").read_text()
    for lib in sorted(pathlib.Path("crates").glob("*/src/lib.rt")):
        crate = lib.parent.parent
        if crate.name in HELPERS:
            continue
        promises = crate / "proofs" / "Promises.antt"
        listed = promises.read_text() if promises.exists() else ""
        files = sorted(lib.parent.glob("*.rt"))
        homes = {}
        for file in files:
            for declared in re.findall(r"^pub (?:struct|enum) (\w+)", file.read_text(), re.M):
                homes[declared] = file
        for file in files:
            for number, owner, name, contract in functions(file.read_text()):
                count += 1
                # A method's module is its type's, wherever the `impl` stands.
                home = homes.get(owner, file)
                path = ("" if home.name == "lib.rt" else home.stem + ".") + (owner + "." if owner else "") + name
                shown = crate.name + "::" + path.replace(".", "::")
                if re.search(r"^\s*requires", contract, re.M):
                    problems.append(f"{file}:{number}: {shown} has a `requires`")
                if not re.search(r"^\s*ensures", contract, re.M):
                    problems.append(f"{file}:{number}: {shown} promises nothing")
                use = re.search(r"use Rattle\." + crate.name + r"\.(?:proofs|specs\.contracts)\." + re.escape(path) + r"(?:\.Reads)? as (\S+)", listed)
                if not use:
                    problems.append(f"{file}:{number}: {shown} has no promise in {promises}")
                elif not re.search(r"(Promise[^\n]*\b" + re.escape(use.group(1)) + r"\.Pre\b|: Exported " + re.escape(use.group(1)) + r"\.ended )", listed):
                    problems.append(f"{file}:{number}: {shown} is imported in {promises} and nothing is shown of it")
                if f"`{shown}`" not in page:
                    problems.append(f"{file}:{number}: {shown} is not on docs/PROMISES.md")
    libraries = [f for lib in sorted(pathlib.Path("crates").glob("*/src/lib.rt")) if lib.parent.parent.name not in HELPERS for f in sorted(lib.parent.glob("*.rt"))]
    public = {}
    for file, number, trait, method, contract in traits(libraries):
        public.setdefault(trait, []).append(method)
        shown = f"{file.parent.parent.name}::" + ("" if file.name == "lib.rt" else file.stem + "::") + f"{trait}::{method}"
        if re.search(r"^\s*requires", contract, re.M):
            problems.append(f"{file}:{number}: {shown} has a `requires`")
        if not re.search(r"^\s*ensures", contract, re.M):
            problems.append(f"{file}:{number}: {shown} promises nothing")
        if f"`{shown}`" not in page:
            problems.append(f"{file}:{number}: {shown} is not on docs/PROMISES.md")
    for file in libraries:
        crate = file.parent.parent
        promises = crate / "proofs" / "Promises.antt"
        listed = promises.read_text() if promises.exists() else ""
        for number, trait, kind, block in instances(file):
            plain = trait.split("<")[0]
            if plain != "From" and plain not in public:
                continue
            if plain == "From" and "from_gives" not in block:
                problems.append(f"{file}:{number}: the conversion from {trait[5:-1]} to {kind} promises nothing")
            for method in ["from"] if plain == "From" else public[plain]:
                count += 1
                shown = f"{crate.name}::" + ("" if file.name == "lib.rt" else file.stem + "::") + f"{module_name(kind)}{module_name(trait)}::{method}"
                path = ("" if file.name == "lib.rt" else file.stem + ".") + f"{module_name(kind)}{module_name(trait)}.{method}"
                use = re.search(r"use Rattle\." + crate.name + r"\.proofs\." + re.escape(path) + r"\.Reads as (\S+)", listed)
                if not use:
                    problems.append(f"{file}:{number}: {shown} has no promise in {promises}")
                elif not re.search(r"Promise[^\n]*\b" + re.escape(use.group(1)) + r"\.Pre\b", listed):
                    problems.append(f"{file}:{number}: {shown} is imported in {promises} and nothing is shown of it")
                if plain == "From" and f"`{shown}`" not in page:
                    problems.append(f"{file}:{number}: {shown} is not on docs/PROMISES.md")
    print("\n".join(problems) if problems else f"{count} public functions, each with its promise")
    sys.exit(1 if problems or not count else 0)


main()
