#!/usr/bin/env python3
"""Writes what is shown of the functions that crates/ribsaddle exports, proofs/Promises.antt: for each function a record over the clauses of its source, which says that nothing is asked of its caller
and that its promise leaves one outcome. The clauses are read from src/, so a function that is added there has its record here. Rattle finds the proofs of the functions by itself or by their
Answers.antt, and none needs a walk.

And writes the walks of crates/walks again (tools/walk.py, and tools/part.py for the form Part): theorems of exported functions that copy what they are lent and hand it to a function by value.
"""
import pathlib
import re
import subprocess
import sys

ROOT = pathlib.Path(__file__).resolve().parent.parent
CRATE = ROOT / "crates" / "ribsaddle"
WALKS_AT = ROOT / "crates" / "walks" / "specs"
PLAIN = {"u64": "ℕ", "[u8]": "List ℕ"}
STRUCTS = {"PacketFields": "ribsaddle.specs.declared.codec", "Tracker": "ribsaddle.specs.declared.tracker", "Receiver": "ribsaddle.specs.declared.receiver", "ReceiveBuffer": "recv.specs.declared"}
MODULES = ["codec", "tracker", "receiver"]       # of crates/ribsaddle/src

# A walk: its form, the kinds of a state's fields where it is one in parts, and the kinds of the parameters after the state.
WALKS = [("Mut", "", "s"), ("Ref", "", "ssmr"), ("Mut", "", "nnnnnnnn"), ("PartR", "vllll", "nnnnn"), ("Part", "vllll", "nsnn"), ("PartR", "vllll", "0"), ("Ref", "", "0"), ("Ref", "", "r"),
         ("Ref", "", "rr"), ("Ref", "", "nrrr"), ("Mut", "", "nn"), ("Part", "vl", "mns"), ("Part", "vl", "mmr"), ("Ref", "", "mr"), ("Ref", "", "nr")]


class Function:
    """An exported function: its module, its name without the prefix, its parameters (name, is a reference, the type behind one to write through) and the text of its clause."""

    def __init__(self, module, name, parameters, clause):
        self.module, self.name = module, name
        self.parameters = [(n.strip(), t.strip().startswith("&"), t.strip().startswith("&mut ") and t.strip()[5:]) for n, t in (p.split(":") for p in parameters.split(",") if p.strip())]
        self.clause = " ".join(clause.split())

    def at(self, i):
        """The place of parameter i in the tuple of all."""
        return ".1" * i + ".0"

    def post(self, names):
        """The clause over the arguments `a`, the result `r` and what is lent as it stands on exit, `e`; `names` are the definitions whose names are others here."""
        text = re.sub(r"(?<!\.)\bresult\b", "r", self.clause)
        for n, name in names.items():
            text = re.sub(rf"(?<!\.)\b{n}\b", name, text)
        for i, (n, reference, _) in enumerate(self.parameters):
            if reference:
                text = re.sub(rf"(?<!\.)\b{n}\.(old|now)\b", f"a{self.at(i)}.now", text)
                text = re.sub(rf"(?<!\.)\b{n}\.new\b", f"e{self.at(i)}.now", text)
            else:
                text = re.sub(rf"(?<!\.)\b{n}\b", f"a{self.at(i)}", text)
        return text

    def seen(self):
        """What a caller can see, part by part, with its type: the answer, and all memory lent to be written."""
        return [("r", "ℕ")] + [(f"e{self.at(i)}.now", PLAIN.get(written, written)) for i, (_, _, written) in enumerate(self.parameters) if written]


def functions():
    """Every exported function, in the order of the source, and for each module the homes of the names that its clauses may have."""
    found, homes = [], {}
    for module in MODULES:
        text = (CRATE / "src" / f"{module}.rt").read_text()
        homes[module] = [(home, names.split(", ")) for home, names in re.findall(r"^ghost use ([\w.]+)\.\{(.*)\};$", text, re.M)]
        for name, parameters, clause in re.findall(r'^pub extern "C" fn ribsaddle_(\w+)\((.*?)\) -> u32\n    ensures \{ (.*?) \}\n\{\n', text, re.M | re.S):
            found.append(Function(module, name, parameters, clause))
        assert len([f for f in found if f.module == module]) == text.count('extern "C" fn'), module
    return found, homes


def conversions():
    """Every `From` of the crate's own types: its module in src/, and the name under which its function's proof stands."""
    found = []
    for module in MODULES:
        text = (CRATE / "src" / f"{module}.rt").read_text()
        found += [(module, f"{to}From{of}") for of, to in re.findall(r"^impl From<(\w+)> for (\w+) \{$", text, re.M)]
    return found


def promises():
    """The file Promises.antt: a record for each function, and behind them one for each conversion."""
    found, homes = functions()
    converted = conversions()
    used = {}                                     # (home, name): the modules whose clauses have it
    for f in found:
        words = set(re.findall(r"(?<!\.)\b\w+\b", f.clause)) | {"◌≡◌"}
        for home, names in homes[f.module]:
            for n in names:
                if n in words:
                    used.setdefault((home, n), set()).add(f.module)
    many = {n for _, n in used if len({home for home, m in used if m == n}) > 1}
    renamed = {module: {} for module in MODULES}
    uses = {}
    for (home, n), modules in used.items():
        other = f"{sorted(modules)[0]}_{n}" if n in many else n
        for module in modules:
            renamed[module][n] = other
        uses.setdefault(home, set()).add(f"{n} as {other}" if n in many else n)
    uses.setdefault("Rattle.std.specs.Prelude", set()).update(["refl", "ℕ", "List"])
    for struct in sorted({t for f in found for _, t in f.seen()} - {"ℕ", *PLAIN.values()}):
        uses[f"Rattle.{STRUCTS[struct]}.{struct}"] = {struct}
    lines = ["-- Every exported function, in the order of the source: nothing is asked of its caller, and no two different outcomes satisfy its promise. An outcome is the answer together with all memory lent to be written.",
             "-- tools/exports.py wrote this file, from the clauses in src/."]
    lines += [f"use {home}.{{{', '.join(sorted(names))}}}" for home, names in sorted(uses.items())]
    lines += ["use Rattle.common.specs.Promise.{Promise, by_value}" if converted else "use Rattle.common.specs.Promise.{by_value}", "use Rattle.ribsaddle.proofs.Exported.{Exported}"]
    lines += [f"use Rattle.ribsaddle.specs.contracts.{f.module}.ribsaddle_{f.name} as {f.name}" for f in found]
    lines += [f"use Rattle.ribsaddle.proofs.{module}.{name}.from.Reads as {name}" for module, name in converted]
    for f in found:
        parts = f.seen()
        seen = "r" if len(parts) == 1 else f"({', '.join(x for x, _ in parts)})"
        types = " × ".join(f"({t})" if " " in t else t for _, t in parts)
        given = "p" if len(parts) == 1 else "λ i. (" + ", ".join(f"p.{i} i" for i in range(len(parts))) + ")"
        lines += ["", f"{f.name}_promise : Exported {f.name}.ended (λ M 𝓤 𝓛. {f.name}.clauses 𝓛) {{W = {types}}} (λ κs r e. {seen})", f"{f.name}_promise =", "    record {",
                  f"      post = λ κs a r e. {f.post(renamed[f.module])};", "      asks_nothing = λ M 𝓤 𝓛 mem run κs a g. refl;", "      says = λ M 𝓤 𝓛 mem run κs a g r e. refl;",
                  f"      promise = by_value _ (λ κs a. tt) (λ κs a r e p. {given});", "    }"]
    if converted:
        lines += ["", "-- ---- conversions"]
    for _, name in converted:
        record = re.sub(r"(?<!^)(?=[A-Z])", "_", name).lower() + "_promise"
        lines += ["", f"{record} : Promise {name}.Pre {name}.Post (λ κs r s. r)", f"{record} = by_value _ (λ κs a. tt) (λ κs a r s p. p)"]
    (CRATE / "proofs" / "Promises.antt").write_text("\n".join(lines) + "\n")
    return len(found)


for form, fields, shape in WALKS:
    by = ["part.py", fields, shape, *["R"] * (form == "PartR")] if fields else ["walk.py", form, shape]
    walk = subprocess.run([sys.executable, ROOT / "tools" / by[0], *by[1:]], check=True, capture_output=True, text=True).stdout
    (WALKS_AT / f"{form}{fields.capitalize()}{shape.capitalize()}.antt").write_text(walk)
print(promises(), "functions,", len(WALKS), "walks")
