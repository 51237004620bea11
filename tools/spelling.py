"""What walk.py and part.py write with: tuples and lists as the proofs spell them, a context of labelled hypotheses, and the `use` lines of what a text names."""
import re


def sub(n):
    return "".join("₀₁₂₃₄₅₆₇₈₉"[int(c)] for c in str(n))


def tup(xs, end="tt"):
    for x in reversed(xs):
        end = f"({x}, {end})"
    return end


def prod(xs, end):
    for x in reversed(xs):
        end = f"{x} × {end}" if end == "Unit {0}" else f"{x} × ({end})"
    return end


lst = lambda xs: "".join(f"{x} ∷ " for x in xs) + "[]"
nth = lambda base, i: base + ".1" * i + ".0"
par = lambda s: s if re.fullmatch(r"\S+", s) else f"({s})"


class Context:
    """The hypotheses of a proof under way, by labels: their positions are counted here, and the steps written down."""

    def __init__(self, labels):
        self.c, self.t = list(labels), []

    def pos(self, y):
        return self.c.index(y)

    def emit(self, s):
        self.t.append(s)

    def nl(self):
        self.t.append("\n")

    def move(self, *xs):
        if list(xs) != self.c[: len(xs)]:
            self.emit(f"move ! ({lst([self.pos(y) for y in xs])}) $")
            self.c = list(xs) + [y for y in self.c if y not in xs]

    def step(self, s, take, put):
        assert self.c[: len(take)] == list(take), (self.c, take)
        self.emit(s + " $")
        self.c = list(put) + self.c[len(take):]

    def drop(self, y):
        self.move(y)
        self.step("drop !", [y], [])

    def chain(self, xs, join, name, end=None):
        """xs, nested to the right, with true at the end where `end`."""
        xs = list(xs)
        if end:
            self.step("nothing !", [], [name])
        else:
            self.c[self.pos(xs[-1])] = name
            xs = xs[:-1]
        for y in reversed(xs):
            self.move(y, name)
            self.step(join, [y, name], [name])

    def text(self, pad):
        return re.sub(r" ?\n ?", "\n" + " " * pad, " ".join(self.t))


def given_back(i, row, a, last, is_slice):
    """Of parameter i, a `&mut` that was handed on: its last value, and the borrow, which goes back to the lender."""
    if is_slice:
        value, lies = f"finally (row_of {row}) {a}.ghost_name {last}", f"Arr (Holey (mem (row_of {row}))) (length {a}.now)"
    else:
        value, lies = f"fres {a}.ghost_name ((row_of {row}).coded.code {last})", f"mem (row_of {row})"
    return f"fsep ({value}) (fbor κ{sub(i)} (Body ({lies}) {a}.ref_ptr.0 {a}.ref_ptr.1 {a}.ghost_name))"


def theorem(model, spells, tells, enter, goes):
    """The end of a file: the function's code meets the contract, over any tables, and over those of its environment."""
    return f"""  walks : {model} (C : Calls 𝓤 𝓛.H) (Λ : Loops 𝓤 𝓛.H) → FmC 𝓤 𝓛.H 𝓛.laws C → Triple 𝓤 (C key) (Callee 𝓛) → Walks 𝓛 ended stayed (WpFn 𝓤 𝓛.H C Λ function) (clauses 𝓛)
  walks {{𝓤 = 𝓤}} 𝓛 C Λ fm known = walked 𝓛 ended stayed (clauses 𝓛) (WpFn 𝓤 𝓛.H C Λ function) (λ κs. {spells}) (λ κs. {tells})
      (λ κs qs bounds a g are. {enter})

  meets : {model} (𝓣 : Tables 𝓤 𝓛.H) → Triple 𝓤 (𝓣.C key) (Callee 𝓛) → Meets 𝓛 signature (WpFn 𝓤 𝓛.H 𝓣.C 𝓣.Λ function) (closing 𝓛 ended (clauses 𝓛))
  meets {{𝓤 = 𝓤}} 𝓛 𝓣 known = walk_Meets 𝓛 ended stayed {goes} (clauses 𝓛) (WpFn 𝓤 𝓛.H 𝓣.C 𝓣.Λ function) (WpFn-mono 𝓤 𝓛.H 𝓛.laws 𝓣 function)
      (walks 𝓛 𝓣.C 𝓣.Λ (fm_of 𝓤 𝓛.H 𝓛.laws 𝓣) known)

  -- over the tables of the function's environment, from the callee's own theorem
  pub proved : {model} (𝓜 : Model 𝓤 𝓛.H) (𝓡 : Running 𝓤 𝓛.H 𝓜) (env : Env) (self : Name) → Closed 𝓤 𝓛.H (tables 𝓤 𝓛.H 𝓜 𝓡 env).C (tables 𝓤 𝓛.H 𝓜 𝓡 env).Λ self function
      → (routine : Routine) → env key ≡ routine → Triple 𝓤 (𝓡.run routine) (Callee 𝓛) → Meets 𝓛 signature ((tables 𝓤 𝓛.H 𝓜 𝓡 env).C self) (closing 𝓛 ended (clauses 𝓛))
  unfolding tables_of
  proved {{𝓤 = 𝓤}} 𝓛 𝓜 𝓡 env self closed routine calls met =
      entered 𝓤 𝓛.H (triple_of 𝓛 signature (closing 𝓛 ended (clauses 𝓛))) (tables 𝓤 𝓛.H 𝓜 𝓡 env).C (tables 𝓤 𝓛.H 𝓜 𝓡 env).Λ self function closed
      (meets 𝓛 (tables_of 𝓤 𝓛.H 𝓜 (tables 𝓤 𝓛.H 𝓜 𝓡 env)) (cited 𝓤 𝓛.H (Callee 𝓛) 𝓜 𝓡 env key routine calls met))"""


def with_uses(text, homes, more):
    """The text with its `use` lines in the place of @USES@: of each line of `homes`, a module and its names (`T:Holds` is T as Holds), those that the text has."""
    body = re.sub(r"(?<=[\w)])\.\w+", "", text.split("@USES@")[1])     # a field's name is no name that is imported
    words = set(re.findall(r"[^\s(){}.,;]+", body))
    uses = []
    for line in homes.split("\n"):
        module, *names = line.split()
        names = [n.split(":") for n in names]
        names = [n[0] + (" as " + n[1] if len(n) > 1 else "") for n in names if n[-1].strip("◌") in words or n[-1] in words]
        if names:
            uses.append(f"use {module}.{{{', '.join(names)}}}")
    return text.replace("@USES@", "\n".join([*uses, *more, ""]))
