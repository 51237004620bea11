#!/usr/bin/env python3
# Writes the proof, once for all types, of the exported functions of one shape. Use: walk.py FORM SHAPE > crates/walks/specs/FORMSHAPE.antt
#   FORM   Mut    fn f(t: &mut S, ..) -> Ans { let s = *t; let r = callee(s, ..); *t = r.state; r.answer }     r: a struct of the answer and the state, in this order
#          Set    fn f(t: &mut S, ..)        { let s = *t; *t = callee(s, ..); }
#          New    fn f(t: &mut S, ..)        { *t = callee(..); }
#          Ref    fn f(t: &S, ..) -> Ans     { let s = *t; callee(s, ..) }
#          with R at its end, as MutR, the same under a `requires`, one that the callee has too
#   SHAPE  a letter for each parameter after the state, 0 where there is none:
#          n  a built-in type by value      s  a `&[E]`      m  a `&mut [E]`, and r  a `&mut E` of a built-in type, which go on to the callee
# The callee's contract is `r ≡ spec ..`, and with an m or an r `(r ≡ spec ..) × (buf.new ≡ fill ..)`.
import re
import sys

from spelling import Context, given_back, lst, nth, par, prod, sub, theorem, tup, with_uses

form, shape = sys.argv[1:3]
shape = "" if shape == "0" else shape
req = form.endswith("R")
form = form[:-1] if req else form
assert form in ("Mut", "Set", "New", "Ref") and not re.search("[^nsmr]", shape)
k = len(shape)
ix = list(range(1, k + 1))
kind = {i: shape[i - 1] for i in ix}
refs = [i for i in ix if kind[i] != "n"]
S_, M_ = [i for i in ix if kind[i] == "s"], [i for i in ix if kind[i] in "mr"]
shared, takes, outs = form == "Ref", form != "New", form == "Mut"
unit = form in ("Set", "New")
num = {i: n for n, i in enumerate(refs)}        # the callee's lifetimes; the function's are one more
A, a, p, z, l = ((lambda i, x=x: x + sub(i)) for x in "Aapzl")


def row(i, off):
    r = f"(named {num[i] + off}) κ{sub(i)} (row_of {A(i)})" if i in refs else ""
    return {"n": f"row_of {A(i)}", "s": "ShrSlice " + r, "m": "MutSlice " + r, "r": "MutRef " + r}[kind[i]]


def slot(i, off):
    j = f"({num[i] + off} ∷ []) tt (plain (λ _. row_of {A(i)})) (λ _. tt)" if i in refs else ""
    return {"n": f"plain (λ _. row_of {A(i)})", "s": "SliceRefOf " + j, "m": "SliceRefMutOf " + j, "r": "RefMutOf " + j}[kind[i]]


def ty(i):
    if kind[i] == "r":
        return f"ty_ref (named {num[i] + 1}) mut {A(i)}.ty"
    return f"{A(i)}.ty" if kind[i] == "n" else f"slice_ty (ty_ref (named {num[i] + 1}) {'imm' if kind[i] == 's' else 'mut'} {A(i)}.ty)"


val = lambda i, x: {"n": f"{A(i)}.val {x}", "r": f"vptr {x}.ref_ptr.0 {x}.ref_ptr.1"}.get(kind[i], f"slice_val {x}.ref_ptr (length {x}.now)")
den = lambda i: f"{A(i)}.X" if kind[i] in "nr" else f"List {A(i)}.X"
arg = lambda i: {"n": f"{A(i)}.X", "r": f"MutBor {A(i)}.X", "s": f"Bor (List {A(i)}.X)", "m": f"MutBor (List {A(i)}.X)"}[kind[i]]
at = lambda i, x: x if kind[i] == "n" else f"{x}.now"
c0 = 1 if takes else 0                           # the callee's parameter i is its component i - 1 + c0

nl = 1 + len(refs)
ret = {"Mut": "O.row.Denot", "Set": "S.T.D", "New": "S.T.D", "Ref": "Ans.X"}[form]
resrow = {"Mut": "O.row", "Set": "state_row S", "New": "state_row S", "Ref": "row_of Ans"}[form]
w = []
out = w.append
out(f"-- `fn f(t: {'&' if shared else '&mut'} S{''.join(', a%d: %s' % (i, {'n': 'A%d' % i, 's': '&[A%d]' % i, 'm': '&mut [A%d]' % i, 'r': '&mut A%d' % i}[kind[i]]) for i in ix)}){'' if unit else ' -> Ans'}`, of the form {form} of tools/walk.py, which wrote this file: it meets the contract that says the callee's of what lies behind the reference.")
out("-- For all types: `Behind.antt` has what is asked of them. Assumes nothing.")
USES = """Rattle.std.specs.Prelude ◌≡◌ refl ℕ [] ◌∷◌ List T:Holds length
Rattle.std.proofs.Common sym ap subst
seplogic.Ra.Ura Ura
base.Fraction full_share
mir.Syntax Callee:Name Ty Fn named erased imm mut ty_ref ty_unit ty_struct tnil tcons local value_local place deref field copy opd_unit rv_opd addr_of aggregate seq assign call return
mir.Val Val vptr vunit WT has_ty
base.Logic SProp ent sep emp via fst∗ snd∗ ex_e id⊢
base.Fml GName Lft Share Fml ftrue fsep flft fobs fbor fres fat
prog.Model Model
prog.Routine Routine Env
prog.Wp Calls Loops Closed WpFn Tables
types.Logic Logic
contract.Lifetimes Lfts
contract.Monad fact
contract.Running Running tables tables_of
types.Kit ‵ raw ◌⊛◌ ⋆ some later ◌$◌ ◌∵◌ ! qed by move keep drop use0 use1 split join pick rewrite fsplit fsplit3 fjoin fjoin3 feq_l feq_i suffices frame await done
types.Run look look_raw init store_raw forget stop hop fld from load addr unit_lit of_opd and_then no_more assigns land returns enter alloc1 alloc0 params1 pass1 pass0 free1 free0
types.Part agg whole sub look_in
types.SemTy Body Arr
types.Hole Holey
sound.WpLaws FmC fm_of WpFn-mono
denote.RattleType owns
denote.Shadow makes_shadow
denote.Laws Is Makes shows
denote.Memory mem hidden_shr pointee
denote.Builtin unit RefOf RefMutOf SliceRefOf SliceRefMutOf
denote.Ref Bor MutBor MutRef ShrRef shr_vals mut_vals mut_Tells shr_Tells
denote.Slice ShrSlice MutSlice slice_ty slice_val shr_slice_vals mut_slice_vals finally shr_slice_Tells shr_slice_Lawful shr_slice_copy mut_slice_Tells mut_slice_Lawful
denote.Signature Signature plain
denote.Exit yes
denote.Steps only opens closes looks shuts owned peeks heard nothing
denote.Struct.Steps spelt
denote.Struct.Struct layout as_fields
denote.Struct.Declared shape
denote.Triple.Statement Contract Triple
denote.Triple.Call calls_at
denote.Triple.Clauses Ended AtExit Clauses closing
denote.Triple.End Fins lasts_of
denote.Triple.Entry Args Res on_entry
denote.Triple.Spec Spec Meets triple_of exits
denote.Triple.Table entered cited
denote.Triple.Walked says needs Stays stay_ref stay_none stay_none_ref stay_none_slice gave_slice gave_ref walk_of Goes-none Goes-ref Goes-none_ref Goes-none_slice Goes-gave_slice Goes-gave_ref Walks ends_at walked walk_Meets"""
out("@USES@")

# ---- the function, its signature and the callee's, and the two contracts
ins = (["S.T.D"] if takes else []) + [den(i) for i in ix]
fn_t = lambda end: " → ".join(ins + [end])
head = "(S : State)" + (" (" + " ".join(A(i) for i in ix) + " : Arg)" if k else "") + ("" if unit else " (Ans : Arg)") + (" (O : Out S Ans)" if outs else "") + " (key : Name)"
head += (f" (pre : {fn_t('Type 0')})" if req else "") + f" (spec : {fn_t(ret)})" + "".join(f" (fill{sub(i)} : {fn_t(den(i))})" for i in M_)
out(f"module _ {head} where")
out("  abbrev τS : Ty\n  τS = layout (shape S.T)\n")
locs = ["ty_unit" if unit else "Ans.ty", f"ty_ref (named 0) {'imm' if shared else 'mut'} (pointee (state_row S).written)"] + [ty(i) for i in ix]
if takes:
    Ls = len(locs)
    locs.append("τS")
Lr = 0 if shared else len(locs)
if outs:
    out("  abbrev τO : Ty\n  τO = ty_struct O.name (tcons Ans.ty (tcons τS tnil))\n")
if not shared:
    locs.append("τO" if outs else "τS")
again = {}
for i in M_:
    if kind[i] == "r":
        again[i] = (len(locs), len(locs))
        locs.append(f"ty_ref erased mut {A(i)}.ty")
        continue
    again[i] = (len(locs), len(locs) + 1)
    locs += [f"ty_ref erased mut {A(i)}.ty", f"slice_ty (ty_ref erased mut {A(i)}.ty)"]
if outs:                                         # the new state, on its way from the result to the place behind the reference
    Lt = len(locs)
    locs.append("τS")
N = len(locs)
pl = lambda n, *st: f"(place {n} {'[]' if not st else '(' + lst(st) + ')'})"
stmts = [f"assign {pl(Ls)} (rv_opd (copy {pl(1, 'deref τS')}))"] if takes else []
for i in M_:
    u, v = again[i]
    if kind[i] == "r":
        stmts.append(f"assign {pl(u)} (addr_of {pl(i + 1, f'deref {A(i)}.ty')})")
        continue
    stmts += [f"assign {pl(u)} (addr_of {pl(i + 1, 'field 0', f'deref {A(i)}.ty')})", f"assign {pl(v)} (aggregate (copy {pl(u)} ∷ copy {pl(i + 1, 'field 1')} ∷ []))"]
stmts.append(f"call key ({lst(([f'copy {pl(Ls)}'] if takes else []) + [f'copy {pl(again[i][1] if i in M_ else i + 1)}' for i in ix])}) {pl(Lr)}")
if outs:
    stmts += [f"assign {pl(Lt)} (rv_opd (copy {pl(Lr, 'field 1')}))", f"assign {pl(1, 'deref τS')} (rv_opd (copy {pl(Lt)}))", f"assign {pl(0)} (rv_opd (copy {pl(Lr, 'field 0')}))"]
elif unit:
    stmts += [f"assign {pl(1, 'deref τS')} (rv_opd (copy {pl(Lr)}))", f"assign {pl(0)} (rv_opd opd_unit)"]
body = "return"
for s in reversed(stmts):
    body = f"seq ({s}) ({body})" if body != "return" else f"seq ({s}) return"
out(f"  abbrev pub function : Fn\n  function = record {{\n    lifetimes = {nl};\n    outlives = [];\n    ty_params = [];\n    givens = 0;\n    params = {k + 1};\n    locals = {lst([f'local {par(t)} value_local' for t in locs])};\n    body = {body};\n  }}\n")
kept = tup(["yes"] * (k + 1))
ckept = tup(["yes"] * (k + c0))
out(f"  abbrev pub callee : Signature\n  callee = record {{ lifetimes = {nl - 1}; outlives = []; params = {lst((['plain (λ _. state_row S)'] if takes else []) + [slot(i, 0) for i in ix])}; result = plain (λ _. {resrow}) }}\n")
out(f"  abbrev pub signature : Signature\n  signature = record {{ lifetimes = {nl}; outlives = []; params = {lst([('RefOf' if shared else 'RefMutOf') + ' (0 ∷ []) tt (plain (λ _. state_row S)) (λ _. tt)'] + [slot(i, 1) for i in ix])}; result = plain (λ _. {'unit' if unit else 'row_of Ans'}) }}\n")
out(f"  abbrev pub ended : Ended\n  ended = record {{ signature = signature; kept = {kept} }}\n")
stay = {"n": lambda i: f"stay_none (λ _. row_of {A(i)}) yes", "s": lambda i: f"stay_none_slice ({num[i] + 1} ∷ []) tt (plain (λ _. row_of {A(i)})) yes", "m": lambda i: f"gave_slice ({num[i] + 1} ∷ []) tt (plain (λ _. row_of {A(i)}))", "r": lambda i: f"gave_ref ({num[i] + 1} ∷ []) tt (plain (λ _. row_of {A(i)}))"}
out(f"  abbrev stayed : Stays signature.params ended.kept\n  stayed = {tup(['stay_none_ref (0 ∷ []) tt (plain (λ _. state_row S)) yes' if shared else 'stay_ref (0 ∷ []) tt (plain (λ _. state_row S))'] + [stay[kind[i]](i) for i in ix])}\n")
of = lambda f, st, x: " ".join([f] + ([st] if takes else []) + [at(i, x(i)) for i in ix])
cnth = lambda i: nth("a", i - 1 + c0)


def both(first, last, f, st, x):                 # a fact of the result, and one of each `&mut [E]` at exit
    fs = first + [f"{last(i)} ≡ {of('fill' + sub(i), st, x)}" for i in M_]
    return fs[0] if len(fs) == 1 else " × ".join(f"({y})" for y in fs)


cfact = both([f"r ≡ {of('spec', 'a.0', cnth)}"], lambda i: f"{nth('e', i - 1 + c0)}.now", None, "a.0", cnth)
sp = of("spec", "a.0.now", lambda i: nth("a", i))
firsts = {"Mut": [f"r ≡ O.ans ({sp})", f"e.0.now ≡ O.st ({sp})"], "Set": [f"e.0.now ≡ {sp}"], "New": [f"e.0.now ≡ {sp}"], "Ref": [f"r ≡ {sp}"]}[form]
wfact = both(firsts, lambda i: f"{nth('e', i)}.now", None, "a.0.now", lambda i: nth("a", i))
Mo = "{M : Type 1} {𝓤 : Ura M} (𝓛 : Logic 𝓤)"
need = lambda st, x: f"fact 𝓤 ({of('pre', st, x)})" if req else "emp 𝓤"
lent = ([] if shared else ["e.0.now"]) + [f"{nth('e', i)}.now" for i in M_]
seen = ([] if unit else ["r"]) + lent
width = len(firsts) + len(M_)
shown = seen[0] if width == 1 else f"({', '.join(seen)})"
saw = " × ".join(([] if unit else ["Ans.X"]) + ([] if shared else ["S.T.D"]) + [par(den(i)) for i in M_])
out(f"""  -- what the contract says, and that no two outcomes satisfy it
  abbrev pub Post : (κs : Lfts {nl}) → Args signature κs → Res signature κs → AtExit ended κs → Type 0
  Post κs a r e = {wfact}

  abbrev pub seen : (κs : Lfts {nl}) → Res signature κs → AtExit ended κs → {saw}
  seen κs r e = {shown}

  pub promise : Promise (λ (κs : Lfts {nl}) (a : Args signature κs). Unit {{0}}) Post seen
  promise = by_value _ (λ κs a. tt) (λ κs a r e p. {'p' if width == 1 else 'λ i. (' + ', '.join(f'p.{n} i' for n in range(width)) + ')'})
""")
out(f"""  module _ {Mo} where
    abbrev pub callee_spec : Spec 𝓤 callee
    callee_spec κs a = record {{ ghost = Unit {{0}}; requires = λ _. {need('a.0', cnth)}; ensures = λ _ r. exits 𝓛 callee {ckept} κs a (λ e. fact 𝓤 ({cfact})) }}

    abbrev pub Callee : Contract 𝓤
    Callee = triple_of 𝓛 callee callee_spec

    abbrev pub clauses : Clauses 𝓤 ended
    clauses κs a = record {{ ghost = Unit {{0}}; requires = λ _. {need('a.0.now', lambda i: nth('a', i))}; ensures = λ _ r e. fact 𝓤 (Post κs a r e) }}

  made : {Mo} (B : Arg) → Makes 𝓛 (row_of B) (Is (row_of B))
  made 𝓛 B x vs p = makes_shadow 𝓛 (B.own x vs) (B.pure x vs) p
""")

# ---- at one choice of lifetimes, shares and arguments
params = "(κ : Lft) (q : Share)" + "".join(f" (κ{sub(i)} : Lft) (q{sub(i)} : Share)" for i in refs) + f" (b o : ℕ){'' if shared else ' (γ : GName)'} (h : S.T.D)"
params += "".join(f" ({a(i)} : {arg(i)})" for i in ix) + "".join(f" ({p(i)} : Is ({row(i, 1)}) {a(i)} ({val(i, a(i))} ∷ []))" for i in ix) + (f" (hold : {of('pre', 'h', a)})" if req else "")
out(f"  module _ {Mo} {params} where\n    open 𝓛 use {{H}}\n")
avals = [f"{val(i, a(i))} ∷ []" for i in ix]
κs, qs = tup(["κ"] + ["κ" + sub(i) for i in refs]), tup(["q"] + ["q" + sub(i) for i in refs])
cκ, cq = tup(["κ" + sub(i) for i in refs]), tup(["q" + sub(i) for i in refs])
cargs = tup((["h"] if takes else []) + [a(i) for i in ix])
spec = of("spec", "h", a)
own = lambda i: f"({row(i, 1)}).own_val {a(i)} ({val(i, a(i))} ∷ [])"
zs = lambda i: nth("ws", i - 1 + c0)
fact_at = lambda last: both([f"r ≡ {spec}"], last, None, "h", a)
out(f"""    abbrev Xs : Type 0
    Xs = {prod([('Bor' if shared else 'MutBor') + ' S.T.D'] + [arg(i) for i in ix], 'Unit {0}')}

    abbrev Vs : Type 0
    Vs = {prod(['List Val'] * (k + 1), 'Unit {0}')}

    abbrev x : Xs
    x = {tup(['record { ref_ptr = (b, o); now = h }' if shared else 'record { ref_ptr = (b, o); ghost_name = γ; now = h }'] + [a(i) for i in ix])}

    abbrev at : Vs
    at = {tup(['vptr b o ∷ []'] + avals)}

    abbrev mach : S.T.D → Val
    mach d = LL.val S.T S.L d

    abbrev After : Val → SProp 𝓤
    After = (walk_of 𝓛 ended stayed (clauses 𝓛)).post (({κs}, {qs}, tt, x, at), tt)

    abbrev to : (Callee 𝓛).Ghost
    to = (({cκ}, {cq}, tt, {cargs}, {tup((['mach h ∷ []'] if takes else []) + avals)}), tt)

    abbrev Said : {ret} → SProp 𝓤
    Said r = (callee_spec 𝓛 {cκ} {cargs}).ensures tt r
""")


class Cx(Context):
    def args(self, have):                        # what the parameters own
        self.step("nothing !", [], ["acc"])
        for i in reversed(ix):
            if kind[i] == "n":
                self.step(f"owned ! (row_of {A(i)}) (Is (row_of {A(i)})) (made 𝓛 {A(i)}) {a(i)} _ {p(i)}", [], [f"own{i}"])
            y = have(i)
            self.move(y, "acc")
            self.step("fjoin !", [y, "acc"], ["acc"])


fml = {f"tok{i}": f"flft κ{sub(i)} q{sub(i)}" for i in refs}
fml.update({f"own{i}": own(i) for i in refs})
for i in M_:
    fml[f"fin{i}"] = given_back(i, A(i), a(i), z(i), kind[i] == "m")
len_of = lambda i: f" {l(i)}" if kind[i] == "m" else ""
new = {"Mut": "(O.st r)", "Set": "r", "New": "r", "Ref": "h"}[form]
fml.update({"obs": f"fobs γ ((state_row S).coded.code {new})", "bor": "fbor κ (Body (mem (state_row S)) b o γ)", "shr": "hidden_shr (state_row S) κ h b o", "tok0": "flft κ q"})
items = lambda ls: lst([f"‵ ({fml[x]})" for x in ls])

# the callee's precondition
have = [f"tok{i}" for i in refs] + [f"own{i}" for i in refs]
cx = Cx(have)
if req:
    cx.emit("says ! hold $")
cx.args(lambda i: f"own{i}")
if takes:
    cx.step("owned ! (state_row S) (Is (state_row S)) (LL.makes S.T S.plain 𝓛) h _ was", [], ["st"])
    cx.step("fjoin !", ["st", "acc"], ["acc"])
cx.chain([f"tok{i}" for i in refs], "join !", "toks", True)
cx.move("toks", "acc")
cx.emit("done !" if req else "join ! $ frame ! $ nothing ! $ done !")
was_t = "Is (state_row S) h (mach h ∷ []) → " if takes else ""
out(f"    asked : {was_t}ent 𝓤 (⋆ 𝓛 ({items(have)})) ((Callee 𝓛).pre to)\n    asked{' was' if takes else ''} = qed 𝓛 ({items(have)}) ∵ {cx.text(8)}\n")

# the exit
two = ["shr"] if shared else ["obs", "bor"]
left = two + ["tok0"] + [f"tok{i}" for i in refs] + [f"own{i}" for i in S_] + [f"fin{i}" for i in M_]
ansr, ansv = {"Mut": ("O.ans r", "Ans.val (O.ans r)"), "Ref": ("r", "Ans.val r")}.get(form, ("tt", "vunit"))
cx = Cx(left)
e0 = "e.0" if M_ else "e"
facts = {"Mut": [f"ap O.ans {e0}", f"ap O.st {e0}"]}.get(form, [e0]) + [f"e.{n + 1}" for n in range(len(M_))]
cx.emit(f"suffices ! _ (ends_at 𝓛 ended stayed (clauses 𝓛) (({κs}, {qs}, tt, x, at), tt) ({ansv}) ({ansr}) {tup(['tt' if shared else new] + [z(i) if i in M_ else 'tt' for i in ix])} {tup(['tt'] + [l(i) if kind[i] == 'm' else 'tt' for i in ix])}) $ says ! {facts[0] if len(facts) == 1 else '(' + ', '.join(facts) + ')'} $")
cx.nl()
cx.chain(["tok0"] + [f"tok{i}" for i in refs], "join !", "toks", True)
cx.step("frame !", ["toks"], [])
cx.move(*two)
cx.step("feq_i ! (List Val) (vptr b o ∷ []) (vptr b o ∷ []) refl", [], ["eq"])
cx.step("fjoin !" if shared else "fjoin3 !", ["eq"] + two, ["ref"])
cx.args(lambda i: f"fin{i}" if i in M_ else f"own{i}")
cx.move("ref", "acc")
cx.step("fjoin !", ["ref", "acc"], ["has"])
cx.step("feq_i ! (List Val) (vunit ∷ []) (vunit ∷ []) refl" if unit else f"owned ! (row_of Ans) (Is (row_of Ans)) (made 𝓛 Ans) ({ansr}) _ is", [], ["ans"])
cx.move("has", "ans")
cx.emit("done !")
zl = "".join(f" ({z(i)} : {den(i)})" + (f" ({l(i)} : length {z(i)} ≡ length {a(i)}.now)" if kind[i] == "m" else "") for i in M_)
ist = "" if unit else f" (is : Is (row_of Ans) ({ansr}) ({ansv} ∷ []))"
out(f"    ends : (r : {ret}){zl}{ist} → {fact_at(z)} → ent 𝓤 (⋆ 𝓛 ({items(left)})) (After ({ansv}))")
out(f"    ends r{''.join(f' {z(i)}{len_of(i)}' for i in M_)}{'' if unit else ' is'} e =\n        qed 𝓛 ({items(left)}) ∵\n        {cx.text(8)}\n")

# what the callee returned
lawful = lambda d, q: f"((LL.lawful S.T S.L 𝓛).typed {d} _ {q}).0"
if outs:
    out(f"""    typed_out : (r : {ret}) (v : Val) → Is O.row r (v ∷ []) → Holds (has_ty τO v) × WT v
    typed_out r v is = subst (λ (u : Val). Holds (has_ty τO u) × WT u) (sym (ap only (O.tells r _ is)))
        (as_fields (Ans.ty ∷ τS ∷ []) (Ans.val (O.ans r) ∷ mach (O.st r) ∷ []) (Ans.typed (O.ans r) (O.ans_is r _ is), ({lawful('(O.st r)', '(O.st_is r _ is)')}, tt)))
""")
elif shared:
    out(f"""    again : (r : {ret}) (v : Val) → Is (row_of Ans) r (v ∷ []) → Is (row_of Ans) r (Ans.val r ∷ [])
    again r v is = subst (λ (us : List Val). Is (row_of Ans) r us) (Ans.tells r _ is) is

    typed_ans : (r : {ret}) (v : Val) → Is (row_of Ans) r (v ∷ []) → Holds (has_ty Ans.ty v) × WT v
    typed_ans r v is = subst (λ (u : Val). Holds (has_ty Ans.ty u) × WT u) (sym (ap only (Ans.tells r _ is))) (Ans.typed r (again r v is))
""")
else:
    out(f"""    again : (r : {ret}) (v : Val) → Is (state_row S) r (v ∷ []) → Is (state_row S) r (mach r ∷ [])
    again r v is = subst (λ (us : List Val). Is (state_row S) r us) (LL.tells S.T S.L r _ is) is
""")

# the walk
labels = []
for i in reversed(range(N)):
    labels += [f"l{i}", f"d{i}"]
cx = Cx(labels + ["toks", "owns"])
vals = lst(["vptr b o"] + [val(i, a(i)) for i in ix])
close = N
toks = "".join(f"‵ ({fml[f'tok{i}']}) ⊛ " for i in [0] + refs) + "‵ ftrue"
cx.emit(f"qed 𝓛 (({toks}) ∷ ‵ (owns ({lst([('ShrRef' if shared else 'MutRef') + ' (named 0) κ (state_row S)'] + [row(i, 1) for i in ix])}) x at) ∷ []) ∵ enter ! C Λ function ({vals}) _ $")
cx.nl()
for i in range(N):
    cx.emit(f"alloc1 ! (λ b{sub(i)}.")
cx.emit("alloc0 ! $ params1 ! $")
cx.emit(f"pass1 ! (init ! {cx.pos('l1')} refl (tt, tt)) $")
for i in ix:
    law = {"n": f"{A(i)}.typed {a(i)} {p(i)}", "r": "tt, tt"}.get(kind[i], f"(({'shr' if kind[i] == 's' else 'mut'}_slice_Lawful 𝓛 (named {num.get(i, 0) + 1}) κ{sub(i)} (row_of {A(i)})).typed {a(i)} _ {p(i)}).0")
    cx.emit(f"pass1 ! (init ! {cx.pos(f'l{i + 1}')} refl ({law})) $")
cx.emit("pass0 ! $")
cx.nl()
cx.move("owns")
cx.step("fsplit !", ["owns"], ["ref", "args"])
for j in range(1, (refs[-1] if refs else 0) + 1):
    cx.move("args")
    cx.step("fsplit !", ["args"], [f"own{j}", "args"])
    if kind[j] == "n":
        cx.drop(f"own{j}")
cx.drop("args")
cx.move("ref")
cx.step("fsplit !" if shared else "fsplit3 !", ["ref"], ["eq"] + two)
cx.drop("eq")
for i in [0] + refs:
    cx.move("toks")
    cx.step("split !", ["toks"], [f"tok{i}", "toks"])
cx.drop("toks")
cx.nl()
laws = "(state_row S) (Is (state_row S)) (shows 𝓛 (state_row S)) (LL.vals S.T S.L) (LL.tells S.T S.L)"
if shared:
    cx.move("shr", "tok0")
    cx.emit(f"looks ! tt (state_row S) (LL.copied S.T S.copy 𝓛).opens h b o (λ q' vs. spelt ! {laws} q' h vs b o $")
    cx.c = ["cell", "own", "obor", "shr"] + cx.c[2:]
else:
    cx.move("obs", "bor", "tok0")
    cx.emit(f"opens ! tt (state_row S) {{h = h}} b o (λ vs. spelt ! {laws} full_share h vs b o $")
    cx.c = ["cell", "own", "obor", "obs", "auth"] + cx.c[3:]
cx.move("own")
cx.emit("peeks ! (state_row S) (Is (state_row S)) (shows 𝓛 (state_row S)) h (mach h ∷ []) (λ was.")
close += 2
cx.nl()
assign = lambda rv, place, write: (cx.emit(f"assigns ! ({rv}) (from ! {place}) ({write}) $"), cx.nl())
if takes:
    assign(f"of_opd ! (load ! (from ! (hop ! (look ! {cx.pos('l1')} refl) (stop !))) (look_raw ! {cx.pos('cell')} refl))", "(stop !)", f"init ! {cx.pos(f'l{Ls}')} refl ({lawful('h', 'was')})")
for i in M_:
    u, v = again[i]
    if kind[i] == "r":
        assign(f"addr ! (from ! (hop ! (look ! {cx.pos(f'l{i + 1}')} refl) (stop !)))", "(stop !)", f"init ! {cx.pos(f'l{u}')} refl (tt, tt)")
        continue
    part = lambda n: f"(look_in ! {cx.pos(f'l{i + 1}')} (sub ! {n} refl (whole !)))"
    assign(f"addr ! (from ! (fld ! refl (hop ! {part(0)} (stop !))))", "(stop !)", f"init ! {cx.pos(f'l{u}')} refl (tt, tt)")
    assign(f"agg ! (and_then ! (load ! (from ! (stop !)) (look ! {cx.pos(f'l{u}')} refl)) (and_then ! (load ! (from ! (fld ! refl (stop !))) {part(1)}) (no_more !)))", "(stop !)", f"init ! {cx.pos(f'l{v}')} refl (tt, (tt, (record {{ fits = {p(i)}.0.1.0 }}, tt)))")
for i in S_:
    cx.move(f"own{i}")
    cx.step(f"use1 𝓛 (‵ ({own(i)}) ⊛ ‵ ({own(i)})) ((shr_slice_copy 𝓛 (named {num[i] + 1}) κ{sub(i)} (row_of {A(i)}) (row_laws {A(i)})).twice {a(i)} ({val(i, a(i))} ∷ [])) $ split !", [f"own{i}"], [f"pass{i}", f"own{i}"])
asked = "(asked was)" if takes else "asked"
if refs:
    cx.chain([f"tok{i}" for i in refs] + [f"pass{i}" if i in S_ else f"own{i}" for i in refs], "join !", "mine")
    cx.move("mine")
    cx.step(f"use1 𝓛 (raw ((Callee 𝓛).pre to)) {asked}", ["mine"], ["pre"])
else:
    cx.step(f"use0 𝓛 (raw ((Callee 𝓛).pre to)) {asked}", [], ["pre"])
ops = "(no_more !)"
for y in reversed(([f"l{Ls}"] if takes else []) + [f"l{again[i][1] if i in M_ else i + 1}" for i in ix]):
    ops = f"(and_then ! (load ! (from ! (stop !)) (look ! {cx.pos(y)} refl)) {ops})"
cx.emit(f"calls_at ! fm (Callee 𝓛) known to {ops} (λ v.")
cx.nl()
ctoks = "(" + "".join(f"‵ ({fml[f'tok{i}']}) ⊛ " for i in refs) + "‵ ftrue)"
cx.emit(f"use1 𝓛 (later (some (λ (r : {ret}). ({ctoks} ⊛ ‵ ({par(resrow)}.own_val r (v ∷ []))) ⊛ raw (Said r)))) (id⊢ 𝓤 _) $ await ! tt $ pick ! (λ r. split ! $")
cx.c = ["back", "said"] + cx.c[1:]
cx.move("said")
lasts = f"lasts_of {cκ} callee.params {ckept} {cargs} ws"
F = fact_at(zs)
cx.emit(f"use1 𝓛 (some (λ (ws : Fins {cκ} callee.params {ckept} {cargs}). ‵ ({lasts}) ⊛ raw (fact 𝓤 ({F})))) (id⊢ 𝓤 _) $ pick ! (λ ws. split ! $")
cx.c = ["lasts", "fact"] + cx.c[1:]
cx.move("fact")
cx.emit(f"heard ! ({F}) (λ e.")
cx.c = cx.c[1:]
close += 4
for c in range(0, (M_[-1] + c0 if M_ else 0)):
    i = c + 1 - c0
    cx.move("lasts")
    cx.step("fsplit !", ["lasts"], [f"fin{i}" if i in M_ and kind[i] == "r" else f"left{c}", "lasts"])
    if i in M_ and kind[i] == "r":
        pass
    elif i in M_:
        cx.step("fsplit !", [f"left{c}"], ["said", "bor"])
        cx.step("fsplit !", ["said"], ["last", "len"])
        cx.move("len")
        cx.emit(f"feq_l ! (λ {l(i)}.")
        cx.c = cx.c[1:]
        close += 1
        cx.step("fjoin !", ["last", "bor"], [f"fin{i}"])
    else:
        cx.drop(f"left{c}")
cx.drop("lasts")
cx.move("back")
cx.step("split !", ["back"], ["toks", "ownr"])
for i in refs:
    cx.move("toks")
    cx.step("split !", ["toks"], [f"tok{i}", "toks"])
cx.drop("toks")
cx.move("ownr")
cx.emit(f"peeks ! {par(resrow)} (Is {par(resrow)}) (shows 𝓛 {par(resrow)}) r (v ∷ []) (λ is.")
close += 1
cx.nl()
rl = cx.pos(f"l{Lr}")
landed, rty, rtells = {"Mut": ("typed_out r v is", "τO", "O.tells r _ is"), "Ref": ("typed_ans r v is", "Ans.ty", "Ans.tells r _ is")}.get(form, (lawful("r", "is"), "τS", "LL.tells S.T S.L r _ is"))
cx.emit(f"land ! (from ! (stop !)) (init ! {rl} refl ({landed})) $ rewrite ! {rl} (λ (u : Val). ‵ (fat full_share {rty} b{sub(Lr)} 0 u)) (ap only ({rtells})) refl $")
cx.nl()
if not shared:
    st_is = "(O.st_is r _ is)" if outs else "(again r v is)"
    if outs:
        assign(f"of_opd ! (load ! (from ! (fld ! refl (stop !))) (look_in ! {rl} (sub ! 1 refl (whole !))))", "(stop !)", f"init ! {cx.pos(f'l{Lt}')} refl ({lawful(new, st_is)})")
    src = f"(from ! (stop !)) (look ! {cx.pos(f'l{Lt}') if outs else rl} refl)"
    assign(f"of_opd ! (load ! {src})", f"(hop ! (look ! {cx.pos('l1')} refl) (stop !))", f"store_raw ! {cx.pos('cell')} refl ({lawful(new, st_is)})")
    if unit:
        assign("of_opd ! (unit_lit !)", "(stop !)", f"init ! {cx.pos('l0')} refl (tt, tt)")
    else:
        assign(f"of_opd ! (load ! (from ! (fld ! refl (stop !))) (look_in ! {rl} (sub ! 0 refl (whole !))))", "(stop !)", f"init ! {cx.pos('l0')} refl (Ans.typed (O.ans r) (O.ans_is r _ is))")
    cx.drop("ownr")
    cx.drop("own")
    cx.step(f"owned ! (state_row S) (Is (state_row S)) (LL.makes S.T S.plain 𝓛) {new} _ {st_is}", [], ["own"])
    cx.move("cell", "own", "obor", "obs", "auth")
    cx.step(f"closes ! tt (state_row S) {new} (mach {new} ∷ []) b o", ["cell", "own", "obor", "obs", "auth"], ["obs", "bor", "tok0"])
else:
    cx.drop("ownr")
    cx.move("cell", "own", "obor")
    cx.step("shuts ! tt (state_row S) q' h (mach h ∷ []) b o", ["cell", "own", "obor"], ["tok0"])
cx.nl()
cx.emit(f"returns ! (look ! {cx.pos('l0')} refl) $")
written = set(range(N))
for i in range(N):
    cx.emit(f"forget ! {cx.pos(f'l{i}')} refl $")
cx.nl()
for i in range(N):
    cx.move(f"l{i}", f"d{i}")
    cx.step("free1 !", [f"l{i}", f"d{i}"], [])
cx.emit("free0 ! $")
fin = {"Mut": " (O.ans_is r _ is)", "Ref": " (again r v is)"}.get(form, "")
cx.emit(f"keep ! ({lst([cx.pos(y) for y in left])}) $ by ! (ends r{''.join(f' ({zs(i)}){len_of(i)}' for i in M_)}{fin} e)" + ")" * close)
out(f"""    module _ (C : Calls 𝓤 H) (Λ : Loops 𝓤 H) (fm : FmC 𝓤 H 𝓛.laws C) (known : Triple 𝓤 (C key) (Callee 𝓛)) where
      walk : ent 𝓤 (on_entry 𝓛 signature {κs} {qs} x at) (WpFn 𝓤 H C Λ function ({vals}) After)
      walk =
          {cx.text(10)}
""")

# ---- the theorem
spells = tup([f"{'shr' if shared else 'mut'}_vals"] + [{"n": f"(λ y. {A(i)}.val y ∷ [])", "r": "mut_vals", "s": "shr_slice_vals", "m": "mut_slice_vals"}[kind[i]] for i in ix])
tell = lambda i: f"{A(i)}.tells" if kind[i] == "n" else {"r": "mut", "s": "shr_slice", "m": "mut_slice"}[kind[i]] + f"_Tells (named {num[i] + 1}) {nth('κs', num[i] + 1)} (row_of {A(i)})"
tells = tup([f"{'shr' if shared else 'mut'}_Tells (named 0) κs.0 (state_row S)"] + [tell(i) for i in ix])
go = {"n": lambda i: f"Goes-none 𝓛 {nl} (λ _. row_of {A(i)}) yes (λ κs x f. refl)", "s": lambda i: f"Goes-none_slice 𝓛 {nl} ({num[i] + 1} ∷ []) tt (plain (λ _. row_of {A(i)})) yes", "m": lambda i: f"Goes-gave_slice 𝓛 {nl} {num[i] + 1} tt (plain (λ _. row_of {A(i)}))", "r": lambda i: f"Goes-gave_ref 𝓛 {nl} {num[i] + 1} tt (plain (λ _. row_of {A(i)}))"}
gos = tup([f"Goes-none_ref 𝓛 {nl} (0 ∷ []) tt (plain (λ _. state_row S)) yes" if shared else f"Goes-ref 𝓛 {nl} 0 tt (plain (λ _. state_row S))"] + [go[kind[i]](i) for i in ix])
walk = "walk 𝓛 κs.0 qs.0" + "".join(f" {nth('κs', num[i] + 1)} {nth('qs', num[i] + 1)}" for i in refs) + f" a.0.ref_ptr.0 a.0.ref_ptr.1{'' if shared else ' a.0.ghost_name'} a.0.now" + "".join(f" {nth('a', i)}" for i in ix) + "".join(f" {nth('are', i)}" for i in ix) + (" hold" if req else "") + " C Λ fm known"
enter = f"needs 𝓤 ({of('pre', 'a.0.now', lambda i: nth('a', i))}) _ (λ hold. {walk})" if req else f"via 𝓤 _ (fst∗ 𝓤 _ (emp 𝓤)) ({walk})"
out(theorem(Mo, spells, tells, enter, gos))
sys.stdout.write(with_uses("\n".join(w) + "\n", USES, ["use denote.Struct.Laws as LL", "use Rattle.common.specs.Promise.{Promise, by_value}", f"use Rattle.walks.specs.Behind.{{Arg, row_of{', row_laws' if S_ else ''}, State, state_row{', Out' if outs else ''}}}"]))
