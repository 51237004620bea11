#!/usr/bin/env python3
# Writes the proof, once for all types, of the exported functions of one shape that lend arrays of the state and copy none. Use: part.py FIELDS SHAPE [R] > crates/walks/specs/PartFIELDSSHAPE.antt
#     fn f(t: &mut S, ..) -> Ans { let head = t.head; let r = callee(head, &mut t.xs, &mut t.ys, ..); t.head = r.head; r.answer }      r: a struct of the answer and the head, in this order
#   FIELDS  a letter for each field of S: v, the head, a struct of plain data, which goes by value and is stored back (one field); l, it is lent as a `&mut`; k, it is kept
#   SHAPE   a letter for each parameter after the state, 0 where there is none: n  a built-in type by value      s  a `&[E]`      m  a `&mut [E]`      r  a `&mut E` of a built-in type
#   R       the callee has a `requires { pre .. }`, which follows from what the lent fields' types say, as the lengths of arrays
# The callee's contract is `(r ≡ spec ..) × (xs.new ≡ set ..) × .. × (buf.new ≡ fill ..) × ..`, of the head, the lent fields' values and the parameters, in this order.
import re
import sys

from spelling import Context, given_back, lst, nth, par, prod, sub, theorem, tup, with_uses

fields, shape = sys.argv[1:3]
req = sys.argv[3:] == ["R"]
shape = "" if shape == "0" else shape
assert not re.search("[^nsmr]", shape) and not re.search("[^vlk]", fields) and fields.count("v") == 1 and "l" in fields
k = len(shape)
ix = list(range(1, k + 1))
kind = {i: shape[i - 1] for i in ix}
refs = [i for i in ix if kind[i] != "n"]
S_, M_ = [i for i in ix if kind[i] == "s"], [i for i in ix if kind[i] in "mr"]
F = list(range(len(fields)))
Lf = [f for f in F if fields[f] == "l"]
v = fields.index("v")
L = len(Lf)
num = {i: L + n for n, i in enumerate(refs)}     # the callee's lifetimes: the lent fields', then the slices'
wnum = {i: 1 + n for n, i in enumerate(refs)}    # the function's: the state's, then the slices'
A, a, p, z, l = ((lambda i, x=x: x + sub(i)) for x in "Aapzl")
mb = lambda f: f"m{sub(f)}"
R = lambda f: f"(member_row {mb(f)})"


def row(i, n):
    r = f"(named {n}) κ{sub(i)} (row_of {A(i)})"
    return {"n": f"row_of {A(i)}", "s": "ShrSlice " + r, "m": "MutSlice " + r, "r": "MutRef " + r}[kind[i]]


def slot(i, n):
    j = f"({n} ∷ []) tt (plain (λ _. row_of {A(i)})) (λ _. tt)"
    return {"n": f"plain (λ _. row_of {A(i)})", "s": "SliceRefOf " + j, "m": "SliceRefMutOf " + j, "r": "RefMutOf " + j}[kind[i]]


def ty(i):
    if kind[i] == "n":
        return f"{A(i)}.ty"
    if kind[i] == "r":
        return f"ty_ref (named {wnum[i]}) mut {A(i)}.ty"
    return f"slice_ty (ty_ref (named {wnum[i]}) {'imm' if kind[i] == 's' else 'mut'} {A(i)}.ty)"


val = lambda i, x: {"n": f"{A(i)}.val {x}", "r": f"vptr {x}.ref_ptr.0 {x}.ref_ptr.1"}.get(kind[i], f"slice_val {x}.ref_ptr (length {x}.now)")
den = lambda i: f"{A(i)}.X" if kind[i] in "nr" else f"List {A(i)}.X"
arg = lambda i: {"n": f"{A(i)}.X", "r": f"MutBor {A(i)}.X", "s": f"Bor (List {A(i)}.X)", "m": f"MutBor (List {A(i)}.X)"}[kind[i]]
at = lambda i, x: x if kind[i] == "n" else f"{x}.now"
nl, cl = 1 + len(refs), L + len(refs)
w = []
out = w.append
out(f"-- `fn f(t: &mut S{''.join(', a%d: %s' % (i, {'n': 'A%d', 's': '&[A%d]', 'm': '&mut [A%d]', 'r': '&mut A%d'}[kind[i]] % i) for i in ix)}) -> Ans`, where S has {len(F)} fields, of which one goes by value to the callee and {L} are lent to it, of the form of tools/part.py, which wrote this file: it meets the contract that says the callee's of what lies behind the reference.")
out("-- For all types: `Behind.antt` has what is asked of them. Assumes nothing.")
USES = """Rattle.std.specs.Prelude ◌≡◌ refl ℕ zero ◌+◌ [] ◌∷◌ List T:Holds length
Rattle.std.proofs.Common sym ap subst ◌∙◌
seplogic.Ra.Ura Ura
base.Fraction full_share
mir.Syntax Sym Callee:Name Ty Fn named erased imm mut ty_ref ty_struct tnil tcons local value_local place deref field copy rv_opd addr_of aggregate seq assign call return
mir.Val Val vptr WT has_ty
base.Logic SProp ent sep ex wand emp via fst∗ id⊢ all_e apply∗ ex_i
base.Fml GName Lft Share Fml ftrue fsep flft fdead flent fobs fbor fres fat
prog.Memory up align size
prog.Model Model
prog.Routine Routine Env
prog.Wp Calls Loops Closed WpFn Tables
types.Logic Logic sem
contract.Lifetimes Lfts
contract.Monad fact
contract.Running Running tables tables_of
types.Kit ‵ raw ◌⊛◌ ⋆ some later ◌$◌ ◌∵◌ ! qed by move keep drop use0 use1 use2 use3 split join pick rewrite fsplit fsplit3 fjoin fjoin3 feq_l feq_i suffices frame await done
types.Run look look_raw init store_raw forget stop hop fld from load addr of_opd and_then no_more assigns land returns enter alloc1 alloc0 params1 pass1 pass0 free1 free0
types.Part agg whole sub look_in
types.SemTy Body Arr
types.Hole Holey
types.Mut open_ref close_ref
types.Tokens lft_new lft_end
sound.WpLaws FmC fm_of WpFn-mono
denote.RattleType RattleType Denots owns
denote.Shadow makes_shadow
denote.Laws Is Makes Lawfuls shows
denote.Memory mem part_at part_of cell_at pointee
denote.Builtin RefMutOf SliceRefOf SliceRefMutOf
denote.Ref Bor MutBor MutRef mut_vals mut_Tells
denote.Slice ShrSlice MutSlice slice_ty slice_val shr_slice_vals mut_slice_vals finally shr_slice_Tells shr_slice_Lawful shr_slice_copy mut_slice_Tells mut_slice_Lawful
denote.Signature Signature plain
denote.Exit yes
denote.Lend lends_ref ref_back
denote.Steps only owned peeks heard nothing
denote.Struct.Steps spelt
denote.Struct.Struct Struct layout as_fields
denote.Struct.Declared shape
denote.Struct.Recorded Recorded Recorded-part
denote.Struct.Members Member row_of:member_row rows_of parts_at
denote.Struct.Parts shape_of PartsBack Struct-parts
denote.Triple.Statement Contract Triple
denote.Triple.Call calls_at
denote.Triple.Clauses Ended AtExit Clauses closing
denote.Triple.End Fins lasts_of
denote.Triple.Entry Args Res on_entry
denote.Triple.Spec Spec Meets triple_of exits
denote.Triple.Table entered cited
denote.Triple.Walked says Stays stay_ref stay_none stay_none_slice gave_slice gave_ref walk_of Goes-none Goes-ref Goes-none_slice Goes-gave_slice Goes-gave_ref Walks ends_at walked walk_Meets"""
out("@USES@")
mv = "(state_member S₀)"
mb = lambda f: mv if f == v else f"m{sub(f)}"
R = lambda f: f"(member_row {mb(f)})"
others = [f for f in F if f != v]
ms = "(" + lst([mb(f) for f in F]) + ")"
fden = lambda f: "S₀.T.D" if f == v else f"{mb(f)}.row.Denot"
dom = ["S₀.T.D"] + [fden(f) for f in Lf] + [den(i) for i in ix]
sdom = ["D"] + [den(i) for i in ix]
dn = lambda d, f: f"(hd {d})" if f == v else nth(f"(to {d})", f)
of = lambda g, d, x: " ".join([g, dn(d, v)] + [dn(d, f) for f in Lf] + [at(i, x(i)) for i in ix])      # of a state d
xs_ = [f"y{sub(i)}" for i in ix]
quant = "(d : D)" + "".join(f" (y{sub(i)} : {den(i)})" for i in ix)
ofy = lambda g: " ".join([g, dn("d", v)] + [dn("d", f) for f in Lf] + xs_)
head = f"(S₀ : State) (ν : Sym) ({' '.join(mb(f) for f in others)} : Member) (D : Type 0) (to : D → Denots (rows_of {ms})) (one : (x y : D) → to x ≡ to y → x ≡ y) (hd : D → S₀.T.D) (hd_is : (d : D) → {nth('(to d)', v)} ≡ S₀.T.to (hd d))\n    (lawful : (M : Type 1) (𝓤 : Ura M) (𝓛 : Logic 𝓤) → Lawfuls 𝓛 (rows_of {ms}))"
head += ("\n    (" + " ".join(A(i) for i in ix) + " : Arg)" if k else "\n   ") + " (Ans : Arg) (O : Out S₀ Ans) (key : Name)"
if req:
    head += f"\n    (pre : {' → '.join(dom + ['Type 0'])})"
head += f"\n    (spec : {' → '.join(dom + ['O.row.Denot'])})" + "".join(f" (set{sub(f)} : {' → '.join(dom + [fden(f)])})" for f in Lf) + "".join(f" (fill{sub(i)} : {' → '.join(dom + [den(i)])})" for i in M_)
head += f"\n    (ans : {' → '.join(sdom + ['Ans.X'])}) (next : {' → '.join(sdom + ['D'])})" + "".join(f" (last{sub(i)} : {' → '.join(sdom + [den(i)])})" for i in M_)
dy = lambda g: " ".join([g, "d"] + xs_)
head += f"\n    (ans_is : {quant} → O.ans ({ofy('spec')}) ≡ {dy('ans')}) (next_is : {quant} → {tup([f'S₀.T.to (O.st ({ofy(chr(115) + chr(112) + chr(101) + chr(99))}))' if f == v else ofy('set' + sub(f)) if f in Lf else dn('d', f) for f in F])} ≡ to ({dy('next')}))"
head += "".join(f" (last_is{sub(i)} : {quant} → {ofy('fill' + sub(i))} ≡ {dy('last' + sub(i))})" for i in M_)
if req:
    head += f"\n    (pre_holds : {quant}" + "".join(f" (vs{sub(f)} : List Val)" for f in Lf) + " → " + "".join(f"Is {R(f)} {dn('d', f)} vs{sub(f)} → " for f in Lf) + f"{ofy('pre')})"
out(f"module _ {head} where")
out(f"  abbrev Tuple : RattleType\n  Tuple = Struct (shape_of ν {ms})\n\n  abbrev Row : RattleType\n  Row = Recorded Tuple D to one\n\n  abbrev τS : Ty\n  τS = layout (shape_of ν {ms})\n\n  abbrev τV : Ty\n  τV = layout (shape S₀.T)\n\n  abbrev τO : Ty\n  τO = ty_struct O.name (tcons Ans.ty (tcons τV tnil))\n")
locs = ["Ans.ty", "ty_ref (named 0) mut (pointee Row.written)"] + [ty(i) for i in ix]
Lh, Lr = len(locs), len(locs) + 1
locs += ["τV", "τO"]
tmp = {}
for f in Lf:
    tmp[f] = len(locs)
    locs.append(f"ty_ref erased mut (pointee {mb(f)}.row.written)")
again = {}
for i in M_:
    if kind[i] == "r":
        again[i] = (len(locs), len(locs))
        locs.append(f"ty_ref erased mut {A(i)}.ty")
        continue
    again[i] = (len(locs), len(locs) + 1)
    locs += [f"ty_ref erased mut {A(i)}.ty", f"slice_ty (ty_ref erased mut {A(i)}.ty)"]
Lt = len(locs)                                   # the new head, on its way from the result to the place behind the reference
locs.append("τV")
N = len(locs)
pl = lambda n, *st: f"(place {n} {'[]' if not st else '(' + lst(st) + ')'})"
stmts = [f"assign {pl(Lh)} (rv_opd (copy {pl(1, 'deref τS', f'field {v}')}))"]
stmts += [f"assign {pl(tmp[f])} (addr_of {pl(1, 'deref τS', f'field {f}')})" for f in Lf]
for i in M_:
    u, t = again[i]
    if kind[i] == "r":
        stmts.append(f"assign {pl(u)} (addr_of {pl(i + 1, f'deref {A(i)}.ty')})")
        continue
    stmts += [f"assign {pl(u)} (addr_of {pl(i + 1, 'field 0', f'deref {A(i)}.ty')})", f"assign {pl(t)} (aggregate (copy {pl(u)} ∷ copy {pl(i + 1, 'field 1')} ∷ []))"]
handed = lambda i: again[i][1] if i in M_ else i + 1
stmts.append(f"call key ({lst([f'copy {pl(Lh)}'] + [f'copy {pl(tmp[f])}' for f in Lf] + [f'copy {pl(handed(i))}' for i in ix])}) {pl(Lr)}")
stmts += [f"assign {pl(Lt)} (rv_opd (copy {pl(Lr, 'field 1')}))", f"assign {pl(1, 'deref τS', f'field {v}')} (rv_opd (copy {pl(Lt)}))", f"assign {pl(0)} (rv_opd (copy {pl(Lr, 'field 0')}))"]
body = "return"
for s in reversed(stmts):
    body = f"seq ({s}) {par(body)}"
out(f"  abbrev pub function : Fn\n  function = record {{\n    lifetimes = {nl};\n    outlives = [];\n    ty_params = [];\n    givens = 0;\n    params = {k + 1};\n    locals = {lst([f'local {par(t)} value_local' for t in locs])};\n    body = {body};\n  }}\n")
kept, ckept = tup(["yes"] * (k + 1)), tup(["yes"] * (k + L + 1))
out(f"  abbrev pub callee : Signature\n  callee = record {{ lifetimes = {cl}; outlives = []; params = {lst(['plain (λ _. state_row S₀)'] + [f'RefMutOf ({n} ∷ []) tt (plain (λ _. member_row {mb(f)})) (λ _. tt)' for n, f in enumerate(Lf)] + [slot(i, num.get(i)) for i in ix])}; result = plain (λ _. O.row) }}\n")
out(f"  abbrev pub signature : Signature\n  signature = record {{ lifetimes = {nl}; outlives = []; params = {lst(['RefMutOf (0 ∷ []) tt (plain (λ _. Row)) (λ _. tt)'] + [slot(i, wnum.get(i)) for i in ix])}; result = plain (λ _. row_of Ans) }}\n")
out(f"  abbrev pub ended : Ended\n  ended = record {{ signature = signature; kept = {kept} }}\n")
stay = lambda i: {"n": f"stay_none (λ _. row_of {A(i)}) yes", "s": f"stay_none_slice ({wnum.get(i)} ∷ []) tt (plain (λ _. row_of {A(i)})) yes", "m": f"gave_slice ({wnum.get(i)} ∷ []) tt (plain (λ _. row_of {A(i)}))", "r": f"gave_ref ({wnum.get(i)} ∷ []) tt (plain (λ _. row_of {A(i)}))"}[kind[i]]
out(f"  abbrev stayed : Stays signature.params ended.kept\n  stayed = {tup(['stay_ref (0 ∷ []) tt (plain (λ _. Row))'] + [stay(i) for i in ix])}\n")
cof = lambda g: " ".join([g, "a.0"] + [f"{nth('a', n + 1)}.now" for n in range(L)] + [at(i, nth("a", L + i)) for i in ix])
cfact = " × ".join([f"(r ≡ {cof('spec')})"] + [f"({nth('e', n + 1)}.now ≡ {cof('set' + sub(f))})" for n, f in enumerate(Lf)] + [f"({nth('e', L + i)}.now ≡ {cof('fill' + sub(i))})" for i in M_])
wof = lambda g: " ".join([g, "a.0.now"] + [at(i, nth("a", i)) for i in ix])
wfact = " × ".join([f"(r ≡ {wof('ans')})", f"(e.0.now ≡ {wof('next')})"] + [f"({nth('e', i)}.now ≡ {wof('last' + sub(i))})" for i in M_])
out(f"""  -- what the contract says, and that no two outcomes satisfy it
  abbrev pub Post : (κs : Lfts {nl}) → Args signature κs → Res signature κs → AtExit ended κs → Type 0
  Post κs a r e = {wfact}

  abbrev pub seen : (κs : Lfts {nl}) → Res signature κs → AtExit ended κs → {" × ".join(["Ans.X", "D"] + [par(den(i)) for i in M_])}
  seen κs r e = ({", ".join(["r", "e.0.now"] + [f"{nth('e', i)}.now" for i in M_])})

  pub promise : Promise (λ (κs : Lfts {nl}) (a : Args signature κs). Unit {{0}}) Post seen
  promise = by_value _ (λ κs a. tt) (λ κs a r e p. λ i. ({", ".join(f"p.{n} i" for n in range(2 + len(M_)))}))
""")
Mo = "{M : Type 1} {𝓤 : Ura M} (𝓛 : Logic 𝓤)"
out(f"""  module _ {Mo} where
    abbrev pub callee_spec : Spec 𝓤 callee
    callee_spec κs a = record {{ ghost = Unit {{0}}; requires = λ _. {f"fact 𝓤 ({cof('pre')})" if req else "emp 𝓤"}; ensures = λ _ r. exits 𝓛 callee {ckept} κs a (λ e. fact 𝓤 ({cfact})) }}

    abbrev pub Callee : Contract 𝓤
    Callee = triple_of 𝓛 callee callee_spec

    abbrev pub clauses : Clauses 𝓤 ended
    clauses κs a = record {{ ghost = Unit {{0}}; requires = λ _. emp 𝓤; ensures = λ _ r e. fact 𝓤 (Post κs a r e) }}

  made : {Mo} (B : Arg) → Makes 𝓛 (row_of B) (Is (row_of B))
  made 𝓛 B x vs p = makes_shadow 𝓛 (B.own x vs) (B.pure x vs) p
""")
params = "(κ : Lft) (q : Share)" + "".join(f" (κ{sub(i)} : Lft) (q{sub(i)} : Share)" for i in refs) + " (b o : ℕ) (γ : GName) (h : D)"
params += "".join(f" ({a(i)} : {arg(i)})" for i in ix) + "".join(f" ({p(i)} : Is ({row(i, wnum.get(i))}) {a(i)} ({val(i, a(i))} ∷ []))" for i in ix)
out(f"  module _ {Mo} {params} where\n    open 𝓛 use {{H}}\n")
avals = [f"{val(i, a(i))} ∷ []" for i in ix]
κs, qs = tup(["κ"] + ["κ" + sub(i) for i in refs]), tup(["q"] + ["q" + sub(i) for i in refs])
own = lambda i: f"({row(i, wnum.get(i))}).own_val {a(i)} ({val(i, a(i))} ∷ [])"
out(f"""    abbrev Xs : Type 0
    Xs = {prod(['MutBor D'] + [arg(i) for i in ix], 'Unit {0}')}

    abbrev Vs : Type 0
    Vs = {prod(['List Val'] * (k + 1), 'Unit {0}')}

    abbrev x : Xs
    x = {tup(['record { ref_ptr = (b, o); ghost_name = γ; now = h }'] + [a(i) for i in ix])}

    abbrev at : Vs
    at = {tup(['vptr b o ∷ []'] + avals)}

    abbrev After : Val → SProp 𝓤
    After = (walk_of 𝓛 ended stayed (clauses 𝓛)).post (({κs}, {qs}, tt, x, at), tt)

    abbrev mach : S₀.T.D → Val
    mach d = LL.val S₀.T S₀.L d

    -- where each field lies
    abbrev end{sub(0)} : ℕ
    end{sub(0)} = zero
""")
for f in F:
    out(f"    abbrev at{sub(f)} : ℕ\n    at{sub(f)} = o + up (align {mb(f)}.ty) end{sub(f)}\n")
    if f != F[-1]:
        out(f"    abbrev end{sub(f + 1)} : ℕ\n    end{sub(f + 1)} = up (align {mb(f)}.ty) end{sub(f)} + size {mb(f)}.ty\n")
h = lambda f: nth("(to h)", f)
ans_h, next_h = " ".join(["ans", "h"] + [at(i, a(i)) for i in ix]), " ".join(["next", "h"] + [at(i, a(i)) for i in ix])
hv = "(hd h)"
ofh = lambda g: of(g, "h", a)
lent = lambda f, δ: f"record {{ ref_ptr = (b, at{sub(f)}); ghost_name = {δ}; now = {h(f)} }}"


class Cx(Context):
    def args(self, have):                        # what the parameters own
        self.step("nothing !", [], ["acc"])
        for i in reversed(ix):
            if kind[i] == "n":
                self.step(f"owned ! (row_of {A(i)}) (Is (row_of {A(i)})) (made 𝓛 {A(i)}) {a(i)} _ {p(i)}", [], [f"own{i}"])
            y = have(i)
            self.move(y, "acc")
            self.step("fjoin !", [y, "acc"], ["acc"])


νs = lambda f: f"ν{sub(f)}"
δs = lambda f: f"δ{sub(f)}"
binders = "".join(f" ({νs(f)} : ℕ) ({δs(f)} : GName)" for f in Lf)
names = "".join(f" {νs(f)} {δs(f)}" for f in Lf)
cκ = tup([f"{νs(f)} ∷ []" for f in Lf] + ["κ" + sub(i) for i in refs])
cq = tup(["full_share"] * L + ["q" + sub(i) for i in refs])
cargs = tup([hv] + [lent(f, δs(f)) for f in Lf] + [a(i) for i in ix])
fml = {"obs": f"fobs γ (Row.coded.code ({next_h}))", "bor": "fbor κ (Body (mem Row) b o γ)", "tok0": "flft κ q"}
for i in refs:
    fml[f"tok{i}"], fml[f"own{i}"] = f"flft κ{sub(i)} q{sub(i)}", own(i)
for i in M_:
    fml[f"fin{i}"] = given_back(i, A(i), a(i), z(i), kind[i] == "m")
len_of = lambda i: f" {l(i)}" if kind[i] == "m" else ""
for n, f in enumerate(Lf):
    fml[f"new{f}"] = f"flft ({νs(f)} ∷ []) full_share"
    fml[f"ref{f}"] = f"(MutRef (named {n}) ({νs(f)} ∷ []) {R(f)}).own_val ({lent(f, δs(f))}) (vptr b at{sub(f)} ∷ [])"
    fml[f"lent{f}"] = f"flent ({νs(f)} ∷ []) (Body (mem {R(f)}) b at{sub(f)} {δs(f)})"
items = lambda ls: lst([f"‵ ({fml[y]})" for y in ls])
out(f"""    abbrev to_callee :{''.join(' ℕ → GName →' for f in Lf)} (Callee 𝓛).Ghost
    to_callee{names} = (({cκ}, {cq}, tt, {cargs}, {tup([f'mach {hv} ∷ []'] + [f'vptr b at{sub(f)} ∷ []' for f in Lf] + avals)}), tt)
""")
have = [f"new{f}" for f in Lf] + [f"tok{i}" for i in refs] + [f"ref{f}" for f in Lf] + [f"own{i}" for i in refs]
cx = Cx(have)
if req:
    cx.emit("says ! hold $")
cx.args(lambda i: f"own{i}")
for f in reversed(Lf):
    cx.move(f"ref{f}", "acc")
    cx.step("fjoin !", [f"ref{f}", "acc"], ["acc"])
cx.step(f"owned ! (state_row S₀) (Is (state_row S₀)) (LL.makes S₀.T S₀.plain 𝓛) {hv} _ was", [], ["st"])
cx.step("fjoin !", ["st", "acc"], ["acc"])
cx.chain([f"new{f}" for f in Lf] + [f"tok{i}" for i in refs], "join !", "toks", True)
cx.move("toks", "acc")
cx.emit("done !" if req else "join ! $ frame ! $ nothing ! $ done !")
holds = f" {ofh('pre')} →" if req else ""
out(f"    asked : Is (state_row S₀) {hv} (mach {hv} ∷ []) →{holds}{binders + ' →' if binders else ''} ent 𝓤 (⋆ 𝓛 ({items(have)})) ((Callee 𝓛).pre (to_callee{names}))\n    asked was{' hold' if req else ''}{names} = qed 𝓛 ({items(have)}) ∵ {cx.text(8)}\n")
# the exit
left = ["obs", "bor", "tok0"] + [f"tok{i}" for i in refs] + [f"own{i}" for i in S_] + [f"fin{i}" for i in M_]
cx = Cx(left)
last_h = lambda i: " ".join([f"last{sub(i)}", "h"] + [at(j, a(j)) for j in ix])
facts = ", ".join(["e.0", "refl"] + [f"e.{n + 1}" for n in range(len(M_))]) if M_ else "e, refl"
cx.emit(f"suffices ! _ (ends_at 𝓛 ended stayed (clauses 𝓛) (({κs}, {qs}, tt, x, at), tt) (Ans.val (O.ans r)) (O.ans r) {tup([next_h] + [z(i) if i in M_ else 'tt' for i in ix])} {tup(['tt'] + [l(i) if kind[i] == 'm' else 'tt' for i in ix])}) $ says ! ({facts}) $")
cx.nl()
cx.chain(["tok0"] + [f"tok{i}" for i in refs], "join !", "toks", True)
cx.step("frame !", ["toks"], [])
cx.move("obs", "bor")
cx.step("feq_i ! (List Val) (vptr b o ∷ []) (vptr b o ∷ []) refl", [], ["eq"])
cx.step("fjoin3 !", ["eq", "obs", "bor"], ["ref"])
cx.args(lambda i: f"fin{i}" if i in M_ else f"own{i}")
cx.move("ref", "acc")
cx.step("fjoin !", ["ref", "acc"], ["has"])
cx.step("owned ! (row_of Ans) (Is (row_of Ans)) (made 𝓛 Ans) (O.ans r) _ is", [], ["ans"])
cx.move("has", "ans")
cx.emit("done !")
zl = "".join(f" ({z(i)} : {den(i)})" + (f" ({l(i)} : length {z(i)} ≡ length {a(i)}.now)" if kind[i] == "m" else "") for i in M_)
want = f"O.ans r ≡ {ans_h}"
if M_:
    want = " × ".join([f"({want})"] + [f"({z(i)} ≡ {last_h(i)})" for i in M_])
out(f"""    ends : (r : O.row.Denot){zl} → Is (row_of Ans) (O.ans r) (Ans.val (O.ans r) ∷ []) → {want} → ent 𝓤 (⋆ 𝓛 ({items(left)})) (After (Ans.val (O.ans r)))
    ends r{''.join(f' {z(i)}{len_of(i)}' for i in M_)} is e =
        qed 𝓛 ({items(left)}) ∵
        {cx.text(8)}

    typed_out : (r : O.row.Denot) (u : Val) → Is O.row r (u ∷ []) → Holds (has_ty τO u) × WT u
    typed_out r u is = subst (λ (u' : Val). Holds (has_ty τO u') × WT u') (sym (ap only (O.tells r _ is)))
        (as_fields (Ans.ty ∷ τV ∷ []) (Ans.val (O.ans r) ∷ mach (O.st r) ∷ []) (Ans.typed (O.ans r) (O.ans_is r _ is), (((LL.lawful S₀.T S₀.L 𝓛).typed (O.st r) _ (O.st_is r _ is)).0, tt)))

    -- the head in memory is its cell with what it owns, and back
    opened : ent 𝓤 (sem 𝓛 (part_at {R(v)} full_share {h(v)} b at{sub(v)})) (ex 𝓤 (λ (vs : List Val). sep 𝓤 (sem 𝓛 (cell_at full_share (state_row S₀).mir vs b at{sub(v)})) (sem 𝓛 ((state_row S₀).own_val {hv} vs))))
    unfolding part_of
    opened = subst (λ (u : {R(v)}.Denot). ent 𝓤 (sem 𝓛 (part_at {R(v)} full_share u b at{sub(v)})) (ex 𝓤 (λ (vs : List Val). sep 𝓤 (sem 𝓛 (cell_at full_share (state_row S₀).mir vs b at{sub(v)})) (sem 𝓛 ((state_row S₀).own_val {hv} vs))))) (sym (hd_is h)) (id⊢ 𝓤 _)

    shut : (d : S₀.T.D) (vs : List Val) → ent 𝓤 (sep 𝓤 (sem 𝓛 (cell_at full_share (state_row S₀).mir vs b at{sub(v)})) (sem 𝓛 ((state_row S₀).own_val d vs))) (sem 𝓛 (part_at {R(v)} full_share (S₀.T.to d) b at{sub(v)}))
    unfolding part_of
    shut d vs = ex_i 𝓤 (λ (us : List Val). sep 𝓤 (sem 𝓛 (cell_at full_share (state_row S₀).mir us b at{sub(v)})) (sem 𝓛 ((state_row S₀).own_val d us))) vs
""")
for f in Lf if req else []:
    out(f"""    opened{sub(f)} : ent 𝓤 (sem 𝓛 (part_at {R(f)} full_share {h(f)} b at{sub(f)})) (ex 𝓤 (λ (vs : List Val). sep 𝓤 (sem 𝓛 (cell_at full_share {R(f)}.mir vs b at{sub(f)})) (sem 𝓛 ({R(f)}.own_val {h(f)} vs))))
    unfolding part_of
    opened{sub(f)} = id⊢ 𝓤 _

    shut{sub(f)} : (vs : List Val) → ent 𝓤 (sep 𝓤 (sem 𝓛 (cell_at full_share {R(f)}.mir vs b at{sub(f)})) (sem 𝓛 ({R(f)}.own_val {h(f)} vs))) (sem 𝓛 (part_at {R(f)} full_share {h(f)} b at{sub(f)}))
    unfolding part_of
    shut{sub(f)} vs = ex_i 𝓤 (λ (us : List Val). sep 𝓤 (sem 𝓛 (cell_at full_share {R(f)}.mir us b at{sub(f)})) (sem 𝓛 ({R(f)}.own_val {h(f)} us))) vs
""")
out(f"""    -- the struct in memory is its fields in memory, and back
    apart : ent 𝓤 (sem 𝓛 (part_at Row full_share h b o)) (sep 𝓤 (sem 𝓛 (parts_at full_share {ms} zero (to h) b o)) (PartsBack 𝓛 full_share ν {ms} b o))
    apart = subst (λ (P : Fml). ent 𝓤 (sem 𝓛 P) (sep 𝓤 (sem 𝓛 (parts_at full_share {ms} zero (to h) b o)) (PartsBack 𝓛 full_share ν {ms} b o))) (sym (Recorded-part Tuple D to one full_share h b o))
        (Struct-parts 𝓛 full_share ν {ms} (lawful M 𝓤 𝓛) (to h) b o)

    abbrev Back : Denots (rows_of {ms}) → SProp 𝓤
    Back u = wand 𝓤 (sem 𝓛 (parts_at full_share {ms} zero u b o)) (sem 𝓛 (part_at Tuple full_share u b o))

    together : (u : Denots (rows_of {ms})) → u ≡ to ({next_h}) → ent 𝓤 (sep 𝓤 (sem 𝓛 (parts_at full_share {ms} zero u b o)) (PartsBack 𝓛 full_share ν {ms} b o)) (sem 𝓛 (part_at Row full_share ({next_h}) b o))
    together u e = subst (λ (P : Fml). ent 𝓤 (sep 𝓤 (sem 𝓛 (parts_at full_share {ms} zero u b o)) (PartsBack 𝓛 full_share ν {ms} b o)) (sem 𝓛 P)) (sym (Recorded-part Tuple D to one full_share ({next_h}) b o))
        (subst (λ (u' : Denots (rows_of {ms})). ent 𝓤 (sep 𝓤 (sem 𝓛 (parts_at full_share {ms} zero u b o)) (PartsBack 𝓛 full_share ν {ms} b o)) (sem 𝓛 (part_at Tuple full_share u' b o))) e
        (qed 𝓛 (‵ (parts_at full_share {ms} zero u b o) ∷ raw (PartsBack 𝓛 full_share ν {ms} b o) ∷ []) ∵ move ! (1 ∷ []) $ use1 𝓛 (raw (Back u)) (all_e 𝓤 Back u) $ move ! (1 ∷ 0 ∷ []) $
        use2 𝓛 (‵ (part_at Tuple full_share u b o)) (apply∗ 𝓤 (sem 𝓛 (parts_at full_share {ms} zero u b o)) (sem 𝓛 (part_at Tuple full_share u b o))) $ done !))
""")
# the walk
labels = []
for i in reversed(range(N)):
    labels += [f"l{i}", f"d{i}"]
cx = Cx(labels + ["toks", "owns"])
vals = lst(["vptr b o"] + [val(i, a(i)) for i in ix])
close = N
cx.emit(f"qed 𝓛 (({''.join(f'‵ ({fml[f_]}) ⊛ ' for f_ in ['tok0'] + [f'tok{i}' for i in refs])}‵ ftrue) ∷ ‵ (owns ({lst(['MutRef (named 0) κ Row'] + [row(i, wnum.get(i)) for i in ix])}) x at) ∷ []) ∵ enter ! C Λ function ({vals}) _ $")
cx.nl()
for i in range(N):
    cx.emit(f"alloc1 ! (λ b{sub(i)}.")
cx.emit("alloc0 ! $ params1 ! $")
cx.emit(f"pass1 ! (init ! {cx.pos('l1')} refl (tt, tt)) $")
for i in ix:
    law = {"n": f"{A(i)}.typed {a(i)} {p(i)}", "r": "tt, tt"}.get(kind[i], f"(({'shr' if kind[i] == 's' else 'mut'}_slice_Lawful 𝓛 (named {wnum.get(i)}) κ{sub(i)} (row_of {A(i)})).typed {a(i)} _ {p(i)}).0")
    cx.emit(f"pass1 ! (init ! {cx.pos(f'l{i + 1}')} refl ({law})) $")
cx.emit("pass0 ! $")
cx.nl()
cx.move("owns")
cx.step("fsplit !", ["owns"], ["ref", "args"])
for j in range(1, (refs[-1] if refs else 0) + 1):
    cx.move("args")
    cx.step("fsplit !", ["args"], [f"own{j}", "args"])
    if kind[j] == "n":
        cx.drop(f"own{j}")
cx.drop("args")
cx.move("ref")
cx.step("fsplit3 !", ["ref"], ["eq", "obs", "bor"])
cx.drop("eq")
for i in [0] + refs:
    cx.move("toks")
    cx.step("split !", ["toks"], [f"tok{i}", "toks"])
cx.drop("toks")
cx.nl()
cx.move("obs", "bor", "tok0")
cx.step("open_ref ! tt (mem Row) {x = h} {b = b} {o = o}", ["obs", "bor", "tok0"], ["lies", "obor", "obs", "auth"])
cx.step(f"use1 𝓛 (‵ (parts_at full_share {ms} zero (to h) b o) ⊛ raw (PartsBack 𝓛 full_share ν {ms} b o)) apart $ split !", ["lies"], ["parts", "back"])
for f in F:
    cx.move("parts")
    cx.step("fsplit !", ["parts"], [f"part{f}", "parts"])
cx.drop("parts")
cx.nl()
lawful_v = lambda d, q: f"((LL.lawful S₀.T S₀.L 𝓛).typed {d} _ {q}).0"
laws = "(state_row S₀) (Is (state_row S₀)) (shows 𝓛 (state_row S₀)) (LL.vals S₀.T S₀.L) (LL.tells S₀.T S₀.L)"
cx.move(f"part{v}")
cx.emit(f"use1 𝓛 (some (λ (vs : List Val). ‵ (cell_at full_share (state_row S₀).mir vs b at{sub(v)}) ⊛ ‵ ((state_row S₀).own_val {hv} vs))) opened $ pick ! (λ vs. split ! $ spelt ! {laws} full_share {hv} vs b at{sub(v)} $")
cx.c = ["cell", "own"] + cx.c[1:]
cx.move("own")
cx.emit(f"peeks ! (state_row S₀) (Is (state_row S₀)) (shows 𝓛 (state_row S₀)) {hv} (mach {hv} ∷ []) (λ was.")
close += 2
cx.nl()
assign = lambda rv, place, write: (cx.emit(f"assigns ! ({rv}) (from ! {place}) ({write}) $"), cx.nl())
assign(f"of_opd ! (load ! (from ! (hop ! (look ! {cx.pos('l1')} refl) (fld ! refl (stop !)))) (look_raw ! {cx.pos('cell')} refl))", "(stop !)", f"init ! {cx.pos(f'l{Lh}')} refl ({lawful_v(hv, 'was')})")
for f in Lf:
    assign(f"addr ! (from ! (hop ! (look ! {cx.pos('l1')} refl) (fld ! refl (stop !))))", "(stop !)", f"init ! {cx.pos(f'l{tmp[f]}')} refl (tt, tt)")
for i in M_:
    u, t = again[i]
    if kind[i] == "r":
        assign(f"addr ! (from ! (hop ! (look ! {cx.pos(f'l{i + 1}')} refl) (stop !)))", "(stop !)", f"init ! {cx.pos(f'l{u}')} refl (tt, tt)")
        continue
    part = lambda n: f"(look_in ! {cx.pos(f'l{i + 1}')} (sub ! {n} refl (whole !)))"
    assign(f"addr ! (from ! (fld ! refl (hop ! {part(0)} (stop !))))", "(stop !)", f"init ! {cx.pos(f'l{u}')} refl (tt, tt)")
    assign(f"agg ! (and_then ! (load ! (from ! (stop !)) (look ! {cx.pos(f'l{u}')} refl)) (and_then ! (load ! (from ! (fld ! refl (stop !))) {part(1)}) (no_more !)))", "(stop !)", f"init ! {cx.pos(f'l{t}')} refl (tt, (tt, (record {{ fits = {p(i)}.0.1.0 }}, tt)))")
hold = ""
if req:
    for f in Lf:
        cx.move(f"part{f}")
        cx.emit(f"use1 𝓛 (some (λ (vs{sub(f)} : List Val). ‵ (cell_at full_share {R(f)}.mir vs{sub(f)} b at{sub(f)}) ⊛ ‵ ({R(f)}.own_val {h(f)} vs{sub(f)}))) opened{sub(f)} $ pick ! (λ vs{sub(f)}. split ! $ move ! (1 ∷ []) $ peeks ! {R(f)} (Is {R(f)}) (shows 𝓛 {R(f)}) {h(f)} vs{sub(f)} (λ is{sub(f)}. move ! (1 ∷ 0 ∷ []) $ use2 𝓛 (‵ (part_at {R(f)} full_share {h(f)} b at{sub(f)})) (shut{sub(f)} vs{sub(f)}) $")
        close += 2
        cx.nl()
    hold = " (" + " ".join(["pre_holds", "h"] + [at(i, a(i)) for i in ix] + [f"vs{sub(f)}" for f in Lf] + [f"is{sub(f)}" for f in Lf]) + ")"
for n, f in enumerate(Lf):
    cx.emit(f"lft_new ! tt (λ {νs(f)}.")
    close += 1
    cx.c = [f"new{f}"] + cx.c
    cx.move(f"part{f}")
    one = lambda δ: f"‵ ((MutRef (named {n}) ({νs(f)} ∷ []) {R(f)}).own_val ({lent(f, δ)}) (vptr b at{sub(f)} ∷ [])) ⊛ ‵ (flent ({νs(f)} ∷ []) (Body (mem {R(f)}) b at{sub(f)} {δ}))"
    cx.emit(f"use1 𝓛 (later (some (λ (δ : GName). {one('δ')}))) (lends_ref 𝓛 {R(f)} (named {n}) ({νs(f)} ∷ []) {h(f)} b at{sub(f)}) $ await ! tt $ pick ! (λ {δs(f)}. split ! $")
    close += 1
    cx.c = [f"ref{f}", f"lent{f}"] + cx.c[1:]
    cx.nl()
for i in S_:
    cx.move(f"own{i}")
    cx.step(f"use1 𝓛 (‵ ({own(i)}) ⊛ ‵ ({own(i)})) ((shr_slice_copy 𝓛 (named {wnum[i]}) κ{sub(i)} (row_of {A(i)}) (row_laws {A(i)})).twice {a(i)} ({val(i, a(i))} ∷ [])) $ split !", [f"own{i}"], [f"pass{i}", f"own{i}"])
cx.chain([f"new{f}" for f in Lf] + [f"tok{i}" for i in refs] + [f"ref{f}" for f in Lf] + [f"pass{i}" if i in S_ else f"own{i}" for i in refs], "join !", "mine")
cx.move("mine")
cx.step(f"use1 𝓛 (raw ((Callee 𝓛).pre (to_callee{names}))) (asked was{hold}{names})", ["mine"], ["pre"])
ops = "(no_more !)"
for y in reversed([f"l{Lh}"] + [f"l{tmp[f]}" for f in Lf] + [f"l{handed(i)}" for i in ix]):
    ops = f"(and_then ! (load ! (from ! (stop !)) (look ! {cx.pos(y)} refl)) {ops})"
cx.emit(f"calls_at ! fm (Callee 𝓛) known (to_callee{names}) {ops} (λ u.")
cx.nl()
ctoks = "(" + "".join(f"‵ ({fml[y]}) ⊛ " for y in [f"new{f}" for f in Lf] + [f"tok{i}" for i in refs]) + "‵ ftrue)"
cx.emit(f"use1 𝓛 (later (some (λ (r : O.row.Denot). ({ctoks} ⊛ ‵ (O.row.own_val r (u ∷ []))) ⊛ raw ((callee_spec 𝓛 {cκ} {cargs}).ensures tt r)))) (id⊢ 𝓤 _) $ await ! tt $ pick ! (λ r. split ! $")
cx.c = ["bk", "said"] + cx.c[1:]
cx.move("said")
zs = lambda i: nth("ws", L + i)
fact = " × ".join([f"(r ≡ {ofh('spec')})"] + [f"({nth('ws', n + 1)} ≡ {ofh('set' + sub(f))})" for n, f in enumerate(Lf)] + [f"({zs(i)} ≡ {ofh('fill' + sub(i))})" for i in M_])
cx.emit(f"use1 𝓛 (some (λ (ws : Fins {cκ} callee.params {ckept} {cargs}). ‵ (lasts_of {cκ} callee.params {ckept} {cargs} ws) ⊛ raw (fact 𝓤 ({fact})))) (id⊢ 𝓤 _) $ pick ! (λ ws. split ! $")
cx.c = ["lasts", "fact"] + cx.c[1:]
cx.move("fact")
cx.emit(f"heard ! ({fact}) (λ e.")
cx.c = cx.c[1:]
close += 4
cx.move("lasts")
cx.step("fsplit !", ["lasts"], ["left", "lasts"])
cx.drop("left")
for f in Lf:
    cx.move("lasts")
    cx.step("fsplit !", ["lasts"], ["left", "lasts"])
    cx.step("fsplit !", ["left"], [f"last{f}", "bor"])
    cx.drop("bor")
for i in range(1, (M_[-1] if M_ else 0) + 1):
    cx.move("lasts")
    if kind[i] == "r":
        cx.step("fsplit !", ["lasts"], [f"fin{i}", "lasts"])
        continue
    cx.step("fsplit !", ["lasts"], ["left", "lasts"])
    if kind[i] == "m":
        cx.step("fsplit !", ["left"], ["said", "bor"])
        cx.step("fsplit !", ["said"], ["last", "len"])
        cx.move("len")
        cx.emit(f"feq_l ! (λ {l(i)}.")
        cx.c = cx.c[1:]
        close += 1
        cx.step("fjoin !", ["last", "bor"], [f"fin{i}"])
    else:
        cx.drop("left")
cx.drop("lasts")
cx.move("bk")
cx.step("split !", ["bk"], ["toks", "ownr"])
for y in [f"new{f}" for f in Lf] + [f"tok{i}" for i in refs]:
    cx.move("toks")
    cx.step("split !", ["toks"], [y, "toks"])
cx.drop("toks")
cx.move("ownr")
cx.emit("peeks ! O.row (Is O.row) (shows 𝓛 O.row) r (u ∷ []) (λ is.")
close += 1
cx.nl()
rl = cx.pos(f"l{Lr}")
cx.emit(f"land ! (from ! (stop !)) (init ! {rl} refl (typed_out r u is)) $ rewrite ! {rl} (λ (u' : Val). ‵ (fat full_share τO b{sub(Lr)} 0 u')) (ap only (O.tells r _ is)) refl $")
cx.nl()
assign(f"of_opd ! (load ! (from ! (fld ! refl (stop !))) (look_in ! {rl} (sub ! 1 refl (whole !))))", "(stop !)", f"init ! {cx.pos(f'l{Lt}')} refl ({lawful_v('(O.st r)', '(O.st_is r _ is)')})")
assign(f"of_opd ! (load ! (from ! (stop !)) (look ! {cx.pos(f'l{Lt}')} refl))", f"(hop ! (look ! {cx.pos('l1')} refl) (fld ! refl (stop !)))", f"store_raw ! {cx.pos('cell')} refl ({lawful_v('(O.st r)', '(O.st_is r _ is)')})")
assign(f"of_opd ! (load ! (from ! (fld ! refl (stop !))) (look_in ! {rl} (sub ! 0 refl (whole !))))", "(stop !)", f"init ! {cx.pos('l0')} refl (Ans.typed (O.ans r) (O.ans_is r _ is))")
cx.drop("ownr")
cx.drop("own")
cx.step(f"owned ! (state_row S₀) (Is (state_row S₀)) (LL.makes S₀.T S₀.plain 𝓛) (O.st r) _ (O.st_is r _ is)", [], ["own"])
cx.move("cell", "own")
cx.step(f"use2 𝓛 (‵ (part_at {R(v)} full_share (S₀.T.to (O.st r)) b at{sub(v)})) (shut (O.st r) (mach (O.st r) ∷ []))", ["cell", "own"], [f"part{v}"])
cx.nl()
for n, f in enumerate(Lf):
    cx.move(f"new{f}")
    cx.step("lft_end ! tt", [f"new{f}"], ["dead"])
    cx.move("dead", f"lent{f}", f"last{f}")
    cx.step(f"use3 𝓛 (later (‵ (part_at {R(f)} full_share ({nth('ws', n + 1)}) b at{sub(f)}))) (ref_back 𝓛 {R(f)} ({νs(f)} ∷ []) {δs(f)} ({nth('ws', n + 1)}) b at{sub(f)}) $ await ! tt", ["dead", f"lent{f}", f"last{f}"], [f"part{f}"])
    cx.nl()
cx.chain([f"part{f}" for f in F], "fjoin !", "parts", True)
cx.move("parts", "back")
a2 = tup(["S₀.T.to (O.st r)" if f == v else nth("ws", Lf.index(f) + 1) if f in Lf else h(f) for f in F])
comp = {f: f"e.{n + 1} i" for n, f in enumerate(Lf)}
path = "(λ i. " + tup(["S₀.T.to (O.st (e.0 i))" if f == v else comp[f] if f in Lf else h(f) for f in F]) + ")"
nis = " ".join(["next_is", "h"] + [at(i, a(i)) for i in ix])
sis = " ".join(["ans_is", "h"] + [at(i, a(i)) for i in ix])
lis = lambda i: " ".join([f"last_is{sub(i)}", "h"] + [at(j, a(j)) for j in ix])
said = f"ap O.ans (e.0) ∙ {sis}"
if M_:
    said = ", ".join([said] + [f"e.{1 + L + n} ∙ {lis(i)}" for n, i in enumerate(M_)])
cx.step(f"use2 𝓛 (‵ (part_at Row full_share ({next_h}) b o)) (together {a2} ({path} ∙ {nis}))", ["parts", "back"], ["lies"])
cx.nl()
cx.move("lies", "obor", "obs", "auth")
cx.step(f"close_ref ! tt (mem Row) ({next_h}) {{b = b}} {{o = o}}", ["lies", "obor", "obs", "auth"], ["obs", "bor", "tok0"])
cx.emit(f"returns ! (look ! {cx.pos('l0')} refl) $")
for i in range(N):
    cx.emit(f"forget ! {cx.pos(f'l{i}')} refl $")
cx.nl()
for i in range(N):
    cx.move(f"l{i}", f"d{i}")
    cx.step("free1 !", [f"l{i}", f"d{i}"], [])
cx.emit("free0 ! $")
cx.emit(f"keep ! ({lst([cx.pos(y) for y in left])}) $ by ! (ends r{''.join(f' ({zs(i)}){len_of(i)}' for i in M_)} (O.ans_is r _ is) ({said}))" + ")" * close)
out(f"""    module _ (C : Calls 𝓤 H) (Λ : Loops 𝓤 H) (fm : FmC 𝓤 H 𝓛.laws C) (known : Triple 𝓤 (C key) (Callee 𝓛)) where
      walk : ent 𝓤 (on_entry 𝓛 signature {κs} {qs} x at) (WpFn 𝓤 H C Λ function ({vals}) After)
      walk =
          {cx.text(10)}
""")
spells = tup(["mut_vals"] + [{"n": f"(λ y. {A(i)}.val y ∷ [])", "r": "mut_vals", "s": "shr_slice_vals", "m": "mut_slice_vals"}[kind[i]] for i in ix])
tell = lambda i: f"{A(i)}.tells" if kind[i] == "n" else {"r": "mut", "s": "shr_slice", "m": "mut_slice"}[kind[i]] + f"_Tells (named {wnum[i]}) {nth('κs', wnum[i])} (row_of {A(i)})"
tells = tup(["mut_Tells (named 0) κs.0 Row"] + [tell(i) for i in ix])
go = lambda i: {"n": f"Goes-none 𝓛 {nl} (λ _. row_of {A(i)}) yes (λ κs x f. refl)", "s": f"Goes-none_slice 𝓛 {nl} ({wnum.get(i)} ∷ []) tt (plain (λ _. row_of {A(i)})) yes", "m": f"Goes-gave_slice 𝓛 {nl} {wnum.get(i)} tt (plain (λ _. row_of {A(i)}))", "r": f"Goes-gave_ref 𝓛 {nl} {wnum.get(i)} tt (plain (λ _. row_of {A(i)}))"}[kind[i]]
gos = tup([f"Goes-ref 𝓛 {nl} 0 tt (plain (λ _. Row))"] + [go(i) for i in ix])
walk = "walk 𝓛 κs.0 qs.0" + "".join(f" {nth('κs', wnum[i])} {nth('qs', wnum[i])}" for i in refs) + " a.0.ref_ptr.0 a.0.ref_ptr.1 a.0.ghost_name a.0.now" + "".join(f" {nth('a', i)}" for i in ix) + "".join(f" {nth('are', i)}" for i in ix) + " C Λ fm known"
out(theorem(Mo, spells, tells, f"via 𝓤 _ (fst∗ 𝓤 _ (emp 𝓤)) ({walk})", gos))
sys.stdout.write(with_uses("\n".join(w) + "\n", USES, ["use denote.Struct.Laws as LL", "use Rattle.common.specs.Promise.{Promise, by_value}", f"use Rattle.walks.specs.Behind.{{Arg, row_of{', row_laws' if S_ else ''}, State, state_row, state_member, Out}}"]))
