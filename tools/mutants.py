#!/usr/bin/env python3
"""Wrong definitions, each tried in a copy of the repository: the laws, the theory or the cases must refuse it.

Prints a table: the mutant, the crate that refuses it, and the laws that fail there of themselves. A mutant must be refused by the crate
named here, in files that it did not touch. Exit status 1 if one is not, or if its text is not found. Runs `rt check` in theory, and where
that passes in cases, for each. With --texts it looks only whether the texts that a mutant replaces are found, and tries none.
"""
import argparse, pathlib, re, shutil, subprocess, sys, tempfile

ROOT = pathlib.Path(__file__).resolve().parent.parent
RULES, ROOTS, FIRES = "reduction/specs/Rules", "reduction/proofs/Roots", "reduction/proofs/Fires"
ALL, DISJOINT, REDUCTION = RULES + " " + ROOTS + " " + FIRES, "reduction/proofs/Disjoint", "reduction/specs/Reduction"
CHECKS, VALUES, RUN, NORMALIZE = "typing/specs/Refusals", "syntax/specs/Values", "semantics/specs/Run", "outcomes/specs/Normalize"
CHECK_2, CHECK_3 = "  _ ← require 2 (well_formed_types 0 tables.types)\n", "  _ ← require 3 (distinct tables.types)\n"
CHECK_8, CHECK_9 = "  _ ← scope_place tables t\n", "  A ← type_place tables t\n"
PARTS, CLAIM, VALUE_TYPES = "semantics/specs/TypeParts", "semantics/specs/Claim", "semantics/specs/ValueTypes"
PART, OF_RESULT = "    itself : PartOf D D\n", "    of_result : PartOf tables D result → Subformula result u D\n"
FREE, ANSWER = "outcomes/specs/FreeInputs", "-- the answer: refusal 0"
MAY_DROP, TABLE_CHECKS, OPERANDS = "reduction/specs/MayDrop", "typing/specs/TableChecks", "theory/proofs/Operands"
A_HALF, B_HALF = "at a (λ x. pair A x b)", "at b (λ x. pair A a x)"
MET = "leb (of_rule r ceilings) (of_rule r counts)"
TOTAL = "abbrev total : ℕ → (ℕ → ℕ) → ℕ\ntotal zero f = 0\ntotal (suc n) f = f 0 + total n (λ i. f (suc i))\n\n"
PART_ENDS = "syntax/specs/Parts"
CAPACITY = "min (min (length b.output) (min (length b.scratch₁) (length b.scratch₂))) max_capacity"

# Name, the crate that refuses, edits (files, old, new). Laws of `reduction` state the rules twice more, as families; the first six mutants
# make the families wrong in the same way, so that what refuses them is not the rule's second statement but what follows from it.
MUTANTS = [
    ("a rule that doubles a call: let value also for a call", "theory", [
        (RULES, "◌&&◌, List", "◌&&◌, ◌||◌, List"), (RULES, "given}", "given, is_some}"), (RULES, "case, as_var,", "case, as_var, as_call,"),
        (RULES, "(v, b) ← as_bind t\n  given (is_value v)", "(v, b) ← as_bind t\n  given (is_value v || is_some (as_call v))"),
        (ROOTS, "{Bool}", "{Bool, ◌||◌}\nuse Rattle.syntax.specs.Maybe.{is_some}"), (ROOTS, "case, arg}", "case, arg, as_call}"),
        (ROOTS, "r_value : {v b : Term} → T (is_value v)", "r_value : {v b : Term} → T (is_value v || is_some (as_call v))"),
        (FIRES, "◌&&◌, not}", "◌&&◌, ◌||◌, not}\nuse Rattle.syntax.specs.Maybe.{is_some}"), (FIRES, "done, arg}", "done, arg, as_call}"),
        (FIRES, "(is_value x.0) (x.1 ⟦", "(is_value x.0 || is_some (as_call x.0)) (x.1 ⟦"),
        (FIRES, "f_value : {v b : Term} → T (is_value v)", "f_value : {v b : Term} → T (is_value v || is_some (as_call v))"),
        (DISJOINT, "parts_of, as_var,", "parts_of, as_call, as_var,"), (DISJOINT, "parts_of as_var", "parts_of as_call as_var")]),
    ("drop of a let that is used once", "reduction", [
        (ALL, "eqb}", "leb}"), (ALL, "eqb (uses b 0) 0", "leb (uses b 0) 1"), (FIRES, "eqb (uses x.1 0) 0", "leb (uses x.1 0) 1")]),
    ("let of case into one branch only", "theory", [(ALL, "(bind r (weaken_body c))", "r")]),
    ("let of let without renumbering", "reduction", [(ALL, "b (weaken_body c)", "b c"), (FIRES, "(weaken_body x.1)", "x.1")]),
    ("apply to a computation", "theory", [
        (RULES, "given (is_value a) (b", "given true (b"), (ROOTS, "{Bool}", "{Bool, true}"),
        (ROOTS + " " + FIRES, "{b v : Term} → T (is_value v)", "{b v : Term} → T true"), (FIRES, "(is_value x.1) (b", "true (b")]),
    ("left case takes the right branch", "reduction", [(ALL, "(l ⟦ v ⟧)", "(r ⟦ v ⟧)"), (FIRES, "(x.1 ⟦ v ⟧)", "(x.2 ⟦ v ⟧)")]),
    ("a claim that says nothing of redexes", "theory", [
        (CLAIM, "normal ≡ true", "normal ≡ is_normal (may_drop tables.calls) normal"), ("theory/proofs/ClaimHolds", "z.normal;", "refl;")]),
    ("every type is part of every type", "semantics", [(PARTS, PART, PART + "    of_any : {A : ℕ} → PartOf D A\n")]),
    ("every type is allowed as a part's type", "theory", [(CLAIM, OF_RESULT, OF_RESULT + "    of_any : Subformula result u D\n")]),
    ("a base type has no value, so nothing can be fed", "theory", [
        (VALUE_TYPES, "Tables, base,", "Tables, arrow,"), (VALUE_TYPES, "components tables base A", "components tables arrow A")]),
    ("a run goes right to left", "theory", [(RUN, "h ← run ρ f\n    v ← run ρ a\n", "v ← run ρ a\n    h ← run ρ f\n")]),
    ("calls put at the trace's front", "theory", [(RUN, "ended x (c ++ d)", "ended x (d ++ c)")]),
    ("let of let also on a value", "reduction", [(RULES, "given (is_computation p) (bind", "given true (bind")]),
    ("drop of a value", "reduction", [(RULES, "is_computation e && pure e", "pure e")]),
    ("second operand named before the first", "reduction", [
        (VALUES, "at f (λ x. app x a) ∷ at a (λ x. app f x) ∷ []", "at a (λ x. app f x) ∷ at f (λ x. app x a) ∷ []")]),
    ("a case's branches counted as operands", "syntax", [
        (VALUES, "at s (λ x. case x l r) ∷ []", "at s (λ x. case x l r) ∷ at l (λ x. case s x r) ∷ at r (λ x. case s l x) ∷ []")]),
    ("11 before 10", "reduction", [(REDUCTION, "some s ↦ stopped 10 counts",
        "some s ↦ elim (leb (size s.next) capacity) [ false ↦ stopped 11 counts | true ↦ stopped 10 counts ]")]),
    ("the input's length ignored", "reduction", [(REDUCTION, "elim (leb (size t) capacity)", "elim (leb 0 capacity)")]),
    ("13 before 10", "reduction", [(REDUCTION, "some s ↦ stopped 10 counts",
        "some s ↦ elim (ceiling_met settings.ceilings s.rule counts) [ true ↦ stopped 13 counts | false ↦ stopped 10 counts ]")]),
    ("11 before 13", "reduction", [(REDUCTION, "true ↦ stopped 13 counts",
        "true ↦ elim (leb (size s.next) capacity) [ false ↦ stopped 11 counts | true ↦ stopped 13 counts ]")]),
    ("one use more than the ceiling", "reduction", [(REDUCTION, MET, "leb (suc (of_rule r ceilings)) (of_rule r counts)")]),
    ("one use less than the ceiling", "reduction", [(REDUCTION, MET, "leb (of_rule r ceilings) (suc (of_rule r counts))")]),
    ("the ceiling of let for every rule", "reduction", [(REDUCTION, MET, "leb (get_or ceilings 0 0) (of_rule r counts)")]),
    ("a met ceiling of drop refuses every step", "reduction", [
        (REDUCTION, "true, false, List", "true, false, ◌||◌, List"),
        (REDUCTION, MET, MET + " || leb (of_rule Drop ceilings) (of_rule Drop counts)")]),
    ("the step that is refused with 13 is counted", "reduction", [
        (REDUCTION, "stopped 13 counts", "stopped 13 (raise s.rule counts)")]),
    ("no ceilings are one less than the largest budget", "reduction", [(REDUCTION, "replicate 10 4294967295", "replicate 10 4294967294")]),
    ("3 before 2", "typing", [(CHECKS, CHECK_2 + CHECK_3, CHECK_3 + CHECK_2)]),
    ("9 before 8", "typing", [(CHECKS, CHECK_8 + CHECK_9, CHECK_9 + CHECK_8)]),
    ("a type's part may be the entry itself", "typing", [("typing/specs/TableChecks", "ltb (left_of w) i", "leb (left_of w) i")]),
    ("a case's branches of two types", "typing", [("typing/specs/Infer", "given (eqb C' C) C", "some C")]),
    ("upper-case hexadecimal", "cases", [("outcomes/specs/Listing", "(87 + d)", "(55 + d)")]),
    ("scratch left as it was", "cases", [(NORMALIZE, "scratch₂ = cleared b.scratch₂", "scratch₂ = b.scratch₂")]),
    ("capacity of the output alone", "cases", [(NORMALIZE, CAPACITY, "min (length b.output) max_capacity")]),
    ("the last input has the highest mark", "theory", [
        (FREE, "{ℕ, Bool", "{ℕ, ◌-◌, Bool"), (FREE, "masks 4 (reads x.term)", "masks 4 (λ i. reads x.term (255 - i))")]),
    ("an input that is used twice is not read", "theory", [
        (FREE, "ltb, replicate}", "eqb, replicate}"), (FREE, "ltb 0 (uses t i)", "eqb 1 (uses t i)")]),
    ("uses counted for inputs", "theory", [
        (FREE, "{ℕ, Bool", "{ℕ, zero, suc, ◌+◌, Bool"), (FREE, ANSWER, TOTAL + ANSWER),
        (FREE, "how_many 256 (reads x.term)", "total 256 (uses x.term)")]),
    ("a refusal that answers marks", "theory", [(FREE, "replicate 4 0", "replicate 4 1")]),
    ("a unit is a computation", "theory", [(VALUES, "is_value (unit A) = true", "is_value (unit A) = false")]),
    ("a unit has a part", "syntax", [("syntax/specs/Decoding", "leaf (λ n A. unit A)", "unary (λ n A a. unit A)")]),
    ("a unit is of any type", "typing", [("typing/specs/Infer", "components tables unit_type U >>= λ _. some U", "some U")]),
    ("a unit type word with its right field set", "typing", [
        ("typing/specs/TableChecks", "eqb (left_of w) 0 && eqb (right_of w) 0)", "eqb (left_of w) 0)")]),
    ("the unit type has two parts", "typing", [("syntax/specs/Tables", "leb arrow k && leb k sum", "leb arrow k && leb k unit_type")]),
    ("a unit's run gives a number", "theory", [
        (RUN, "evaluate run ρ (unit A) = answered trivial", "evaluate run ρ (unit A) = answered (num 0)")]),
    ("the unit type has no value, so nothing can be fed", "theory", [
        (VALUE_TYPES, "product, sum, unit_type,", "arrow, product, sum,"),
        (VALUE_TYPES, "components tables unit_type A", "components tables arrow A")]),
    ("an acting call may be dropped", "reduction", [(MAY_DROP, "(call k ts) = not (acts calls k)", "(call k ts) = true")]),
    ("an application may be dropped over any table", "reduction", [(MAY_DROP, "(app f a) = not (some_acts calls)", "(app f a) = true")]),
    ("the term, not the table, says whether an application may be dropped", "reduction", [
        (MAY_DROP, "use Rattle.syntax.specs.Tables.{acts, some_acts}",
            "use Rattle.syntax.specs.Lists.{any}\nuse Rattle.syntax.specs.Calls.{calls_in}\nuse Rattle.syntax.specs.Tables.{acts}"),
        (MAY_DROP, "not (some_acts calls)", "not (any (acts calls) (calls_in (app f a)))")]),
    ("acting calls kept but reordered: a pair's second half is named before its first", "theory", [
        (VALUES, A_HALF + " ∷ " + B_HALF, B_HALF + " ∷ " + A_HALF),
        (ROOTS, "{Bool}", "{Bool, true}"),
        (ROOTS, "i_pair₂ : {A : ℕ} {a b : Term} → T (is_value a)", "i_pair₂ : {A : ℕ} {a b : Term} → T true"),
        (FIRES, "(is_value a) (is_value b) i_pair₁ i_pair₂", "(is_value b) (is_value a) (λ h. i_pair₂ tt h) (λ k h. i_pair₁ h)"),
        (OPERANDS, "two_values _ _ (is_value a) (is_value b) e", "let h = two_values _ _ (is_value b) (is_value a) e in (h.1, h.0)"),
        (OPERANDS, "value_two _ _ (is_value a) (is_value b) h", "value_two _ _ (is_value b) (is_value a) (h.1, h.0)")]),
    ("a claim that says nothing of acting calls", "theory", [
        (CLAIM, "trace' ≡ acting_calls calls trace\n", "trace' ≡ acting_calls calls trace'\n"),
        ("theory/proofs/SameRuns", "acting_kept = d.struck.acting;", "acting_kept = refl;")]),
    ("an acting call's arity is its count", "syntax", [
        ("syntax/specs/Words", "cond (acts_of w) (count_of w - 8) (count_of w)", "count_of w")]),
    ("a count of 4 or of 12", "typing", [(TABLE_CHECKS, "leb (arity_of w) 3", "leb (arity_of w) 4")]),
    ("a call acts if its count is 9 or more", "syntax", [("syntax/specs/Words", "leb 8 (count_of w)", "leb 9 (count_of w)")]),
    ("a call past the table has no arguments", "syntax", [
        ("syntax/specs/Tables", "  w ← get_elem? calls k\n  given (leb (arity_of w) 3)",
            "  w ← some (get_or calls k 0)\n  given (leb (arity_of w) 3)")]),
    ("a malformed count is a number of arguments", "syntax", [
        ("syntax/specs/Tables", "given (leb (arity_of w) 3) (arity_of w)", "given (leb (arity_of w) 7) (arity_of w)")]),
    ("a word of an unknown kind has no parts", "syntax", [(PART_ENDS, "given (leb (kind_of w) 11)", "given (leb (kind_of w) 15)")]),
    ("a word's parts are owed but not the word's own place paid", "syntax", [(PART_ENDS, "(n + owed)", "(n + suc owed)")]),
    ("the words may run out with a part owed", "syntax", [
        (PART_ENDS, "extent calls [] (suc owed) = none", "extent calls [] (suc owed) = some zero")]),
]

CHECKED = ["theory", "cases"]
ERROR = re.compile(r"^\./(\w+/(\w+))\.antt:\d+:\d+: error: (?:`([^`]*)`)?(.*)", re.M)
NOT_OF_ITSELF = re.compile(r"that depends? on |^ is not admitted")

def listed():
    """The lines of crates.txt for the crates that are checked and those below them."""
    lines = dict(line.split(":", 1) for line in (ROOT / "crates.txt").read_text().splitlines() if re.match(r"\w+:", line))
    names = list(CHECKED)
    for name in names:
        names += [below for below in lines[name].split() if below not in names]
    return {name: lines[name] for name in lines if name in names}

def edited(edits):
    """The texts of the edited files, by the path of each; None where a text is not found, of the file that lacks it."""
    texts = {}
    for names, old, new in edits:
        for name in names.split():
            text = texts.get(name) or (ROOT / "crates" / (name + ".antt")).read_text()
            if old not in text:
                return {name: None}
            texts[name] = text.replace(old, new)
    return texts

def refusal(texts):
    """The crate that refuses these texts and the laws that fail there, but for those that fail with a law they cite."""
    with tempfile.TemporaryDirectory() as folder:
        copy = pathlib.Path(folder)
        for name in listed():
            shutil.copytree(ROOT / "crates" / name, copy / "crates" / name, ignore=shutil.ignore_patterns("out"))
        (copy / "crates.txt").write_text("".join(f"{name}:{below}\n" for name, below in listed().items()))
        for name, text in texts.items():
            (copy / "crates" / (name + ".antt")).write_text(text)
        for crate in CHECKED:
            run = subprocess.run(["rt", "check"], cwd=copy / "crates" / crate, capture_output=True, text=True)
            if run.returncode:
                break
        else:
            return "nothing", ""
    printed = run.stdout + run.stderr
    below = re.search(r"^rt: the library (\w+) did not build", printed, re.M)
    crate = below[1] if below else crate
    failed = [x for x in ERROR.findall(printed) if not NOT_OF_ITSELF.search(x[3])]
    if not failed:
        return "no law", crate
    path = f"{crate}/{failed[0][0]}"
    if path in texts:
        return "an edited file", path
    return crate, ", ".join(list(dict.fromkeys("`%s` (%s)" % (law, file) for _, file, law, _ in failed))[:5])

def main():
    parser = argparse.ArgumentParser(description=__doc__, formatter_class=argparse.RawDescriptionHelpFormatter)
    parser.add_argument("--texts", action="store_true", help="only look whether the texts are found")
    parser.add_argument("--only", default="", metavar="WORDS", help="only mutants with these words in their name")
    args = parser.parse_args()
    wrong = 0
    if not args.texts:
        print("| mutant | refused by | laws that fail, up to five |\n|---|---|---|")
    for name, expected, edits in MUTANTS:
        texts = edited(edits) if args.only in name else {}
        missing = [path for path, text in texts.items() if text is None]
        if args.texts or missing or not texts:
            wrong += len(missing)
            print("".join(f"{name}: text not found in {path}\n" for path in missing), end="")
            continue
        crate, laws = refusal(texts)
        wrong += crate != expected
        print("| %s | %s | %s |" % (name, crate if crate == expected else "%s, EXPECTED %s" % (crate, expected), laws), flush=True)
    sys.exit(1 if wrong else 0)

if __name__ == "__main__":
    main()
