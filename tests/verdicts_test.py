"""Tests of what `verdicts.py` reads in the words of checks, for `wrong_bodies_test.py`."""

import verdicts
from edits import Edit

# Errors that only a name's being gone explains, and others.
NAMES = [
    "`returns`: record `Rattle.toy.proofs.f.Lts.After-t13` has no field `min-head` (nearest: .min-most)",
    "`returns`: `goal.returns`: module `Rattle.toy.proofs.f.Goals` has no `returns` that can be named from here",
    "module `Rattle.toy.proofs.Sums` has no `thrice` that can be named from here (names in it that begin alike: `three`)",
    "1 declaration that depends on `thrice`, which was not admitted, was not checked: returns",
    "4 declarations that depend on `thrice`, which was rejected, were not checked: a, b, c and 1 more",
    "`returns`: `thrice` is not in scope (did you mean `three`?)",
    "`toy` has no function `f` for this file to be the proof of: help: delete the folder `./proofs/f`",
]
OTHERS = [
    "`returns`: computed as far as they go, the two types differ only where one has `1` (expected) and the other has `2`",
    "`thrice`: expected type `n ≡ n`, but this has type `m ≡ m`, which depends on `n`, and `x` has no field",
    "`returns`: `omega` found no proof: it has no `≡` that says so",
]
# What a check says of a function whose clauses `least` and `most` are not proved, and whose answer of the clause `sum` is refused, as are
# those that rest on the lemma `halves`.
CLAUSES = """./proofs/middle/Answers.antt:7:3: error: `halves`: expected type `a`, but this has type `b`
./proofs/middle/Answers.antt:9:3: error: `returns-clause-sum`: expected type `a`, but this has type `b`
./proofs/middle/Answers.antt:12:3: error: `returns-clause-name`: `gone` is not in scope
./proofs/other/Answers.antt:9:3: error: `returns-clause-other`: expected type `a`, but this has type `b`
note: src/lib.rt:9:5: it is not proved that what the function ensures holds (`returns-clause-least`)
note: src/lib.rt:9:5: it is not proved that what the function ensures holds (`returns-clause-most`)
fn toy::middle: not proved
"""
GOALS = ["returns-clause-least", "returns-clause-most", "halves", "returns-clause-sum"]
# Functions of one name, where the name of a module begins that of another.
ALIKE = {"toy::opening::open": "src/opening.rt", "toy::opening_several::open": "src/opening_several.rt"}
# An edit of definitions, and what a check may say of it: with how the fault that it finds ends, or nothing.
OF_SPECS = Edit("toy", "defines", [("specs/Pairs.antt", "n + n", "refl"), ("src/lib.rt", "a", "b")], is_of_a_body=False)
STATED = {
    "./specs/Pairs.antt:4:10: error: `pair`: `refl` is not a constructor of `ℕ`\n": "specs/Pairs.antt: `pair`: `refl` is not a constructor of `ℕ`",
    "specs/Pairs.antt:4:10: error: `pair`: `min` is not in scope\n": "specs/Pairs.antt: `pair`: `min` is not in scope",
    "src/lib.rt:25:24: error: `ensures-1`: expected type `a`\n": "src/lib.rt: `ensures-1`: expected type `a`",
    "src/other.rt:25:24: error: `ensures-1`: expected type `a`\n": "src/other.rt: `ensures-1`: expected type `a`",
    "specs/Pairs.antt:9:1: error: 1 declaration that depends on `sure`, which was rejected, was not checked: surer\n": None,
    "specs/Sure.antt:4:10: error: `sure`: expected type `pair 1 ≡ 2`, but this has type `2 ≡ 2`\n": None,
    "proofs/Sums.antt:4:10: error: `thrice`: expected type `a`\n": None,
    "src/lib.rt:7:15: error[failed-constant-evaluation]: evaluation reached a false `prove!`\n": None,
    "note: src/lib.rt:9:5: it is not proved that what the function ensures holds (`returns`)\n": None,
}


def over_clauses(sees):
    clauses = {it: Edit("toy", it, is_of_a_body=False, judge="middle", goal=f"returns-clause-{it}") for it in ("least", "most", "sum", "name", "other")}
    output = f"\n{CLAUSES}"
    for name, edit in clauses.items():
        wanted = [("middle", edit.goal)] if edit.goal in GOALS else []
        sees(f"what refuses the clause {name}", verdicts.refusals(output, edit), wanted)
    of_any = Edit("toy", "any", is_of_a_body=False, judge="middle")
    sees("what refuses a function", verdicts.refusals(output, of_any), [("middle", it) for it in GOALS])
    sees("that the clause name is missed", bool(verdicts.misses(output, clauses["name"])), True)


def failures():
    """Returns how much was read otherwise."""
    wrong = []

    def sees(what, found, wanted):
        if found != wanted:
            wrong.append(what)
            print(f"FAILED: {what}: {wanted} was to come, and {found} came")

    for text in [*NAMES, *OTHERS]:
        sees(f"whether this is of a name: {text}", verdicts.is_of_a_name(text), text in NAMES)
    for path, file in ALIKE.items():
        found = verdicts.path_in(ALIKE, Edit("toy", "opens_nothing", functions=[(file, "", "open")]))
        sees(f"which of two functions of one name is in {file}", found, path)
    over_clauses(sees)
    for text, wanted in STATED.items():
        found = verdicts.ill_stated(f"{text}fn toy::twice: not proved\nlogic=not-proved\n", OF_SPECS)
        sees(f"whether this is of what an edit states: {text}", found and found.split("typecheck: ")[1], wanted)
    return len(wrong)
