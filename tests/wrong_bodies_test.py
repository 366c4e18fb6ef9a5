#!/usr/bin/env python3
"""Tests of `wrong_bodies.py` over a crate of five functions, made in a folder of its own: which edits it takes as refused, over
the library that `rt lib` built and beside an `rt ci` whose words are written here, and by `rt must-fail` alone. In which order it
has which checks it shows without `rt`, by answers that stand here for those of checks. And of what it stands on: what the words of
checks say (`verdicts_test.py`), which edits one check tries, what such a check leaves open, that commands end with the process that started them, and that
they stop and go on; and of what is kept from run to run (`kept_test.py`)."""

import os
import signal
import subprocess
import sys
import threading
import time

sys.dont_write_bytecode = True
sys.path.insert(0, os.path.dirname(os.path.abspath(__file__)))
import kept_test  # noqa: E402
import verdicts_test  # noqa: E402
import wrong_bodies  # noqa: E402
from edits import Edit, companies, seconds_of, shared_out, with_a_copy  # noqa: E402
from lanes import Lanes  # noqa: E402
from openings import functions_apart, lemmas_open, without_bodies  # noqa: E402
from wrong_bodies import together  # noqa: E402

SOURCE = """#![tactic(auto)]

ghost use Rattle.std.specs.Prelude.{◌≡◌, ◌≤◌, ◌+◌, ◌-◌};
ghost use Rattle.toy.specs.Pairs.{pair};

const MOST: u64 = 5;
const _: () = prove!(MOST < 7);

pub fn twice(n: u32) -> u64
    ensures { result ≡ n + n }
{
    let n = n as u64;
    n + n
}

pub fn rest_of(n: u64, m: u64) -> u64
    requires { m ≤ n }
    ensures { result ≡ n - m }
{
    let rest = n - m;
    rest
}

pub fn four_times(n: u16) -> u64
    ensures { result ≡ pair n + pair n }
{
    let half = twice(n as u32);
    half + half
}

pub fn six_times(n: u16) -> u64
    ensures { result ≡ n + n + (n + n) + (n + n) }
{
    let double = twice(n as u32);
    double + double + double
}

pub fn same(n: u8) -> u8 ensures { result ≡ n } {
    let same = n;
    same
}

#[cfg(test)]
mod tests;
"""
PAIRS = """use Rattle.std.specs.Prelude.{ℕ, ◌+◌}

abbrev pub pair : ℕ → ℕ
pair n = n + n
"""
TESTS = """use crate::twice;
use std::test::Fail;

#[test]
fn doubles(rt: HostRuntime) -> Result<(), Fail> {
    assert_eq!(rt; twice(4), 8);
    Ok(())
}
"""
LEMMAS = """use Rattle.std.proofs.Common.{◌≡◌, ℕ, ◌+◌, arith}

pub thrice : (d n : ℕ) → d ≡ n + n → d + d + d ≡ n + n + (n + n) + (n + n)
thrice d n same = omega arith
"""
ANSWERS = """use Rattle.std.proofs.Common.{◌≡◌, ◌+◌}
use Rattle.toy.proofs.Sums.{thrice}
use Rattle.toy.proofs.six_times.Goals as goal
use Rattle.toy.proofs.six_times.Goals.{After-twice-double}

doubled : (c : After-twice-double) → c.twice-double.result ≡ c.args.n + c.args.n
doubled c = c.twice-double.ensures

pub returns : goal.returns
returns c = thrice c.twice-double.result c.args.n (doubled (goal.at.returns c).After-twice-double)
"""
# A file of proofs with a lemma in a module, and two that others see into, and the bodies that a check leaves open.
LEMMAS_OF_A_MODULE = """use Rattle.std.proofs.Common.{◌≡◌, ℕ, refl}

abbrev pub same : ℕ → ℕ
same n = n

half : ℕ → ℕ
half zero = zero

pub by_half : half zero ≡ zero
unfolding half
by_half = refl

module _ (n : ℕ) where
  -- by clauses
  pub is_itself : (k : ℕ)
      → k ≡ k
  is_itself zero = refl
  is_itself (suc k) =
      refl
"""
LEFT_OPEN = {"by_half = refl\n": "by_half = ?\n", "  is_itself zero = refl\n  is_itself (suc k) =\n      refl\n": "  is_itself = ?\n\n"}
# A function with attributes, and a copy of it with an edit.
WITH_ATTRIBUTES = """/// Nothing.
#[inline]
#[tactic(auto, using(crate::proofs::Sums::thrice))]
fn none(n: u64) -> u64 {
    n - n
}
"""
A_COPY = """
#[inline]
#[tactic(auto, using(crate::proofs::Sums::thrice))]
fn none_2(n: u64) -> u64 {
    n
}
"""
# Functions by their forms, and what is left of them where the body of `kept` stays: no constant's, no trait's own, none of one line.
FORMS = """impl<T: Copy> Rows<T> {
    pub const fn size(self) -> usize {
        64
    }

    pub fn first(
        &self,
        at: usize,
    ) -> T {
        match at {
            0 => self.rows[0],
            _ => self.rows[at],
        }
    }

    fn kept(&self) -> usize {
        self.rows.len()
    }
}

pub fn law() ensures { IsLaw } {}

trait Ends {
    fn end(&mut self);

    fn begin(&mut self) {
        self.end();
    }
}

pub fn last(rows: &[u8]) -> u8
    requires { 0 < length rows.now }
    ensures {
        result ≡ last rows.now
    }
{
    rows[rows.len() - 1]
}
"""
LEFT_OUT = {
    """        match at {
            0 => self.rows[0],
            _ => self.rows[at],
        }
""": "        unreachable!()\n",
    "    rows[rows.len() - 1]\n": "    unreachable!()\n",
}
# A method of a trait, which a function may call that does not name it.
OF_A_TRAIT = """impl Drop for Rows {
    fn drop(self) {
        let Rows { rows: _ } = self;
    }
}
"""
# Each edit by its name: the file, the old text, the new one, and what its line has to say.
EDITS = {
    "adds_one": ("src/lib.rt", "    n + n", "    n + n + 1", "refused by twice, goal"),
    "adds_two": ("src/lib.rt", "    n + n", "    n + n + 2", "refused by twice, goal"),
    "leaves_all": ("src/lib.rt", "rest = n - m", "rest = n", "refused by rest_of, goal"),
    # Refused only in company, since its function calls another wrong body there.
    "means_the_same": ("src/lib.rt", "half + half", "2 * half", "NOT REFUSED: toy/means_the_same: the crate is still proved"),
    "begins_with_a_return": ("src/lib.rt", "result ≡ n } {", "result ≡ n } { if n > 100 { return 0; }", "same, goal returns-then-n"),
    "begins_with_a_name": ("src/lib.rt", "result ≡ n } {", "result ≡ n } { let n = n;", "NOT REFUSED: toy/begins_with_a_name: the crate is still proved"),
    "defines_more": ("specs/Pairs.antt\njudge: four_times", "n + n", "n + n + 1", "refused by four_times, goal returns"),
    "defines_what_is_none": ("specs/Pairs.antt\njudge: four_times", "n + n", "refl", "NOT REFUSED: toy/defines_what_is_none: BAD EDIT: what it states"),
    "defines_less_for_another": ("specs/Pairs.antt\njudge: same", "n + n", "n", "NOT REFUSED: toy/defines_less_for_another: its judge same is still proved"),
    "defines_more_for_nobody": ("specs/Pairs.antt\njudge: nobody", "n + n", "n + n + 2", "NOT REFUSED: toy/defines_more_for_nobody: no goal of nobody is told"),
    "proves_what_is_false": ("src/lib.rt", "u64 = 5", "u64 = 8", "refused by a check of the crate: src/lib.rt:7:15: error[failed-constant-evaluation]"),
    "says_less": ("src/lib.rt\njudge: four_times", "    ensures { result ≡ n + n }", "    ensures { n ≤ result }", "refused by four_times, goal"),
    "takes_a_name_away": (
        "src/lib.rt",
        "let double = twice(n as u32);",
        "let pair = twice(n as u32); let double = pair;",
        "NOT REFUSED: toy/takes_a_name_away: only a file of proofs",
    ),
    "doubles_one_more": ("src/lib.rt", "double = twice(n as u32)", "double = twice(n as u32 + 1)", "refused by six_times, lemma doubled"),
    "triples_once_too_often": ("src/lib.rt", "double + double + double", "double + double + double + 1", "refused by six_times, goal"),
    "is_not_there": ("src/lib.rt", "n * n", "n", "BAD EDIT: its old text stands in src/lib.rt 0 times"),
    "stands_twice": ("src/lib.rt", "n as u32", "n as u32 + 1", "BAD EDIT: its old text stands in src/lib.rt 2 times"),
}
# Those that are tried over answers for checks alone.
MORE = {
    "leaves_half": ("src/lib.rt", "rest = n - m", "rest = n - m / 2", "refused by rest_of, goal"),
    "changes_a_lemma": ("proofs/Sums.antt", "d ≡ n + n → d", "d ≡ n → d", "refused by a check of the crate: proofs/Sums.antt"),
    "is_of_a_test": ("src/tests.rt", "8);", "9);", "NOT REFUSED: toy/is_of_a_test: the crate is still proved"),
}
# What checks say of edits by themselves: of those of whole crates, of one that a check of its function does not tell, and of others.
ANSWERED = {
    "changes_a_lemma": "proofs/Sums.antt:4:18: error: `thrice`: expected type `a`, but this has type `b`\nlogic=not-proved\n",
    "is_of_a_test": "logic=proved\n",
    "means_the_same": "logic=proved\n",
    "leaves_all": "note: src/lib.rt:1:1: not proved (`returns`)\nfn toy::rest_of: not proved\n",
    "leaves_half": "note: src/lib.rt:1:1: not proved (`returns`)\nfn toy::rest_of_2: not proved\n",
}


def made_in(top, names):
    """Makes the crate with these edits."""
    crate = f"{top}/crates/toy"
    files = {f"{top}/crates.txt": "toy:\n", f"{top}/HANDLES": "Handles allowed: none.\n"}
    files |= {f"{crate}/src/lib.rt": SOURCE, f"{crate}/src/tests.rt": TESTS}
    files |= {f"{crate}/specs/Lib.antt": "pub mod Pairs\n", f"{crate}/specs/Pairs.antt": PAIRS}
    files |= {f"{crate}/proofs/Lib.antt": "mod Sums\n", f"{crate}/proofs/Sums.antt": LEMMAS, f"{crate}/proofs/six_times/Answers.antt": ANSWERS}
    for name in names:
        file, old, new, _ = (EDITS | MORE)[name]
        files[f"{crate}/wrong/{name}.edit"] = f"file: {file}\nold: {old}\nnew: {new}\n"
    for path, text in files.items():
        os.makedirs(os.path.dirname(path), exist_ok=True)
        with open(path, "w", encoding="utf-8") as it:
            it.write(text)


def write(file, words, manner):
    with open(file, manner, encoding="utf-8") as it:
        it.write(words)


def failures(top, wanted, last, words=None, manner="together", made=()):
    """Tries the crate's edits, and returns how much came otherwise: what is said of each edit, the list of those that made the goal
    which refuses them, and the last line."""
    lines, failed, file = [], 0, f"{top}/words" if words else None
    end = threading.Timer(3, write, (file, "1 passed, 0 failed\n", "a"))
    if file:
        write(file, words, "w")
        end.start()
    status = wrong_bodies.run(top, None, manner, lines.append, file)
    if end.is_alive():
        failed += 1
        print("FAILED: it did not wait for the end of `rt ci`")
    for name, text in wanted.items():
        said = [it for it in lines if f"toy/{name}:" in it]
        if not said or text not in said[-1]:
            failed += 1
            print(f"FAILED: {name}: {text} was to come, and {said} came")
    if (found := [it for said in lines for it in said.split("\n") if it.startswith("  toy/")]) != [f"  toy/{it}" for it in made]:
        failed += 1
        print(f"FAILED: these edits were told as refused at a goal that they made: {found}")
    if bool(status) == (", 0 not," in last) or lines[-1] != last:
        failed += 1
        print(f"FAILED: status {status}, last line {lines[-1]}")
    return failed


def over_a_library(top):
    """Tries edits over a library, by checks and by `rt must-fail`, and sees that checks with none applied tell nothing."""
    made_in(top, EDITS)
    wrong_bodies.prove.prove(top, "toy", [], 1, 0, ["lib"])
    made = ["begins_with_a_return: same, goal returns-then-n-gt100"]
    last = "9 refused, 8 not, of which 15 were tried in this run"
    failed = failures(top, {name: it[3] for name, it in EDITS.items()}, last, "rt: toy proved\n", made=made)
    for name in EDITS:
        if name != "takes_a_name_away":
            os.remove(f"{top}/crates/toy/wrong/{name}.edit")
    alone = {"takes_a_name_away": "NOT REFUSED: toy/takes_a_name_away: refused, as it must be (only"}
    failed += over_nothing_applied(top)
    return failed + failures(top, alone, "0 refused, 1 not, of which 1 were tried in this run", manner="alone")


def over_nothing_applied(top):
    """Sees that a control applies no edit, by itself and over `rt ci`, and fails where its checks say nothing."""
    of_rt, applied, failed = wrong_bodies.Libraries.check, [], 0

    def noting(*given, is_applied=True, **how):
        applied.append(is_applied)
        return of_rt(*given, is_applied=is_applied, **how)

    wrong_bodies.Libraries.check = noting
    for words in (None, "rt: toy proved\n"):
        failed += failures(top, {}, "1 left out, 0 not, of which 1 were tried in this run", words, manner="control")
    if applied != [False, False]:
        failed += 1
        print(f"FAILED: of two checks of controls {applied} applied an edit")
    silent = {"takes_a_name_away": "NOT REFUSED: toy/takes_a_name_away: with nothing changed no check tells its function"}
    wrong_bodies.Libraries.check = lambda *_, **__: ""
    failed += failures(top, silent, "0 left out, 1 not, of which 1 were tried in this run", manner="control")
    wrong_bodies.Libraries.check = of_rt
    return failed


def over_answers(top):
    """Tries edits with answers for those of checks, and looks at which checks come in which order."""
    names, asked = list(ANSWERED), []
    made_in(top, names)

    def check(_, edits, kept, keeps=None, is_short=False, is_of_all=False, is_open=False, is_applied=True):
        asked.append(([it.name for it in edits], bool(kept), bool(keeps), is_open, is_short, is_of_all))
        os.makedirs(keeps if is_open else top, exist_ok=True)
        return "\n" + "".join(ANSWERED[it.name] for it in edits if is_of_all or it.name != "means_the_same")

    of_rt, wrong_bodies.Libraries.check = wrong_bodies.Libraries.check, check
    failed = failures(top, {it: (EDITS | MORE)[it][3] for it in names}, "3 refused, 2 not, of which 5 were tried in this run", "rt: toy proved\n")
    failed += failures(top, {"leaves_all": "toy is not proved"}, "0 refused, 5 not, of which 5 were tried in this run", "rt: toy NOT PROVED\n")
    wrong_bodies.Libraries.check = of_rt
    first = [(["leaves_all", "leaves_half", "means_the_same"], False, True, True, True, False)]
    rest = [([it], False, False, False, True, False) for it in ("changes_a_lemma", "is_of_a_test")]
    rest += [(["means_the_same"], True, True, True, False, False), (["means_the_same"], False, True, False, False, True)]
    if asked[:1] != first or sorted(asked[1:]) != sorted(rest):
        failed += 1
        print(f"FAILED: these checks came: {asked}")
    return failed


def left_in():
    """Returns how much of what a check leaves open or out is otherwise than it is to be: lemmas, bodies, functions that none calls."""
    failed = 0
    for text, changes, found in (
        (LEMMAS_OF_A_MODULE, LEFT_OPEN, lemmas_open(LEMMAS_OF_A_MODULE, {"half"})),
        (FORMS, LEFT_OUT, without_bodies("src/lib.rt", FORMS, lambda function: function[2] == "kept")),
    ):
        for one, other in changes.items():
            text = text.replace(one, other)
        if found != text:
            failed += 1
            print(f"FAILED: what a check leaves open: {found}")
    called = functions_apart({"src/lib.rt": SOURCE, "src/rows.rt": OF_A_TRAIT}, {"proofs/four_times"})[1]
    if called != {"proofs/four_times", "proofs/twice", "proofs/rows/Rows/drop"}:
        failed += 1
        print(f"FAILED: which functions `four_times` may call: {called}")
    return failed


def is_copied():
    """Whether a copy of a function has its attributes."""
    edit = Edit("toy", "copied", [("src/lib.rt", "n - n", "n")], functions=[("src/lib.rt", "", "none_2")], copied=("src/lib.rt", "", "none"))
    return with_a_copy(WITH_ATTRIBUTES, edit) == WITH_ATTRIBUTES + A_COPY


def lists_apart():
    """Returns how many lists of edits are otherwise than they were to be: those of one function are apart if that can have no copy, and
    no list takes too long."""
    failed, names = 0, (("g", 1), ("f", 1), ("h", 1), ("f", 2))
    for copies, most, wanted in (
        (False, 1000, [["f_1", "g_1"], ["f_2", "h_1"]]),
        (True, 1000, [["f_1", "f_2", "g_1", "h_1"]]),
        (True, 10, [["f_1"], ["f_2"], ["g_1"], ["h_1"]]),
    ):
        edits = [Edit("toy", f"{name}_{k}", functions=[("src/lib.rt", "", name)], can_have_a_copy=copies) for name, k in names]
        found = [[it.name for it in group] for group in shared_out(edits, lambda it: seconds_of(it, {"f": 2.0}), most)]
        if found != wanted:
            failed += 1
            print(f"FAILED: which edits one check of {most} seconds tries: {found}")
    return failed


def edits_of_clauses():
    """Returns edits of clauses: three of one function, one of another, one of a body beside them, and one of a goal that is among the three."""
    clauses = [Edit("toy", it, is_of_a_body=False, judge="middle", goal=f"returns-clause-{it}") for it in ("least", "most", "sum")]
    # Its body leaves open what it likes.
    inside = Edit("toy", "inside", is_of_a_body=False, is_of_its_clause=False, judge="middle", goal="returns-clause-more")
    apart = Edit("toy", "apart", is_of_a_body=False, judge="other", goal="returns-clause-least")
    return [*clauses, apart, inside, clauses[2]]


def state_of(number):
    """Returns the letter that stands for a process's state, where it is not gone."""
    try:
        return open(f"/proc/{number}/stat", encoding="utf-8").read().rpartition(")")[2].split()[0]
    except OSError:
        return "X"


def gives_way():
    """Whether a command, and what that started, stops where others want its processor, and goes on once they do not."""
    with subprocess.Popen(["sh", "-c", "sleep 600 & echo $!; wait"], stdout=subprocess.PIPE, text=True) as begun:
        all_of_it, states = [begun.pid, int(begun.stdout.readline())], []
        lanes = Lanes({begun.pid})
        for least, most in ((0, 1), (1, 2), (-1, 0), (-2, -1)):
            lanes.stop_or_go_on(least, most)
            time.sleep(0.1)
            states.append([state_of(it) == "T" for it in all_of_it])
        for it in all_of_it:
            os.kill(it, signal.SIGKILL)
    return states == [[it] * 2 for it in (False, True, True, False)]


def ends_all(number):
    """Whether a command, and what that started, ends with the process that started it where that gets this signal."""
    words = [f"{wrong_bodies.TOP}/tools/together.py", "sh", "-c", "sleep 600 & echo $$ $!; wait"]
    # Whoever runs this may ignore the signal, as nohup does, and commands inherit that.
    if number != signal.SIGKILL:
        signal.signal(number, signal.SIG_DFL)
    with subprocess.Popen(words, stdout=subprocess.PIPE, text=True) as begun:
        started = begun.stdout.readline().split()
        begun.send_signal(number)
        for _ in range(100):
            if all(state_of(it) in "ZX" for it in started):
                return len(started) == 2
            time.sleep(0.1)
        begun.kill()
    return False


def main():
    failed = 0
    if [len(it) for it in companies(edits_of_clauses())] != [3, 1, 1, 1]:
        failed += 1
        print("FAILED: which edits of clauses one check tries")
    for number in (signal.SIGINT, signal.SIGTERM, signal.SIGHUP, signal.SIGKILL):
        if not ends_all(number):
            failed += 1
            print(f"FAILED: what was started goes on after signal {number}")
    if not gives_way():
        failed += 1
        print("FAILED: what a command does where others want its processor")
    if not is_copied():
        failed += 1
        print("FAILED: what a copy of a function has")
    failed += lists_apart() + left_in() + kept_test.failures() + verdicts_test.failures()
    for tries in (over_answers, over_a_library):
        with together.folder("toy-") as top:
            failed += tries(top)
    print(f"wrong_bodies.py: {len(EDITS | MORE)} edits of a small crate, {failed} failed")
    return 1 if failed else 0


if __name__ == "__main__":
    sys.exit(main())
