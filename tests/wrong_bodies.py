#!/usr/bin/env python3
"""Tries the wrong bodies of `crates/*/wrong`: small edits, each of which the proof of its crate has to refuse.

  tests/wrong_bodies.py                      those of all crates, but what an earlier run on this machine found refused
  tests/wrong_bodies.py --anew ..            those too
  tests/wrong_bodies.py --crate dr_core ..   those of these crates
  tests/wrong_bodies.py --alone ..           each by itself, by `rt must-fail`
  tests/wrong_bodies.py --control ..         none applied: no function may be told as not proved, though others' proofs are open
  tests/wrong_bodies.py --over FILE          over the libraries of an `rt ci` that runs here, whose words go to FILE
  tests/wrong_bodies.py --list ..            tries none, and lists those whose text may make the goal that refuses them

A function is proved against its own contract and the contracts of what it calls, and never against a body. So wrong
bodies of different functions can stand in one copy of a crate, and one check of these functions refuses each by its own.
Of several of one function, each but the first goes to a copy of that function, under another name. An edit counts as refused
where that function is told as not proved, for a goal or a lemma of its own. What is not told so is tried once more, alone; and what that
does not tell, nor that a proof file which cites a name is all that refuses it, is judged by a check of the whole crate, but for an edit
that names its judge or its goal. An edit whose definition or clause does not typecheck is a bad one. Each edit has a line that names the goal that refused it, or else the lemma in the
files of the function's proof, and the last line is `N refused, M not, of which K were tried in this run`: the others are kept
(`kept.py`), and neither their crates nor those below are proved for them. Above it stand those that only a goal refuses which the
untouched crate has not. A new branch or name makes one, and it may be open though the contract allows the body: an edit whose line
`goal:` names it was looked at, and is not listed.

First each other crate is proved as it is, over what earlier runs kept. With `--over` that is `rt ci`'s part: a crate's edits are
tried once `rt ci` has proved it. The libraries that it leaves hold statements alone, so a check of edits begins with no proof of the
crate. It needs none either but those of the functions that it asks of: those of others, and of lemmas, are left open in its copy.
"""

import argparse
import functools
import os
import re
import sys
import threading
import time

TOP = os.path.dirname(os.path.dirname(os.path.abspath(__file__)))
sys.dont_write_bytecode = True
sys.path[:0] = [f"{TOP}/tools", f"{TOP}/tests"]
import kept  # noqa: E402
import prove  # noqa: E402
import together  # noqa: E402
import verdicts  # noqa: E402
from edits import companies, fault_of, in_one_check, may_make_goals, only, place, read_edit, seconds_of, shared_out  # noqa: E402
from lanes import Lanes  # noqa: E402
from libraries import Libraries  # noqa: E402

# In a processor's seconds, how long a check takes before it comes to an edit, how long it is to take in all, and more than any does.
BEGINS = 12
MOST = 400
MANY = 1_000_000
# What `rt ci` says once a library stands, or a program is proved, and at its end.
PROVED = re.compile(r"^rt: (\w+) (?:proved$|is kept: )", re.M)
ENDED = re.compile(r"^\d+ passed, \d+ failed", re.M)
# What a check says that took nothing of what is kept of its crate, and so proved its lemmas once more.
TOOK_NOTHING = re.compile(r"^crate \w+: modules loaded=0 checked=[1-9]", re.M)
BY_A_NAME = "only a file of proofs refuses it, which cites a name that the edit took away: change a value and keep the names"


class Crate:
    """The edits of one crate, and what became of each."""

    def __init__(self, top, name):
        self.refused, self.failed, self.bodies, self.others, self.untold = {}, {}, [], [], []
        # Those that earlier runs found refused, and those that are refused at a goal which the untouched crate has not, or may not have.
        self.known, self.made, self.untold_goals = [], {}, []
        # What is kept of it as it is proved, or, where that is nothing, with proofs left open.
        self.kept, self.is_open, self.sizes = "", False, {}
        folder = f"{top}/crates/{name}"
        for it in sorted(os.listdir(f"{folder}/wrong")):
            edit = read_edit(name, f"{folder}/wrong/{it}")
            if why := fault_of(edit, folder):
                self.failed[edit] = f"BAD EDIT: {why}"
                continue
            place(edit, folder)
            (self.bodies if edit.is_of_a_body else self.others).append(edit)

    def take_known(self, store):
        """Takes the edits of which the store has that an earlier run found them refused: they are not tried."""
        for edit in [*self.bodies, *self.others]:
            if found := store.find(edit):
                self.note(edit, *found)
                self.known.append(edit)
        self.bodies, self.others = ([it for it in edits if it not in self.refused] for edits in (self.bodies, self.others))

    def note(self, edit, why, is_made):
        self.refused[edit] = why
        if is_made:
            self.made[edit] = why
        elif is_made is None:
            self.untold_goals.append(edit)

    def seconds(self, edit):
        return seconds_of(edit, self.sizes)

    def lists(self):
        """Parts the edits of bodies, and the others, into lists that one check each tries."""
        return shared_out(self.bodies, self.seconds, MOST - BEGINS), companies(self.others)


class Trial:
    """The edits of some crates, each tried once its crate is proved."""

    def __init__(self, top, names, room, told, store, manner="together"):
        self.top, self.room, self.told, self.store, self.manner, self.below = top, room, told, store, manner, prove.crates_of(top)
        os.mkdir(f"{room}/libraries")
        self.libraries = Libraries(top, f"{room}/libraries")
        self.crates = {it: Crate(top, it) for it in names}
        for it in self.crates.values():
            it.take_known(store)
        begun = [name for name, it in self.crates.items() if it.bodies or it.others]
        self.all = [it for it in self.below if any(it in (one, *self.below[one]) for one in begun)]
        self.left, self.proved, self.changing, self.lanes = list(self.all), set(), threading.Lock(), Lanes(self.libraries.checks)

    def ready(self):
        """Returns the crates that were not begun, and whose lower crates are proved, in their order."""
        with self.changing:
            found = [it for it in self.left if self.proved.issuperset(self.below[it])]
            self.left = [it for it in self.left if it not in found]
            return found

    def prove_what_is_ready(self):
        """Proves each as it is, those with the most above them first, and then tries its edits over what that kept."""
        for name in self.ready():
            above = sum(name in self.below[it] for it in self.all)
            self.lanes.add(-above - MANY, functools.partial(self.prove, name))

    def prove(self, name):
        status, said = prove.prove(self.top, name, self.below[name], 1, 0, ["check" if prove.is_program(self.top, name) else "lib"])
        if status:
            self.told(f"{said[-3000:]}\n{name} is not proved as it is")
            return
        self.note_proved(name)
        self.prove_what_is_ready()
        if name in self.crates:
            crate = self.crates[name]
            crate.kept = f"{self.top}/crates/{name}/out/incremental"
            if self.manner == "alone":
                crate.untold = [*crate.bodies, *crate.others]
            else:
                bodies, others = crate.lists()
                self.add([*bodies, *others])

    def note_proved(self, name):
        """Notes that a crate is proved, and takes its library for the crates above and for the sizes of its functions."""
        self.libraries.take(name)
        self.proved.add(name)
        if crate := self.crates.get(name):
            crate.sizes = self.libraries.sizes(name)

    def follow(self, file):
        """Takes each library that `rt ci` has proved, by its words in the file, begins the edits of its crate, and gives way to its end."""
        try:
            words = ""
            while not ENDED.search(words):
                time.sleep(2)
                words = open(file, encoding="utf-8", errors="replace").read()
                for name in [it for it in self.all if it in PROVED.findall(words) and it not in self.proved]:
                    self.note_proved(name)
                    if crate := self.crates.get(name):
                        crate.kept, crate.is_open = f"{self.room}/{name}", True
                        self.lanes.add(-MANY, functools.partial(self.begin, name))
        finally:
            self.lanes.hold(False)

    def begin(self, name):
        """Has the longest check of bodies begin from nothing, and then the others, each over what those before it kept."""
        bodies, others = self.crates[name].lists()
        groups = [*sorted(bodies, key=self.seconds, reverse=True), *others]
        for first in groups[:1]:
            self.work(first)
        self.add(groups[1:])

    def add(self, groups, is_short=True):
        for it in groups:
            self.lanes.add(-self.seconds(it), functools.partial(self.work, it, is_short))

    def work(self, edits, is_short=True):
        if self.manner == "control":
            self.leave_out(edits)
        else:
            self.attempt(edits, is_short)

    def seconds(self, edits):
        """Returns about how long a check of these edits takes."""
        return BEGINS + sum(self.crates[it.crate].seconds(it) for it in edits)

    def attempt(self, edits, is_short=True):
        """Has one short check judge these edits, and then each of which it does not tell a longer one of its own."""
        crate = self.crates[edits[0].crate]
        # An edit of what lemmas are about may make one of them false, with which all is proved.
        tried = in_one_check(edits)
        said = self.said_of(tried, crate.is_open and (is_short or edits[0].is_of_a_body), is_short=is_short)
        for edit, one in zip(edits, tried):
            if why := verdicts.ill_stated(said, edit) if len(edits) == 1 else None:
                crate.failed[edit] = why
            elif found := verdicts.refusals(said, one):
                self.note_goal(edit, found)
            elif is_short and only([edit]):
                self.add([[edit]], is_short=False)
            elif why := verdicts.misses(said, one):
                crate.failed[edit] = why
            elif verdicts.is_by_names(said) or not only(edits):
                self.judge(edit, said)
            else:
                self.lanes.add(-self.seconds([edit]), functools.partial(self.try_whole, edit))

    def leave_out(self, edits):
        """Has a check with others' proofs open, as for these edits, but with none of them applied, tell nothing of their functions."""
        said = self.libraries.check(edits, None, is_short=True, is_open=True, is_applied=False) if only(edits) else ""
        for edit in edits:
            if found := verdicts.refusals(said, edit):
                self.crates[edit.crate].failed[edit] = f"with nothing changed {found[0][0]}, goal {found[0][1]} is not proved"
            elif only(edits) and not verdicts.told(said, edit):
                self.crates[edit.crate].failed[edit] = "with nothing changed no check tells its function"
            else:
                self.crates[edit.crate].refused[edit] = ""

    def try_whole(self, edit):
        self.judge(edit, self.said_of([edit], False, is_of_all=True))

    def said_of(self, edits, is_open, **how):
        """Checks edits over what such checks kept of their crate, and keeps what is of use to others."""
        crate = self.crates[edits[0].crate]
        is_open &= bool(only(edits))
        keeps = crate.kept if is_open == crate.is_open else f"{crate.kept}-whole"
        kept = keeps if os.path.isdir(keeps) else None
        is_of_use = crate.is_open and all(it.is_of_a_body for it in edits)
        said = self.libraries.check(edits, kept, keeps if is_of_use else None, is_open=is_open, **how)
        if kept and TOOK_NOTHING.search(said):
            self.told(f"{edits[0].crate}: a check of {len(edits)} edits took nothing of what is kept of the crate")
        return said

    def judge(self, edit, said):
        """Has the last check of an edit judge it, which is one of the whole crate if that of its functions did not tell. Where the edit names a
        judge or a goal, nothing else refuses it."""
        why, text = verdicts.of_all(said)
        if bad := verdicts.ill_stated(said, edit):
            self.crates[edit.crate].failed[edit] = bad
        elif edit.judge or edit.goal:
            self.crates[edit.crate].failed[edit] = f"no goal of {edit.judge or 'its function'} is told as not proved; a check of the crate: {why or text}"
        elif why:
            self.note(edit, f"a check of the crate: {why[:200]}")
        else:
            self.crates[edit.crate].failed[edit] = BY_A_NAME if verdicts.is_by_names(said) else text

    def note_goal(self, edit, found):
        """Notes what refuses an edit: the first goal that the untouched crate has, or else the first lemma that its proof has there."""
        kinds = [self.kind_of(edit.crate, *it) for it in found]
        kinds = ["goal" if edit.goal and it != "lemma" else it for it in kinds]
        at = next((kinds.index(it) for it in ("goal", "lemma") if it in kinds), 0)
        (path, name), kind = found[at], kinds[at]
        self.note(edit, f"{path}, {'lemma' if kind == 'lemma' else 'goal'} {name}", None if kind is None else kind == "made")

    def kind_of(self, name, path, goal):
        """Returns what this is to a function's proof in the untouched crate: a `goal`, by itself or as a clause of one, a `lemma` of its own,
        or none of both, which an edit `made`; or None where nothing tells."""
        crate = self.crates[name]
        goals = self.libraries.goals(name, path, "" if crate.is_open else crate.kept)
        if goals is None:
            return None
        if not goals.isdisjoint({goal, goal.partition("-clause-")[0]}):
            return "goal"
        return "lemma" if goal in self.libraries.lemmas(name, path) else "made"

    def note(self, edit, why, is_made=False):
        self.crates[edit.crate].note(edit, why, is_made)
        self.store.keep(edit, why, is_made)
        self.told(f"{edit.label}: refused by {why}")

    def judge_alone(self, crate):
        """Has `rt must-fail` judge the crate's edits, one by one."""
        name = crate.untold[0].crate
        said = self.libraries.judged(name, crate.untold, crate.kept)
        found = verdicts.judged(said)
        for edit in crate.untold:
            why, text = found.get(edit.name, (None, said[-300:]))
            # Its first reason may be a name's, where a goal is another.
            if why is not None and verdicts.is_of_a_name(verdicts.ERROR.sub(r"\2", why)):
                goals = verdicts.refusals(self.libraries.check([edit], crate.kept), edit)
                why, text = "{}, goal {}".format(*goals[0]) if goals else None, BY_A_NAME
            if why is None:
                crate.failed[edit] = text
            elif bad := verdicts.ill_stated(why, edit):
                crate.failed[edit] = bad
            else:
                self.note(edit, f"rt must-fail: {why[:200]}")

    def run(self, file=None):
        """Tries all edits, tells what was not refused, and returns how many were refused, how many not, and how many were tried."""
        if file and self.all:
            self.lanes.hold(True)
            threading.Thread(target=self.follow, args=(file,), daemon=True).start()
        else:
            self.prove_what_is_ready()
        self.lanes.run()
        for crate in [it for name, it in self.crates.items() if it.untold and name in self.proved]:
            self.judge_alone(crate)
        for name, crate in self.crates.items():
            self.close(name, crate)
        self.tell_goals()
        crates = self.crates.values()
        tried = sum(len(it.bodies) + len(it.others) for it in crates)
        return sum(len(it.refused) for it in crates), sum(len(it.failed) for it in crates), tried

    def close(self, name, crate):
        """Tells which edits of a crate are kept, and which are not refused."""
        for edit in [*crate.bodies, *crate.others]:
            if name not in self.proved:
                crate.refused.pop(edit, None)
                crate.failed[edit] = f"{name} is not proved as it is"
            elif edit not in crate.refused:
                crate.failed.setdefault(edit, "no run reached it")
        if crate.known and not self.store.reads.are_untouched(name):
            for edit in crate.known:
                crate.failed[edit] = f"files of {name}, or below it, were changed while this ran: {crate.refused.pop(edit)} is of others"
        elif crate.known:
            self.told(f"{name}: {len(crate.known)} of {len(crate.refused) + len(crate.failed)} edits were refused by an earlier run of the same files")
        for edit, why in crate.failed.items():
            self.told(f"NOT REFUSED: {edit.label}: {why[:300]}")

    def tell_goals(self):
        """Lists the edits that are refused at a goal which they made: it may be open for what a search does not find, and not for what it says."""
        made = [f"  {edit.label}: {why}" for it in self.crates.values() for edit, why in it.made.items() if edit in it.refused]
        if made:
            self.told("\n".join([f"look whether these bodies break the contract, for what refuses them is a goal that they made, {len(made)} in all:", *made]))
        if untold := [name for name, it in self.crates.items() if it.untold_goals]:
            self.told(f"no library tells which goals functions have that were changed in {' '.join(untold)}")


def run(top, asked, manner, told, file=None, at=None, is_anew=False):
    """Tries the edits of the crates that are asked for, or of all, but those that are kept in the folder `at`, and returns the status."""
    names = [it for it in prove.crates_of(top) if os.path.isdir(f"{top}/crates/{it}/wrong")]
    for it in asked or ():
        if it not in names:
            told(f"{it} is no crate with edits")
            return 2
    if file and has_ended(file):
        told(f"{file} is of an rt ci that is over, whose libraries may be of other files than those here: nothing is kept")
    if manner == "control" or file and has_ended(file):
        at = None
    way = "alone" if manner == "alone" else "open" if file else "proved"
    names = [it for it in names if not asked or it in asked]
    if manner == "list":
        return list_those_that_may_make_goals(top, names, told)
    store = kept.Kept(at, kept.Reads(top, names, kept.kit(top), kept.scripts()), way, is_anew)
    if at and not store.at:
        told(f"{at} cannot be used, so nothing is kept")
    with together.folder("trial-") as room:
        trial = Trial(top, names, room, told, store, manner)
        told(f"{sum(len(it.known) for it in trial.crates.values())} edits are kept")
        refused, failed, tried = trial.run(file)
    store.prune(kept.MOST)
    told(f"{refused} {'left out' if manner == 'control' else 'refused'}, {failed} not, of which {tried} were tried in this run")
    return 1 if failed or not refused else 0


def has_ended(file):
    """Whether the `rt ci` whose words go to a file is over: its libraries may be of other files than those that stand now."""
    return bool(ENDED.search(open(file, encoding="utf-8", errors="replace").read()))


def list_those_that_may_make_goals(top, names, told):
    """Lists the edits that bring a branch, a name or a call, in whose place a goal may stand that the untouched crate has not."""
    edits = [read_edit(name, f"{top}/crates/{name}/wrong/{it}") for name in names for it in sorted(os.listdir(f"{top}/crates/{name}/wrong"))]
    found = [it for it in edits if may_make_goals(it)]
    for it in found:
        told(it.label)
    told(f"{len(found)} of {len(edits)} edits may make the goal that refuses them")
    return 0


def main():
    parser = argparse.ArgumentParser(description=__doc__, formatter_class=argparse.RawDescriptionHelpFormatter)
    parser.add_argument("--crate", nargs="+", metavar="NAME", help="try those of these crates alone")
    manners = parser.add_mutually_exclusive_group()
    manners.add_argument("--alone", dest="manner", action="store_const", const="alone", default="together", help="have rt must-fail judge each by itself")
    manners.add_argument("--list", dest="manner", action="store_const", const="list", help="try none, and list those which may make the goal that refuses them")
    manners.add_argument("--control", dest="manner", action="store_const", const="control", help="apply none, and see that no function is told as not proved")
    parser.add_argument("--anew", action="store_true", help="try those too that earlier runs found refused")
    parser.add_argument("--over", metavar="FILE", help="over the libraries of the rt ci whose words go to FILE")
    asked = parser.parse_args()
    if asked.over and asked.manner == "alone":
        parser.error("--alone has rt must-fail judge over what this proves itself, so it takes no --over")
    at = kept.folder_of(os.path.dirname(together.said_by(["rt", "doc"], TOP)[1].strip()))
    return run(TOP, asked.crate, asked.manner, lambda it: print(it, flush=True), asked.over, at, asked.anew)


if __name__ == "__main__":
    sys.exit(main())
