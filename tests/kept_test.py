"""Tests of what `wrong_bodies.py` and `library.py` keep from run to run, for `wrong_bodies_test.py`: over two crates made in a folder of
its own, one on the other, with answers that stand here for those of checks, and over archives of a small room."""

import os
import threading

import wrong_bodies
from wrong_bodies import kept, together

BODY = "pub fn {}(n: u64) -> u64 {{\n    n + 1\n}}\n"
EDIT = "file: src/lib.rt\nold: n + 1\nnew: n + {}\n"
FILES = {
    "crates.txt": "low:\ntop: low\nother:\n",
    "HANDLES": "Handles allowed: none.\n",
    "script.py": "pass\n",
    "crates/low/src/lib.rt": BODY.format("below"),
    "crates/low/specs/Lib.antt": "-- nothing\n",
    "crates/other/src/lib.rt": BODY.format("aside"),
    "crates/top/src/lib.rt": BODY.format("above"),
    "crates/top/proofs/Lib.antt": "-- nothing\n",
    "crates/top/wrong/adds_two.edit": EDIT.format(2),
    "crates/top/wrong/adds_three.edit": EDIT.format(3),
}
BOTH = ["adds_three", "adds_two"]
REFUSED = "\nnote: src/lib.rt:1:1: not proved (`returns`)\nfn top::above{}: not proved\n"


class Machine:
    """A repository with a store beside it, and what its runs try."""

    def __init__(self, top):
        self.top, self.at, self.begun, self.tried, self.lines, self.wrong = top, f"{top}/store/wrong-bodies", [], [], [], []
        # What a check answers, and what else it does.
        self.proved, self.does = set(), lambda: None
        self.restore()

    def restore(self):
        for path, text in FILES.items():
            self.write(path, text)

    def write(self, path, text):
        os.makedirs(os.path.dirname(f"{self.top}/{path}"), exist_ok=True)
        with open(f"{self.top}/{path}", "w", encoding="utf-8") as it:
            it.write(text)

    def prove(self, _, name, *given):
        """Stands for a proof of a crate as it is."""
        self.begun.append(name)
        return 0, ""

    def check(self, _, edits, *given, is_short=False, **how):
        """Stands for a check of edits."""
        self.tried += [it.name for it in edits] * is_short
        self.does()
        ends = [it.functions[0][2].removeprefix("above") for it in edits if it.name not in self.proved]
        return "".join(map(REFUSED.format, ends)) or "\nlogic=proved\n"

    def run(self, manner="together", is_anew=False, words=None, ends=""):
        """Tries the edits, over an `rt ci` with these words and this end where there are any, and returns those that were tried."""
        self.begun.clear()
        self.tried.clear()
        self.lines.clear()
        file = f"{self.top}/words" if words else None
        if file:
            self.write("words", words)
            threading.Timer(1, self.write, ("words", words + ends)).start()
        wrong_bodies.run(self.top, ["top"], manner, self.lines.append, file, self.at, is_anew)
        return sorted(set(self.tried))

    def sees(self, what, found, wanted):
        if found != wanted:
            self.wrong.append(what)
            print(f"FAILED: {what}: {wanted} was to come, and {found} came")

    def tries(self, what, wanted, last=None, **how):
        """Sees which edits a run tries, and how its last line begins."""
        self.sees(what, self.run(**how), wanted)
        last = last or f"2 refused, 0 not, of which {len(wanted)} were tried in this run"
        self.sees(f"{what}, the last line", self.lines[-1], last)

    def records(self):
        return sorted(os.listdir(self.at))


def over_changes(machine):
    """Whatever a check reads and is changed has its edits tried anew, and nothing else has."""
    machine.tries("the first run", BOTH)
    machine.sees("crates that it proves", machine.begun, ["low", "top"])
    machine.tries("nothing changed", [])
    machine.sees("crates that it proves then", machine.begun, [])
    machine.tries("nothing changed, and all is asked for", BOTH, is_anew=True)
    machine.write("crates/other/src/lib.rt", BODY.format("besides"))
    machine.tries("a crate beside it changed", [])
    machine.write("crates/top/wrong/adds_two.edit", EDIT.format(4))
    machine.tries("an edit changed", ["adds_two"])
    for path, text in FILES.items():
        if not path.endswith(".edit") and "other" not in path:
            new = text.replace("top: low", "top: low core") if path == "crates.txt" else f"{text}\n"
            machine.write(path, new)
            machine.tries(f"{path} changed", BOTH)
            machine.write(path, text)
    machine.write("crates/low/proofs/Lib.antt", "")
    machine.tries("a file more below", BOTH)
    os.remove(f"{machine.top}/crates/low/proofs/Lib.antt")
    machine.tries("all as before", [])
    machine.proved = {"adds_two"}
    machine.write("crates/top/src/lib.rt", f"{BODY.format('above')}\n\n")
    machine.tries("an edit is proved now", BOTH, "1 refused, 1 not, of which 2 were tried in this run")
    machine.tries("an edit was proved", ["adds_two"], "1 refused, 1 not, of which 1 were tried in this run")


def over_damage(machine):
    """A record that is not whole is not believed."""
    machine.tries("the first run", BOTH)
    one, other = machine.records()
    texts = {it: open(f"{machine.at}/{it}", encoding="utf-8").read() for it in (one, other)}
    for what, text in (
        ("cut", texts[one][:-1]),
        ("cut to its first line", texts[one].partition("\n")[0] + "\n"),
        ("empty", ""),
        ("of two runs at once", texts[one][:30] + texts[other][30:]),
        ("written twice", texts[one] * 2),
        ("another's", texts[other]),
    ):
        machine.write(f"store/wrong-bodies/{one}", text)
        machine.sees(f"a record that is {what}", len(machine.run()), 1)
        machine.tries("after that", [])


def over_what_happens(machine):
    """Nothing is kept of what was changed while its check ran, nor where there is no room or no folder of one's own."""
    for path in ("crates/top/src/lib.rt", "crates/low/src/lib.rt", "crates/top/wrong/adds_two.edit", "script.py"):
        machine.does = lambda path=path: [machine.write(path, it) for it in ("", FILES[path])]
        machine.tries(f"{path} changed and changed back while the check ran", BOTH)
        machine.sees("what is kept then", machine.records(), [])
    machine.does = lambda: None
    machine.tries("nothing changed while the check ran", BOTH)
    machine.write("crates/top/wrong/adds_two.edit", EDIT.format(4))
    machine.does = lambda: machine.write("script.py", "pass \n")
    machine.tries("the script changed while one edit was tried", ["adds_two"], "1 refused, 1 not, of which 1 were tried in this run")
    machine.does = machine.restore
    machine.run()
    machine.does = lambda: None
    for it in machine.records():
        os.remove(f"{machine.at}/{it}")
    leaves, kept.LEAVES = kept.LEAVES, 1 << 60
    machine.tries("no room", BOTH)
    kept.LEAVES = leaves
    machine.sees("what is kept then", machine.records(), [])
    os.rmdir(machine.at)
    os.symlink(machine.top, machine.at)
    machine.tries("a link in the folder's place", BOTH)
    machine.sees("what is said then", machine.lines[0], f"{machine.at} cannot be used, so nothing is kept")
    os.remove(machine.at)
    machine.tries("a folder that was not there", BOTH)
    os.chmod(machine.at, 0o777)
    machine.tries("a folder for all", [])
    machine.sees("its mode", oct(os.stat(machine.at).st_mode & 0o777), "0o700")
    machine.write("store/wrong-bodies/new-4194305-x", "")
    most, kept.MOST = kept.MOST, 1
    machine.run()
    kept.MOST = most
    machine.sees("what is left of more than are to be", len(machine.records()), 1)


def over_manners(machine):
    """What is refused over the proofs of all is refused over their statements; no other way says anything of another."""
    words, ends = "rt: low proved\nrt: top proved\n", "1 passed, 0 failed\n"
    machine.tries("over statements", BOTH, words=words, ends=ends)
    machine.tries("over statements once more", [], words=words, ends=ends)
    machine.tries("over proofs", BOTH)
    for it in machine.records():
        os.remove(f"{machine.at}/{it}")
    machine.tries("over an rt ci that has ended", BOTH, words=words + ends)
    machine.sees("what is kept then", machine.records(), [])
    machine.tries("over proofs, with no record", BOTH)
    machine.tries("over statements, after proofs", [], words=words, ends=ends)
    machine.tries("with none applied", BOTH, "0 left out, 2 not, of which 2 were tried in this run", manner="control")


def over_two_runs(machine):
    """Runs that keep the same at once leave whole records."""
    reads = kept.Reads(machine.top, ["top"], "kit", [])
    stores = [kept.Kept(machine.at, reads, "proved") for _ in range(2)]
    threads = [threading.Thread(target=lambda it=it: [it.write("a", b"%d" % n) for n in range(300)]) for it in stores]
    for it in threads:
        it.start()
    while any(it.is_alive() for it in threads):
        if os.path.exists(f"{machine.at}/a") and not stores[0].read("a"):
            machine.sees("a record that two runs write", None, "one of them")
            break
    for it in threads:
        it.join()
    machine.sees("what two runs left", machine.records(), ["a"])


def over_archives(machine):
    """An archive is kept of the same files, kit and scripts alone, where its build gave one, and nothing else is believed."""
    at, room, builds = f"{machine.top}/store/archives", f"{machine.top}/room", []
    own = f"{machine.top}/script.py"

    def tries(what, wanted, kit="kit", is_anew=False, gives=b"\x00one\n\nof it\n"):
        builds.clear()
        found = kept.Archives(at, kit, [own], is_anew).of(room, lambda: builds.append(1) or gives)
        machine.sees(f"the archive, {what}", found, (gives, wanted == "kept"))
        machine.sees(f"how often it is built, {what}", len(builds), int(wanted != "kept"))

    machine.write("room/low/low.rlib", "low")
    machine.write("room/top/src/lib.rt", "top")
    tries("where its build fails", "built", gives=None)
    machine.sees("what is kept of that", os.listdir(at), [])
    tries("at first", "built")
    tries("of the same files", "kept")
    tries("where all is asked for", "built", is_anew=True)
    tries("after that", "kept")
    tries("of another kit", "built", kit="another")
    for path, text in (("room/low/low.rlib", "lower"), ("room/top/src/lib.rt", "tops"), ("room/top/src/more.rt", ""), ("script.py", "pass #")):
        machine.write(path, text)
        tries(f"{path} changed", "built")
    os.rename(f"{room}/low", f"{room}/lower")
    tries("a folder under another name", "built")
    tries("of the same files again", "kept")
    other, *_, last = (it.path for it in sorted(os.scandir(at), key=lambda it: it.stat().st_mtime_ns))
    whole = kept.text_of(last)
    for what, data in (("cut", whole[:-1]), ("empty", b""), ("of other bytes", whole.replace(b"of", b"if")), ("another's", kept.text_of(other))):
        with open(last, "wb") as it:
            it.write(data)
        tries(f"whose record is {what}", "built")
    machine.sees("how many are kept", len(os.listdir(at)), min(kept.MOST_ARCHIVES, 7))
    at = f"{machine.top}/script.py"
    tries("with no folder", "built")


def over_kits(machine):
    """A kit with another file is another kit, and a run ends where `rt` names none."""
    machine.write("kit/bin/rt", "one")
    before = kept.kit_of(f"{machine.top}/kit", "kit")
    machine.write("kit/bin/rt", "another")
    machine.sees("a kit of which a file changed", kept.kit_of(f"{machine.top}/kit", "kit") != before, True)
    together.said_by = lambda *_: (2, "no kit")
    ended = ""
    try:
        machine.run()
    except SystemExit as it:
        ended = str(it)
    machine.sees("how a run without a kit ends", ended, "rt names no kit: no kit")


def failures():
    """Returns how much came otherwise."""
    failed, of_prove, of_check, of_scripts, of_said = 0, wrong_bodies.prove.prove, wrong_bodies.Libraries.check, kept.scripts, together.said_by
    for tries in (over_changes, over_damage, over_what_happens, over_manners, over_two_runs, over_archives, over_kits):
        with together.folder("kept-") as top:
            machine = Machine(top)
            wrong_bodies.prove.prove, together.said_by = machine.prove, lambda *_: (0, "/kit/START-HERE.md")
            wrong_bodies.Libraries.check = lambda *given, **how: machine.check(*given, **how)
            kept.scripts = lambda: [f"{top}/script.py"]
            tries(machine)
            failed += len(machine.wrong)
    wrong_bodies.prove.prove, wrong_bodies.Libraries.check, kept.scripts, together.said_by = of_prove, of_check, of_scripts, of_said
    return failed
