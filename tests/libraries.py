"""The libraries of the crates, and checks of edits in copies of a crate over them."""

import contextlib
import glob
import json
import os
import re
import shutil

import prove
import together
import verdicts
from edits import apply_all, offers_nothing, only
from openings import leave_open

# What a check says where an edit leaves nothing to be dropped of which a proof was left open.
NO_FUNCTION = re.compile(r"^\S*/Proof\.antt: error: `\w+` has no function .*\n", re.M)

# A declaration in a file of a function's proof.
DECLARES = re.compile(r"^(?:abbrev )?(?:pub(?:\([^)]*\))? )?([^\s:]+)\s+:\s", re.M)
# The line of a checked module that lists what it defines, and such a name.
DEFINES = re.compile(rb"^--@ interface (.*)$", re.M)
SPELLING = re.compile(r'"spelling":"([^"]+)"')


def goals_in(module):
    """Returns what a checked proof defines, which is its goals by their names, and a few things besides."""
    found = DEFINES.search(module)
    return set(SPELLING.findall(found[1].decode(errors="replace"))) if found else None


def share(kept, keeps):
    """Gives each module of a folder a second name in another one, unless that has it."""
    for at, _, names in os.walk(kept):
        to = os.path.join(keeps, os.path.relpath(at, kept))
        os.makedirs(to, exist_ok=True)
        for it in (it for it in names if it.endswith(".oantt")):
            with contextlib.suppress(FileExistsError):
                os.link(f"{at}/{it}", f"{to}/{it}")


class Libraries:
    """The libraries of the crates, as some `rt` built them, and how a crate is checked over them."""

    def __init__(self, top, room):
        self.top, self.room, self.uses, self.below, self.checks, self.modules = top, room, prove.uses_of(top), prove.crates_of(top), set(), {}
        self.kit = os.path.dirname(together.said_by(["rt", "doc"], top)[1].strip())

    def take(self, name):
        """Gives the library that stands in the crate's folder `out` a second name, since an `rt` may replace it there."""
        if os.path.isdir(f"{self.top}/crates/{name}/out/rlib"):
            shutil.copytree(f"{self.top}/crates/{name}/out/rlib", f"{self.room}/{name}", copy_function=prove.link)
        self.modules[name] = self.modules_of(name)

    def modules_of(self, name):
        """Returns the modules of the proofs of a crate's library, where there is one, with where each begins and how long it is."""
        try:
            with open(f"{self.room}/{name}/{name}.rlib/toolchain/checked.json", encoding="utf-8") as lines:
                found = [(it.partition(f"-{name}-proofs.")[2], begin, length) for it, begin, length in map(json.loads, lines)]
        except (OSError, TypeError, ValueError):
            return {}
        return {module: (begin, length) for module, begin, length in found if module}

    def functions(self, name):
        """Returns the folders of the proofs of the functions of a crate's library."""
        return [f"proofs/{it.removesuffix('.Code').replace('.', '/')}" for it in self.modules.get(name, ()) if it.endswith(".Code")]

    def sizes(self, name):
        """Returns the functions of a crate's library by their paths, with the size in MB of what the proof of each begins with."""
        begun = {it.removesuffix(".Lts"): length for it, (_, length) in self.modules.get(name, {}).items() if it.endswith(".Lts")}
        return {it.replace(".", "::"): length / 1e6 for it, length in begun.items()}

    def goals(self, name, path, kept):
        """Returns the goals that the proof of a function has in its crate as it is, or None where neither the crate's library nor what
        is kept of its proof has that proof."""
        module = f"{path.replace('::', '.')}.Proof"
        with contextlib.suppress(OSError):
            if place := self.modules.get(name, {}).get(module):
                with open(f"{self.room}/{name}/{name}.rlib/toolchain/checked.a", "rb") as it:
                    it.seek(place[0])
                    return goals_in(it.read(place[1]))
            for it in glob.glob(f"{glob.escape(kept)}/*/Rattle-{name}-proofs.{module}.oantt"):
                return goals_in(open(it, "rb").read())
        return None

    def lemmas(self, name, path):
        """Returns what the files of a function's proof declare in its crate as it is: lemmas, invariants and answers."""
        folder = f"{self.top}/crates/{name}/proofs/{path.replace('::', '/')}"
        return {it for file in glob.glob(f"{glob.escape(folder)}/*.antt") for it in DECLARES.findall(open(file, encoding="utf-8").read())}

    def check(self, edits, kept, keeps=None, is_short=False, is_of_all=False, is_open=False, is_applied=True):
        """Checks the functions of these edits in a copy of their crate to which it applies them, over what is kept, and returns what is
        said. What it kept goes to keeps besides what that has, but nothing of a function that it changed. A short check offers no
        answers; one of all looks at every function of the crate; and an open one takes other functions and lemmas as they are stated."""
        name = edits[0].crate
        with together.folder("wrong-") as room:
            for it in prove.SOURCES:
                if os.path.isdir(f"{self.top}/crates/{name}/{it}"):
                    shutil.copytree(f"{self.top}/crates/{name}/{it}", f"{room}/{it}")
            if kept and os.path.isdir(kept):
                shutil.copytree(kept, f"{room}/kept", copy_function=prove.link)
            if is_applied:
                apply_all(edits, room)
            if is_open:
                leave_open(edits, room, self.functions(name))
            if is_short:
                offers_nothing(edits, room)
            asked = [*([] if is_of_all else only(edits)), *["--allow-holes"] * is_open]
            said = NO_FUNCTION.sub("", together.said_by([*self.words(name), *asked], room, self.checks)[1])
            # (where a file of these is of no function that it knows)
            if is_short and "error: rattle does not read this file" in said:
                return self.check(edits, kept, keeps, is_open=is_open, is_applied=is_applied)
            if keeps and os.path.isdir(f"{room}/kept"):
                share(f"{room}/kept", keeps)
        return said

    def words(self, name, verb="check"):
        libraries = [f"{it}={f'{self.room}/{it}' if it in self.below else f'{self.kit}/rlibs'}/{it}.rlib" for it in ("std", *self.uses[name])]
        root = "main" if prove.is_program(self.top, name) else "lib"
        words = ["rattle", verb, "--crate-name", name, f"src/{root}.rt", "--jobs", "1", "--incremental", "kept", "--links", f"{name}="]
        words += [word for it in libraries for word in ("--extern", it)]
        folders = [f"{self.kit}/rlibs", *(f"{self.room}/{it}" for it in self.below[name])]
        words += [word for it in folders for word in ("-L", f"dependency={it}")]
        return [*words, "--antt-project", f"{self.kit}/rattle/logic/antt-project.json", "--logic-built", f"{self.kit}/logic_built"]

    def judged(self, name, edits, kept):
        """Has `rt must-fail` judge edits one by one in a copy of the repository, over what is kept, and returns what it says."""
        with together.folder("judged-") as room:
            prove.copy_of(self.top, room, [], [])
            for it in self.below[name]:
                shutil.copytree(f"{self.room}/{it}", f"{room}/crates/{it}/out/rlib", copy_function=prove.link)
            folder = f"{room}/crates/{name}"
            if os.path.isdir(kept):
                shutil.copytree(kept, f"{folder}/out/incremental", copy_function=prove.link)
            os.mkdir(f"{folder}/must-fail")
            for it in edits:
                shutil.copy2(f"{self.top}/crates/{name}/wrong/{it.name}.edit", f"{folder}/must-fail")
            return together.said_by(["rt", "must-fail", name], room)[1]
