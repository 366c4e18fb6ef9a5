"""What earlier runs on this machine left, in folders beside what `rt ci` keeps there: which edits `wrong_bodies.py` found refused, and
the archive that `library.py` built. A record's name is a sum of all that its check or its build read, so it never goes stale; one that
is not whole counts for nothing. It is written apart and then renamed, so that no other run meets half of it."""

import contextlib
import hashlib
import json
import os
import re
import shutil
import stat
import sys
import tempfile
import time

import prove
import together

# So many days after its last use a record goes, and that longest unused where there are more than so many.
DAYS, MOST = 60, 20_000
# And so many archives.
MOST_ARCHIVES = 6
# Below so many bytes of free disk nothing is kept.
LEAVES = 5_000_000_000
# In which ways an edit may have been refused, for a run that tries it in one of them: what is refused over the proofs of all that its
# crate has is refused over their statements too, and not the other way about.
WAYS = {"proved": ["proved"], "open": ["open", "proved"], "alone": ["alone"]}


def folder_of(kit, kind="wrong-bodies"):
    """Returns where records of this kind are kept: beside the kit, outside each checkout."""
    return f"{os.path.dirname(kit)}/rattle-kept/{kind}"


def kit_of(folder, line):
    """Returns what tells one kit from another: the line that names it, and the size and time of each file that a check reads."""
    found = [line]
    for part in ("bin", "toolchain", "logic_built", "rlibs", "rattle/logic"):
        for at, folders, names in os.walk(f"{folder}/{part}"):
            folders.sort()
            for it in sorted(names):
                stat_of_it = os.lstat(f"{at}/{it}")
                found.append((f"{at}/{it}".removeprefix(f"{folder}/"), stat_of_it.st_size, stat_of_it.st_mtime_ns))
    return found


def kit(top):
    """Returns what tells the kit from others, or ends the run where `rt` does not name it."""
    (status, line), folder = together.said_by(["rt", "version"], top), os.path.dirname(together.said_by(["rt", "doc"], top)[1].strip())
    if status:
        sys.exit(f"rt names no kit: {line}")
    return kit_of(folder, line)


def scripts():
    """Returns the files of the repository that run now: the script and all that it imports."""
    files = {os.path.realpath(it.__file__) for it in list(sys.modules.values()) if getattr(it, "__file__", None)}
    return sorted(it for it in files if it.startswith(f"{os.path.realpath(prove.TOP)}/"))


def sum_of(it):
    return hashlib.sha256(repr(it).encode()).hexdigest()


def text_of(path):
    with open(path, "rb") as it:
        return it.read()


class Reads:
    """What the checks of edits read: of a crate its files and those of the crates below it, with their lines of crates.txt; the scripts;
    and the line that names the kit. Its sums are of what stood when it was made."""

    def __init__(self, top, names, kit, own):
        self.top, self.own, self.below, self.sums = top, [*own, f"{top}/HANDLES"], prove.crates_of(top), {}
        self.lines = {it.partition(":")[0].split()[0]: it for it in open(f"{top}/crates.txt", encoding="utf-8") if re.match(r"[a-z]", it)}
        # Before any sum is made, and the edits are read: what is touched from then on differs.
        self.first = {it: self.touched(it) for it in names}
        self.common = sum_of((kit, [(os.path.basename(it), text_of(it)) for it in self.own]))

    def files(self, name, parts=prove.SOURCES):
        """Returns what stands in these folders of a crate, and the folders."""
        for part in parts:
            for at, folders, names in os.walk(f"{self.top}/crates/{name}/{part}", followlinks=True):
                folders.sort()
                yield from (at, *(f"{at}/{it}" for it in sorted(names)))

    def touched(self, name):
        """Returns what tells whether anything that a check of the crate's edits reads was changed, also where that was changed back."""
        files = [*self.files(name, ["wrong"]), *(file for it in (*self.below[name], name) for file in self.files(it))]
        found = []
        for path in (f"{self.top}/crates.txt", *self.own, *files):
            with contextlib.suppress(OSError):
                it = os.stat(path)
                found.append((path, it.st_ino, it.st_size, it.st_mtime_ns, it.st_ctime_ns))
        return found

    def are_untouched(self, name):
        return self.touched(name) == self.first[name]

    def crate(self, name):
        """Returns a sum of a crate's own files and its line."""
        if name not in self.sums:
            files = [(os.path.relpath(it, self.top), text_of(it)) for it in self.files(name) if os.path.isfile(it)]
            self.sums[name] = sum_of((self.lines[name], files))
        return self.sums[name]

    def sum(self, edit, way):
        text = text_of(f"{self.top}/crates/{edit.crate}/wrong/{edit.name}.edit")
        crates = [self.crate(it) for it in (*self.below[edit.crate], edit.crate)]
        return sum_of((way, self.common, crates, edit.label, text))


class Records:
    """A folder of records, each of some bytes. Where the folder cannot be used nothing is found in it and nothing kept."""

    def __init__(self, at):
        self.at = at if is_own(at) else None

    def read(self, name):
        """Returns the record of that name, if it is there and whole."""
        if not self.at:
            return None
        with contextlib.suppress(OSError):
            data, _, end = text_of(f"{self.at}/{name}").rpartition(b"\n")
            if end == end_of(name, data):
                os.utime(f"{self.at}/{name}")
                return data
        return None

    def write(self, name, data):
        """Writes a record, where there is room."""
        with contextlib.suppress(OSError):
            if self.at and has_room(self.at):
                with tempfile.NamedTemporaryFile(prefix=f"new-{os.getpid()}-", dir=self.at, delete=False) as it:
                    it.write(data + b"\n" + end_of(name, data))
                os.replace(it.name, f"{self.at}/{name}")

    def prune(self, most):
        """Removes what runs that were killed left, and the records longest unused."""
        found = []
        for it in os.scandir(self.at) if self.at else ():
            with contextlib.suppress(OSError):
                begun = re.match(r"new-(\d+)-", it.name)
                if not begun:
                    found.append((it.stat().st_mtime, it.path))
                elif not os.path.exists(f"/proc/{begun[1]}"):
                    os.remove(it.path)
        old = [it for it in found if it[0] < time.time() - DAYS * 86400]
        for _, path in {*old, *sorted(found, reverse=True)[most:]}:
            with contextlib.suppress(OSError):
                os.remove(path)


class Kept(Records):
    """The records of the edits that were refused."""

    def __init__(self, at, reads, way, is_anew=False):
        super().__init__(at)
        self.reads, self.ways, self.is_anew, self.sums = reads, WAYS[way], is_anew, {}

    def find(self, edit):
        """Returns why an earlier run found an edit refused, and whether the edit made the goal that did, or None."""
        sums = [self.reads.sum(edit, it) for it in self.ways] if self.at else []
        self.sums[edit] = sums[:1]
        found = None if self.is_anew else next(filter(None, map(self.read, sums)), None)
        record = json.loads(found) if found else None
        return (record["why"], record["is_made"]) if record else None

    def keep(self, edit, why, is_made):
        """Keeps that an edit was refused, unless something that its check read was touched meanwhile."""
        with contextlib.suppress(OSError):
            for name in self.sums.get(edit, ()):
                if self.reads.are_untouched(edit.crate) and self.reads.sum(edit, self.ways[0]) == name:
                    self.write(name, json.dumps({"edit": edit.label, "why": why, "is_made": is_made}).encode())


class Archives(Records):
    """The archives that were built, each of what a room held then. Nothing else changes the room, so what is kept is of these files."""

    def __init__(self, at, kit, own, is_anew=False):
        super().__init__(at)
        self.common, self.is_anew = sum_of((kit, [(os.path.basename(it), text_of(it)) for it in own])), is_anew

    def of(self, room, build):
        """Returns the archive of a room, or None where its build gives none, and whether it was kept."""
        name = sum_of((self.common, sums_in(room)))
        if (found := None if self.is_anew else self.read(name)) is not None:
            return found, True
        if (made := build()) is not None:
            self.write(name, made)
            self.prune(MOST_ARCHIVES)
        return made, False


def end_of(name, data):
    """Returns the line with which a whole record of that name ends."""
    return hashlib.sha256(name.encode() + b"\n" + data).hexdigest().encode()


def sums_in(folder):
    """Returns the files of a folder by their paths there, each with the sum of its bytes."""
    found = sorted(f"{at}/{it}" for at, _, names in os.walk(folder) for it in names)
    return [(os.path.relpath(it, folder), hashlib.sha256(text_of(it)).hexdigest()) for it in found]


def has_room(folder):
    return shutil.disk_usage(folder).free >= LEAVES


def is_own(folder):
    """Makes the folder, and that in which it stands, where they are not, for this user alone, and returns whether both are so."""
    if not folder:
        return False
    try:
        for it in (os.path.dirname(folder), folder):
            os.makedirs(it, 0o700, exist_ok=True)
            found = os.lstat(it)
            if not stat.S_ISDIR(found.st_mode) or found.st_uid != os.geteuid():
                return False
            os.chmod(it, 0o700)
        return True
    except OSError:
        return False
