#!/usr/bin/env python3
"""Runs the program on the examples, and looks whether the docs show what it prints, and name what is there.

    tests/examples.py PROGRAM

Beside each file of examples/ stands what the program prints of it, NAME.txt beside NAME.csv, as sessions of a terminal: a
line `$ ./disruptor ..` and then its output, up to the next such line. Each session that README.md or a page of docs/ shows
has to be one of these, each file of commands that they show an example's or a setup that the program takes, and what they
show as from a file of crates/ has to stand in it. Each link of theirs has to lead to a page and its heading, and each path
of a crate that they name has to be there. It prints a line for each failure, and then a count; its status is 0 where none
failed.
"""

import os
import re
import shutil
import subprocess
import sys
import tempfile

TOP = os.path.dirname(os.path.dirname(os.path.abspath(__file__)))
EXAMPLES = os.path.join(TOP, "examples")
FENCE = re.compile(r"^```(\w*)\n(.*?)^```$", re.MULTILINE | re.DOTALL)
EXCERPT = re.compile(r"[Ff]rom `(crates/[^`]*)`:\n\n```(?:rust|antt)\n(.*?)^```$", re.MULTILINE | re.DOTALL)
LINK = re.compile(r"\]\((?!https:)([^)#\s]*)#?([^)\s]*)\)")
CRATE_PATH = re.compile(r"`(?:crates/)?(\w+/(?:src|specs|proofs|wrong)/[\w./-]*)`")


def text_of(*path):
    with open(os.path.join(*path), encoding="utf-8") as file:
        return file.read()


def sessions_of(text):
    """Each session of a text: its command line, and the output that is to come."""
    for part in re.split(r"^\$ ", text, flags=re.MULTILINE)[1:]:
        line, _, output = part.partition("\n")
        yield line, output


def pages():
    yield "README.md"
    yield "tests/README.md"
    yield from (f"docs/{name}" for name in sorted(os.listdir(os.path.join(TOP, "docs"))) if name.endswith(".md"))


def headings_of(page):
    """What links call the headings of a page."""
    headings = re.findall(r"^#+ (.*)$", FENCE.sub("", text_of(TOP, page)), re.MULTILINE)
    return {re.sub(r"[^\w\- ]", "", heading.lower()).replace(" ", "-") for heading in headings}


class Looked:
    """Runs the program in a folder where it and the examples stand as the docs name them, and counts what failed."""

    def __init__(self, program, folder):
        self.folder, self.cases, self.failed = folder, 0, 0
        shutil.copy(program, os.path.join(folder, "disruptor"))
        shutil.copytree(EXAMPLES, os.path.join(folder, "examples"))

    def see(self, holds, name, why):
        self.cases += 1
        if not holds:
            self.failed += 1
            print(f"FAILED: {name}: {why}")

    def run(self, line):
        """Runs a command line in a shell, and gives its status and all that it writes."""
        ran = subprocess.run(["bash", "-c", line], cwd=self.folder, stdin=subprocess.DEVNULL, stdout=subprocess.PIPE,
                             stderr=subprocess.STDOUT, timeout=60, check=False)
        return ran.returncode, ran.stdout.decode()

    def look_at_example(self, name):
        """Runs an example's sessions, and gives them as they are shown."""
        shown = f"{name[:-4]}.txt"
        if not os.path.isfile(os.path.join(EXAMPLES, shown)):
            self.see(False, f"examples/{name}", f"no examples/{shown} says what it prints")
            return []
        sessions = [*sessions_of(text_of(EXAMPLES, shown))]
        self.see(sessions, f"examples/{shown}", "has no session")
        for line, output in sessions:
            status, printed = self.run(line)
            self.see((status, printed) == (0, output), line, f"status {status}, and it prints {printed[:300]!r}")
        return sessions

    def look_at_page(self, page, files, sessions):
        for kind, block in FENCE.findall(text_of(TOP, page)):
            if kind == "text" and block.startswith("$ "):
                for line, output in sessions_of(block):
                    self.see((line, output) in sessions, page, f"no example has this session: {line}")
            elif kind == "text" and block.startswith("ring,") and block not in files:
                with open(os.path.join(self.folder, "shown.csv"), "w", encoding="utf-8") as file:
                    file.write(block)
                status, printed = self.run("./disruptor drive shown.csv")
                self.see((status, printed) == (0, ""), page, f"this is no setup: {block[:80]!r}: {printed[:80]!r}")
        for path, block in EXCERPT.findall(text_of(TOP, page)):
            self.see(block in text_of(TOP, path), page, f"this does not stand in {path}: {block[:80]!r}")

    def look_at_names(self, page):
        for path, heading in LINK.findall(text_of(TOP, page)):
            target = os.path.normpath(os.path.join(os.path.dirname(page), path)) if path else page
            leads = os.path.exists(os.path.join(TOP, target)) and (not heading or heading in headings_of(target))
            self.see(leads, page, f"this link leads nowhere: {path}#{heading}")
        for path in CRATE_PATH.findall(text_of(TOP, page)):
            there = any(os.path.exists(os.path.join(TOP, "crates", path + end)) for end in ("", ".antt"))
            self.see(there, page, f"crates/ has no {path}")


def main():
    if len(sys.argv) != 2:
        sys.exit("usage: tests/examples.py PROGRAM")
    files = sorted(name for name in os.listdir(EXAMPLES) if name.endswith(".csv"))
    with tempfile.TemporaryDirectory() as folder:
        looked = Looked(os.path.abspath(sys.argv[1]), folder)
        sessions = [session for name in files for session in looked.look_at_example(name)]
        texts = [text_of(EXAMPLES, name) for name in files]
        for page in pages():
            looked.look_at_page(page, texts, sessions)
            looked.look_at_names(page)
    print(f"{sys.argv[1]}: {looked.cases} examples, {looked.failed} failed")
    sys.exit(looked.failed > 0)


if __name__ == "__main__":
    main()
