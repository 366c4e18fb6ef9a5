#!/usr/bin/env python3
"""Writes docs/CLAUSES.md: each clause of each public function of the crates, with the sentence that says it.

    tools/clauses.py            writes the page
    tools/clauses.py --check    only says whether the page is that of today's sources; its status is 0 where it is

A comment in a contract says the clauses below it, up to the next comment. A clause without a name is said by the docs of its
function, and so is one that these name, as in "(clause `ran`)". What a trait says of its methods is not said again of its types.
"""

import os
import re
import sys
from dataclasses import dataclass, field

TOP = os.path.dirname(os.path.dirname(os.path.abspath(__file__)))
PAGE = "docs/CLAUSES.md"
CRATE = re.compile(r"^(dr_\w+)(?<!_tests)\b.*:", re.M)
OWNER = re.compile(r"(?:pub )?(?:unsafe )?(?:impl|trait)\b")
FUNCTION = re.compile(r'( *)(pub(?:\([^)]*\))? )?(?:const |unsafe |extern "C" )*fn (\w+)')
CLAUSE = re.compile(r" *(ensures|requires)\*?(?: (\w+))? \{")
NO_SENTENCE = "**no sentence yet**"
HEAD = """# What each clause says

Written by `tools/clauses.py` from the contracts in `crates/`, and not by hand. The comment above an `ensures` is its sentence here. Some \
clauses have one sentence together. What a trait says of its methods stands at the trait alone. A clause without a name is said by what the \
docs of its function say first. Here is only what a call ensures: what it requires stands in the source. [PROVED.md](PROVED.md) says what \
all of it comes to, and [MEANING.md](MEANING.md) what the words mean.

A clause of the **five laws**, such as `laws` or `lawful`, says all of this of every beginning of a transcript:

1. A handler received the events of sequences 0, 1, 2 and so on, each once, and all of them are published.
2. A handler has taken no more than each of its upstreams completed.
3. No slot is claimed again before every final handler completed its event.
4. No claim is accepted after a halt.
5. A handler is told `Drained` only once it has received every published event, and no more can come.
"""


@dataclass
class Function:
    """A function, the trait by which its type has it, what its docs say, and groups of clauses, each a sentence or None, and names."""

    owner: str
    trait: str
    name: str
    docs: str
    groups: list = field(default_factory=list)

    @property
    def label(self):
        return f"{self.owner}::{self.name}".removeprefix("::")

    def told(self, name):
        """What the docs tell of a clause, or None."""
        said = re.split(r"(?<=\.) ", self.docs)
        of_it = said[0] if not name else next((it for it in said if re.search(rf"\(clauses? [^)]*`{name}`", it)), "")
        return re.sub(r" \(clauses? [^)]*\)", "", of_it) or None

    def add(self, name, comment, is_open):
        """Adds a clause, below a comment or, if a group is open, to that."""
        sentence = comment or (self.groups[-1][0] if is_open else self.told(name))
        if self.groups and sentence and self.groups[-1][0] == sentence:
            self.groups[-1][1].append(name)
        else:
            self.groups.append((sentence, [name]))


def owner_of(lines, at):
    """The type and the trait of the `impl` or the trait that begins at a line: `impl Outlet for Receiver` has both."""
    head = " ".join(lines[at : next(k for k in range(at, len(lines)) if lines[k].endswith(("{", "}"))) + 1]).replace("->", "")
    while (plain := re.sub(r"<[^<>]*>", "", head)) != head:
        head = plain
    first, second = re.match(r".*?\b(?:impl|trait) +(\w+)(?:.*? for (?:&\S* ?|mut )*\(?(\w+))?", head).groups()
    return (second, first) if second else (first, "")


def docs_above(lines, at):
    first = next(k for k in range(at, -1, -1) if k == 0 or not re.match(r" *(///|//|#\[)", lines[k - 1]))
    said = " ".join(it.split("///", 1)[1] for it in lines[first:at] if "///" in it)
    return re.sub(r"\[(`[^`]*`)\](?:\([^)]*\))?", r"\1", " ".join(said.split()))


def read_groups(lines, at, function):
    """Reads the contract below a function's head."""
    comment, is_open = [], False
    for line in lines[at + 1 :]:
        if clause := CLAUSE.match(line):
            if clause[1] == "requires":
                is_open = False
            else:
                function.add(clause[2], " ".join(comment), is_open)
                is_open = is_open or bool(comment)
            comment = []
        elif (said := line.strip()).startswith("//"):
            comment.append(said.removeprefix("//").strip())
        if said_all(line):
            break


def said_all(line):
    """Whether no more of a contract follows."""
    return line.strip() in ("{", "{}") or line.endswith(";") or line.endswith(("{", "{}")) and not CLAUSE.match(line)


def functions_of(path):
    """Gives the functions of a file that others may call: public ones, and those of traits."""
    lines, owner, kind = open(path, encoding="utf-8").read().splitlines(), ("", ""), ""
    for at, line in enumerate(lines):
        if OWNER.match(line):
            owner, kind = owner_of(lines, at), "trait" if re.match(r"pub (unsafe )?trait", line) else "impl"
        elif line == "}":
            owner, kind = ("", ""), ""
        elif (head := FUNCTION.match(line)) and (head[2] == "pub " or kind == "trait" or owner[1]) and not said_all(line):
            function = Function(*owner, head[3], docs_above(lines, at))
            read_groups(lines, at, function)
            yield function


def all_functions():
    """Gives each crate, file and function with clauses, in the order in which crates stand on others."""
    for crate in CRATE.findall(open(f"{TOP}/crates.txt", encoding="utf-8").read()):
        source = f"{TOP}/crates/{crate}/src"
        for folder, folders, names in os.walk(source):
            folders.sort()
            for name in sorted(it for it in names if it.endswith(".rt")):
                path = os.path.relpath(os.path.join(folder, name), source)
                yield from ((crate, path, it) for it in functions_of(f"{source}/{path}") if it.groups)


def own_groups(function, of_traits):
    """The groups of a function without what its trait says of it."""
    for sentence, names in function.groups:
        if own := [it for it in names if not function.trait or (function.trait, function.name, it) not in of_traits]:
            yield sentence, own


def steps_of(crate):
    """The rows of a table of the kinds of step that a ring's ends make: the variants of its enum `Step`, each with its docs."""
    path = f"{TOP}/crates/{crate}/src/record.rt"
    if not os.path.exists(path) or not (body := re.search(r"^pub enum Step\b[^{]*\{\n(.*?)^\}$", open(path, encoding="utf-8").read(), re.M | re.S)):
        return []
    said = re.findall(r"((?:^    ///.*\n)*)^    (\w+)\b", body[1], re.M)
    rows = [f"| `{name}` | {' '.join(it.strip() for it in docs.replace('///', '').splitlines()) or NO_SENTENCE} |" for docs, name in said]
    return ["", f"### The steps of {crate}", "", "| step | what it does |", "|---|---|", *rows]


def page_of(functions):
    of_traits = {(it.owner, it.name, name) for _, _, it in functions for _, names in it.groups for name in names}
    lines, at, silent, clauses = [], None, {}, 0
    for crate, path, function in functions:
        groups = [*own_groups(function, of_traits)]
        if groups and at != (crate, path):
            lines += ["", *([f"## {crate}", *steps_of(crate), ""] if not at or at[0] != crate else []), f"### {path} of {crate}", ""]
            at = crate, path
        if groups:
            by = f" (`{function.trait}`)" if function.trait else ""
            lines.append(f"- [`{function.label}`](../crates/{crate}/src/{path}){by}")
        for sentence, names in groups:
            named = ", ".join(f"`{it}`" for it in names if it)
            lines.append(f"  - {named}{': ' if named else ''}{sentence or NO_SENTENCE}")
            silent[crate] = silent.get(crate, 0) + (0 if sentence else len(names))
            clauses += len(names)
    lacking = ", ".join(f"{count} of `{crate}`" for crate, count in silent.items() if count)
    count = f"{clauses:,} clauses. Without a sentence: {lacking or 'none'}."
    return "\n".join([HEAD, count, *lines]) + "\n"


def main():
    if sys.argv[1:] not in ([], ["--check"]):
        sys.exit(__doc__)
    page, path = page_of([*all_functions()]), os.path.join(TOP, PAGE)
    if sys.argv[1:]:
        is_todays = os.path.exists(path) and open(path, encoding="utf-8").read() == page
        print(f"{PAGE} is {'that of the sources' if is_todays else 'not that of the sources: run tools/clauses.py'}")
        return 0 if is_todays else 1
    with open(path, "w", encoding="utf-8") as file:
        file.write(page)
    print(PAGE)
    return 0


if __name__ == "__main__":
    sys.exit(main())
