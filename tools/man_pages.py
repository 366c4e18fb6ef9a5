#!/usr/bin/env python3
"""Writes man pages of the headers for C, of what they say: one for each call, and `disruptor` of what a program owes.

    tools/man_pages.py FOLDER
"""

import os
import re
import sys

TOP = os.path.dirname(os.path.dirname(os.path.abspath(__file__)))
# A comment, and the calls right below it.
SAID = re.compile(r"^/\*((?:(?!\*/).)*)\*/\n((?:static inline [^;{]*\{\n(?:(?!^\}).)*^\}\n)+)", re.M | re.S)
CALL = re.compile(r"^static inline ([^;{]*?\b(disruptor_\w+)\([^;{]*\)) \{$", re.M | re.S)


# What only these calls themselves use.
INNER = "add at_fault complete_shown cut die follows give_up is_over name_thread not_alone or_nothing place_of send_rest show take_turns there work_on".split()


def text_of(comment):
    """Returns the paragraphs of a comment, in roff. An item of a list begins with a dash, and its other lines are indented."""
    roff, is_list = [], False
    for line in comment.strip().splitlines():
        said = re.sub(r"^ ?\* ?", "", line).rstrip()
        if not said or is_list and not said.startswith(" "):
            roff.append(".PP")
            is_list = False
        elif re.match(r" +- ", said):
            roff.append(".IP \\(bu 2")
            is_list = True
        plain = said.strip().removeprefix("- ").replace("\\", "\\e").replace("-", "\\-")
        roff += [re.sub(r"^(?=['.])", r"\\&", plain)] * bool(plain)
    return "\n".join(roff)


def page(names, about, header, version, synopsis, text, others):
    head = f'.TH {names[0]} 3 "" "disruptor {version}"\n.SH NAME\n{", ".join(names)} \\- {about}\n.SH SYNOPSIS\n.nf\n'
    see = "\n".join(f".BR {it} (3)" for it in others)
    return f"{head}#include <{header}>\n{synopsis}.fi\n.SH DESCRIPTION\n{text}\n.SH SEE ALSO\n{see}\n"


def pages_of(header, version):
    """Returns the pages of a header by their names."""
    with open(f"{TOP}/include/{header}", encoding="utf-8") as file:
        said = file.read()
    own, found = header.removesuffix(".h"), {}
    for comment, calls in SAID.findall(said):
        made = [it for it in CALL.findall(calls) if it[1].removeprefix("disruptor_") not in INNER]
        names = [name for _, name in made]
        synopsis = "\n" + "".join(re.sub(r"\n +", " ", f"{it};\n") for it, _ in made).replace("-", "\\-")
        if names:
            found[names[0]] = page(names, "a call of the proved rings", header, version, synopsis, text_of(comment), [own])
            found.update({it: f".so man3/{names[0]}.3\n" for it in names[1:]})
    head = text_of(re.match(r"/\*(.*?)\*/", said, re.S)[1])
    return {**found, own: page([own], "the proved rings for C", header, version, "", head, found)}


def main():
    if len(sys.argv) != 2:
        sys.exit("usage: tools/man_pages.py FOLDER")
    with open(f"{TOP}/include/disruptor.h", encoding="utf-8") as file:
        version = re.search(r'DISRUPTOR_VERSION "(.*)"', file.read())[1]
    os.makedirs(sys.argv[1], exist_ok=True)
    written = set()
    for header in ("disruptor.h", "disruptor_threads.h"):
        for name, text in pages_of(header, version).items():
            if name in written:
                sys.exit(f"two headers have a call with the name {name}")
            written.add(name)
            with open(f"{sys.argv[1]}/{name}.3", "w", encoding="utf-8") as file:
                file.write(text)


if __name__ == "__main__":
    main()
