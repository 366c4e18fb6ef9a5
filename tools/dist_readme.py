#!/usr/bin/env python3
"""Prints the README of a package as it is packed: how it is linked or built there is said anew, by the lines of the input.

    tools/dist_readme.py README < LINES
"""

import re
import sys


def main():
    if len(sys.argv) != 2:
        sys.exit("usage: tools/dist_readme.py README < LINES")
    with open(sys.argv[1], encoding="utf-8") as file:
        said = file.read()
    part = re.compile(r"^(## To (?:link|build)[^\n]*\n\n).*?(?=^## )", re.M | re.S)
    packed, count = part.subn(lambda it: f"{it[1]}{sys.stdin.read().strip()}\n\n", said)
    if count != 1:
        sys.exit(f"{sys.argv[1]} has not one part of how to build it, but {count}")
    print(packed, end="")


if __name__ == "__main__":
    main()
