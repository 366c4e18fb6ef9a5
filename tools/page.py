#!/usr/bin/env python3
"""Writes the text of page/show.html, without the data in it, as `crates/disruptor/src/page.rt`, where the program takes it from.

    tools/page.py

Run it after each change of the page. The data is what `disruptor show examples/two_producers.csv` puts there, so that the page can be
opened as it stands; tests/show.py looks whether it is.
"""

import os

TOP = os.path.dirname(os.path.dirname(os.path.abspath(__file__)))
BEGINS = '<script type="application/json" id="data">\n'
ENDS = "\n</script>\n"


def parts(page):
    """What a page has before its data, and after it."""
    before, begins, rest = page.partition(BEGINS)
    _, ends, after = rest.partition(ENDS)
    return before + begins, ends + after


def literal(text):
    return text.replace("\\", "\\\\").replace('"', '\\"')


def main():
    with open(f"{TOP}/page/show.html", encoding="utf-8") as file:
        before, after = parts(file.read())
    text = (
        "//! The page that `show` writes, but for its data: `tools/page.py` takes it from `page/show.html`.\n\n"
        f'/// What comes before the data.\npub(crate) const BEFORE: &str = "\\\n{literal(before)}";\n\n'
        f'/// What comes after it.\npub(crate) const AFTER: &str = "{literal(after)}";\n'
    )
    with open(f"{TOP}/crates/disruptor/src/page.rt", "w", encoding="utf-8") as file:
        file.write(text)


if __name__ == "__main__":
    main()
