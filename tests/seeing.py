"""What a browser shows of a page, step by step, against a second reading of the docs; and what the keys, buttons and the slider do."""

import json
import re

from browser import NARROW, WIDE
from telling import steps_shown

# What tells all that a page shows of its steps, in a wide window, where no label is cut for want of room.
READS = """
(() => {
  const seen = [], faults = [];
  window.onerror = (why) => { faults.push(String(why)); };
  const text = (it) => (it?.textContent ?? "").replace(/\\s+/g, " ").trim();
  const rows = (id) => [...document.querySelectorAll(`#${id} tr`)].slice(1).map((row) => [...row.cells].map(text));
  const label = (id) => $(id).querySelector("svg[role=img]").getAttribute("aria-label");
  const has = (it, name) => it.getAttribute(name);
  const way = (it) => ({ "var(--ground)": "free", "var(--published)": "published" })[has(it, "fill")] ?? has(it, "fill").slice(5, -1);
  // Slots come first, each with its texts, then a track for each handler, at whose name it ends, then the middle.
  const picture = () => {
    const svg = $("ring").querySelector("svg"), center = svg.viewBox.baseVal.width / 2, slots = [], tracks = [], middle = [], names = [];
    let free = "";
    const place = (path) => {
      const [, x, y] = has(path, "d").match(/^M([\\d.-]+) ([\\d.-]+)/).map(Number), size = exchange.size;
      return size > 1024 ? null : Math.round(((Math.atan2(y - center, x - center) / Math.PI + 0.5) / 2 * size + size) % size) % size;
    };
    for (const it of svg.children) {
      if (it.tagName === "g") names.push(text(it.querySelector("textPath")));
      else if (it.tagName === "circle" && has(it, "stroke-opacity")) tracks.push(null);
      else if (it.tagName === "text" && has(it, "x") === String(center) && !has(it, "style")) middle.push(text(it));
      else if (it.tagName === "text" && /^for \\d/.test(text(it))) free = text(it);
      else if (it.tagName === "text") slots.at(-1)[2].push(text(it));
      else if (it.tagName === "path" && has(it, "stroke") === "var(--ink)") slots.push([way(it), has(it, "stroke-width") === "3", []]);
      else if (it.tagName === "path") {
        tracks[tracks.length - 1] ??= ["", null, null];
        if (has(it, "stroke-width") === "3") tracks.at(-1)[2] = place(it);
        else tracks.at(-1)[1] ??= place(it);
      }
    }
    for (const it of tracks) if (it) it[0] = names.shift();
    return { slots, free, middle, tracks, ring: label("ring") };
  };
  const box = (it) => [text(it), has(it.querySelector("rect"), "stroke-width") === "4", it.querySelector("rect").hasAttribute("stroke-dasharray")];
  const look = () => ({
    head: text($("head")), where: text($("where")), asks: text($("asks")), why: text($("why")),
    ...($("both").hidden ? {} : {
      handlers: rows("handlers"), waits: text(document.querySelector("#handlers p")), claims: rows("claims"), room: text($("room")),
      ...picture(), boxes: [...document.querySelectorAll("#graph g")].map(box), graph: label("graph"),
    }),
  });
  const press = (key) => document.dispatchEvent(new KeyboardEvent("keydown", { key, bubbles: true, cancelable: true }));
  press("Home");
  for (const _ of records) { seen.push(look()); press("ArrowRight"); }
  while ($("lines").children.length < records.length) addRest();
  const lines = [...$("lines").children].map((it) => [...it.querySelectorAll("span")].map(text));
  return { seen, lines, faults };
})()"""

# What goes through a page: it presses, clicks and slides, and tells what did not lead to its step.
GOES = """
(() => {
  const faults = [], at = records.length - 1;
  window.onerror = (why) => { faults.push(String(why)); };
  const press = (key) => document.dispatchEvent(new KeyboardEvent("keydown", { key, bubbles: true, cancelable: true }));
  const leads = (what, k) => {
    const wide = document.documentElement.scrollWidth, record = records[k].record;
    if ($("where").textContent !== `record ${record} of ${end.last}` || Number($("at").value) !== k) faults.push(`${what} leads elsewhere`);
    if (location.hash !== `#step=${record}`) faults.push(`after ${what} the address is ${location.hash}`);
    const marked = [...$("lines").querySelectorAll("[aria-current]")];
    if (marked.length !== 1 || marked[0] !== $("lines").children[k].firstChild) faults.push(`${what} marks another line`);
    if (wide > innerWidth) faults.push(`after ${what} it is ${wide} wide, not ${innerWidth}`);
  };
  press("Home"); leads("Home", 0);
  for (let k = 1; k <= Math.min(at, 6); k++) { press(k % 2 ? "ArrowRight" : "ArrowDown"); leads("an arrow", k); }
  press("End"); leads("End", at);
  press("ArrowRight"); leads("the right arrow at the end", at);
  press("Home"); press("ArrowLeft"); leads("the left arrow at the start", 0);
  press("End");
  press("ArrowLeft"); leads("the left arrow", Math.max(0, at - 1));
  press("ArrowUp"); leads("the arrow up", Math.max(0, at - 2));
  $("first").click(); leads("the button to the start", 0);
  $("on").click(); leads("the button on", Math.min(1, at));
  $("back").click(); leads("the button back", 0);
  $("end").click(); leads("the button to the end", at);
  $("at").value = 0; $("at").dispatchEvent(new Event("input")); leads("the slider", 0);
  $("lines").children[at].firstChild.click(); leads("a click", at);
  return faults;
})()"""


def plain(words):
    """A text without the blanks that a browser does not show."""
    return re.sub(r"\s+", " ", words).strip()


def wanted_steps(text, first=1, steps=2000):
    """What a browser has to show of each step, and the lines of the list."""
    steps = steps_shown(text, first, steps)
    lines = [[str(it["record"]), *(plain(part[:200]) if k else plain(part) for k, part in enumerate(it["line"]))] for it in steps]
    texts = [{key: plain(told) if isinstance(told, str) else told for key, told in it.items() if key not in ("record", "line")} for it in steps]
    return texts, lines


def first_difference(seen, wanted):
    """What the first step shows that differs, and what it has to show: each with the record and the part's name."""
    if len(seen) != len(wanted):
        return len(seen), len(wanted)
    for is_so, must in zip(seen, wanted):
        for key in {**must, **is_so}:
            if is_so.get(key) != must.get(key):
                return [must["where"], key, is_so.get(key)], [must["where"], key, must.get(key)]
    return None, None


def differs(browser, page, text, first=1, steps=2000):
    """What a browser shows of a page that the second reading does not say, and what that says; both None if all is so."""
    browser.open(page)
    told, (texts, lines) = browser.tell(READS), wanted_steps(text, first, steps)
    if "seen" not in told:
        return json.dumps(told), None
    is_so, must = first_difference(told["seen"], texts)
    if is_so != must:
        return is_so, must
    rest = [told["lines"], told["faults"]]
    return (None, None) if rest == [lines, []] else (rest, [lines, []])


def go_through(bench, browser, name, page, text, first=1, steps=2000):
    """Reads a page in a wide window, and goes through it in a narrow one."""
    bench.judge(f"what a browser shows of {name}", *differs(browser, page, text, first, steps))
    browser.resize(NARROW)
    bench.judge(f"where keys, buttons and the slider lead in {name}", browser.tell(GOES), [])
    browser.resize(WIDE)
