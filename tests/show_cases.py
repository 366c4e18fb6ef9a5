"""Pages that `show.py` makes for one thing each: what a page says of its records and of the room, where its cards stand, at which step it
opens, its colors, and how large an exchange may be."""

from browser import NARROW
from page import TOP
from seeing import go_through

# What a page says beside its records: which it has, and why a claim has no more room. Of each file its window.
SAYS = 'show(records.length - 1), [$("part").hidden ? "" : $("part").textContent, $("both").hidden ? "" : $("room").textContent]'
LIMITED = b"ring,4,single\nlimit,2\nwith,a\nstart\nclaim,0,2\n"
HALTED = b"ring,4,single\nwith,a\nstart\nclaim,0,1\nhalt\nhalt\nhat\n"
FULL = b"ring,2,single\nwith,a,b\nthen,c\nstart\nclaim,0,2\nwrite,0,0,7\nwrite,0,1,8\npublish,0,0,1\npoll,a,2\n"
OTHERS = ": --from and --steps show others."
SAID = (
    (FULL, 1, 2000, "", "Handler c completed 0 of 2 claimed events, and the ring has 2 slots: none is free. Handler c follows handlers a and b, which "
     "completed none of the events. Handler a took 0 and 1, and has still to complete them. Handler b may take 0 and 1 now."),
    (LIMITED, 1, 2000, "", "2 sequences of at most 2 are claimed: none is left."),
    (LIMITED.replace(b",2\n", b",4\n"), 1, 2000, "", "4 sequences of at most 4 are claimed: none is left."),
    (LIMITED.replace(b"0,2\n", b"0,1\n"), 1, 2000, "", "1 sequence of at most 2 is claimed: a claim may have at most 1 now."),
    (b"ring,2,single\nwith,a\nstart\nclaim,0,2\n", 1, 2000, "", "Handler a completed 0 of 2 claimed events, and the ring has 2 slots: none is free."),
    (HALTED, 1, 2000, "", ""),
    (HALTED[:-4], 1, 2000, "", "Halted: no claim is given a sequence."),
    (HALTED, 4, 1, "Of 7 records the page has 1 to 4 and 7" + OTHERS, ""),
    (HALTED, 1, 0, "Of 7 records the page has 1 to 3 and 7" + OTHERS, ""),
    (HALTED[:-4], 6, 1, "Of 6 records the page has 1 to 3 and 6" + OTHERS, "Halted: no claim is given a sequence."),
    (HALTED[:-4], 5, 1, "Of 6 records the page has 1 to 3 and 5" + OTHERS, "Halted: no claim is given a sequence."),
    (HALTED[:-4], 1, 0, "Of 6 records the page has 1 to 3" + OTHERS, "A claim may have the whole ring."),
    (HALTED[:-4], 1, 3, "Of 6 records the page has 1 to 3" + OTHERS, "A claim may have the whole ring."),
)

# What tells of all steps of a page where its cards stand, which rows its list cuts, and what tracks and free slots are called.
STANDS = """
(() => {
  const places = new Set(), cut = [], tracks = new Set(), slots = new Set();
  const isCut = (row, list) => [list.top, list.bottom].some((edge) => row.top < edge - 0.5 && row.bottom > edge + 0.5);
  records.forEach((r, k) => {
    show(k);
    const list = $("lines").getBoundingClientRect();
    for (const row of $("lines").children) if (isCut(row.getBoundingClientRect(), list)) cut.push(`${row.textContent} at ${r.record}`);
    if (document.documentElement.scrollWidth > innerWidth) cut.push(`a side of ${r.record}`);
    if (r.next === undefined) return;
    places.add([...document.querySelectorAll(".card")].map((it) => it.getBoundingClientRect()).map((it) => `${it.top + scrollY} ${it.height}`).join());
    for (const it of document.querySelectorAll("#ring textPath")) tracks.add(it.textContent);
    for (const it of document.querySelectorAll("#ring text")) if (/^for #/.test(it.textContent)) slots.add(it.textContent);
  });
  return [places.size, cut, [...tracks].sort(), [...slots].sort()];
})()"""
STOOD = (
    ("two_producers", ["a"], ["for #0", "for #1", "for #2", "for #3"]),
    ("diamond", ["business", "journal", "replica"], ["for #0", "for #1", "for #2"]),
)

# After an address, the record at which a page opens: that one, or the next that the page has, or its last; without a number that of `start`.
OPENED = 'new Promise((done) => setTimeout(() => done([$("where").textContent, Number($("at").value), location.hash])))'
COMES = 'new Promise((done) => {{ addEventListener("hashchange", () => done($("where").textContent)); location.hash = "#step={}"; }})'
SOME_RECORDS = b"ring,4,single\nwith,a\nstart\n" + b"claim,0,1\n" * 9
PAGES = (
    (SOME_RECORDS, 1, 2000, {"": 3, "#step=1": 1, "#step=7": 7, "#step=12": 12, "#step=0": 1, "#step=007": 7, "#step=13": 12, f"#step={10**30}": 12,
                             "#step=one": 3, "#step=": 3, "#step=-1": 3, "#step=7.5": 3, "#at": 3}),
    (SOME_RECORDS, 8, 2, {"": 3, "#step=2": 2, "#step=5": 8, "#step=9": 9, "#step=10": 9}),
)

# What tells how plain each text of a page is on its ground, by the colors' contrast, and which texts have less than one may have.
COLORS = """
(() => {
  const numbers = (color) => color.match(/[\\d.]+/g).map(Number);
  const linear = (v) => (v <= 0.04045 ? v / 12.92 : ((v + 0.055) / 1.055) ** 2.4);
  const light = (c) => [0.2126, 0.7152, 0.0722].reduce((sum, part, i) => sum + part * linear(c[i] / 255), 0);
  const contrast = (a, b) => (Math.max(light(a), light(b)) + 0.05) / (Math.min(light(a), light(b)) + 0.05);
  const style = (it, what) => numbers(getComputedStyle(it)[what]);
  const ground = (it) => { while (style(it, "backgroundColor")[3] === 0) it = it.parentElement; return style(it, "backgroundColor"); };
  const published = document.querySelector("#ring path[fill='var(--published)']"), weak = [];
  let count = 0;
  for (const it of document.querySelectorAll("body *")) {
    const own = [...it.childNodes].filter((node) => node.nodeType === 3).map((node) => node.data.trim()).join("");
    if (!own || it.tagName === "SCRIPT" || it.disabled || !it.checkVisibility()) continue;
    const isDrawn = it instanceof SVGElement, isOn = it.getAttribute("style")?.includes("--on-published");
    const much = contrast(style(it, isDrawn ? "fill" : "color"), isOn ? style(published, "fill") : ground(it));
    if (much < 4.5) weak.push(`${own.slice(0, 30)}: ${much.toFixed(2)}`);
    count += 1;
  }
  const [ink, paper] = [style(document.body, "color"), style(document.body, "backgroundColor")].map(light);
  return { weak, isMany: count > 40, hasPublished: published !== null, isDark: paper < 0.1 && ink > 0.5, isLight: paper > 0.8 && ink < 0.1 };
})()"""


# Of a large file, how many records its page has beside the setup. It leaves out the very last.
LAST = 24
ROUND = b"claim,0,1\npoll,a,1\nwrite,0,0,7\npublish,0,0,0\nclaim,0,7\n"


def some_work(size, producers, handlers, filled=0):
    """A file in which several producers and handlers are at work, after so many records more that a page may leave out."""
    names = [f"handler_with_number_{k}" for k in range(handlers)]
    half = names[: (handlers + 1) // 2]
    then = [f"then,{','.join(names[len(half):])}"] if handlers > 1 else []
    lines = [f"ring,{size},multi,{producers}", f"with,{','.join(half)}", *then, "start"]
    if filled:
        lines += [f"claim,0,{filled}", *(f"write,0,{s},{s % 10}" for s in range(filled)), f"publish,0,0,{filled - 1}"]
    end, own = filled, []
    for p in range(producers):
        own.append((p, end, end + p % 3))
        end += p % 3 + 1
    lines += [f"claim,{p},{hi - lo + 1}" for p, lo, hi in own]
    for p, lo, hi in reversed(own):
        lines += [f"write,{p},{s},{s},{p % 2}" for s in range(lo, hi + 1) if p % 4 != 3]
        lines += [f"publish,{p},{lo},{hi}"] if p % 8 != 5 else []
    for k, name in enumerate(names):
        lines += [f"poll,{name},{filled + 2 + k % 3}", f"complete,{name},{filled + k % 2}"]
    lines += [f"claim,0,{size}", f"claim,1,{size // 2}", f"claim,2,{size // 4}", f"retire,{names[-1]}", f"poll,{names[-1]},1", "halt", "claim,0,1"]
    return "".join(f"{it}\n" for it in lines).encode()


def page_of(bench, text, first=1, steps=2000):
    return bench.run("show", f"--from={first}", f"--steps={steps}", bench.file("some.csv", text)).out


def sentence_cases(bench, browser):
    """A page says which records it has where some are left out, and what bounds the room: the limit, the slots or a halt."""
    for text, first, steps, *said in SAID:
        browser.open(page_of(bench, text, first, steps))
        bench.judge(f"what the page of {text!r} from {first}, {steps} steps says", browser.tell(SAYS), said)


def standing_cases(bench, browser):
    """A page names its tracks and free slots, cuts no row of its list, and moves no card as one steps."""
    for name, tracks, slots in STOOD:
        browser.open(bench.run("show", f"{TOP}/examples/{name}.csv").out, size=NARROW)
        bench.judge(f"what stands on the page of {name}", browser.tell(STANDS), [1, [], tracks, slots])


def address_cases(bench, browser):
    """A page opens at the step of its address, and goes there where the address changes."""
    for text, first, steps, records in PAGES:
        page, last = page_of(bench, text, first, steps), 12
        has = [*range(1, 4), *range(max(4, first), min(last + 1, first + steps))]
        for hash_, record in records.items():
            browser.open(page, hash_)
            bench.judge(f"where a page opens at {hash_!r}", browser.tell(OPENED), [f"record {record} of {last}", has.index(record), f"#step={record}"])
        bench.judge("where a changed address leads", browser.tell(COMES.format(first)), f"record {first} of {last}")


def color_cases(bench, browser):
    """Light or dark, each text is plain on its ground."""
    page = bench.run("show", f"{TOP}/examples/two_producers.csv").out
    for scheme in ("light", "dark"):
        browser.open(page, "#step=12", scheme=scheme)
        wanted = {"weak": [], "isMany": True, "hasPublished": True, "isDark": scheme == "dark", "isLight": scheme == "light"}
        bench.judge(f"the colors of a {scheme} page", browser.tell(COLORS), wanted)


def large_cases(bench, browser):
    """A ring may be large, have 16 producers and handlers, and a file may be longer than its page."""
    for name, text in (
        ("16 slots, 16 producers and 6 handlers", some_work(16, 16, 6)),
        ("64 slots, 16 producers and 16 handlers", some_work(64, 16, 16)),
        ("128 slots, 16 producers and 16 handlers", some_work(128, 16, 16)),
        ("65,536 slots", some_work(65536, 3, 2, 9000)),
        ("a long file", b"ring,64,single\nwith,a\nstart\n" + ROUND * 600 + b"halt\n"),
    ):
        first = max(1, text.count(b"\n") - LAST)
        go_through(bench, browser, f"{name}, from {first}", page_of(bench, text, first, LAST), text, first, LAST)


def cases(bench, browser):
    for some in (sentence_cases, standing_cases, address_cases, color_cases, large_cases):
        some(bench, browser)
