#!/usr/bin/env python3
"""Runs the program on what is hostile to it from outside: files, little memory, and streams that fail.

    tests/hostile/run.py PROGRAM

The files stand in drive.txt and replay.txt beside this script. It prints a line for each failure, and then a count; its
status is 0 where none failed.
"""

import os
import re
import resource
import subprocess
import sys
import tempfile
from collections import namedtuple
from contextlib import suppress

HERE = os.path.dirname(os.path.abspath(__file__))
sys.path.append(os.path.join(os.path.dirname(HERE), "second_reading"))
from merging import merged_like  # noqa: E402

ESCAPE = re.compile(rb"\\(?:x([0-9a-f]{2})|([0rnt\\]))")
ESCAPED = {b"0": b"\0", b"r": b"\r", b"n": b"\n", b"t": b"\t", b"\\": b"\\"}
REPEATED = re.compile(rb"\{(\d+)\*([^}]*)\}")

# The ways of a replay.
WAYS = ("plain", "ring", "lock")

Case = namedtuple("Case", "name text wanted")
Ran = namedtuple("Ran", "status out err")

NO_MEMORY = Ran(3, b"", b"no-memory\n")
CANNOT_READ = Ran(4, b"", b"cannot read\n")
CANNOT_WRITE = Ran(4, b"", b"cannot write\n")


def text_of(lines):
    """The file that some lines of a table stand for."""
    text = b"".join(line + b"\n" for line in lines).replace(b"\\c\n", b"")
    text = ESCAPE.sub(lambda at: ESCAPED[at[2]] if at[2] else bytes([int(at[1], 16)]), text)
    return REPEATED.sub(lambda at: int(at[1]) * at[2], text)


def cases_of(table):
    """The cases of a table, whose form is told at the head of drive.txt."""
    with open(os.path.join(HERE, table), "rb") as file:
        parts = re.split(rb"^== ", file.read(), flags=re.MULTILINE)[1:]
    for part in parts:
        head, _, after = part.partition(b"\n-- ")
        name, *lines = head.split(b"\n")
        ends, *out = after.rstrip(b"\n").split(b"\n")
        status, _, err = ends.partition(b" ")
        wanted = Ran(int(status), b"".join(line + b"\n" for line in out), err + b"\n" if err else b"")
        yield Case(name.decode(), text_of(lines), wanted)


class Bench:
    """Runs the program in a folder of its own, and counts what it was to do and did not."""

    def __init__(self, program, folder):
        self.program, self.folder = os.path.abspath(program), folder
        self.cases = self.failed = 0

    def file(self, name, text):
        path = os.path.join(self.folder, name)
        with open(path, "wb") as file:
            file.write(text)
        return path

    def run(self, *words, memory=None):
        """Runs it, with no more than so many bytes of memory."""
        limit = memory and (lambda: resource.setrlimit(resource.RLIMIT_AS, (memory, memory)))
        how = {"stdin": subprocess.DEVNULL, "capture_output": True, "timeout": 60}
        ran = subprocess.run([self.program, *words], preexec_fn=limit, **how)
        return Ran(ran.returncode, ran.stdout, ran.stderr)

    def judge(self, name, ran, wanted):
        self.cases += 1
        if ran != wanted:
            self.failed += 1
            print(f"FAILED: {name}: {str(ran)[:300]}, not {str(wanted)[:300]}")


# Files.


def wanted_by_lock(ran, wanted):
    """By lock the events of several producers come in some order that keeps each producer's."""
    journal = wanted.out.partition(b"\nreplica ")[0].splitlines()[1:]
    records = [line.partition(b",")[2] for line in journal]
    if len({record.partition(b",")[0] for record in records}) < 2:
        return wanted
    return merged_like(ran, b"\n".join(records))


def run_tables(bench):
    for tool in ("drive", *(f"replay --by={way}" for way in WAYS)):
        words = tool.split()
        for case in cases_of(f"{words[0]}.txt"):
            ran = bench.run(*words, bench.file("hostile.csv", case.text))
            wanted = wanted_by_lock(ran, case.wanted) if "lock" in tool else case.wanted
            bench.judge(f"{tool} of {case.name}", ran, wanted)


# Little memory.


def widest_batch():
    """A file whose last line is some hundred kilobytes long, and takes its memory after other lines are written."""
    writes = "".join(f"write,0,{s},{2**64 - 1},{2**64 - 1}\n" for s in range(8192))
    return f"ring,8192,single\nwith,a\nstart\nclaim,0,8192\n{writes}publish,0,0,8191\npoll,a,8192\n".encode()


def run_with_little_memory(bench, name, words, begins):
    """Gives the program a little more memory each time, until it does all that it does with ample memory.

    Short of that it is to say that memory ran out, and to have written nothing. Where its output `begins` earlier than
    that, it may have written whole lines of it, and at least once it is to have done so.
    """
    whole, wrong, outputs = bench.run(*words), None, set()
    for memory in range(2**21, 2**27, 2**16):
        ran = bench.run(*words, memory=memory)
        if ran == whole:
            break
        if ran.status == 127 and not outputs:
            continue  # (not even the C library can be loaded)
        outputs.add(ran.out)
        lines = begins and ran.out.endswith(b"\n") and whole.out.startswith(ran.out)
        if ran != NO_MEMORY._replace(out=ran.out if lines else b""):
            wrong = wrong or (memory, ran)
    else:
        wrong = "never all of it"
    bench.judge(f"{name} with little memory", wrong, None)
    bench.judge(f"whether {name} was short of memory, and where", (b"" in outputs, len(outputs) > 1), (True, begins))


def run_short_of_memory(bench):
    greatest = bench.file("greatest.csv", b"ring,65536,single\nwith,a\nstart\nclaim,0,65536\n")
    batch = bench.file("batch.csv", widest_batch())
    deposits = bench.file("deposits.csv", b"0,deposit,1,100\n" * 20000)
    run_with_little_memory(bench, "drive of the greatest ring", ["drive", greatest], False)
    run_with_little_memory(bench, "drive of a batch of 8192", ["drive", batch], True)
    run_with_little_memory(bench, "replay at the greatest size", ["replay", "--size=65536", deposits], False)
    for tool in ("drive", "replay"):
        ran = bench.run(tool, "/dev/zero", memory=2**25)
        bench.judge(f"{tool} of a file without end", ran, NO_MEMORY)


# Streams.


def run_with_bad_input(bench):
    loop = os.path.join(bench.folder, "loop.csv")
    os.symlink(loop, loop)
    file = bench.file("file.csv", b"")
    # The last of these can be opened, and its first read fails.
    for path in ("", "x" * 5000, f"{file}/below.csv", loop, "/proc/self/mem"):
        for tool in ("drive", "replay"):
            bench.judge(f"{tool} of {path[:60]!r}", bench.run(tool, path), CANNOT_READ)


def run_with_closed_streams(bench):
    """The shell closes streams, or sends them where nothing can be written, before the program begins."""
    good = bench.file("good.csv", b"ring,4,single\nwith,a\nstart\nhalt\n")
    bad = bench.file("bad.csv", b"ring,4,single\nwith,a\nstart\nhalt\njump\n")
    done = Ran(0, b"halting\n", b"")
    for redirection, path, wanted in (
        ("<&-", good, done),
        ("<&-", "/dev/stdin", CANNOT_READ),
        ("<&-", "-", CANNOT_READ),
        ("2>&-", good, done),
        ("<&- >&-", good, CANNOT_WRITE),
        ("2>/dev/full", bad, Ran(2, b"halting\n", b"")),
        ("<&- 2>&-", bad, Ran(2, b"halting\n", b"")),
        ("<&- >&- 2>&-", bad, Ran(2, b"", b"")),
        ("<&- >&- 2>&-", good, Ran(4, b"", b"")),
    ):
        words = ["sh", "-c", f'exec "$0" drive "$1" {redirection}', bench.program, path]
        ran = subprocess.run(words, stdin=subprocess.DEVNULL, capture_output=True, timeout=60)
        name = f"drive {os.path.basename(path)} {redirection}"
        bench.judge(name, Ran(ran.returncode, ran.stdout, ran.stderr), wanted)


def run_from_slow_pipe(bench):
    """Its input comes through a pipe a byte at a time."""
    with subprocess.Popen(
        [bench.program, "replay", "-"], stdin=subprocess.PIPE, stdout=subprocess.PIPE, bufsize=0
    ) as program:
        with suppress(BrokenPipeError):
            for byte in b"0,deposit,1,2\n":
                program.stdin.write(bytes([byte]))
        program.stdin.close()
        out = program.stdout.read()
        ran = Ran(program.wait(timeout=60), out, b"")
    wanted = Ran(0, b"journal 1\n0,0,deposit,1,2\nreplica 1\n0001000100000002\nbusiness 1\n1,2,0\n", b"")
    bench.judge("replay of a pipe, a byte at a time", ran, wanted)


def run_into_pipe(bench, name, words, taken):
    """Its output goes to a pipe whose reader takes so many bytes, and leaves."""
    reader, writer = os.pipe()
    if not taken:
        os.close(reader)
    streams = {"stdin": subprocess.DEVNULL, "stdout": writer, "stderr": subprocess.PIPE}
    with subprocess.Popen([bench.program, *words], **streams) as program:
        os.close(writer)
        if taken:
            os.read(reader, taken)
            os.close(reader)
        err = program.stderr.read()
        ran = Ran(program.wait(timeout=60), b"", err)
    bench.judge(f"{name} into a pipe whose reader takes {taken} bytes", ran, CANNOT_WRITE)


def run_into_pipes(bench):
    few = bench.file("few.csv", b"ring,4,single\nwith,a\nstart\nhalt\n")
    many = bench.file("many.csv", b"ring,4,single\nwith,a\nstart\n" + b"halt\n" * 100000)
    deposits = bench.file("deposits.csv", b"0,deposit,1,100\n" * 20000)
    run_into_pipe(bench, "drive of one command", ["drive", few], 0)
    run_into_pipe(bench, "replay", ["replay", deposits], 0)
    run_into_pipe(bench, "help", ["--help"], 0)
    run_into_pipe(bench, "drive of many commands", ["drive", many], 1)
    run_into_pipe(bench, "replay", ["replay", deposits], 1)


def main():
    program = sys.argv[1]
    with tempfile.TemporaryDirectory(prefix="hostile-") as folder:
        bench = Bench(program, folder)
        run_tables(bench)
        run_short_of_memory(bench)
        run_with_bad_input(bench)
        run_with_closed_streams(bench)
        run_from_slow_pipe(bench)
        run_into_pipes(bench)
    print(f"{program}: {bench.cases} hostile cases, {bench.failed} failed")
    return 1 if bench.failed else 0


if __name__ == "__main__":
    sys.exit(main())
