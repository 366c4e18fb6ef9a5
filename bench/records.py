"""Files of what was measured: the other scripts here write them, and `bench/plots.py` draws them.

Such a file begins with lines `# key: value`, which say on what machine, on what date, at what load and in
what manner it was measured. The load is how many processors other work took meanwhile, that of the host's
other guests among it. The columns' names follow, and then a record a line.
"""

import csv
import datetime
import os
import platform
import time

RATES = ("topology", "size", "program", "million_events_a_second")
SECONDS = ("tool", "size", "records", "program", "seconds", "peak_kilobytes")
WAITS = ("strategy", "handler_per_cent", "event_micros", "most_micros", "rate_1", "rate_10", "rate_100")
LATENCIES = ("program", "gap_micros", "least", "mean", "50%", "99%", "99.9%", "99.99%", "most")
ROUND_TRIPS = ("program", *LATENCIES[2:])
ANSWERS = ("program", "in_flight", "operations_a_second", "50%", "99%", "99.9%", "most")
RECOVERIES = ("step", "operations", "seconds", "operations_a_second", "peak_kilobytes")
STEPS = ("step", "seconds")


def machine():
    """How many processors there are, and what they call themselves."""
    try:
        with open("/proc/cpuinfo") as file:
            names = [line.partition(":")[2].strip() for line in file if line.startswith("model name")]
    except OSError:
        names = []
    return f"{os.cpu_count()} processors, {names[0] if names else platform.machine()}"


def taken():
    """How many processor seconds all work of this machine took since it began, with what its host took from it."""
    with open("/proc/stat") as file:
        user, nice, system, _, _, irq, softirq, stolen = map(int, file.readline().split()[1:9])
    return (user + nice + system + irq + softirq + stolen) / os.sysconf("SC_CLK_TCK")


def taken_by_others():
    """How many of them neither this script took nor what it ran."""
    own = os.times()
    return taken() - own.user - own.system - own.children_user - own.children_system


class Records:
    """What is measured, kept until the run is over. Without a path nothing is written."""

    def __init__(self, path, columns, manner):
        self.path = path
        self.head = {
            "machine": machine(),
            "date": datetime.date.today().isoformat(),
            "load": None,
            "manner": manner,
        }
        self.rows = [columns]
        self.begun = time.monotonic(), taken_by_others()

    def add(self, *values):
        self.rows.append(values)

    def save(self):
        if self.path is None:
            return
        clock, others = self.begun
        self.head["load"] = f"{max(0, taken_by_others() - others) / (time.monotonic() - clock):.1f}"
        with open(self.path, "w", newline="") as file:
            file.writelines(f"# {key}: {value}\n" for key, value in self.head.items())
            csv.writer(file, lineterminator="\n").writerows(self.rows)


def read(path):
    """The head of a file, and its records by the columns' names."""
    with open(path, newline="") as file:
        lines = file.readlines()
    heads = [line[1:].partition(":") for line in lines if line.startswith("#")]
    head = {key.strip(): value.strip() for key, _, value in heads}
    return head, list(csv.DictReader(line for line in lines if not line.startswith("#")))
