#!/usr/bin/env python3
"""What the gate costs, crate by crate.

    gate_times.py --run [WORD ..] > LOG    runs `rt ci`, or these words, and writes the seconds since the start before each line
    gate_times.py --each > LOG             runs `rt ci NAME` for each crate, the lowest first, so that no two overlap
    gate_times.py LOG ..                   prints the minutes of logs as a table

A log ends each run with a line of its minutes: by the clock, and of all processors (user and system time of the
commands that it started). Run it where nothing is kept (a new clone, and no earlier run of the gate on the machine),
else what is kept costs nothing and has no row.

In a log of `--each` the minutes of a crate are its own. In a log of `--run` crates are proved side by side: "proof"
then counts from when the crates below it were proved, with the wait for a processor in it, and minutes overlap; the
processors' minutes of the whole are exact in both.
"""
import re
import resource
import subprocess
import sys
import time

PROVED = re.compile(r"rt: (\w+) proved$")
TESTED = re.compile(r"rt: (\w+): its tests are proved$")
EDITED = re.compile(r"rt: (\w+): trying its must-fail edits \((\d+)\)$")
ENDED = re.compile(r"run ended: ([\d.]+) minutes, processors ([\d.]+) minutes$")
STAMPED = re.compile(r" *([\d.]+) (.*)$")


def processor_seconds():
    """The user and system time of all commands that this one waited for."""
    usage = resource.getrusage(resource.RUSAGE_CHILDREN)
    return usage.ru_utime + usage.ru_stime


def run(words):
    """Runs a command, writes its output with stamps, and answers its exit status."""
    before, start = processor_seconds(), time.monotonic()
    print(f"run: {' '.join(words)}", flush=True)
    command = subprocess.Popen(words, stdout=subprocess.PIPE, stderr=subprocess.STDOUT, text=True)
    for line in command.stdout:
        print(f"{time.monotonic() - start:9.2f} {line.rstrip()}", flush=True)
    status = command.wait()
    minutes = (time.monotonic() - start) / 60
    print(f"run ended: {minutes:.2f} minutes, processors {(processor_seconds() - before) / 60:.2f} minutes", flush=True)
    return status


def crates():
    """The crates of crates.txt, each with the crates of the repository that it stands on."""
    lines = [line.split("#")[0] for line in open("crates.txt", encoding="utf-8")]
    halves = [line.split(":", 1) for line in lines if ":" in line]
    below = {words.split()[0]: deps.split() for words, deps in halves}
    return {name: [dep for dep in deps if dep in below] for name, deps in below.items()}


def lowest_first(below):
    """The names, each behind those that it stands on."""
    order = []

    def visit(name):
        if name not in order:
            for dep in below[name]:
                visit(dep)
            order.append(name)

    for name in below:
        visit(name)
    return order


def runs_of(path):
    """The runs of a log: the lines of each with their seconds, and its two totals in minutes."""
    lines, runs = [], []
    for line in open(path, encoding="utf-8"):
        ended, stamped = ENDED.match(line), STAMPED.match(line)
        if ended:
            runs.append((lines, float(ended[1]), float(ended[2])))
            lines = []
        elif stamped:
            lines.append((float(stamped[1]), stamped[2].strip()))
    return runs


def moments(lines):
    """When each crate was proved, when its tests were, and when its edits began and how many they are."""
    proved, tested, edited = {}, {}, {}
    for seconds, text in lines:
        if match := PROVED.match(text):
            proved[match[1]] = seconds
        elif match := TESTED.match(text):
            tested[match[1]] = seconds
        elif match := EDITED.match(text):
            edited[match[1]] = (seconds, int(match[2]))
    return proved, tested, edited


def rows_of(lines, minutes, processors, below):
    """The rows of a run: name, minutes of proof, tests and edits, number of edits, minutes of processors."""
    proved, tested, edited = moments(lines)
    names = list(dict.fromkeys([*proved, *tested, *edited]))
    alone = len(names) == 1
    for name in names:
        last = max([proved.get(dep, 0) for dep in below.get(name, [])], default=0)
        took = {}
        for moment, what in sorted((times[name], what) for times, what in ((proved, "proof"), (tested, "tests")) if name in times):
            took[what], last = (moment - last) / 60, moment
        began, count = edited.get(name, (None, 0))
        edits = minutes - began / 60 if alone and began is not None else None
        yield name, took.get("proof"), took.get("tests"), edits, count, processors if alone else None


def cell(minutes):
    """Minutes as the text of a cell."""
    return "" if minutes is None else f"{minutes:.1f}"


def print_table(paths):
    """Prints the rows of these logs, those that took most first, and the minutes of the whole."""
    below, rows, clock, processors = crates(), [], 0.0, 0.0
    for path in paths:
        for lines, minutes, of_processors in runs_of(path):
            rows += rows_of(lines, minutes, of_processors, below)
            clock += minutes
            processors += of_processors
    print("| crate | proof | tests | edits | number of edits | processors |")
    print("|---|---|---|---|---|---|")
    for name, proof, tests, edits, count, own in sorted(rows, key=lambda row: -(row[5] or row[1] or 0)):
        print(f"| {name} | {cell(proof)} | {cell(tests)} | {cell(edits)} | {count or ''} | {cell(own)} |")
    print(f"\nThe whole: {clock:.0f} minutes by the clock, {processors:.0f} minutes of processors.")


def run_each():
    """Runs the gate for each crate, the lowest first, and ends at the first that fails."""
    for name in lowest_first(crates()):
        if status := run(["rt", "ci", name]):
            return status
    return 0


def main(words):
    """Does what the words ask for, and answers the exit status."""
    if words[:1] == ["--run"]:
        return run(words[1:] or ["rt", "ci"])
    if words == ["--each"]:
        return run_each()
    if not words or words[0].startswith("-"):
        print(__doc__, file=sys.stderr)
        return 2
    print_table(words)
    return 0


if __name__ == "__main__":
    sys.exit(main(sys.argv[1:]))
