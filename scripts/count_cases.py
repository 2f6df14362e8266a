#!/usr/bin/env python3
"""Counts the cases of `crates/flp_cases/data`, and the runs of the program that they are: a row for each file."""
import os
import re

from random_inputs import DATA

STEPS = 3  # by how many sizes of reads the rows of a table of broken files are run


def counted(lines):
    """The cases of a block, and their runs."""
    kind, commands = lines[0].split()[0], sum(line.startswith("run") for line in lines)
    if kind == "piece":
        return 0, 0
    if kind == "case":
        reads = next((len(line.split()) - 1 for line in reversed(lines) if line.startswith("reads ")), 1)
        turns = next((int(line.split()[3]) for line in lines if re.match(r"fail (reads|writes) ", line)), 1)
        return 1, commands * reads * turns
    rows = len(lines) - 1 - commands
    return rows, rows * commands * STEPS if kind == "broken" else rows


def main():
    whole = (0, 0)
    print("| file | cases | runs |\n|---|---|---|")
    for name in sorted(os.listdir(DATA)):
        if not name.endswith(".cases"):
            continue
        with open(os.path.join(DATA, name), encoding="utf8") as file:
            blocks = [[line for line in block.splitlines() if line and line[0] != "#"] for block in file.read().split("\n\n")]
        cases, runs = (sum(column) for column in zip(*map(counted, filter(None, blocks))))
        whole = (whole[0] + cases, whole[1] + runs)
        print(f"| `{name}` | {cases:,} | {runs:,} |")
    print(f"| all | {whole[0]:,} | {whole[1]:,} |")


if __name__ == "__main__":
    main()
