#!/usr/bin/env python3
"""Checks the documents: dumps and words against the files that they show, the table of crates and the pictures against
crates.txt, the one line of the version, answers against the built program.

    check_docs.py [PROGRAM]         PROGRAM is crates/flp/out/flp where it is not given; where it is not built, the
                                    answers are skipped
"""
import glob
import os
import re
import struct
import subprocess
import sys

import draw

TOP = os.path.dirname(os.path.dirname(os.path.abspath(__file__)))
faults = []


def read(name):
    return open(os.path.join(TOP, name), encoding="utf8").read()


def content_of(name):
    return open(os.path.join(TOP, name), "rb").read()


def dumped(block):
    """The bytes of a dump: pairs of digits, `..` for zeros up to the end of a word, `* N` for N times the line."""
    made = b""
    for line in block.splitlines():
        shown = re.match(r"(?:(?:[0-9a-f]{2}|\.\.|\*|\d)(?: {1,2}|$))+", line).group().split()
        times = 1
        if "*" in shown:
            times = int(shown[-1])
            shown = shown[: shown.index("*")]
        part = b""
        for pair in shown:
            part += bytes(-len(part) % 8) if pair == ".." else bytes([int(pair, 16)])
        made += part * times
    return made


def check_dumps(text):
    for name, block in re.findall(r"`(crates/flp_cases/data/[\w.]+)`[^\n]*:\n\n```\n(.*?)```", text, re.S):
        if not re.match(r"[0-9a-f]{2} ", block):
            continue
        if dumped(block) != content_of(name):
            faults.append(f"the dump of {name}")


def words_of(name):
    """The words of the first record of a batch, or of the first job of a job file."""
    content = content_of(name)
    front = 28 if content[:8] == b"FLPTASKS" else 32
    start = front + struct.unpack_from("<I", content, 20)[0] + 16
    return struct.unpack_from(f"<{(len(content) - start) // 8}Q", content, start)


def check_words(text):
    """The tables that give the words of a file of one report by their numbers."""
    head = "| words | values | content |\n|---|---|---|\n"
    table = r"`(crates/flp_cases/data/[\w.]+)`[^\n]*:\n\n" + re.escape(head) + r"((?:\|.*\n)+)"
    for name, rows in re.findall(table, text):
        words, met = words_of(name), 0
        for first, last, values in re.findall(r"^\| (\d+)(?: to (\d+))? \| ([\d ]+) \|", rows, re.M):
            first, last = int(first), int(last or first)
            if [str(word) for word in words[first : last + 1]] != values.split():
                faults.append(f"words {first} to {last} of {name}")
            met = last + 1
        if met != len(words):
            faults.append(f"the last word of {name}")


def check_table(text):
    """The table of crates has the crates of crates.txt, each in its layer."""
    table = text[text.index("| layer | crate |") :].split("\n\n")[0]
    layers, layer = {}, None
    for named, crate in re.findall(r"^\|(?: (\w+))? \| `(\w+)` \|", table, re.M):
        layer = named or layer
        layers.setdefault(layer, set()).add(crate)
    for layer, names in draw.crates()[0].items():
        if differ := set(names) ^ layers.get(layer, set()):
            faults.append(f"the table of crates, {layer}: {', '.join(sorted(differ))}")


def check_version():
    """The version stands in one line, at the head of the changes."""
    names = [*glob.glob("*.md", root_dir=TOP), *glob.glob("docs/*.md", root_dir=TOP), *glob.glob("*/*/*.md", root_dir=TOP)]
    found = [name for name in names for _ in re.findall(r"^Version \d[\d.]*\.", read(name), re.M)]
    if found != ["CHANGELOG.md"] or not re.match(r"# Changes\n\nVersion \d", read("CHANGELOG.md")):
        faults.append(f"the version stands in: {', '.join(found) or 'no document'}")


def check_pictures():
    for name, drawn in draw.PICTURES.items():
        if read(f"docs/{name}.svg") != drawn():
            faults.append(f"docs/{name}.svg is not what scripts/draw.py draws")


def answer(program, words, given):
    given = given if isinstance(given, bytes) else given.encode()
    return subprocess.run([program, *words], input=given, capture_output=True)


def check_bodies(program, text):
    """The standard circuits as bodies: the same lengths, and the same verdicts on the reports of the example."""
    for standard, body in re.findall(r"^`(use [^`]*;)`\n\n```\n(.*?)```", text, re.S | re.M):
        name = f"crates/flp_cases/data/{standard.split()[1]}.batch"
        batch, short, long = content_of(name), standard.encode(), body.encode()
        at = batch.index(short)
        other = batch[:20] + struct.pack("<I", len(long)) + batch[24:at] + long + batch[at + len(short) :]
        pairs = [(["lengths"], short, long), (["verify", "--workers", "1"], batch, other)]
        if any(answer(program, words, one).stdout != answer(program, words, two).stdout for words, one, two in pairs):
            faults.append(f"the body of {standard}")


def check_printed(program, text):
    """The blocks that show what a command prints of a file."""
    shown = r"What `flp ([^`]*)` prints of `(crates/flp_cases/data/[\w.]+)`[^\n]*:\n\n```\n(.*?)```"
    for words, name, block in re.findall(shown, text, re.S):
        ended = answer(program, words.split(), content_of(name))
        if ended.stdout.decode() != block:
            faults.append(f"flp {words} of {name}: {ended.stdout.decode()}{ended.stderr.decode()}")


def check_dealt(program, text):
    """The dump of a share file of the small batch."""
    for words, block in re.findall(r"What `flp (deal [^`]*)` writes of the count of 1 [^\n]*:\n\n```\n(.*?)```", text, re.S):
        if answer(program, words.split(), content_of("crates/flp_cases/data/accepted.batch")).stdout != dumped(block):
            faults.append(f"flp {words}")


def check_first_screen(program, text):
    """The two commands at the head of the README, one behind the other, and what the second prints."""
    wanted = re.search(r"the second prints\n\n```\n(.*?)```", text, re.S).group(1)
    words = re.findall(r"^rt try -- (.*?) <", text, re.M)
    batch = answer(program, words[0].split(), content_of("crates/flp_cases/data/histogram.job")).stdout
    if answer(program, words[1].split(), batch).stdout.decode() != wanted:
        faults.append("the first screen of README.md")


def check_trials(program, readme, formats):
    """What `trial` prints, in the README and in the formats."""
    shown = r"^rt try -- (trial [^<]*) < \S*/([\w.]+)\n```\n\nprints[^\n]*\n\n```\n(.*?)```"
    found = [(words, content_of(f"crates/flp_cases/data/{name}"), block)
             for words, name, block in re.findall(shown, readme, re.S | re.M)]
    shown = r"^Of `(use [^`]*;)`, with the seed (\d+) and ([\d,]+) reports[^\n]*:\n\n```\n(.*?)```"
    found += [(f"trial --seed {seed} --reports {reports.replace(',', '')} --workers 2", circuit, block)
              for circuit, seed, reports, block in re.findall(shown, formats, re.S | re.M)]
    for words, circuit, block in found:
        if answer(program, words.split(), circuit).stdout.decode() != block:
            faults.append(f"flp {words}")
    if len(found) != 2:
        faults.append("a trial of README.md or docs/FORMATS.md is not found")


def check_usage(program, formats):
    """The line where the words name no command."""
    [line] = re.findall(r"^\| 2 \|.*`(usage: [^`]*)` \|$", formats, re.M)
    ended = answer(program, [], b"")
    if (ended.returncode, ended.stderr.decode()) != (2, f"flp: {line}\n"):
        faults.append("the line of status 2")


def check_refusals(program, text):
    """The table of bodies behind one declaration: a text, and the words that refuse it."""
    front = re.search(r"Behind `([^`]*)`, which is tokens", text).group(1)
    for body, words in re.findall(r"^\| `((?:check|each)[^`]*)` \| (.*?) \|$", text, re.M):
        ended = answer(program, ["lengths"], front + body)
        wanted = "" if words.startswith("passes") else f"flp: circuit: {words.strip('`')}\n"
        if ended.stderr.decode() != wanted:
            faults.append(f"{body}: {ended.stderr.decode().strip()}")


def check_lengths(program, text):
    """The lengths of the circuits that the page gives in a row."""
    for circuit, numbers in re.findall(r"`(use [^`]*;)`[^.`]*?(?:lengths are|gives) ((?:\d+, )+\d+ and \d+)", text):
        ended = answer(program, ["lengths"], circuit)
        printed = [line.split()[1] for line in ended.stdout.decode().splitlines()]
        if printed != re.findall(r"\d+", numbers):
            faults.append(f"{circuit}: {' '.join(printed)}")


def main():
    formats, circuits = read("docs/FORMATS.md"), read("docs/CIRCUITS.md")
    check_dumps(formats)
    check_words(formats)
    check_table(read("docs/PROMISES.md"))
    check_pictures()
    check_version()
    program = sys.argv[1] if len(sys.argv) > 1 else os.path.join(TOP, "crates", "flp", "out", "flp")
    if os.path.exists(program):
        check_refusals(program, circuits)
        check_lengths(program, formats + circuits)
        check_printed(program, formats)
        check_dealt(program, formats)
        check_bodies(program, circuits)
        check_first_screen(program, read("README.md"))
        check_trials(program, read("README.md"), formats)
        check_usage(program, formats)
    else:
        print(f"skipped, since {program} is not built: what the program answers")
    print("\n".join(faults) or "the documents' examples are as they are shown")
    sys.exit(1 if faults else 0)


if __name__ == "__main__":
    main()
