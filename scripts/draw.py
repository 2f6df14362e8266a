#!/usr/bin/env python3
"""Draws the pictures of the documents, as SVG.

    draw.py             writes docs/layers.svg, record.svg, costs.svg and beside.svg
    draw.py --check     names those that differ from what would be written

The layers are those of crates.txt, whose comments name a layer, as "# language: circuit texts". The costs are two
tables of docs/COSTS.md: the reports a second of each circuit, and how many times as long they take as by a hand-tuned
program.
"""
import os
import re
import sys

TOP = os.path.dirname(os.path.dirname(os.path.abspath(__file__)))
WIDTH = 1040
COLOURS = ["#dbe7f3", "#e3efdc", "#f6ecd2", "#f3dfd9", "#e6def0", "#d9eeee", "#f1f1d8", "#ebe3da", "#e8e8e8"]
TEXT, LINE, BAR = "#222222", "#8899aa", "#4477aa"


def read(name):
    return open(os.path.join(TOP, name), encoding="utf8").read()


def svg(height, parts):
    """A picture of this height with these parts, on white."""
    size = f'viewBox="0 0 {WIDTH} {height}" font-family="sans-serif" font-size="12"'
    head = f'<svg xmlns="http://www.w3.org/2000/svg" {size}>'
    ground = f'<rect x="0" y="0" width="{WIDTH}" height="{height}" fill="#ffffff"/>'
    return "\n".join([head, ground, *parts, "</svg>", ""])


def text(x, y, words, anchor="middle", size=12):
    words = words.replace("&", "&amp;").replace("<", "&lt;")
    return f'<text x="{x:g}" y="{y:g}" text-anchor="{anchor}" font-size="{size}" fill="{TEXT}">{words}</text>'


def box(x, y, wide, tall, colour, title=""):
    inner = f"<title>{title}</title>" if title else ""
    place = f'x="{x:g}" y="{y:g}" width="{wide:g}" height="{tall:g}"'
    return f'<rect {place} rx="4" fill="{colour}" stroke="{LINE}">{inner}</rect>'


# ---- the layers of crates


def crates():
    """The layers in their order, each with its crates, and for each crate the crates that it stands on."""
    layers, below, layer = {}, {}, None
    for line in read("crates.txt").splitlines():
        if named := re.fullmatch(r"# (\w+)(, [^:]*)?(: .*)?", line):
            layer = layers.setdefault(named[1], [])
        elif ":" in line and not line.startswith("#"):
            name, deps = line.split(":")
            layer.append(name.split()[0])
            below[name.split()[0]] = deps.split()
    return layers, {name: [dep for dep in deps if dep in below] for name, deps in below.items()}


def all_below(below):
    """For each crate all crates that it stands on, at any depth. Crates stand in crates.txt above what they name."""
    whole = {}
    for name, deps in below.items():
        whole[name] = set(deps).union(*(whole[dep] for dep in deps))
    return whole


def nearest(below):
    """For each crate those that it stands on and that none of the others stands on."""
    whole = all_below(below)
    return {name: [dep for dep in deps if not any(dep in whole[over] for over in deps)] for name, deps in below.items()}


def rows_of(names, below):
    """The crates of a layer in rows: each behind those of the layer that it stands on."""
    depth = {}
    for name in names:
        depth[name] = max((depth[dep] + 1 for dep in below[name] if dep in depth), default=0)
    return [[name for name in names if depth[name] == level] for level in range(max(depth.values()) + 1)]


def places(rows, edges):
    """The place of each crate across its row, near the crates that it is tied to, after some rounds."""
    spot = {name: (k + 0.5) / len(row) for row in rows for k, name in enumerate(row)}
    tied = {name: list(edges[name]) for name in spot}
    for name in spot:
        for dep in edges[name]:
            tied[dep].append(name)
    for _ in range(24):
        for row in rows:
            row.sort(key=lambda name: (sum(spot[other] for other in tied[name]) / max(len(tied[name]), 1), name))
            for k, name in enumerate(row):
                spot[name] = (k + 0.5) / len(row)
    return spot


def draw_layers():
    layers, below = crates()
    edges = nearest(below)
    banded = [(layer, rows_of(names, below)) for layer, names in layers.items()]
    spot = places([row for _, rows in banded for row in rows], edges)
    left, wide, tall, step = 110, 102, 24, 44
    middle = {name: left + (WIDTH - left - 10) * across for name, across in spot.items()}
    height = 20 + sum(step * len(rows) + 12 for _, rows in banded)
    parts, boxes, top = [], [], {}
    y = height - 10
    for number, (layer, rows) in enumerate(banded):
        tall_band = step * len(rows)
        y -= tall_band
        parts.append(box(5, y, WIDTH - 10, tall_band, COLOURS[number % len(COLOURS)]))
        parts.append(text(14, y + 18, layer, "start", 13))
        for level, row in enumerate(rows):
            for name in row:
                top[name] = y + tall_band - step * (level + 1) + (step - tall) / 2
        y -= 12
    for name, spots in edges.items():
        for dep in spots:
            x1, y1, x2, y2 = middle[name], top[name] + tall, middle[dep], top[dep]
            half = (y1 + y2) / 2
            curve = f"M{x1:.0f} {y1:.0f} C{x1:.0f} {half:.0f} {x2:.0f} {half:.0f} {x2:.0f} {y2:.0f}"
            parts.append(f'<path d="{curve}" fill="none" stroke="{LINE}"/>')
    for name in below:
        said = f"{name} stands on {', '.join(below[name]) or 'none'}"
        boxes.append(box(middle[name] - wide / 2, top[name], wide, tall, "#ffffff", said))
        boxes.append(text(middle[name], top[name] + 17, name))
    return svg(height, parts + boxes)


# ---- the way of a record


WAY = [
    ("bytes of a record", "flp_report", "cut out of a segment, by its lengths"),
    ("nonce", "flp_known", "new, or seen before: replayed"),
    ("words below p", "flp_worker", "else malformed; parts of shares, joint and query words"),
    ("query of each proof", "flp_query", "public values and weights once; else in a domain"),
    ("verifier of each share", "flp_query", "answered from the share's own words"),
    ("sum of the verifiers", "flp_share", "the verifier of the report"),
    ("decision", "flp_query", "check 0, and each gadget true at its point"),
    ("verdict", "flp_round", "accepted or rejected, in the order of the file"),
]
ENDS = [
    ("its line", "flp_verdict", "written before the next segment"),
    ("policies, count", "flp_verify", "each is told the verdict"),
    ("row of outs", "flp_tally", "added once, where accepted"),
]


def step_box(x, y, wide, words, crate, said, colour):
    middle = x + wide / 2
    lines = [text(middle, y + 18, words, size=13), text(middle, y + 34, crate), text(middle, y + 50, said, size=10)]
    return [box(x, y, wide, 58, colour), *lines]


def arrow(x1, y1, x2, y2):
    head = f"M{x2 - 4} {y2 - 7} L{x2} {y2} L{x2 + 4} {y2 - 7}"
    return f'<path d="M{x1} {y1} L{x2} {y2} {head}" fill="none" stroke="{TEXT}"/>'


def draw_record():
    wide, x = 330, (WIDTH - 330) // 2
    parts, y = [], 10
    for number, (words, crate, said) in enumerate(WAY):
        parts += step_box(x, y, wide, words, crate, said, COLOURS[number % len(COLOURS)])
        if number + 1 < len(WAY):
            parts.append(arrow(WIDTH // 2, y + 58, WIDTH // 2, y + 78))
        y += 78
    for number, (words, crate, said) in enumerate(ENDS):
        at = 20 + number * 340
        parts.append(arrow(WIDTH // 2, y - 20, at + 160, y + 16))
        parts += step_box(at, y + 16, 320, words, crate, said, COLOURS[-1])
    return svg(y + 88, parts)


# ---- what a report costs


def table(columns):
    """The rows of the table of docs/COSTS.md with these columns."""
    head = "| " + " | ".join(columns) + " |\n"
    rows = read("docs/COSTS.md").split(head)[1].split("\n\n")[0].splitlines()[1:]
    return [[cell.strip() for cell in row.strip("|").split("|")] for row in rows]


def bars(title, rows):
    """A bar for each row of a name, a number and the words behind the bar."""
    most = max(number for _, number, _ in rows)
    parts, y = [text(10, 20, title, "start", 13)], 36
    for name, number, words in rows:
        long = 560 * number / most
        parts += [text(330, y + 17, name, "end"), box(340, y, long, 24, BAR), text(350 + long, y + 17, words, "start")]
        y += 34
    return svg(y + 4, parts)


def draw_costs():
    rows = []
    for name, size, rate in table(["circuit", "bytes of a report", "reports a second"]):
        cost = 1e6 / int(rate.replace(",", ""))
        rows.append((name, cost, f"{cost:.1f}, {size} bytes"))
    return bars("microseconds a report, two shares and one proof, one worker (docs/COSTS.md)", rows)


def draw_beside():
    rows = [(name, float(ratio), ratio) for name, ratio in table(["report", "times as long"])]
    return bars("times as long as a hand-tuned program without proofs, one worker (docs/COSTS.md)", rows)


PICTURES = {"layers": draw_layers, "record": draw_record, "costs": draw_costs, "beside": draw_beside}


def main():
    differ = 0
    for name, draw in PICTURES.items():
        path, made = os.path.join(TOP, "docs", name + ".svg"), draw()
        if sys.argv[1:] == ["--check"]:
            if not os.path.exists(path) or open(path, encoding="utf8").read() != made:
                print(f"docs/{name}.svg differs")
                differ = 1
        else:
            open(path, "w", encoding="utf8").write(made)
    sys.exit(differ)


if __name__ == "__main__":
    main()
