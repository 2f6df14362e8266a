#!/usr/bin/env python3
"""A client of flp in plain Python 3: makes job files of measurements, and reads what flp prints.

    flp_client.py jobs CIRCUIT [--shares S] [--proofs K] [--lengths TEXT] < measurements.csv > measurements.job
    flp_client.py split PREFIX BATCH .. --parts N [--lengths TEXT]
    flp_client.py add TEXT .. [--min M] [--ending]
    flp_client.py verdicts TEXT
    flp_client.py chart TEXT [--title WORDS] [--names A,B,..] [--bucket K] > chart.svg

`jobs` takes a row of numbers for each report, its measurement, or of another circuit than the standard ones the words
of its encoding, and draws nonces, shares and seeds from the system's randomness. CIRCUIT is a file with the circuit's
text. `split` puts the records of batches, one behind the other, into N batches by their nonces, PREFIX0.batch and so
on, so that equal nonces and their old claims meet in one of them. `add` makes one text of what `flp verify` printed of
such parts, without the verdicts where --ending is given, and withholds the aggregate of fewer than M reports.
`verdicts` counts the verdicts of a text by kind, and `chart` draws its aggregate as bars. Batches and texts are of
version 1 or 2; of version 2 the counts and aggregates add up, and are withheld, bucket by bucket.

The lengths of a standard circuit are worked out here; for another circuit, TEXT is what `flp lengths` printed.
"""
import argparse
import collections
import contextlib
import csv
import dataclasses
import html
import re
import secrets
import struct
import sys

P = 2**64 - 2**32 + 1


@dataclasses.dataclass(frozen=True)
class Lengths:
    """How many words each part has, as `flp lengths` prints them, and the sizes of the gadgets' domains."""

    meas: int
    joint: int
    prove: int
    query: int
    proof: int
    verifier: int
    outs: int
    inputs: int | None = None  # the numbers of a measurement; None where only encodings are taken
    points: tuple = ()  # for each gadget the size of its domain; () where it is not known

    def record_words(self, shares, proofs):
        return shares * (self.meas + proofs * self.proof) + proofs * (self.joint + self.query)


def domain(calls):
    """The size of a gadget's domain: the least power of two above the number of its calls."""
    return 1 << calls.bit_length()


def one_gadget(meas, joint, arity, calls, checks, outs, inputs):
    """The lengths of a circuit with one gadget of degree 2."""
    size = domain(calls)
    query = 1 + (checks if checks > 1 else 0)
    return Lengths(meas, joint, arity, query, arity + 2 * (size - 1) + 1, 2 + arity, outs, inputs, (size,))


def chunked(meas, chunk, checks, outs, inputs):
    """The lengths of a circuit whose range check goes by chunks, each with a joint word."""
    calls = -(-meas // chunk)
    return one_gadget(meas, calls, 2 * chunk, calls, checks, outs, inputs)


def standard_lengths(text):
    """The lengths of a standard circuit by its text, or None for a circuit of one's own."""
    words = re.sub(r"#[^\n]*", " ", text).split(maxsplit=2)
    if not words or words[0] != "use":
        return None
    name = words[1].rstrip(";")
    given = {key: int(value) for key, value in re.findall(r"(\w+)\s*=\s*(\d+)", text)}
    if name == "count":
        return one_gadget(1, 0, 2, 1, 1, 1, 1)
    if name == "sum":
        bits = given["max"].bit_length()
        return one_gadget(2 * bits, 0, 1, 2 * bits, 2 * bits + 1, 1, 1)
    if name == "sumvec":
        return chunked(given["length"] * given["bits"], given["chunk"], 1, given["length"], given["length"])
    if name == "histogram":
        return chunked(given["length"], given["chunk"], 2, given["length"], 1)
    if name == "multihot":
        meas = given["length"] + given["weight"].bit_length()
        return chunked(meas, given["chunk"], 2, given["length"], given["length"])
    raise ValueError(f"no standard circuit: {name}")


def printed_lengths(text):
    """The lengths that `flp lengths` printed. It doesn't print the domains, so no point can be tested."""
    lines = dict(line.split() for line in text.splitlines())
    return Lengths(**{key: int(lines[key]) for key in ("meas", "joint", "prove", "query", "proof", "verifier", "outs")})


def lengths_for(text, printed):
    if printed:
        return printed_lengths(open(printed, encoding="ascii").read())
    found = standard_lengths(text)
    if found is None:
        raise ValueError("a circuit of one's own needs --lengths, what `flp lengths` printed of it")
    return found


# ---- random words


def words(count):
    """So many words of the field: a draw of p or more is drawn again, never reduced."""
    drawn = list(struct.unpack(f"<{count}Q", secrets.token_bytes(8 * count)))
    for place, word in enumerate(drawn):
        while word >= P:
            word = secrets.randbits(64)
        drawn[place] = word
    return drawn


def point(size):
    """A query point outside the domain of this size; inside it, a wire would show an input."""
    while True:
        [drawn] = words(1)
        if pow(drawn, size, P) != 1:
            return drawn


def challenges(lengths):
    """The joint words and query words of one proof.

    A stand-in. Whoever knows these words before the shares are fixed can make a false report pass, so a deployment
    derives them outside, from all shares of the report, and doesn't draw them where the shares are made.
    """
    free = words(lengths.joint + lengths.query - len(lengths.points))
    return free + [point(size) for size in lengths.points]


# ---- job files


def job(lengths, shares, proofs, numbers):
    """The bytes of one job: a nonce, the measurement, the shares from 1 on, the seeds of all proofs, the challenges."""
    body = list(numbers)
    body += words((shares - 1) * (lengths.meas + proofs * lengths.proof))
    body += words(proofs * lengths.prove)
    for _ in range(proofs):
        body += challenges(lengths)
    return secrets.token_bytes(16) + struct.pack(f"<{len(body)}Q", *body)


def job_file(text, lengths, shares, proofs, rows):
    """The bytes of a job file over measurements, or over the encodings of a circuit of one's own."""
    count = lengths.meas if lengths.inputs is None else lengths.inputs
    for place, row in enumerate(rows):
        if len(row) != count:
            raise ValueError(f"row {place} has {len(row)} numbers, and {count} are due")
    circuit = text.encode("ascii")
    head = b"FLPTASKS" + struct.pack("<5I", 1, shares, proofs, len(circuit), len(rows))
    return head + circuit + b"".join(job(lengths, shares, proofs, row) for row in rows)


# ---- batches


@dataclasses.dataclass(frozen=True)
class Front:
    """What stands in front of a batch's records."""

    shares: int
    proofs: int
    text: bytes
    claims: list
    reports: int
    buckets: int | None = None  # of version 2, where each record has its bucket behind the nonce; None in version 1

    def packed(self):
        version, more = (1, []) if self.buckets is None else (2, [self.buckets])
        numbers = [version, self.shares, self.proofs, len(self.text), len(self.claims), self.reports, *more]
        return b"FLPBATCH" + struct.pack(f"<{len(numbers)}I", *numbers) + self.text + b"".join(self.claims)

    def record_size(self, printed=None):
        """The bytes of a record."""
        words = lengths_for(self.text.decode("ascii"), printed).record_words(self.shares, self.proofs)
        return (16 if self.buckets is None else 20) + 8 * words


def read_exactly(source, size, what):
    read = source.read(size)
    if len(read) != size:
        raise ValueError(f"the batch ends within {what}")
    return read


def read_front(source):
    """Reads a batch up to its first record."""
    head = read_exactly(source, 32, "its head")
    version, shares, proofs, length, claims, reports = struct.unpack_from("<6I", head, 8)
    if head[:8] != b"FLPBATCH" or version not in (1, 2):
        raise ValueError("no batch of version 1 or 2")
    [buckets] = struct.unpack("<I", read_exactly(source, 4, "its head")) if version == 2 else [None]
    text = read_exactly(source, length, "its circuit text")
    olds = read_exactly(source, 16 * claims, "its old claims")
    return Front(shares, proofs, text, [olds[at : at + 16] for at in range(0, len(olds), 16)], reports, buckets)


def part_of(nonce, parts):
    """The part to which a nonce falls. Any function of the nonce serves."""
    return int.from_bytes(nonce[:16], "little") % parts


def front_of_all(fronts):
    """The front of several batches as one: they agree in shares, proofs and text, and their claims are merged."""
    first = fronts[0]
    if len({(front.shares, front.proofs, front.text, front.buckets) for front in fronts}) > 1:
        raise ValueError("the batches differ in their shares, proofs, circuit text or buckets")
    claims = sorted(set().union(*(front.claims for front in fronts)))
    return dataclasses.replace(first, claims=claims, reports=0)


def split(sources, sinks, printed=None):
    """Writes batches, as if they were one, to so many sinks, which can be sought, by the nonces of records and claims.

    The records are read once and none is kept; how many there are of each part is written into its head at the end.
    """
    fronts, parts = [read_front(source) for source in sources], len(sinks)
    front = front_of_all(fronts)
    size, counts = front.record_size(printed), [0] * parts
    for part, sink in enumerate(sinks):
        mine = [old for old in front.claims if part_of(old, parts) == part]
        sink.write(dataclasses.replace(front, claims=mine).packed())
    for source, given in zip(sources, fronts):
        for _ in range(given.reports):
            record = read_exactly(source, size, "its records")
            part = part_of(record, parts)
            sinks[part].write(record)
            counts[part] += 1
        if source.read(1):
            raise ValueError("bytes follow a batch's last record")
    for sink, count in zip(sinks, counts):
        sink.seek(28)
        sink.write(struct.pack("<I", count))
    return counts


# ---- texts


@dataclasses.dataclass
class Ending:
    """What `flp verify` printed behind the verdicts, of a whole batch or of a bucket."""

    count: int | None = None
    aggregate: list | None = None  # None where a policy withheld it
    withheld: int | None = None
    buckets: list = dataclasses.field(default_factory=list)  # of version 2, an ending of each; else none
    claims: list = dataclasses.field(default_factory=list)


def read_text(lines, verdict=lambda line: None):
    """The ending of a text, whose verdict lines are handed on one by one."""
    found = Ending()
    for line in lines:
        line = line.rstrip("\n")
        name, _, rest = line.partition(" ")
        if re.fullmatch("[0-9a-f]{32}", name) and found.count is None:
            verdict(line)
        elif name == "count" and found.count is None:
            found.count = int(rest)
        elif name == "aggregate" and found.count is not None:
            found.aggregate = [int(number) for number in rest.split()]
        elif name == "withheld" and found.count is not None:
            found.withheld = int(rest)
        elif name == "bucket" and found.count is not None:
            found.buckets.append(read_bucket(rest, len(found.buckets)))
        elif name == "claim" and found.count is not None:
            found.claims.append(rest)
        else:
            raise ValueError(f"no line of a text: {line}")
    if found.aggregate is None and found.withheld is None and not found.buckets:
        raise ValueError("the text has no count and aggregate at its end: it is cut, or verify failed")
    return found


def read_bucket(line, place):
    """The ending of a bucket, by what stands behind the word."""
    found = re.fullmatch(r"(\d+) count (\d+) (?:aggregate ([\d ]+)|withheld (\d+))", line)
    if found is None or int(found[1]) != place:
        raise ValueError(f"no line of bucket {place}: {line}")
    aggregate = None if found[3] is None else [int(number) for number in found[3].split()]
    return Ending(int(found[2]), aggregate, None if found[4] is None else int(found[4]))


def sums(endings, least):
    """The count and the aggregate, modulo p, of several endings; withheld where fewer reports count."""
    if any(ending.aggregate is None for ending in endings):
        raise ValueError("a part's aggregate is withheld: ask --min of the whole, not of parts")
    if len({len(ending.aggregate) for ending in endings}) > 1:
        raise ValueError("the parts have aggregates of different lengths")
    count = sum(ending.count for ending in endings)
    if count < least:
        return Ending(count, withheld=0)
    return Ending(count, [sum(column) % P for column in zip(*(ending.aggregate for ending in endings))])


def total(endings, least=0):
    """The ending of a batch by those of its parts: counts and aggregates add up, and claims are merged. Of version 2,
    bucket by bucket."""
    endings = list(endings)
    if len({len(ending.buckets) for ending in endings}) > 1:
        raise ValueError("the parts have different numbers of buckets")
    if endings[0].buckets:
        made = Ending(sum(ending.count for ending in endings))
        made.buckets = [sums(parts, least) for parts in zip(*(ending.buckets for ending in endings))]
    else:
        made = sums(endings, least)
    made.claims = sorted(claim for ending in endings for claim in ending.claims)
    return made


def printed_end(ending):
    """The aggregate of an ending, or what withholds it."""
    if ending.aggregate is None:
        return f"withheld {ending.withheld}"
    return " ".join(["aggregate", *map(str, ending.aggregate)])


def printed_ending(ending):
    """The lines of an ending, as `flp verify` prints them."""
    lines = [f"bucket {k} count {own.count} {printed_end(own)}" for k, own in enumerate(ending.buckets)]
    lines = [f"count {ending.count}", *(lines or [printed_end(ending)])]
    return "".join(line + "\n" for line in lines + [f"claim {claim}" for claim in ending.claims])


def verdicts(lines):
    """How many verdicts a text has of each kind."""
    kinds = collections.Counter()
    read_text(lines, lambda line: kinds.update([line.split()[1]]))
    return kinds


def chart(numbers, title, names=()):
    """A bar for each number, as SVG."""
    names = list(names) + [str(place) for place in range(len(names), len(numbers))]
    bar, room = 44, 160
    width, most = 40 + bar * max(len(numbers), 1), max(numbers, default=0) or 1
    size = f'viewBox="0 0 {width} {room + 70}" font-family="sans-serif" font-size="11"'
    rows = [f'<svg xmlns="http://www.w3.org/2000/svg" {size}>']
    rows.append(f'<rect width="{width}" height="{room + 70}" fill="#ffffff"/>')
    rows.append(f'<text x="20" y="18" font-size="13">{html.escape(title)}</text>')
    for place, number in enumerate(numbers):
        tall, left = round(room * number / most, 2), 20 + bar * place
        middle, top = left + (bar - 8) / 2, room + 44 - tall
        rows.append(f'<rect x="{left}" y="{top:g}" width="{bar - 8}" height="{tall:g}" fill="#4477aa"/>')
        rows.append(f'<text x="{middle:g}" y="{top - 4:g}" text-anchor="middle">{number}</text>')
        rows.append(f'<text x="{middle:g}" y="{room + 60}" text-anchor="middle">{html.escape(names[place])}</text>')
    return "\n".join(rows + ["</svg>", ""])


# ---- the command line


def opened(path):
    return open(path, encoding="ascii")


def run_jobs(given):
    text = opened(given.circuit).read()
    rows = [[int(number) for number in row] for row in csv.reader(sys.stdin) if row]
    made = job_file(text, lengths_for(text, given.lengths), given.shares, given.proofs, rows)
    sys.stdout.buffer.write(made)


def run_split(given):
    with contextlib.ExitStack() as files:
        sources = [files.enter_context(open(name, "rb")) for name in given.batches]
        sinks = [files.enter_context(open(f"{given.prefix}{part}.batch", "wb")) for part in range(given.parts)]
        split(sources, sinks, given.lengths)


def run_add(given):
    pass_on = (lambda line: None) if given.ending else print
    print(printed_ending(total([read_text(opened(name), pass_on) for name in given.texts], given.min)), end="")


def run_verdicts(given):
    for kind, count in sorted(verdicts(opened(given.text)).items()):
        print(kind, count)


def run_chart(given):
    ending = read_text(opened(given.text))
    if ending.buckets:
        if given.bucket is None or given.bucket >= len(ending.buckets):
            raise ValueError(f"the text has {len(ending.buckets)} buckets: say which one by --bucket")
        ending = ending.buckets[given.bucket]
    if ending.aggregate is None:
        raise ValueError("the aggregate is withheld")
    print(chart(ending.aggregate, given.title, given.names.split(",") if given.names else ()), end="")


def main():
    parser = argparse.ArgumentParser(description=__doc__, formatter_class=argparse.RawDescriptionHelpFormatter)
    commands = parser.add_subparsers(required=True)

    def command(name, run, *words):
        made = commands.add_parser(name)
        made.set_defaults(run=run)
        for word in words:
            made.add_argument(word)
        return made

    jobs = command("jobs", run_jobs, "circuit", "--lengths")
    jobs.add_argument("--shares", type=int, default=2, choices=range(2, 17), metavar="2..16")
    jobs.add_argument("--proofs", type=int, default=1, choices=range(1, 17), metavar="1..16")
    parts = command("split", run_split, "prefix", "--lengths")
    parts.add_argument("batches", nargs="+")
    parts.add_argument("--parts", type=int, required=True)
    add = command("add", run_add)
    add.add_argument("texts", nargs="+")
    add.add_argument("--min", type=int, default=0)
    add.add_argument("--ending", action="store_true")
    command("verdicts", run_verdicts, "text")
    drawing = command("chart", run_chart, "text", "--names")
    drawing.add_argument("--title", default="aggregate")
    drawing.add_argument("--bucket", type=int)
    given = parser.parse_args()
    given.run(given)


if __name__ == "__main__":
    try:
        main()
    except ValueError as fault:
        sys.exit(f"flp_client: {fault}")
