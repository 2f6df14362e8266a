#!/usr/bin/env python3
"""Tests the client: against the example files, and against the built program where there is one.

    test_client.py [PROGRAM]        PROGRAM is crates/flp/out/flp where it is not given
"""
import io
import os
import struct
import subprocess
import sys

import flp_client as client

TOP = os.path.dirname(os.path.dirname(os.path.dirname(os.path.abspath(__file__))))
DATA = os.path.join(TOP, "crates", "flp_cases", "data")

# circuit, rows of a CSV file, and the aggregate that they have
SUMS = [
    ("use count;", [[1], [0], [1]], [2]),
    ("use sum max=5;", [[5], [0], [3]], [8]),
    ("use sumvec length=2 bits=3 chunk=2;", [[7, 1], [2, 0]], [9, 1]),
    ("use histogram length=4 chunk=2;", [[2], [0], [2], [3]], [1, 0, 2, 1]),
    ("use multihot length=4 weight=2 chunk=2;", [[1, 0, 1, 0], [0, 0, 0, 0], [0, 0, 1, 0]], [1, 0, 2, 0]),
]


# what `flp lengths` prints of the circuits of one's own, which crates/flp_cases/data/README.md has
OWN = {"body.job": [1, 0, 2, 1, 9, 4, 1], "check.job": [2, 0, 3, 5, 15, 6, 2]}


def same_as_example(name):
    """An example job file is made again from its text, its measurements and its random words."""
    wanted = open(os.path.join(DATA, name), "rb").read()
    shares, proofs, length, reports = struct.unpack_from("<4I", wanted, 12)
    text = wanted[28 : 28 + length].decode("ascii")
    lengths = client.Lengths(*OWN[name]) if name in OWN else client.standard_lengths(text)
    count = lengths.meas if lengths.inputs is None else lengths.inputs
    size = (len(wanted) - 28 - length) // reports
    rows, drawn, nonces = [], [], []
    for at in range(28 + length, len(wanted), size):
        numbers = struct.unpack_from(f"<{(size - 16) // 8}Q", wanted, at + 16)
        nonces.append(wanted[at : at + 16])
        rows.append(list(numbers[:count]))
        drawn += numbers[count:]
    kept, names = iter(drawn), iter(nonces)
    draw, random = client.words, client.secrets.token_bytes
    client.words = lambda count: [next(kept) for _ in range(count)]
    client.secrets.token_bytes = lambda count: next(names)
    try:
        assert client.job_file(text, lengths, shares, proofs, rows) == wanted, name
    finally:
        client.words, client.secrets.token_bytes = draw, random


def run(program, words, given):
    ended = subprocess.run([program, *words], input=given, capture_output=True)
    assert ended.returncode == 0, (words, ended.returncode, ended.stderr)
    return ended.stdout


def parts_of(parts, *batches):
    """The bytes of so many parts of batches."""
    sinks = [io.BytesIO() for _ in range(parts)]
    counts = client.split([io.BytesIO(batch) for batch in batches], sinks)
    made = [sink.getvalue() for sink in sinks]
    assert [client.read_front(io.BytesIO(part)).reports for part in made] == counts
    return made


def split_and_joined():
    """Parts hold the old claims and the records of the whole, each in its order, and one part is the whole."""
    for name in ("claimed.batch", "replayed.batch", "histogram.batch", "empty.batch", "buckets.batch"):
        batch = open(os.path.join(DATA, name), "rb").read()
        whole = client.read_front(io.BytesIO(batch))
        size = whole.record_size()
        assert parts_of(1, batch) == [batch], name
        claims, records = [], []
        for part in parts_of(3, batch):
            source = io.BytesIO(part)
            front = client.read_front(source)
            assert front.claims == sorted(front.claims)
            claims += front.claims
            records += [source.read(size) for _ in range(front.reports)]
        source = io.BytesIO(batch[len(whole.packed()) :])
        assert sorted(claims) == whole.claims
        assert sorted(records) == sorted(source.read(size) for _ in range(whole.reports)), name


def batches_joined():
    """Several batches are split as one that has all their old claims and records."""
    old, new = (open(os.path.join(DATA, name), "rb").read() for name in ("claimed.batch", "replayed.batch"))
    [made] = parts_of(1, new, old, old)
    front, claimed = client.read_front(io.BytesIO(made)), client.read_front(io.BytesIO(old))
    records = [batch[len(client.read_front(io.BytesIO(batch)).packed()) :] for batch in (new, old, old)]
    assert (front.reports, front.claims) == (6, claimed.claims)
    assert made[len(front.packed()) :] == b"".join(records)


def texts_add_up():
    """Endings of parts are those of the whole, with --min and --claims as without."""
    nonce = "0" * 31
    ones = f"{nonce}0 accepted\n{nonce}2 replayed\ncount 1\naggregate 1 {client.P - 1}\n"
    twos = f"{nonce}1 malformed 7\n{nonce}3 accepted\ncount 1\naggregate 0 2\n"
    ones += f"claim {nonce}0\nclaim {nonce}2\n"
    twos += f"claim {nonce}1\nclaim {nonce}3\n"
    both = [client.read_text(text.splitlines()) for text in (ones, twos)]
    claims = "".join(f"claim {nonce}{k}\n" for k in range(4))
    assert client.printed_ending(client.total(both)) == "count 2\naggregate 1 1\n" + claims
    assert client.printed_ending(client.total(both, 3)) == "count 2\nwithheld 0\n" + claims
    assert client.verdicts(twos.splitlines()) == {"malformed": 1, "accepted": 1}
    for text in ("count 0\n", "", f"{nonce}0 accepted\n", "count 0\nwithheld 0\n"):
        try:
            client.total([client.read_text(text.splitlines())])
            assert False, text
        except ValueError:
            pass


def buckets_add_up():
    """Endings of version 2 add up, and are withheld, bucket by bucket."""
    ones, twos = ("0" * 32 + " accepted\n" + "count 1\n" + lines for lines in (
        "bucket 0 count 0 aggregate 0 0\nbucket 1 count 1 aggregate 1 2\n",
        "bucket 0 count 0 aggregate 0 0\nbucket 1 count 1 aggregate 0 5\n"))
    both = [client.read_text(text.splitlines()) for text in (ones, twos)]
    lines = "count 2\nbucket 0 count 0 aggregate 0 0\nbucket 1 count 2 aggregate 1 7\n"
    assert client.printed_ending(client.total(both)) == lines
    lines = "count 2\nbucket 0 count 0 withheld 0\nbucket 1 count 2 aggregate 1 7\n"
    assert client.printed_ending(client.total(both, 2)) == lines
    assert client.read_text(lines.splitlines()).buckets[0] == client.Ending(0, withheld=0)


def counted(program, text, rows, aggregate, shares, proofs):
    """The program accepts each report and sums them up, as a whole and in three parts."""
    lengths = client.lengths_for(text, None)
    printed = run(program, ["lengths"], text.encode())
    assert client.printed_lengths(printed.decode()) == client.dataclasses.replace(lengths, inputs=None, points=())
    batch = run(program, ["prove"], client.job_file(text, lengths, shares, proofs, rows))
    whole = run(program, ["verify", "--workers", "1"], batch).decode().splitlines()
    assert client.verdicts(whole) == {"accepted": len(rows)}, whole
    ending = client.read_text(whole)
    assert (ending.count, ending.aggregate) == (len(rows), aggregate), whole
    parts = [run(program, ["verify", "--workers", "1"], part).decode().splitlines() for part in parts_of(3, batch)]
    assert client.total(map(client.read_text, parts)) == ending, parts
    assert sorted(line for part in parts for line in part[:-2]) == sorted(whole[:-2]), parts


def main():
    for name in sorted(os.listdir(DATA)):
        if name.endswith(".job"):
            same_as_example(name)
    split_and_joined()
    batches_joined()
    texts_add_up()
    buckets_add_up()
    assert client.chart([1, 0, 2], "a < b", ["yes", "no"]).count("<rect x=") == 3
    program = sys.argv[1] if len(sys.argv) > 1 else os.path.join(TOP, "crates", "flp", "out", "flp")
    if not os.path.exists(program):
        print(f"skipped, since {program} is not built: the tests against the program; the others passed")
        return
    for text, rows, aggregate in SUMS:
        for shares, proofs in ((2, 1), (3, 2)):
            counted(program, text, rows, aggregate, shares, proofs)
    print("passed")


if __name__ == "__main__":
    main()
