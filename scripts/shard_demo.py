#!/usr/bin/env python3
"""Verifies a batch whole and in parts, and compares: the same verdicts, count, aggregate and claims.

    shard_demo.py [--reports N] [--parts K] [--at-once J] [--workers W] [--circuit TEXT] [--seed S]
                  [--dask | --scheduler ADDRESS] [--keep FOLDER]

The batch has N reports (1,000,000) of which most are honest, some false, some malformed, some repeat an earlier nonce
and some an old claim. Each step is printed with its seconds by the clock and of processors and, for runs of `flp verify`,
the largest peak of memory.
Parts are verified J at a time (4), by W workers each (1): by this program alone, on the processes of a cluster that
Dask starts here (--dask), or on those of a scheduler that runs (--scheduler), which must see the same folder. FLP names
the program where it is not crates/flp/out/flp. Dask is Debian's python3-distributed: run it by /usr/bin/python3.
"""
import argparse
import concurrent.futures
import io
import os
import random
import struct
import subprocess
import tempfile
import time

import measure  # which finds the client
import flp_client as client
from random_inputs import measurement

POOL = 500  # honest reports that `flp prove` makes; the batch repeats them under nonces of their own
CLAIMS = 1000


def honest_records(program, text, drawn):
    """Honest reports in two shares with one proof, without their nonces."""
    lengths = client.lengths_for(text, None)
    jobs = client.job_file(text, lengths, 2, 1, [measurement(drawn, text)[0] for _ in range(POOL)])
    batch = io.BytesIO(subprocess.run([program, "prove"], input=jobs, capture_output=True, check=True).stdout)
    front = client.read_front(batch)
    size = front.record_size()
    return front, [batch.read(size)[16:] for _ in range(front.reports)]


def spoiled(body, place):
    """A report with a word changed: every other one is no word of the field."""
    at = 8 * (place % (len(body) // 8))
    word = client.P + 1 if place % 2 else (struct.unpack_from("<Q", body, at)[0] + 1) % client.P
    return body[:at] + struct.pack("<Q", word) + body[at + 8 :]


def write_batch(path, program, text, reports, drawn):
    """Writes the batch: of 100 reports one is spoiled, one has an earlier nonce and one an old claim."""
    front, pool = honest_records(program, text, drawn)
    claims = sorted({drawn.randbytes(16) for _ in range(CLAIMS)})
    nonces = [drawn.randbytes(16)]
    with open(path, "wb") as file:
        file.write(client.Front(2, 1, front.text, claims, reports).packed())
        for place in range(reports):
            body, kind = pool[drawn.randrange(POOL)], place % 100
            nonce = drawn.choice({17: nonces, 18: claims}[kind]) if kind in (17, 18) else drawn.randbytes(16)
            if len(nonces) < 100000:
                nonces.append(nonce)
            file.write(nonce + (spoiled(body, place // 100) if kind == 19 else body))


def verify_all(given, folder):
    """Verifies all parts, some at once, and answers how each run ended."""
    command = [given.program, "verify", "--workers", str(given.workers), "--claims"]
    runs = [(command, f"{folder}/part{k}.batch", f"{folder}/part{k}.text") for k in range(given.parts)]
    if given.dask or given.scheduler:
        from distributed import Client

        alone = {"n_workers": given.at_once, "threads_per_worker": 1}
        with Client(given.scheduler) if given.scheduler else Client(**alone) as cluster:
            cluster.upload_file(measure.__file__)
            return cluster.gather([cluster.submit(measure.run, *run, pure=False) for run in runs])
    with concurrent.futures.ThreadPoolExecutor(given.at_once) as pool:
        return list(pool.map(lambda run: measure.run(*run), runs))


def compare(folder, parts):
    """Each verdict line of the whole is the next one of its nonce's part, and the ending is that of all parts."""
    files = [open(f"{folder}/part{k}.text", encoding="ascii") for k in range(parts)]

    def next_of_part(line):
        nonce = bytes.fromhex(line[:32])
        met = files[client.part_of(nonce, parts)].readline().rstrip("\n")
        assert met == line, f"the whole says {line}, its part {met}"

    with open(f"{folder}/whole.text", encoding="ascii") as whole:
        ending = client.read_text(whole, next_of_part)
    assert ending == client.total(client.read_text(file) for file in files), "the endings differ"
    return ending


def timed(name, work):
    """Does some work and prints its seconds."""
    start, used = time.monotonic(), time.process_time()
    result = work()
    print(f"| {name} | {time.monotonic() - start:.2f} | {time.process_time() - used:.2f} | |", flush=True)
    return result


def split(folder, parts):
    with open(f"{folder}/whole.batch", "rb") as source:
        sinks = [open(f"{folder}/part{k}.batch", "wb") for k in range(parts)]
        client.split([source], sinks)
        for sink in sinks:
            sink.close()


def run(given, folder):
    drawn = random.Random(given.seed)
    whole, text = f"{folder}/whole.batch", f"{folder}/whole.text"
    print("| step | seconds | of processors | peak of memory, MB |\n|---|---|---|---|")
    timed("make the batch", lambda: write_batch(whole, given.program, given.circuit, given.reports, drawn))
    alone = measure.run([given.program, "verify", "--workers", str(given.workers), "--claims"], whole, text)
    assert alone.status == 0, f"the whole: status {alone.status}"
    print(f"| verify the whole | {alone.seconds:.2f} | {alone.used:.2f} | {alone.peak:.0f} |")
    timed(f"split it into {given.parts}", lambda: split(folder, given.parts))
    start = time.monotonic()
    ended = verify_all(given, folder)
    seconds, used, peak = time.monotonic() - start, sum(part.used for part in ended), max(part.peak for part in ended)
    assert all(part.status == 0 for part in ended), "a part is not verified"
    print(f"| verify the parts, {given.at_once} at once | {seconds:.2f} | {used:.2f} | {peak:.0f} |")
    ending = timed("add them up and compare", lambda: compare(folder, given.parts))
    print(f"\nThe parts have the verdicts and the claims of the whole, the count {ending.count}, and the aggregate:")
    print(*ending.aggregate)


def main():
    parser = argparse.ArgumentParser(description=__doc__, formatter_class=argparse.RawDescriptionHelpFormatter)
    parser.add_argument("--reports", type=int, default=1000000)
    parser.add_argument("--parts", type=int, default=8)
    parser.add_argument("--at-once", type=int, default=4)
    parser.add_argument("--workers", type=int, default=1)
    parser.add_argument("--circuit", default="use count;")
    parser.add_argument("--seed", type=int, default=1)
    parser.add_argument("--dask", action="store_true")
    parser.add_argument("--scheduler")
    parser.add_argument("--keep")
    given = parser.parse_args()
    given.program = measure.program()
    if given.keep:
        os.makedirs(given.keep, exist_ok=True)
        return run(given, os.path.abspath(given.keep))
    with tempfile.TemporaryDirectory() as folder:
        run(given, folder)


if __name__ == "__main__":
    main()
