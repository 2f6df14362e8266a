#!/usr/bin/env bash
# Times `verify`, outside the gate, on a batch of each standard circuit: one honest report in two shares, so many times
# (1,000, or the number that is given), each time with a nonce of its own. Each line is the circuit, the bytes of a
# record, the milliseconds of a processor for all reports beyond those for none, and how many reports that is a second.
# Give RT to name another command than `rt run --`.
set -eu
top="$(cd "$(dirname "${BASH_SOURCE[0]}")/.." && pwd)"
reports="${1:-1000}"
run="${RT:-rt run --}"
room="$(mktemp -d)"
trap 'rm -rf "$room"' EXIT

PYTHONDONTWRITEBYTECODE=1 PYTHONPATH="$top/scripts" python3 - "$room" "$reports" <<'PROGRAM'
import os
import sys

from make_examples import Batch, bits, count_circuit, histogram_circuit, multihot_circuit, report
from make_examples import sum_circuit, sumvec_circuit


def one_at(place, length):
    return [int(k == place) for k in range(length)]


# Each circuit with an encoding: 12345 below 2^20; sixteen numbers of 16 bits; place 100 of 256; eight places of 64.
CIRCUITS = {
    "count": (count_circuit(), [1]),
    "sum": (sum_circuit(2**20 - 1), bits(12345, 20) * 2),
    "sumvec": (sumvec_circuit(16, 16, 16), [b for k in range(16) for b in bits(4097 * k, 16)]),
    "histogram": (histogram_circuit(256, 16), one_at(100, 256)),
    "multihot": (multihot_circuit(64, 8, 8), [1] * 8 + [0] * 56 + bits(8 + 7, 4)),
}


def write(path, batch, record, count):
    """Writes the batch with this record so many times, each time with its number as the nonce."""
    content = batch.content()
    with open(path, "wb") as file:
        file.write(content[:28] + count.to_bytes(4, "little") + content[32:])
        for number in range(count):
            file.write(number.to_bytes(16, "little") + record)


folder, count = sys.argv[1], int(sys.argv[2])
for name, (circuit, x) in CIRCUITS.items():
    points = [2] * len(circuit.gadgets)
    weights = list(range(1, circuit.query - len(points) + 1))
    joint = [list(range(2, circuit.joint + 2))]
    given = report(circuit, x, joint=joint, query=[weights + points])
    assert Batch(circuit, [(0, given)]).verdict(given.words) == "accepted", name
    record = b"".join(word.to_bytes(8, "little") for word in given.words)
    write(os.path.join(folder, f"{name}.none"), Batch(circuit, []), record, 0)
    write(os.path.join(folder, f"{name}.all"), Batch(circuit, []), record, count)
    with open(os.path.join(folder, f"{name}.size"), "w") as file:
        file.write(f"{16 + len(record)}\n")
PROGRAM

# Runs `verify` on a batch, sees that it counts so many reports, and prints the milliseconds of a processor.
milliseconds() {
    local TIMEFORMAT='%U %S' used
    used="$({ time $run verify --workers 1 <"$1" >"$room/text"; } 2>&1 | tail -n 1)"
    grep -q "^count $2\$" "$room/text"
    awk '{ printf "%d\n", 1000 * ($1 + $2) }' <<<"$used"
}

cd "$top/crates/flp"
milliseconds "$room/count.none" 0 >/dev/null
for size in "$room"/*.size; do
    name="$(basename "$size" .size)"
    none="$(milliseconds "$room/$name.none" 0)"
    all="$(milliseconds "$room/$name.all" "$reports")"
    time=$((all > none ? all - none : 1))
    echo "$name $(cat "$size") bytes $time ms $((reports * 1000 / time)) reports/s"
done
