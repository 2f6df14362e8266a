#!/usr/bin/env bash
# Runs, over the program that `rt ci` built (or the one that FLP names), all that stands outside the gate, and ends at the
# first that differs: the documents, the client, parts of a batch, loads, refused memory, random inputs. PERCENT (10)
# scales the numbers of reports and inputs; at 100 there are 10^7 reports and 10^6 inputs, by four processes.
#
#    after_gate.sh [PERCENT]
set -euo pipefail

top=$(cd "$(dirname "${BASH_SOURCE[0]}")/.." && pwd)
percent=${1:-10}
export FLP=${FLP:-$top/crates/flp/out/flp} PYTHONDONTWRITEBYTECODE=1
[ -x "$FLP" ] || { echo "$FLP is not built: rt ci makes it" >&2; exit 1; }
FLP=$(realpath "$FLP")

echo '## Documents, examples and client'
python3 "$top/scripts/make_examples.py" --check
python3 "$top/scripts/check_docs.py" "$FLP"
python3 "$top/clients/python/test_client.py" "$FLP"
echo '## Parts of a batch'
python3 "$top/scripts/shard_demo.py" --reports $((10000 * percent))
echo '## Loads'
python3 "$top/scripts/load.py" --scale "$percent"
echo '## Refused memory'
python3 "$top/scripts/fail_alloc.py" --at-once 4
echo '## Random inputs'
room=$(mktemp -d)
trap 'rm -r "$room"' EXIT
jobs=()
for seed in 1 2 3 4; do
  python3 "$top/scripts/fuzz.py" --seed "$seed" --count $((2500 * percent)) --keep fuzz-found >"$room/$seed" 2>&1 &
  jobs+=($!)
done
failed=0
for job in "${jobs[@]}"; do
  wait "$job" || failed=1
done
cat "$room"/*
exit "$failed"
