#!/usr/bin/env bash
# Times the program, outside the gate, on texts and files that strangers could send, and prints two tables (hostile.py tells more).
# Give FLP the path of the built program: seconds and the peak of memory are then its own, and not also those of `rt run --`.
set -eu
top="$(cd "$(dirname "${BASH_SOURCE[0]}")/.." && pwd)"
run="${FLP:-rt run --}"
cd "$top/crates/flp"
# shellcheck disable=SC2086
PYTHONDONTWRITEBYTECODE=1 python3 "$top/bench/hostile.py" $run
