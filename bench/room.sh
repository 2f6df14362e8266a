# Read by the benches: `furnish NAME CRATE...` makes a folder of its own, `room`, with those crates of the
# project and an empty crate bench_NAME; `measure NAME` proves that crate and runs it.
top="$(cd "$(dirname "${BASH_SOURCE[0]}")/.." && pwd)"
room="$(mktemp -d)"
trap 'rm -rf "$room"' EXIT

furnish() {
    local name="$1" crate part
    shift
    mkdir -p "$room/crates/bench_$name/src"
    for crate in "$@"; do
        mkdir "$room/crates/$crate"
        for part in src specs proofs; do
            [ ! -d "$top/crates/$crate/$part" ] || cp -r "$top/crates/$crate/$part" "$room/crates/$crate/"
        done
    done
}

measure() {
    cd "$room/crates/bench_$1"
    "${RT:-rt}" run 2>"$room/log" || { cat "$room/log"; exit 1; }
}
