#!/bin/sh
# Makes what is stored of the second reader's output: the sample recordings, the listing of one, the rows of two and the breaks of one, and what the
# programs have to print for rt and the C host for its test. `samples/make.sh check` compares instead, and fails where a file differs.
set -u
root=$(cd "$(dirname "$0")/.." && pwd -P) || exit 2
cd "$root/tests" || exit 2
export CARGO_TARGET_DIR="$root/target/cargo"
made=$(mktemp) || exit 2
trap 'rm -f "$made"' EXIT
mode=${1:-make} failed=0

# FILE WHAT [INPUT [TYPE]]: the file is what `second WHAT TYPE` prints for the input
stored() {
    cargo run --offline --locked --quiet --bin second -- "$2" ${4+"$4"} <"${3:-/dev/null}" >"$made" || exit 2
    if [ "$mode" = check ]; then
        cmp -s "$made" "$root/$1" || { echo "samples: $1 is not what the second reader prints" && failed=1; }
    else
        cp "$made" "$root/$1" && chmod 644 "$root/$1"
    fi
}

stored samples/sortie.macm sample
stored samples/sortie.listing listing "$root/samples/sortie.macm"
stored samples/sortie.rows rows "$root/samples/sortie.macm"
stored samples/phases.macm every-phase
stored samples/phases.rows rows "$root/samples/phases.macm"
stored samples/locks.macm every-break
stored samples/locks.breaks breaks "$root/samples/locks.macm" 0
stored crates/listing/stdout listing "$root/crates/listing/stdin"
stored crates/rows/stdout rows "$root/crates/rows/stdin"
stored crates/why/stdin every-reason
stored crates/why/stdout why "$root/crates/why/stdin"
stored crates/breaks/stdin every-break
stored crates/breaks/stdout breaks "$root/crates/breaks/stdin" "$(cat "$root/crates/breaks/args")"
stored crates/vectors/stdout vectors
stored tests/host/expected.txt host
exit $failed
