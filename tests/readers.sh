#!/bin/sh
# The second reader against the C boundary: every test of the Rust workspace in tests/, offline. Needs target/bin and target/staticlib/libboard.a,
# which the gate and `./cablesound build` leave. What is built stands in target/cargo.
set -u
root=$(cd "$(dirname "$0")/.." && pwd -P) || exit 2
cd "$root/tests" || exit 2
archive=$root/target/staticlib/libboard.a
log=$root/target/readers.log
if [ ! -f "$archive" ]; then
    echo "readers: FAILED: no target/staticlib/libboard.a: run './cablesound build' first"
    exit 1
fi
. "$root/tools/machine.sh"
export CARGO_TARGET_DIR="$root/target/cargo" RUST_BACKTRACE=0

# Under an emulator runs what links the archive, and nothing besides.
run_tests() {
    if [ -z "$emulator" ]; then
        cargo test --offline --locked --quiet -- --nocapture
    else
        cargo test --offline --locked --quiet --workspace --exclude boundary -- --nocapture &&
            $cargo test --offline --locked --quiet --package boundary -- --nocapture
    fi
}

if ! run_tests >"$log" 2>&1 </dev/null; then
    grep -vE '^\.*$|^running |^test result: ok' "$log" | head -n 40
    echo "readers: FAILED: the whole log is target/readers.log"
    exit 1
fi
# The cases and their seeds stand in the lines `KIND: N cases from seed S` that the tests print.
awk '
    / cases from seed / { cases += $2; if (!seen[$6 + 0]++) seeds = seeds " " $6 + 0 }
    /^test result: ok/ { passed += $4 }
    END {
        if (passed == 0 || cases == 0) { print "readers: FAILED: nothing ran"; exit 1 }
        print "readers: " passed " tests passed, " cases " cases from the seeds" seeds ", no difference between the two readers"
    }' "$log"
