#!/bin/sh
# Lock counts cannot be added to milliseconds: the compiler rejects it, for that reason, and takes the same program with the conversion.
# The programs stand here and not in files: a .rt file that no listed crate has is an error of rt's. They are checked over a copy of the crates that they
# rest on, in a project of its own outside this one.
set -u
root=$(cd "$(dirname "$0")/.." && pwd -P)
cd "$root" || exit 2
work=$(mktemp -d) || exit 2
trap 'rm -rf "$work"' EXIT
failed=0
for crate in owed units; do
    mkdir -p "$work/crates/$crate" || exit 2
    for part in src specs proofs; do
        [ ! -d "crates/$crate/$part" ] || cp -R "crates/$crate/$part" "$work/crates/$crate/" || exit 2
    done
    grep "^$crate:" crates.txt >>"$work/crates.txt" || exit 2
done

# try NAME STATUS TEXT EXPRESSION: the program that answers EXPRESSION is checked with this status, and the check says TEXT
try() {
    mkdir -p "$work/crates/$1/src" && echo "$1: units" >>"$work/crates.txt"
    printf '#![tactic(auto)] use units::LockCount;\nuse units::Millis;\n\npub fn later(now: Millis, lock: LockCount) -> Millis {\n    %s\n}\n' "$4" \
        >"$work/crates/$1/src/lib.rt"
    (cd "$work/crates/$1" && rt check) >"$work/out" 2>&1
    status=$?
    if [ "$status" -eq "$2" ] && grep -qF -- "$3" "$work/out"; then
        echo "units: $1: as it must be"
    else
        echo "units: $1: FAILED: status $status, not $2 with: $3"
        head -n 5 "$work/out"
        failed=1
    fi
}

try mixed_sum 1 'src/lib.rt:5:5: error[invalid-operand-type]: `+` cannot be applied to `Millis`' 'now + lock'
try mixed_call 1 'src/lib.rt:5:22: error[mismatched-types]: expected `Millis`, found `LockCount`' 'units::plus(now, lock)'
try mixed_numbers 1 'error[mismatched-types]: expected `u64`, found `u32`' 'Millis::from_number(now.number() + lock.count())'
try peeled 1 'private' 'units::plus(now, Millis(lock.0 as u64))'
try converted 0 'fn converted::later: proved' 'units::plus(now, units::since_lock(lock))'
exit $failed
