#!/bin/sh
# The listing and the rows in C, beside which the bench measures ours, print what the second reader prints: the bench compares like with like.
set -u
root=$(cd "$(dirname "$0")/.." && pwd -P) || exit 2
cd "$root" || exit 2
work=target/compared
fail() {
    echo "bench: FAILED: $*"
    exit 1
}
. tools/machine.sh
mkdir -p "$work" || exit 2

# PROGRAM RECORDING STORED: the program in C prints the stored output of the recording.
prints() {
    $emulator "$work/$1" <"$2" | cmp -s - "$3" || fail "$1 in C prints something else than $3"
}

for program in listing rows; do
    $gcc -std=c11 -Wall -Wextra -Werror -O2 "bench/$program.c" bench/input.c bench/reader.c -o "$work/$program" || fail "$program in C does not compile"
done
prints listing samples/sortie.macm samples/sortie.listing
prints rows samples/sortie.macm samples/sortie.rows
prints rows samples/phases.macm samples/phases.rows
echo "bench: the programs in C print what the second reader prints"
