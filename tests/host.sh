#!/bin/sh
# The C host of tests/host/ reads the published messages, every case of a phase, S12, and A then B through the C boundary, compiled plainly and with
# sanitizers, and prints what tests/host/expected.txt says; another one prints the reasons that the program `why` prints, a third one the published range
# record, a fourth one the breaks of lock that `breaks` prints; the header is taken by C and by C++. Needs target/bin and target/staticlib/libboard.a,
# which the gate and `./cablesound build` leave.
set -u
root=$(cd "$(dirname "$0")/.." && pwd -P) || exit 2
cd "$root" || exit 2
archive=target/staticlib/libboard.a
work=target/host
fail() {
    echo "host: FAILED: $*"
    exit 1
}
. tools/machine.sh
[ -f "$archive" ] || fail "no $archive: run './cablesound build' first"
rm -rf "$work" && mkdir -p "$work" || exit 2

# build NAME SOURCE OPTION...: the host of this source, under this name, with these options
build() {
    name=$1 source=tests/host/$2
    shift 2
    $gcc -std=c11 -Wall -Wextra -Werror -O2 "$@" -Iinclude "$source" "$archive" -o "$work/$name" || fail "$name does not compile"
}

# listing NAME: what the host of this name prints for every recording, from files and from standard input
listing() {
    data=crates/vectors/data
    for recording in $data/264-21-figure-1.bin $data/264-04-table-4.bin $data/264-04-table-4-by-the-rule.bin samples/phases.macm; do
        basename "${recording%.*}"
        $emulator "$work/$1" "$recording" || return 1
    done
    echo "S12, from standard input"
    printf 'MACMAC2\000\000\000\016\240\014\220\100\174\020\000\036' | $emulator "$work/$1" || return 1
    echo "A then B, from standard input"
    printf 'MAC2\000\000\000\016\240\014\220\100\174\020\000\036MACM\002\000\016\240\014\220\100\174\020\000\034' | $emulator "$work/$1" || return 1
    echo "nothing, from standard input"
    $emulator "$work/$1" </dev/null
}

sanitizers='-g -fsanitize=address,undefined -fno-sanitize-recover=all'
# The sanitizer looks for leaks as a debugger would, which no emulated process can be held for: there tests/host/leaks.c looks for them.
if [ -n "$emulator" ]; then
    sanitizers="$sanitizers -static-libasan -static-libubsan tests/host/leaks.c"
    export ASAN_OPTIONS=detect_leaks=0
fi
build plain recording.c
build sanitized recording.c $sanitizers
build reasons reasons.c $sanitizers
build record record.c $sanitizers
build locks locks.c $sanitizers
for name in plain sanitized; do
    listing "$name" >"$work/$name.txt" 2>"$work/$name.err" || fail "$name stops: $(head -n 3 "$work/$name.err")"
    [ ! -s "$work/$name.err" ] || fail "$name complains: $(head -n 3 "$work/$name.err")"
    diff tests/host/expected.txt "$work/$name.txt" || fail "$name prints something else than tests/host/expected.txt"
done
for recording in crates/why/stdin samples/sortie.macm /dev/null; do
    $emulator target/bin/why <"$recording" >"$work/why.txt"
    $emulator "$work/reasons" <"$recording" | cmp -s - "$work/why.txt" || fail "the reasons of $recording are others than those of why"
done
$emulator "$work/locks" 0 <samples/locks.macm | cmp -s - samples/locks.breaks || fail "the breaks of TYPE 0 are others than samples/locks.breaks"
for recording in samples/locks.macm samples/sortie.macm /dev/null; do
    $emulator target/bin/breaks 16 <"$recording" >"$work/breaks.txt"
    $emulator "$work/locks" 16 <"$recording" | cmp -s - "$work/breaks.txt" || fail "the breaks of $recording are others than those of breaks"
done
published=crates/vectors/data/apn-031-rangecmp.bin
$emulator "$work/record" <"$published" >"$work/record.txt" || fail "the published record is not written as it was read"
sed -n '/^apn-031/,/^corrected/p' crates/vectors/stdout | sed 1d | cmp -s - "$work/record.txt" || fail "the published record has other fields than vectors prints"
[ "$(head -c 23 "$published" | $emulator "$work/record")" = 'refused 13' ] || fail "a record cut short is not refused with 13"
echo '#include "cablesound.h"' >"$work/header.cpp"
$gxx -std=c++11 -Wall -Wextra -Wpedantic -Werror -fsyntax-only -Iinclude "$work/header.cpp" || fail "the header is no C++"
$gcc -std=c11 -Wall -Wextra -Wpedantic -Werror -fsyntax-only -Iinclude -x c "$work/header.cpp" || fail "the header is no C11 by itself"
echo "host: the C hosts print what they must, plain and with sanitizers; the header is C11 and C++"
