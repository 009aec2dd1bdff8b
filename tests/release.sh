#!/bin/sh
# A release works where it is copied to, by a name with a blank in it, on a machine without rt: its programs, its command, and its library through
# pkg-config. And whatever a program of it says, the command makes the exit status of it. Needs target/bin and target/staticlib, which the gate leaves.
set -u
root=$(cd "$(dirname "$0")/.." && pwd -P) || exit 2
cd "$root" || exit 2
fail() {
    echo "release: FAILED: $*"
    exit 1
}
. tools/machine.sh
./cablesound build 2>target/build.log || fail "build says: $(cat target/build.log)"
# A board without a C library has to give the archive this alone.
needed=$(nm -u build/libcablesound.a | sed -n 's/^ *U //p' | sort -u | tr '\n' ' ')
[ "$needed" = 'memset ' ] || fail "the archive needs of its host: $needed"
work=$(mktemp -d) || exit 2
trap 'rm -rf "$work"' EXIT
release="$work/a copy"
cp -R build "$release" || exit 2
sample=$root/samples/sortie
host=$root/tests/host/expected.txt

# The folders of PATH, but for those that have rt.
kept=''
for folder in $(printf %s "$PATH" | tr : ' '); do
    [ -e "$folder/rt" ] || kept="$kept${kept:+:}$folder"
done
PATH=$kept
export PATH
cd "$work" || exit 2
! command -v rt >/dev/null || fail "rt is still there"

cmp -s "$release/samples/sortie.macm" "$sample.macm" || fail "the sample recording is another"
"$release/cablesound" rows "$release/samples/phases.macm" | cmp -s - "$root/samples/phases.rows" || fail "rows of every phase prints something else"
"$release/cablesound" list "$release/samples/sortie.macm" | cmp -s - "$sample.listing" || fail "list prints something else"
"$release/cablesound" rows <"$sample.macm" | cmp -s - "$sample.rows" || fail "rows prints something else"
"$release/cablesound" why "$root/crates/why/stdin" | cmp -s - "$root/crates/why/stdout" || fail "why prints something else"
"$release/cablesound" breaks 0 "$release/samples/locks.macm" | cmp -s - "$root/samples/locks.breaks" || fail "breaks prints something else"
[ "$("$release/cablesound" why "$release/samples/sortie.macm" 31)" = '31 inside 30' ] || fail "why of a position prints something else"
"$release/cablesound" help | grep -q ' bench' && fail "help offers what a release has not"
said=$("$release/cablesound" test 2>&1) && fail "test succeeds in a release"
[ "$said" = 'cablesound: test works in the project alone, and this is a release' ] || fail "test says: $said"
if command -v gnuplot >/dev/null 2>&1; then
    "$release/cablesound" plot "$sample.macm" picture.png || fail "plot fails"
    [ -s picture.png ] || fail "plot makes no picture"
fi
sed -n 's/^| \(`[^|]*`\) |.*/\1/p' "$release/README.md" | tr -d '`,' | tr ' ' '\n' | while read -r file; do
    [ -e "$release/$file" ] || fail "the README names $file, and it is not there"
done || exit 1

# A host in C. pkg-config writes a blank in a folder's name as the shell reads it, so the line goes through eval.
if command -v pkg-config >/dev/null 2>&1; then
    flags=$(PKG_CONFIG_PATH=$release pkg-config --cflags --libs cablesound) || fail "pkg-config does not find cablesound.pc"
    eval "$cc '$release/recording.c' $flags -o host" || fail "a host does not compile by pkg-config"
    printf 'MACMAC2\000\000\000\016\240\014\220\100\174\020\000\036' | $emulator ./host >host.txt || fail "the host stops"
    sed -n '/^S12/,/^end/p' "$host" | sed 1d | cmp -s - host.txt || fail "the host prints something else: $(cat host.txt)"
fi

# STATUS LINES: the program `rows`, which says these lines on standard error and prints nothing, ends with this status
ends() {
    printf '#!/bin/sh\nprintf "%s" >&2\n' "$2" >"$release/rows"
    "$release/cablesound" rows </dev/null 2>said.txt
    ended=$?
    [ "$ended" -eq "$1" ] || fail "a program that says '$2' ends with $ended"
    [ "$(cat said.txt)" = "$(printf "$2")" ] || fail "of '$2' is said: $(cat said.txt)"
}

ends 0 ''
ends 0 'one remark\nno error: a remark\n'
ends 1 'error: this failed\n'
ends 1 'one remark\nerror: this failed\none more remark\n'
ends 1 'error: a line with no end'

# A line appears at once: it is there while the program still waits.
printf '#!/bin/sh\necho "error: early" >&2\ncat >/dev/null\n' >"$release/rows"
mkfifo line || exit 2
"$release/cablesound" rows <line 2>said.txt &
exec 7>line
"$root/tests/soon" grep -qx 'error: early' said.txt || fail "a line on standard error is kept back"
exec 7>&-
wait $! && fail "an early error is forgotten"

# STATUS TEXT WORDS: where the program `listing` is these words of the shell, why of a position ends with this status and prints or says this text
answers() {
    printf '#!/bin/sh\necho "at bytes form obs time"\n%s\n' "$3" >"$release/listing"
    timeout 20 "$release/cablesound" why "$sample.macm" 31 >said.txt 2>&1
    ended=$?
    [ "$ended" -eq "$1" ] || fail "why of a position ends with $ended where listing is: $3"
    [ "$(cat said.txt)" = "$2" ] || fail "why of a position says '$(cat said.txt)' where listing is: $3"
}

# One position: where the answer is known the listing is over.
answers 0 '31 inside 30' 'echo 30 112 v2 4 0; exec sleep 60'
answers 0 '31 sync 1' 'echo 32 112 v2 4 0; exec sleep 60'
answers 0 '31 sync 1' 'echo 4 27 v2 0 0; echo end 13419 messages 1 gap 13392'
answers 1 "cablesound: position 31 is at or past the end: $sample.macm has 31 bytes" 'echo end 31 messages 0 gap 31'
answers 1 'error: this failed' 'echo "error: this failed" >&2; echo end 40 messages 0 gap 40'
answers 1 "cablesound: the listing breaks off: $sample.macm" 'echo 4 15 v1 0 0'
printf '#!/bin/sh\necho $$ >listing.pid\nexec sleep 60\n' >"$release/listing"
"$release/cablesound" why "$sample.macm" 31 >said.txt 2>&1 &
use=$!
"$root/tests/soon" test -s listing.pid || fail "why of a position runs no listing"
kill "$use" && wait "$use" 2>/dev/null
[ $? -eq 143 ] || fail "why of a position does not end by the signal that it is sent"
"$root/tests/soon" sh -c '! kill -0 "$(cat listing.pid)" 2>/dev/null' || fail "a listing outlives the command"
echo "release: build/ works in another folder without rt; lines that begin with 'error: ' make status 1"
