#!/bin/sh
# The stored outputs are what the second reader prints, and `./cablesound` runs the programs on files, standard input and a live line, with a clear line
# and an exit status for bad input, and a screen of help. Needs target/bin, which the gate and `./cablesound build` leave. That the programs print the same
# on many streams is among the tests of tests/readers.sh.
set -u
root=$(cd "$(dirname "$0")/.." && pwd -P) || exit 2
cd "$root" || exit 2
fail() {
    echo "programs: FAILED: $*"
    exit 1
}
. tests/says
. tools/machine.sh

# A link stands outside the project, in which rt refuses it.
work=$(mktemp -d) || exit 2
trap 'rm -rf "$work"' EXIT

sh samples/make.sh check || fail "a stored output is another"
./cablesound list samples/sortie.macm | cmp -s - samples/sortie.listing || fail "list prints something else than samples/sortie.listing"
./cablesound rows samples/sortie.macm | cmp -s - samples/sortie.rows || fail "rows prints something else than samples/sortie.rows"
./cablesound rows <samples/sortie.macm | cmp -s - samples/sortie.rows || fail "rows prints something else from standard input"
./cablesound rows samples/phases.macm | cmp -s - samples/phases.rows || fail "rows prints something else than samples/phases.rows"
printf 'at bytes form obs time\nend 0 messages 0 gap 0\n' >target/empty.listing
./cablesound list </dev/null | cmp -s - target/empty.listing || fail "list of nothing"
(cd samples && ../cablesound list sortie.macm) | cmp -s - samples/sortie.listing || fail "list takes a name from another folder than the caller's"
cat samples/sortie.macm | ./cablesound list /dev/stdin | cmp -s - samples/sortie.listing || fail "list of a pipe"
ln -s "$root/cablesound" "$work/linked" && "$work/linked" list samples/sortie.macm | cmp -s - samples/sortie.listing || fail "list by a link to the command"

# Ranges by the printed factor, as rows had them before E2, and those of the same PR since: the README's line tells them apart, and its factor mends them.
printf '%s\n' '20572019.760204 20572019.767066' '23610834.011859 23610834.019735' '29949999.996451 29950000.006442' '42919960.065605 42919960.079922' >target/ranges
tells=$(sed -n 's|^    \(awk .*\) samples/sortie.rows$|\1|p' README.md)
for column in 1 2; do
    awk -v column="$column" 'BEGIN { print "heading" } { print "- - - - - - -", $column }' target/ranges >"target/ranges.$column"
done
[ "$(eval "$tells" target/ranges.1)" = '0 by the speed of light, 4 by the printed factor' ] || fail "old ranges are taken for new ones"
[ "$(eval "$tells" target/ranges.2)" = '4 by the speed of light, 0 by the printed factor' ] || fail "new ranges are taken for old ones"
[ "$(eval "$tells" samples/sortie.rows)" = '472 by the speed of light, 0 by the printed factor' ] || fail "the sample's ranges are taken for old ones"
awk '{ off = $1 * (1 + 1 / 2997924579) - $2; if (off * off > 1e-12) exit 1 }' target/ranges || fail "an old range is not mended by the README's factor"

# Why: of every position, or of one, which is the same line.
for _ in 1 2 3 4 5 6 7 8; do cat samples/sortie.macm; done >target/long.macm
./cablesound why crates/why/stdin | cmp -s - crates/why/stdout || fail "why prints something else than crates/why/stdout"
./cablesound why <crates/why/stdin | cmp -s - crates/why/stdout || fail "why prints something else from standard input"
[ "$(./cablesound why target/long.macm)" = 'longer than 61440 bytes' ] || fail "why of a long recording"

# FILE POSITION...: the line of each of these positions is the one that stands among those of all
alone() {
    recording=$1
    shift
    for position in "$@"; do
        line=$(./cablesound why "$recording" "$position")
        [ -n "$line" ] && [ "$line" = "$(sed -n "$((position + 2))p" target/reasons)" ] || fail "why of $recording at $position prints: $line"
    done
}

printf 'MACMAC2\000\000\000\016\240\014\220\100\174\020\000\036' >target/s12.macm
./cablesound why target/s12.macm >target/reasons
alone target/s12.macm 0 1 2 3 4 5 6 7 8 9 10 11 12 13 14 15 16 17 18
./cablesound why samples/sortie.macm >target/reasons
alone samples/sortie.macm $(awk 'NR > 1 && !seen[$2 == "sync" ? $2 $3 : $2]++ { print $1 }' target/reasons) 13418

# Breaks: of a TYPE, from a file, from standard input, and with zeros in front of the TYPE.
./cablesound breaks 0 samples/locks.macm | cmp -s - samples/locks.breaks || fail "breaks prints something else than samples/locks.breaks"
./cablesound breaks 0 <samples/locks.macm | cmp -s - samples/locks.breaks || fail "breaks prints something else from standard input"
./cablesound breaks 000 samples/locks.macm | cmp -s - samples/locks.breaks || fail "breaks of TYPE 000 is not that of TYPE 0"
[ "$(./cablesound breaks 016 samples/locks.macm | tail -n 1)" = '915 24 1000 new-lock' ] || fail "breaks of TYPE 016 is not that of TYPE 16"
[ "$(./cablesound breaks 255 samples/locks.macm)" = 'at sid time break' ] || fail "breaks of a TYPE that the recording has not"
[ "$(./cablesound breaks 0 </dev/null)" = 'at sid time break' ] || fail "breaks of nothing"
(cd samples && ../cablesound breaks 0 locks.macm) | cmp -s - samples/locks.breaks || fail "breaks takes a name from another folder than the caller's"
cat samples/locks.macm | ./cablesound breaks 0 /dev/stdin | cmp -s - samples/locks.breaks || fail "breaks of a pipe"

# Longer recordings, of which the disk holds no more than what is not zero. Past the end of the second nothing is read.
cp target/s12.macm target/big.macm && truncate -s 1G target/big.macm && cat target/s12.macm >>target/big.macm || exit 2
[ "$(./cablesound why target/big.macm 3)" = '3 given 16' ] || fail "why of a big recording's beginning"
[ "$(./cablesound why target/big.macm 01073741828)" = '1073741828 inside 1073741827' ] || fail "why of a big recording's end"
if truncate -s 1T target/endless.macm 2>/dev/null; then
    says 1 'cablesound: position 1099511627776 is at or past the end: target/endless.macm has 1099511627776 bytes' \
        timeout 20 ./cablesound why target/endless.macm 1099511627776
fi
rm -f target/endless.macm
mkdir "$work/names" && cp target/s12.macm "$work/names/-s12" && cp target/s12.macm "$work/names/a name" && ln -s "$root/target/s12.macm" "$work/names/link" || exit 2
for name in -s12 'a name' link; do
    [ "$(cd "$work/names" && "$root/cablesound" why "$name" 4)" = '4 inside 3' ] || fail "why of a file that is called '$name'"
done
[ "$(./cablesound why /dev/stdin 3 <target/s12.macm)" = '3 given 16' ] || fail "why of standard input that is a file"

# Bad input and output that cannot be written: a line and a status.
says 1 'cablesound: no such file: no/such/file' ./cablesound list no/such/file
says 1 'cablesound: this is a folder: samples' ./cablesound list samples
says 1 'cablesound: one recording at a time' ./cablesound rows samples/sortie.macm samples/sortie.macm
shell_says 1 'cablesound: no such file: samples/sortie.macm' 'cd samples && ../cablesound list samples/sortie.macm'
shell_says 1 'cablesound: standard input is closed' './cablesound list <&-'
shell_says 1 'error: standard input: Is a directory' './cablesound list <samples'
cmp -s target/said.out target/empty.listing || fail "what was read before an error is not listed"
shell_says 1 'error: standard output: No space left on device' './cablesound list samples/sortie.macm >/dev/full'
shell_says 1 'error: standard output: No space left on device' './cablesound rows <samples/sortie.macm >/dev/full'
shell_says 1 'error: standard output: Bad file descriptor' './cablesound list samples/sortie.macm >&-'
shell_says 1 'error: standard input: Bad file descriptor' "$emulator target/bin/listing <&-"
says 2 "$(printf 'cablesound: no such command: list rows\n' && ./cablesound help)" ./cablesound 'list rows'
shell_says 1 'cablesound: standard output cannot be written' './cablesound help >/dev/full'
for word in '' -1 +1 1.5 abc 0x10 ' 1'; do
    says 1 "cablesound: the position has to be a number in decimal digits: '$word'" ./cablesound why target/s12.macm "$word"
done
for position in 19 20 9007199254740993 18446744073709551616 123456789012345678901234567890; do
    says 1 "cablesound: position $position is at or past the end: target/s12.macm has 19 bytes" ./cablesound why target/s12.macm "$position"
done
: >target/empty.macm
says 1 'cablesound: position 0 is at or past the end: target/empty.macm has 0 bytes' ./cablesound why target/empty.macm 00
[ "$(./cablesound why target/empty.macm)" = 'at reason value' ] || fail "why of nothing"
rm -f target/line && mkfifo target/line || exit 2
says 1 'cablesound: a position needs a file that can be read from the middle: target/line' timeout 20 ./cablesound why target/line 3
shell_says 1 'cablesound: a position needs a file that can be read from the middle: /dev/stdin' 'cat target/s12.macm | ./cablesound why /dev/stdin 3'
says 1 'cablesound: no such file: no/such/file' ./cablesound why no/such/file 3
says 1 'cablesound: this is a folder: samples' ./cablesound why samples 3
says 1 'cablesound: one recording and one position at a time: ./cablesound why [FILE [POSITION]]' ./cablesound why target/s12.macm 3 4
shell_says 1 'cablesound: standard output cannot be written' './cablesound why target/s12.macm 3 >/dev/full'
shell_says 1 'error: standard output: No space left on device' './cablesound why samples/sortie.macm >/dev/full'
shell_says 1 'error: standard input: Is a directory' './cablesound why <samples'

# LINE WORD...: the command says this line, prints nothing and ends with 1
refuses() {
    line=$1
    shift
    says 1 "$line" "$@"
    [ ! -s target/said.out ] || fail "'$*' prints something and refuses"
}

refuses 'cablesound: breaks needs a TYPE: ./cablesound breaks TYPE [FILE]' ./cablesound breaks
for word in '' -1 +1 1.5 abc 0x10 ' 1' samples/locks.macm; do
    refuses "cablesound: the TYPE has to be a number in decimal digits: '$word'" ./cablesound breaks "$word" samples/locks.macm
done
for type in 256 257 300 1000 18446744073709551616 123456789012345678901234567890; do
    refuses "cablesound: the TYPE has to be 0 to 255: $type" ./cablesound breaks "$type" samples/locks.macm
    refuses "cablesound: the TYPE has to be 0 to 255: $type" ./cablesound breaks "00$type" samples/locks.macm
done
refuses 'cablesound: one recording at a time: ./cablesound breaks TYPE [FILE]' ./cablesound breaks 0 samples/locks.macm samples/locks.macm
refuses 'cablesound: no such file: no/such/file' ./cablesound breaks 0 no/such/file
refuses 'cablesound: this is a folder: samples' ./cablesound breaks 0 samples
refuses 'cablesound: standard input is closed' sh -c './cablesound breaks 0 <&-'
shell_says 1 'error: standard input: Is a directory' './cablesound breaks 0 <samples'
shell_says 1 'error: standard output: No space left on device' './cablesound breaks 0 samples/locks.macm >/dev/full'

# A program by itself: the status says what its line says, but for a TYPE that is none, of which the line alone tells.
shell_says 1 'error: standard output: No space left on device' "$emulator target/bin/listing <samples/sortie.macm >/dev/full"
shell_says 1 'error: standard input: Is a directory' "$emulator target/bin/breaks 0 <samples"
shell_says 0 'error: the argument has to be a TYPE, 0 to 255 in decimal digits' "$emulator target/bin/breaks 256 <samples/locks.macm"
[ ! -s target/said.out ] || fail "breaks prints something of what is no TYPE"

# A reader that goes away early is no error: more is printed than a pipe holds.
shell_says 0 '' './cablesound rows target/long.macm | head -n 1'
shell_says 0 '' 'trap "" PIPE; ./cablesound rows target/long.macm | head -n 1'
for command in './cablesound rows' "$emulator target/bin/rows"; do
    for heed in '' 'trap "" PIPE;'; do
        shell_says 0 '' "{ $heed $command <target/long.macm; echo \$? >target/ended; } | head -n 1"
        [ "$(cat target/ended)" = 141 ] || fail "where nobody reads '$heed $command' ends with $(cat target/ended)"
    done
done
shell_says 0 '' './cablesound why samples/sortie.macm | head -n 1'
cp samples/locks.macm target/locks.macm || exit 2
for _ in 1 2 3 4 5 6 7 8 9 10; do cat target/locks.macm target/locks.macm >target/twice.macm && mv target/twice.macm target/locks.macm; done
[ "$(./cablesound breaks 0 target/locks.macm | wc -c)" -gt 100000 ] || fail "the breaks of a long recording are hardly any"
shell_says 0 '' './cablesound breaks 0 target/locks.macm | head -n 1'
shell_says 0 '' 'trap "" PIPE; ./cablesound breaks 0 target/locks.macm | head -n 1'

# A live line. BYTES RECORDING DUE COMMAND...: of so many bytes of the recording the command prints what is due while the line is open, and the program
# ends with the command that runs it.
live() {
    bytes=$1 recording=$2 due=$3
    shift 3
    "$@" <target/line >target/line.printed &
    use=$!
    exec 7>target/line
    head -c "$bytes" "$recording" >&7
    "$root/tests/soon" cmp -s target/line.printed "$due" || fail "'$*' keeps lines back while the line is open"
    kill "$use" && wait "$use" 2>/dev/null
    [ $? -eq 143 ] || fail "'$*' does not end by the signal that it is sent"
    (head -c 200000 /dev/zero >&7) 2>/dev/null && fail "the program of '$*' goes on where the command has ended"
    exec 7>&-
}

awk 'NR == 1 || $1 + 112 <= 5000' samples/sortie.rows >target/due.rows
live 5000 samples/sortie.macm target/due.rows ./cablesound rows
awk 'NR == 1 || $1 < 724' samples/locks.breaks >target/due.breaks
live 724 samples/locks.macm target/due.breaks ./cablesound breaks 0

# Help: of each command a screen, and of all a line.
for command in $(./cablesound help | sed -n 's/^  \.\/cablesound \([a-z]*\).*/\1/p'); do
    says 0 '' ./cablesound help "$command"
    awk 'length($0) > 79 || NR > 23 { bad = 1 } END { exit bad || NR < 4 }' target/said.out || fail "help $command is no screen"
    ./cablesound "$command" --help | cmp -s - target/said.out || fail "$command --help is not its help"
done
[ "${command:-}" = help ] || fail "help does not list the commands"
echo "programs: list, rows, why and breaks print what the second reader prints, all but why also on a live line, and they say what they cannot read"
