#!/bin/sh
# What appears on a terminal while one waits: how far a long recording is read, and what is being proved on the first use. Programs and an rt that take
# their time stand in for the real ones; that rt's own lines are what the command looks for is seen where rt itself proves crates of each kind that nobody
# has proved before. Needs build/, which tests/release.sh leaves, and `script`, which lends a terminal.
set -u
root=$(cd "$(dirname "$0")/.." && pwd -P) || exit 2
fail() {
    echo "terminal: FAILED: $*"
    exit 1
}
command -v script >/dev/null 2>&1 || fail "no script on this machine: on Debian it is in bsdutils"
work=$(mktemp -d) || exit 2
trap 'rm -rf "$work"' EXIT

# COMMAND: what appears on a terminal on which it runs, a line for each piece that is written over
terminal() { script -qec "$1" /dev/null </dev/null | tr -d '\n' | tr '\r' '\n' | sed 's/ *$//' | grep -v '^$'; }

# ---- a long recording: half of it is read, then after a second the rest, and a second goes by again
cp -R "$root/build" "$work/release" || exit 2
cd "$work/release" || exit 2
head -c 1000000 /dev/zero >recording
printf '#!/bin/sh\nhead -c 500000 >/dev/null\nsleep 1.1\ncat >/dev/null\nsleep 1.1\necho rows\n' >rows
said=$(terminal './cablesound rows recording >printed')
[ "$said" = "$(printf 'cablesound: 50 %% of 1 MB\ncablesound: 100 %% of 1 MB')" ] || fail "on a terminal rows shows: $said"
[ "$(cat printed)" = rows ] || fail "what is shown stands in what is printed: $(cat printed)"
printf '#!/bin/sh\nsleep 0.8\necho rows\n' >rows
said=$(terminal './cablesound rows recording')
[ "$said" = rows ] || fail "where rows are printed on the terminal it shows: $said"
said=$(terminal 'cat recording | ./cablesound rows >printed')
[ -z "$said" ] || fail "of a pipe it shows: $said"
./cablesound rows recording >printed 2>said
[ ! -s said ] || fail "where there is no terminal it says: $(cat said)"
printf '#!/bin/sh\nsleep 0.9\necho "error: late" >&2\n' >rows
said=$(terminal './cablesound rows recording >printed')
[ "$said" = "$(printf 'cablesound: 0 %% of 1 MB\nerror: late')" ] || fail "an error behind what is shown reads: $said"
printf '#!/bin/sh\nhead -c 500000 >/dev/null\nsleep 0.8\nprintf "at bytes form obs time\\n999990 15 v1 0 0\\n"\n' >listing
said=$(terminal './cablesound why recording 999980')
[ "$said" = "$(printf 'cablesound: 50 %% of 1 MB\n999980 sync 1')" ] || fail "why of a position shows: $said"

# ---- the first use, in a project of three crates and one more
mkdir "$work/project" "$work/bin" && cd "$work/project" || exit 2
cp -R "$root/cablesound" "$root/tools" "$root/help" . || exit 2
mkdir -p crates/first crates/second crates/listing crates/unused || exit 2
printf 'first:\nlisting: second io # a program\nunused: first\nsecond: first\n' >crates.txt
cat >"$work/bin/rt" <<'STUB'
#!/bin/sh
crate=${PWD##*/}
cd ../.. && echo "$crate: $*" >>calls
[ ! -e broken ] || { echo 'logic=not-proved functions=0' >&2 && exit 1; }
[ ! -e slow ] || { sleep 60 & echo $! >prover && wait; }
for each in first second listing; do
    echo "rt: chose --jobs 2 for $each" >&2
    echo "fn $each::main: proved" >&2
done
mkdir -p "crates/$crate/out" && printf '#!/bin/sh\necho listed\n' >"crates/$crate/out/$crate" && chmod +x "crates/$crate/out/$crate"
exec "crates/$crate/out/$crate"
STUB
chmod +x "$work/bin/rt"
PATH=$work/bin:$PATH
export PATH
proving=$(printf 'cablesound: proving first, 1 of 3\ncablesound: proving second, 2 of 3\ncablesound: proving listing, 3 of 3')
[ "$(./cablesound list </dev/null 2>said)" = listed ] || fail "the first use lists nothing"
[ "$(cat said)" = "$proving" ] || fail "the first use says: $(cat said)"
[ "$(./cablesound list </dev/null 2>&1)" = listed ] || fail "the second use says more"
sleep 0.1 && touch crates/unused/changed
[ "$(./cablesound list </dev/null 2>&1)" = listed ] || fail "it says more where something else has changed"
[ "$(cat calls)" = 'listing: run -- 0' ] || fail "rt is called otherwise: $(cat calls)"
touch crates/second/changed
[ "$(terminal './cablesound list </dev/null')" = "$(printf '%s\nlisted' "$proving")" ] || fail "after a change the terminal shows something else"
[ "$(wc -l <calls)" -eq 2 ] || fail "after a change nothing is proved again"
touch broken && rm -r target
./cablesound list </dev/null >printed 2>said && fail "what is not proved is run"
[ "$(tail -n 1 said)" = 'cablesound: not proved: listing: see target/check.log' ] || fail "what is not proved says: $(cat said)"

# Of two uses at once one waits for the other, and with a use all that it started ends.
rm -r broken calls target 2>/dev/null
./cablesound list </dev/null >one 2>&1 &
./cablesound list </dev/null >two 2>&1 || fail "one of two uses fails: $(cat two)"
wait $! || fail "one of two uses fails: $(cat one)"
[ "$(cat calls)" = 'listing: run -- 0' ] || fail "two uses prove twice: $(cat calls)"
touch slow && rm -r target
./cablesound list </dev/null >printed 2>&1 &
use=$!
"$root/tests/soon" test -s prover || fail "the first use does not start rt"
kill "$use" && wait "$use" 2>/dev/null
[ $? -eq 143 ] || fail "the first use does not end by the signal that it is sent"
"$root/tests/soon" sh -c '! kill -0 "$(cat prover)" 2>/dev/null' || fail "a prover outlives the first use"

# ---- the same by rt itself, in crates of their own number: definitions, a library, a program, and in the end an archive
rm -rf slow calls target crates && PATH=${PATH#*:} || exit 2
number=$(date +%s%N)
mkdir -p crates/first/src crates/first/specs crates/second/src crates/listing/src crates/board_c/src || exit 2
printf 'first:\nsecond: first\nlisting: second\nboard_c staticlib: first second\n' >crates.txt
printf '// Definitions alone.\n#![tactic(auto)]\n' >crates/first/src/lib.rt
printf 'pub mod Number\n' >crates/first/specs/Lib.antt
printf 'use Rattle.std.specs.Prelude.{ℕ}\n\nabbrev pub number : ℕ\nnumber = %s\n' "$number" >crates/first/specs/Number.antt
contract='ghost use Rattle.std.specs.Prelude.{◌≡◌};\nghost use Rattle.first.specs.Number.{number};\n\n%b() -> u64\n'
contract="$contract    ensures { result ≡ number }\\n{\\n    %s\\n}\\n"
printf "#![tactic(auto)]\n\n$contract" 'pub fn read' "$number" >crates/second/src/lib.rt
printf "#![tactic(auto)]\n\n$contract" '#[unsafe(no_mangle)]\npub extern "C" fn cs_read' 'second::read()' >crates/board_c/src/lib.rt
printf '#![tactic(auto)]\n\nuse std::io;\n\nfn main(rt: HostRuntime) -> io::Result<()> {\n    println!(rt; "listed")\n}\n' >crates/listing/src/main.rt
[ "$(./cablesound list </dev/null 2>said)" = listed ] || fail "what rt has built lists nothing: $(cat said target/check.log)"
[ "$(cat said)" = "$proving" ] || fail "where rt proves the first use says: $(cat said)"
sh tools/prove.sh board_c >log 2>&1 && [ -s target/staticlib/libboard.a ] || fail "rt makes no archive: $(tail -n 1 log)"
grep -q '^rt: chose --jobs [0-9]* for board_c$' log || fail "of the archive rt says: $(tail -n 1 log)"
echo "terminal: a long recording and the first use show how far they are, and only where somebody looks"
