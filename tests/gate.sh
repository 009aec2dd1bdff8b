#!/bin/sh
# The gate passes by what `rt ci` says and by every test, and by nothing less. An rt that says what this file wants stands in for the real one, in a
# project of the programs, the archive and one test.
set -u
root=$(cd "$(dirname "$0")/.." && pwd -P) || exit 2
fail() {
    echo "gate: FAILED: $*"
    exit 1
}
work=$(mktemp -d) || exit 2
trap 'rm -rf "$work"' EXIT
mkdir -p "$work/bin" "$work/project/tests" && cd "$work/project" || exit 2
cp -R "$root/cablesound" "$root/tools" "$root/help" "$root/.ci" . || exit 2
for crate in listing rows why breaks board_c; do
    mkdir -p "crates/$crate/out" && echo "$crate:" >>crates.txt || exit 2
done
cat >"$work/bin/rt" <<'STUB'
#!/bin/sh
echo "${PWD##*/}: $*" >>"$CALLS"
case $* in
ci)
    for program in listing rows why breaks; do
        echo "$program of rt ci" >"crates/$program/out/$program"
    done
    cat "$SAYS"
    exit "$(cat "$ENDS")"
    ;;
lib) echo archive >out/libboard_c.a ;;
*) exit 3 ;;
esac
STUB
chmod +x "$work/bin/rt" || exit 2
CALLS=$work/calls SAYS=$work/says ENDS=$work/ends PATH=$work/bin:$PATH
export CALLS SAYS ENDS PATH
ok='rt: ok; handles allowed: none; must-fail edits: 68 refused'
last='every proof and must-fail edit was done in this run'
test_passes='grep -qx "why of rt ci" target/bin/why && grep -qx archive target/staticlib/libboard.a && echo tested'

# STATUS LINE RT_STATUS TEST RT_LINE...: where rt ci prints these lines and ends with this status, and this is the test, the gate ends with this status, and
# this is the last line that it prints or says.
gate() {
    status=$1 line=$2
    echo "$3" >"$ENDS"
    echo "$4" >tests/one.sh
    shift 4
    printf '%s\n' "$@" >"$SAYS"
    rm -rf target "$CALLS"
    .ci/run >"$work/printed" 2>&1
    ended=$?
    [ "$ended" -eq "$status" ] || fail "it ends with $ended, not $status, where rt says: $*"
    [ "$(tail -n 1 "$work/printed")" = "$line" ] || fail "its last line is '$(tail -n 1 "$work/printed")' where rt says: $*"
}

gate 0 '97 passed, 0 failed' 0 "$test_passes" 'rt: listing proved' "$ok; $last" '97 passed, 0 failed'
grep -qx tested "$work/printed" || fail "it does not show what a test says"
[ "$(grep -c '^97 passed' "$work/printed")" -eq 1 ] || fail "the tally is shown before all else has passed"
[ "$(cat "$CALLS")" = "$(printf 'project: ci\nboard_c: lib')" ] || fail "rt is called otherwise: $(cat "$CALLS")"
gate 0 '97 passed, 0 failed' 0 "$test_passes" "$ok, 1 of them only by a limit; $last" '97 passed, 0 failed'
gate 1 'cablesound: tests/one.sh failed' 0 'exit 1' "$ok; $last" '97 passed, 0 failed'
gate 1 'cablesound: a test leaves a link, for which the next rt ci would refuse the project: ./target/left' 0 'ln -s nowhere target/left' "$ok; $last" \
    '97 passed, 0 failed'
gate 1 'cablesound: rt ci failed: 96 passed, 1 failed' 1 "$test_passes" 'rt: FAILED: listing' '96 passed, 1 failed'
gate 1 'cablesound: rt ci failed: 97 passed, 0 failed' 1 "$test_passes" "$ok; $last" '97 passed, 0 failed'
gate 1 "cablesound: rt ci passes wrong versions that show nothing: $ok, 2 bad; $last" 0 "$test_passes" "$ok, 2 bad; $last" '97 passed, 0 failed'
gate 1 "cablesound: rt ci passes wrong versions that show nothing: $ok, 1 of them only by a limit, 2 bad; $last" 0 "$test_passes" \
    "$ok, 1 of them only by a limit, 2 bad; $last" '97 passed, 0 failed'
gate 1 'cablesound: rt ci does not say that all is well' 0 "$test_passes" 'rt: listing proved' '97 passed, 0 failed'
gate 1 "cablesound: rt ci ends with: $ok; $last" 0 "$test_passes" "$ok; $last"
gate 1 'cablesound: rt ci ends with: 97 passed, 0 failed (listing alone)' 0 "$test_passes" "$ok; $last" '97 passed, 0 failed (listing alone)'
echo "gate: it passes where rt ci and every test pass, and where a wrong version is bad it does not"
