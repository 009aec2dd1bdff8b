#!/bin/sh
# Every public function of a library has its theorem NAME_determined in its own crate's proofs/Determined.antt, stated of that function's own contract: two
# answers are equal, or the same by SamePart or, for the programs' own, by SameWell, as owed has them. What has none has a line `CRATE::NAME: why` under the
# exceptions of docs/PROMISES.md. And docs/PROMISES.md names it in its crate's row, and demand 1's file says of that function that it asks nothing, but for
# the programs' own. So does the function `from` of every From; its theorem has the name of the definition that the contract cites. An export for C owes none
# of this, since it is board's function of its name: that is for tests/exports.sh to say, which is asked here.
# This reads text only: that the theorems hold is rt's to say.
set -u
root=$(cd "$(dirname "$0")/.." && pwd -P)
cd "$root" || exit 2
. "$root/tools/public.sh"
failed=0 found=0

# FILE MODULE: the name by which the file cites this module; nothing where it does not.
cited() { sed -n "s/^use $2 as \([A-Za-z_']*\)$/\1/p" "$1" 2>/dev/null | head -n 1; }

# FILE WORD...: whether the file takes these words from owed.
takes() {
    file=$1
    shift
    for word in "$@"; do
        grep -Eq "^use Rattle\.owed\.specs\.(Determined|Meets)\.\{([A-Za-z]+, )*$word(, [A-Za-z]+)*\}$" "$file" || return 1
    done
}

# NAME: what the checker's modules of this function are called, as a pattern.
modules_of() {
    case $1 in
    *::from) echo "${1%::from}\.from" ;;
    *) echo "([A-Za-z_]+\.)*$1" ;;
    esac
}

# NAME WORD BY: whether its theorem is stated so, in the file and by the names that has_theorem has found.
stated() {
    case $1 in
    *::from) theorem='[a-z_]+' ;;
    *) theorem=$1 ;;
    esac
    grep -Eq "^pub ${theorem}_determined : $2 $contracts\.($(modules_of "$1"))\.ended $3$proofs\.\1\.Reads\.Learnt$" "$laws"
}

# CRATE NAME: whether its theorem stands there.
has_theorem() {
    laws=crates/$1/proofs/Determined.antt
    contracts=$(cited "$laws" "Rattle\.$1\.specs\.contracts") proofs=$(cited "$laws" "Rattle\.$1\.proofs")
    [ -n "$contracts" ] && [ -n "$proofs" ] || return 1
    stated "$2" Determined '' && takes "$laws" Determined && return 0
    for relation in SamePart SameWell; do
        [ "$relation" = SamePart ] || [ "$1" = report ] || continue
        stated "$2" DeterminedBy "\(λ κs z z'\. $relation z z'\) " && takes "$laws" DeterminedBy "$relation" && return 0
    done
    return 1
}

# CRATE NAME: whether demand 1's file says of it that it asks nothing.
asks_nothing() {
    demand=crates/promises/proofs/DemandOne.antt
    contracts=$(cited "$demand" "Rattle\.$1\.specs\.contracts") proofs=$(cited "$demand" "Rattle\.$1\.proofs")
    [ -n "$contracts" ] && [ -n "$proofs" ] && takes "$demand" AsksNothing &&
        grep -Eq "^ +(× )?AsksNothing $contracts\.($(modules_of "$2"))\.ended $proofs\.\2\.Reads\.Asked$" "$demand"
}

for crate in $(sed 's/#.*//; s/:.*//; s/ .*//' crates.txt); do
    [ -f "crates/$crate/src/lib.rt" ] || continue
    if [ "$crate" = board_c ]; then
        sh tests/exports.sh >/dev/null && continue
        echo "determined: the exports of board_c are not board's functions"
    fi
    for name in $(public_in "$crate"); do
        if has_theorem "$crate" "$name"; then
            found=$((found + 1))
        elif ! grep -q "^- \`$crate::$name\`: " docs/PROMISES.md; then
            echo "determined: $crate::$name has no theorem ${name}_determined and no exception"
            failed=1
        fi
        if ! grep -Eq "^\| \`$crate\` \|.*(\`|::)$name\`" docs/PROMISES.md; then
            echo "determined: docs/PROMISES.md does not name $crate::$name"
            failed=1
        fi
        if [ "$crate" != report ] && ! asks_nothing "$crate" "$name"; then
            echo "determined: crates/promises/proofs/DemandOne.antt does not say that $crate::$name asks nothing"
            failed=1
        fi
    done
done
[ "$found" -gt 0 ] || failed=1
echo "determined: $found public functions, each with its theorem and its place in docs/PROMISES.md"
exit $failed
