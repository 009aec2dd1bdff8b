#!/bin/sh
# Every wrong version in crates/*/must-fail is refused by a fact of its own, and every public contract shuts out two or more. An edit holds one or more
# wrong versions, so that one check tries them all; each has a name ('wrong:'), the function or law that it breaks ('breaks:') and, where that is not the
# public function itself, the public contracts that it is against ('contract:'). `rt ci` asks no more than that something in an edit is refused, and keeps
# no log: so each edit is put into a copy here, outside the project, and what `rt check` says of that is looked into; target/must-fail has it. An error
# about a proof file that no longer fits the code, or about what rests on something else that is refused, shows nothing. What a check said is kept on this
# machine, as rt keeps what it proved, by the checksum of all that it read: a later run looks into it again, and checks what has changed alone.
# An export for C owes no wrong versions, since it is board's function of its name: that is for tests/exports.sh to say, which is asked here.
set -u
root=$(cd "$(dirname "$0")/.." && pwd -P)
cd "$root" || exit 2
. "$root/tools/public.sh"
failed=0 found=0 against=''
logs=target/must-fail
kept=${XDG_CACHE_HOME:-$HOME/.cache}/cablesound/edits

# FOLDER: leaves what a check reads of every crate in it.
copy_sources() {
    mkdir -p "$1" && cp crates.txt "$1" || exit 2
    for folder in crates/*/src crates/*/specs crates/*/proofs; do
        [ -d "$folder" ] || continue
        mkdir -p "$1/${folder%/*}" && cp -R "$folder" "$1/$folder" || exit 2
    done
}

# EDIT FOLDER: puts the edit into the crate in the folder, as rt does: each old text stands once in its file, as the pairs before have left it.
apply() {
    awk -v folder="$2" '
        function whole(file,    line, text) { while ((getline line <file) > 0) text = text line "\n"; close(file); return text }
        /^file: / { path = folder "/" substr($0, 7) }
        /^old: / { old = substr($0, 6) }
        /^new:/ {
            new = substr($0, 5)
            sub(/^ /, "", new)
            text = whole(path)
            at = index(text, old)
            if (!at || index(substr(text, at + 1), old)) { print "not once in its file: " old; bad = 1; next }
            printf "%s", substr(text, 1, at - 1) new substr(text, at + length(old)) >path
            close(path)
        }
        END { exit bad }' "$1"
}

# CRATE: it and all that it rests on.
resting_on() {
    awk -v wanted="$1" '
        function visit(name,    list, count, i) {
            if (!(name in needs) || name in seen) return
            seen[name]
            print name
            count = split(needs[name], list, " ")
            for (i = 1; i <= count; i++) visit(list[i])
        }
        { sub(/#.*/, "") }
        split($0, part, ":") == 2 { sub(/ .*/, "", part[1]); needs[part[1]] = part[2] }
        END { visit(wanted) }' crates.txt
}

# EDIT CRATE: the checksum of all that the check of the edit reads.
sum_of() {
    {
        rt version
        cat "$1"
        for name in $(resting_on "$2"); do
            grep "^$name[ :]" crates.txt
            find "crates/$name/src" "crates/$name/specs" "crates/$name/proofs" -type f 2>/dev/null | LC_ALL=C sort | xargs sha256sum
        done
    } | sha256sum | cut -d ' ' -f 1
}

# EDIT: leaves among the logs what `rt check` says of a copy with the edit. Only what the prover has refused is kept: a check that was cut off is made again.
attempt() {
    crate=${1#crates/}
    crate=${crate%%/*}
    log=$logs/$crate-$(basename "$1" .edit).log
    known=$kept/$(sum_of "$1" "$crate")
    [ ! -s "$known" ] || { cp "$known" "$log" && return; }
    copy=$(mktemp -d) || exit 2
    trap 'rm -rf "$copy"' EXIT
    copy_sources "$copy"
    if apply "$1" "$copy/crates/$crate" >"$log"; then
        (cd "$copy/crates/$crate" && rt check) >"$log" 2>&1
        if grep -qx 'logic=not-proved' "$log"; then cp "$log" "$known.$$" && mv "$known.$$" "$known"; fi
    fi
}

# EDIT: its wrong versions, a line each: the name, what it breaks and what it is against, with bars between.
versions() {
    awk '
        function put() { if (name) print name "|" broken "|" (contract == "" ? broken : contract) }
        /^wrong: / { put(); name = $2; broken = contract = "" }
        /^breaks: / { broken = substr($0, 9) }
        /^contract: / { contract = substr($0, 11) }
        END { put() }' "$1"
}

# CRATE LOG: says which of the wrong versions on standard input show nothing in the log of their edit.
look() {
    awk -F '|' -v crate="$1" -v log_file="$2" '
        BEGIN {
            shape = "that can be named from here|is not in scope|has no field|cannot be parsed|(the two types are|expected type) `(lib[.]IntN[.]ℤ|Prim[.]Native[.]Nat[.]ℕ)`"
            while ((getline line < log_file) > 0) {
                place = law = line
                if (line ~ /^fn [^ ]+: no proof: .*`search` did not prove `/) {
                    sub(/^fn /, "", place); sub(/: no proof: .*/, "", place)
                    searched[place] = line
                }
                if (line !~ /^[^ ]+:[0-9]+:[0-9]+: error: `/) continue
                if (sub(/[/](Answers|Invariants|Proof)[.]antt:[0-9]+:[0-9]+: error: .*/, "", place) && sub(/^([.][/])?proofs[/]/, "", place)) {
                    gsub(/\//, "::", place)
                    if (!((crate "::" place) in unproved)) unproved[crate "::" place] = line
                    continue
                }
                sub(/^[^`]*`/, "", law); sub(/`.*/, "", law)
                if (!(law in refused)) refused[law] = line
            }
            for (place in searched) if (!(place in unproved)) unproved[place] = searched[place]
        }
        {
            if ($2 == "") { print "edits: " crate "/" $1 " does not say what it breaks"; bad = 1 }
            count = split($2, broken, " ")
            for (i = 1; i <= count; i++) {
                shown = ((crate "::" broken[i]) in unproved) ? unproved[crate "::" broken[i]] : refused[broken[i]]
                if (shown != "" && shown !~ shape) continue
                print "edits: " crate "/" $1 " shows nothing of " broken[i] ": " (shown == "" ? "no error of its own" : substr(shown, 1, 200)); bad = 1
            }
        }
        END { exit bad }'
}

if [ "${1:-}" = attempt ]; then
    attempt "$2"
    exit
fi

rm -rf "$logs" && mkdir -p "$logs" "$kept" || exit 2
# As many side by side as there are processors: a check takes one of them, and 2 GB at most.
printf '%s\n' crates/*/must-fail/*.edit | xargs -P "$(nproc)" -n 1 sh tests/edits.sh attempt

for edit in crates/*/must-fail/*.edit; do
    crate=${edit#crates/}
    crate=${crate%%/*}
    wrong=$(versions "$edit")
    if [ -z "$wrong" ]; then
        echo "edits: $edit names no wrong version"
        failed=1
        continue
    fi
    log=$logs/$crate-$(basename "$edit" .edit).log
    if ! grep -qx 'logic=not-proved' "$log"; then
        echo "edits: $edit does not come before the prover, or is not refused by it: $(tail -n 1 "$log")"
        failed=1
    fi
    printf '%s\n' "$wrong" | look "$crate" "$log" || failed=1
    found=$((found + $(printf '%s\n' "$wrong" | wc -l)))
    against="$against $(printf '%s\n' "$wrong" | sed 's/.*|//' | tr ' ' '\n' | sed "/::from\$/!s/.*:://; s/^/$crate::/")"
done

for crate in $(sed 's/#.*//; s/:.*//; s/ .*//' crates.txt); do
    [ -f "crates/$crate/src/lib.rt" ] || continue
    [ "$crate" = board_c ] && sh tests/exports.sh >/dev/null && continue
    for name in $(public_in "$crate"); do
        count=$(printf '%s\n' $against | grep -cx "$crate::$name")
        [ "$count" -ge 2 ] && continue
        echo "edits: $crate::$name has $count wrong versions, not two"
        failed=1
    done
done

# docs/PROMISES.md cites wrong versions as CRATE/NAME.
for cited in $(grep -o '`[a-z_]*/[a-z_]*`' docs/PROMISES.md | tr -d '`' | sort -u); do
    grep -qx "wrong: ${cited#*/}" "crates/${cited%/*}"/must-fail/*.edit 2>/dev/null && continue
    echo "edits: docs/PROMISES.md cites $cited, and there is no such wrong version"
    failed=1
done
[ "$failed" -eq 0 ] && echo "edits: $found wrong versions, each refused by a fact of its own, two or more for every public contract"
exit $failed
