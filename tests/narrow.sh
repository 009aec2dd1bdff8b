#!/bin/sh
# A range goes by the steps of a board with a narrow multiplier. This looks at all that `track::range_of` comes to, and at every other function of its module,
# as `rt check --generated` leaves it: the code that is proved and compiled, with the width of every number. There may be sums of 64 bits, quotients and
# rests of 32, casts, and one function that multiplies two numbers of 16 bits into 32; whatever else stands there is outside the rule. The README's table
# has to say how many of each a range takes. Then wrong versions of the module, each with a step that the board does not have, have to be told from it.
set -u
root=$(cd "$(dirname "$0")/.." && pwd -P) || exit 2
cd "$root" || exit 2
work=$(mktemp -d) || exit 2
trap 'rm -rf "$work"' EXIT
fail() {
    echo "narrow: FAILED: $*"
    exit 1
}

# [MODULE]: of the code that `lower` left, or of this module's as if it were the crate, a line for each function, for each name by which it calls another,
# and for each definition in it.
definitions() {
    find "$work/code/Rattle-track-proofs${1:+/$1}" -path '*/Code/Mir.antt' | LC_ALL=C sort | xargs awk -v module="track::${1:-track}::" '
        # The function whose folder or module this is.
        function named(path) {
            sub(/-proofs\/|[.]proofs[.]/, "::", path)
            gsub(/[\/.]/, "::", path)
            return index(path, module) == 1 ? "track::" substr(path, length(module) + 1) : path
        }
        function put() {
            gsub(/Syntax[.]|List[.]◌∷◌|List[.]/, "", text)
            gsub(/ +/, " ", text)
            if (text != "") print text
            text = ""
        }
        FNR == 1 {
            put()
            path = FILENAME
            sub(/.*\/Rattle-/, "", path); sub(/\/Code\/Mir[.]antt$/, "", path)
            print "fn-def " named(path)
        }
        /^use Rattle[.].*[.]Symbol( |$)/ { print "use " ($4 == "" ? "Symbol" : $4) ".name " named(substr($2, 8, length($2) - 14)) }
        /^(abbrev|use|--|$)/ { put(); next }
        { text = text " " $0 " " }
        END { put() }'
}

# Of such lines one for each function, local and statement, with _K for local K: `seq assign _4 op2 div unsigned _5 15000`. What is neither locals nor
# statements in a row is a statement of its own name, which is outside the rule: nothing is passed over.
statements() {
    definitions "$@" | awk '
        # FRONT: what has matched in the line becomes FRONT and the last number in it.
        function turn(front,    was) {
            was = substr($0, RSTART, RLENGTH)
            gsub(/^.* |[^0-9]+$/, "", was)
            $0 = substr($0, 1, RSTART - 1) front was substr($0, RSTART + RLENGTH)
        }
        $1 == "fn-def" { print; split("", symbol); next }
        $1 == "use" { symbol[$2] = $3; next }
        $1 == "locals" {
            count = split($0, part, /[(]local /)
            for (i = 2; i <= count; i++) print "local " (part[i] ~ /^[(]ty_int w[0-9]+[)] value_local[)]/ ? "tyInt " substr(part[i], 10) + 0 : "other")
            next
        }
        $1 ~ /^s-[0-9]+$/ {
            sub(/^ [^ ]+ = /, " ")
            for (as in symbol) while ((at = index($0, " " as " ")) > 0) $0 = substr($0, 1, at) symbol[as] substr($0, at + length(as) + 1)
            while (match($0, /[(]int(_big)? w[0-9]+ [0-9]+[)]/)) turn("")
            gsub(/ \[\]/, "")
            while (match($0, /[(](copy|move) [(]place [0-9]+[)][)]/) || match($0, /[(]place [0-9]+[)]/)) turn("_")
            gsub(/[()]|bit_/, " ")
            $1 = $1
            print $1 == "return" ? $0 : "seq " $0
            next
        }
        $1 ~ /^t-[0-9]+$/ { at = substr($1, 3); if ($0 == " t-" at " = s-" at " " || $0 == " t-" at " = seq s-" at " t-" at + 1 " ") next }
        $1 == "function" && / body = t-1;/ { next }
        { print "seq " $1 }'
}

# The README's rows, of such lines; or the first step that is outside the rule, and status 1.
steps() {
    awk '
        function refuse(text) { if (!refused) print text; refused = 1 }
        # NAME DEPTH: adds up what this function takes, and all that it calls.
        function follow(name, depth,    list, count, i) {
            if (!(name in calls) || depth > 9) refuse("calls " name ", which cannot be followed")
            if (name in outside) refuse(name ": " outside[name])
            if (refused) return
            for (i in kinds) total[i] += taken[name, i]
            if (taken[name, "mul32"] && multiplier != "" && multiplier != name) refuse("both " multiplier " and " name " multiply")
            if (taken[name, "mul32"]) multiplier = name
            count = split(calls[name], list, " ")
            for (i = 1; i <= count; i++) follow(list[i], depth + 1)
        }
        BEGIN { kinds["mul32"]; kinds["div32"]; kinds["rem32"]; kinds["add64"] }
        $1 == "fn-def" { name = $2; calls[name] = ""; locals = 0; split("", from); next }
        $1 == "local" { width["_" locals++] = $2 == "tyInt" ? $3 : 0; next }
        $1 == "program" || $1 == "return" { next }
        $2 == "call" { calls[name] = calls[name] " " $3; from[$NF] = 0; next }
        $4 == "op1" && $5 == "cast" && $6 == "unsigned" && $7 == "unsigned" && NF == 9 { from[$3] = width[$9]; next }
        { kind = $5 width[$3]; halves = from[$7] == 16 && from[$8] == 16; from[$3] = 0 }
        $4 == "op2" && $6 == "unsigned" && NF == 8 && kind in kinds && (kind != "mul32" || halves) { taken[name, kind]++; next }
        $4 == "rv_opd" && NF == 5 { next }
        !(name in outside) { outside[name] = $2 == "assign" ? $5 " of " width[$3] " bits" : $2 }
        END {
            follow("track::range_of", 0)
            for (name in outside) if (name ~ /^track::narrow::/) refuse(name ": " outside[name])
            if (refused) exit 1
            print "| two numbers of 16 bits multiplied into 32 | " total["mul32"] " |"
            print "| a number of 32 bits divided | " total["div32"] " |"
            print "| the rest of such a division | " total["rem32"] " |"
            print "| two numbers of 64 bits added | " total["add64"] " |"
        }'
}

# FOLDER: leaves the code of the crate in it in `code`, also where nothing of it is proved.
lower() {
    rm -rf "$work/code"
    (cd "$1" && rt check --generated "$work/code") >"$work/log" 2>&1
    status=$?
    grep -q '^generated=' "$work/log"
}

lower crates/track && [ "$status" -eq 0 ] || fail "rt check of track ends with $status: $(tail -n 1 "$work/log")"
rows=$(statements | steps) || fail "$rows"
printf '%s\n' "$rows" >"$work/rows"
[ "$(grep -cxF -f "$work/rows" README.md)" -eq 4 ] || fail "README.md does not say that a range takes $rows"

# ---- wrong versions

# DO: does it with each wrong version, with what it is refused for and the sed that makes it.
wrong_versions() {
    "$1" 'rounded_share: mul of 64 bits' 's|product\(1229, low\) as u64|low as u64 * 1229|'
    "$1" 'range: mul of 32 bits' 's|pseudorange / 65536|1 * &|'
    "$1" 'product: mul of 32 bits' 's|left: u16|left: u32|'
    "$1" 'product: mul of 16 bits' 's|left as u32 \* right as u32|(left * right) as u32|'
    "$1" 'both track::narrow::rounded_share and track::narrow::product multiply' 's|product\(1229, low\)|(high as u32 * low as u32)|'
    "$1" 'rounded_share: div of 64 bits' 's|parts as u32 / 15000|(parts / 15000) as u32|'
    "$1" 'range: rem of 64 bits' 's|pseudorange % 65536|(pseudorange as u64 % 65536) as u32|'
    "$1" 'range: shr of 32 bits' 's|pseudorange / 65536|pseudorange >> 16|'
    "$1" 'sixteenfold: shl of 64 bits' 's|number \+ number|number << 1|'
    "$1" 'range: and of 32 bits' 's|pseudorange % 65536|pseudorange \& 65535|'
    "$1" 'range: add of 32 bits' 's|pseudorange % 65536|0 + &|'
    "$1" 'whole_micrometres: sub of 64 bits' 's|eighteenfold \+ threefold|eighteenfold + ninefold - threefold - threefold|'
    "$1" 'range_of: mul of 64 bits' 's|narrow::range\(pseudorange\)|(pseudorange as u64 * 149896229 + 7500) / 15000|'
    "$1" 'sixteenfold, which cannot be followed' 's|eightfold \+ eightfold|sixteenfold(eightfold)|'
    "$1" 'idle: mul of 64 bits' '$a fn idle(number: u64) -> u64 { number * 3 }'
    "$1" 'range: lt of 0 bits' 's|let high: u32 = pseudorange / 65536;|if pseudorange > 65535 { return 0; } &|'
}

# They are of the module and of the function of lib.rt that calls it, without their contracts, each a module of one crate that stands by itself: rt takes a
# .rt file only where a listed crate has it. Version 0 is what was looked at above.
sources=$work/project/crates/track/src
mkdir -p "$sources" && echo 'track:' >"$work/project/crates.txt" && echo '#![tactic(none)]' >"$sources/lib.rt" || exit 2
without_contracts='/^ghost use|^ *(requires|ensures) /d'

# WHAT SED
make_version() {
    number=$((number + 1))
    mkdir "$sources/v$number" && echo "mod v$number;" >>"$sources/lib.rt" || exit 2
    { echo 'mod narrow;' && sed -n '/^pub fn range_of/,/^}/p' crates/track/src/lib.rt; } | sed -E "$without_contracts; $2" >"$sources/v$number.rt"
    sed -E "$without_contracts; $2" crates/track/src/narrow.rt >"$sources/v$number/narrow.rt"
}

# WHAT SED: the version that sed makes is refused for WHAT.
refuses() {
    number=$((number + 1))
    told=$(statements "v$number" | steps) && fail "'$2' is not refused"
    case $told in
    *"$1") ;;
    *) fail "'$2' is refused for '$told', not for '$1'" ;;
    esac
}

number=-1
make_version '' ''
wrong_versions make_version
lower "$work/project/crates/track" || fail "a version is none: $(grep -m 1 'error\[' "$work/log")"
[ "$(statements v0 | steps)" = "$rows" ] || fail "without its contracts a range takes $(statements v0 | steps)"
number=0
wrong_versions refuses
echo "narrow: a range goes by the board's steps, as often as the README says; $number versions with another step are refused"
