#!/bin/sh
# The archive for C says what board says. Each public function of board whose name begins with cs_ has an export of its name in board_c, and each export has
# such a function: with the same parameters, answer and clauses, in words that both crates take from the same places, and its body is the call of that
# function. So an export needs no theorem and no wrong version of its own. This reads text only: that the clauses hold is rt's to say. Then changed copies,
# each with one slip, have to be told from the two as they stand.
set -u
root=$(cd "$(dirname "$0")/.." && pwd -P)
cd "$root" || exit 2
work=$(mktemp -d) || exit 2
trap 'rm -rf "$work"' EXIT
fail() {
    echo "exports: FAILED: $*"
    exit 1
}

# FILE: a line for each word that it imports, with the place that it comes from; for each public function three: what stands in front of it, its
# parameters, answer and clauses, and its body; and for whatever else stands there.
items() {
    awk '
        function squeezed(text) {
            gsub(/[ \t]+/, " ", text); gsub(/[(] /, "(", text); gsub(/,? [)]/, ")", text)
            sub(/^ /, "", text); sub(/ $/, "", text)
            return text
        }
        function put_imports(text,    kind, path, list, count, part, pair, i) {
            kind = sub(/^ghost use /, "", text) ? "ghost" : "plain"
            sub(/^use /, "", text); sub(/;$/, "", text)
            list = path = text
            if (sub(/[{].*/, "", path)) { list = substr(list, length(path) + 2); sub(/ *}$/, "", list) }
            else { sub(/[^:.]*$/, "", path); list = substr(list, length(path) + 1) }
            count = split(list, part, /, */)
            for (i = 1; i <= count; i++) print "import " (split(part[i], pair, " as ") == 2 ? pair[2] : part[i]) " " kind " " path pair[1]
        }
        function put_head(text,    name) {
            name = text
            sub(/.*fn /, "", name); sub(/[(<].*/, "", name)
            print "head " name " " squeezed(before substr(text, 1, index(text, "fn ") + 1))
            print "says " name " " squeezed(substr(text, index(text, "fn ") + 3))
            of = name
        }
        state == "" && /^ *(\/\/.*)?$/ { next }
        state == "" && /^(ghost )?use / { state = "import"; held = "" }
        state == "import" { held = held " " $0; if (/;$/) { state = ""; put_imports(squeezed(held)) } next }
        state == "" && /^#\[/ { before = before $0 " "; next }
        state == "" && /^pub .*fn / { state = "head"; held = "" }
        state == "head" && (/^[{]$/ || /^[^ ].* [{]$/) { sub(/[{]$/, ""); put_head(held " " $0); state = "body"; held = ""; next }
        state == "head" { held = held " " $0; next }
        state == "body" && /^}$/ { print "body " of " " squeezed(held); state = before = ""; next }
        state == "body" { held = held " " $0; next }
        { print "other " before $0; before = "" }
        END { if (state != "") print "other " held }' "$1"
}

# Adds to each function that stands among such lines the call that its parameters give: between them are the commas that stand in no bracket.
with_calls() {
    awk '
        $1 != "says" { print; next }
        {
            print
            list = $0
            names = ""
            depth = 0
            sub(/^[^(]*[(]/, "", list); sub(/[)]( ->| ensures| requires|$).*/, "", list)
            for (at = 1; at <= length(list); at++) {
                mark = substr(list, at, 1)
                depth += (index("[({<", mark) > 0) - (index("])}>", mark) > 0)
                names = names (depth == 0 && mark == "," ? "\n" : mark)
            }
            gsub(/: [^\n]*/, "", names); gsub(/\n */, ", ", names)
            print "call " $2 " board::" $2 "(" names ")" ($0 ~ /[)] -> / ? "" : ";")
        }'
}

# BOARD BOARD_C: of these two files, in what the second is no thin library over the first.
slips() {
    items "$1" >"$work/board" && items "$2" | with_calls >"$work/exports" || exit 2
    awk -v board="$work/board" '
        # Whether the exports speak of this word: an operator is imported as ◌≡◌ and stands as ≡.
        function speaks_of(word) {
            if (gsub(/◌/, "", word)) return index(text, word) > 0
            return text ~ ("(^|[^A-Za-z0-9_])" word "([^A-Za-z0-9_]|$)")
        }
        function rest() { return substr($0, length($1 $2) + 3) }
        FILENAME == board {
            if ($1 == "import") { from[$2] = rest(); next }
            if ($2 !~ /^cs_/) next
            if ($1 == "head" && rest() != "pub fn") print $2 ": board has it otherwise than as a public function"
            said[$1, $2] = rest()
            names[$2]
            next
        }
        $1 == "import" { if ($2 == "board" || from[$2] != rest()) print $2 ": board has it from another place"; here[$2]; next }
        $1 == "head" && rest() != "#[unsafe(no_mangle)] pub extern \"C\" fn" { print $2 ": it is no plain export" }
        $1 == "head" { exported[$2]++; next }
        $1 == "says" && said[$1, $2] != rest() { print $2 ": board has other parameters, another answer or other clauses" }
        $1 == "says" { text = text " " rest(); next }
        $1 == "call" { call = rest(); next }
        $1 == "body" { if (rest() != call) print $2 ": its body is not " call; next }
        $0 != "other #![tactic(auto)]" { print "neither an import nor an export: " substr($0, 7) }
        END {
            for (name in names) if (exported[name] != 1) print name ": exported " exported[name] + 0 " times"
            for (name in exported) if (!(name in names)) print name ": board has no such function"
            for (word in from) if (speaks_of(word) && !(word in here)) print word ": board takes it from a place, and it is not imported"
        }' "$work/board" "$work/exports"
}

for crate in board board_c; do
    [ "$(echo "crates/$crate/src"/*)" = "crates/$crate/src/lib.rt" ] || fail "$crate has more than lib.rt, which is all that is read here"
done
found=$(slips crates/board/src/lib.rt crates/board_c/src/lib.rt)
[ -z "$found" ] || fail "$found"
count=$(grep -c '^body ' "$work/exports")
[ "$count" -gt 0 ] && [ "$count" -eq "$(grep -c 'fn cs_' crates/board_c/src/lib.rt)" ] || fail "of the exports $count are read"

# ---- slips

# CRATE SED TEXT: where sed changes the crate, what is found says TEXT.
tried=0
tells() {
    for crate in board board_c; do
        cp "crates/$crate/src/lib.rt" "$work/$crate.rt" || exit 2
    done
    sed -E "$2" "crates/$1/src/lib.rt" >"$work/$1.rt"
    ! cmp -s "crates/$1/src/lib.rt" "$work/$1.rt" || fail "'$2' changes nothing"
    found=$(slips "$work/board.rt" "$work/board_c.rt")
    case $found in
    *"$3"*) tried=$((tried + 1)) ;;
    *) fail "of '$2' is said: $found" ;;
    esac
}

other='board has other parameters, another answer or other clauses'
tells board_c 's|range_deviation code \}|adr_deviation code }|' "cs_rangecmp_range_mm: $other"
tells board_c 's|  ensures \{ result ≡ fresh_state \}||' "cs_fresh: $other"
tells board_c 's|^    ensures \{ result ≡ range_of|    requires { pseudorange ≡ 0 }\n&|' "cs_range_um: $other"
tells board 's|^    ensures \{ result ≡ range_of|    ensures small { result < 2 ^ 43 }\n&|' "cs_range_um: $other"
tells board 's| × Bounded pseudorange rate result||' "cs_plot_row: $other"
tells board_c 's|lock: u32|lock: u64|' "cs_lock_ms: $other"
tells board_c 's|signal: u8, tfom: u8|tfom: u8, signal: u8|' "cs_to_new: $other"
tells board_c 's|^    state: &mut State,|    state: State,|' "cs_feed: $other"
tells board_c 's|(cs_check.*) u64|\1 u32|' "cs_check: $other"
tells board_c 's|board::cs_rangecmp_adr\(|board::cs_rangecmp_read(|' 'cs_rangecmp_adr: its body is not board::cs_rangecmp_adr(bytes)'
tells board_c 's|board::cs_to_old\(message, version|board::cs_to_old(version, message|' 'cs_to_old: its body is not board::cs_to_old(message, version, output)'
tells board_c 's|^    board::cs_breaks_fresh.*|&\n&|' 'cs_breaks_fresh: its body is not board::cs_breaks_fresh(history, signal);'
tells board_c 's|^    board::cs_lock_ms\(lock\)|& / 1000|' 'cs_lock_ms: its body is not board::cs_lock_ms(lock)'
tells board_c 's|^    board::cs_why|    words::cs_why|' 'cs_why: its body is not board::cs_why(recording, position)'
tells board_c '/^pub extern "C" fn cs_why/,/^\}/d' 'cs_why: exported 0 times'
tells board 's|^pub fn cs_why|fn cs_why|' 'cs_why: board has no such function'
tells board '$a pub fn cs_more() -> u64 {\n    0\n}' 'cs_more: exported 0 times'
tells board_c '$a pub extern "C" fn cs_more() -> u64 {\n    board::cs_more()\n}' 'cs_more: board has no such function'
tells board_c '/^#\[unsafe/{N; s|.*\n(.*fn cs_next)|\1|}' 'cs_next: it is no plain export'
tells board_c 's|^pub extern "C" fn cs_next|pub fn cs_next|' 'cs_next: it is no plain export'
tells board_c 's|units\.specs\.Units\.\{|words.specs.Words.{|' 'lock_of: board has it from another place'
tells board_c 's|\{range_of\}|{row_of as range_of}|' 'range_of: board has it from another place'
tells board_c 's|^use macm::Form|use track::Form|' 'Form: board has it from another place'
tells board_c 's|^use macm::Form|use words as board|' 'board: board has it from another place'
tells board_c 's|\{◌≡◌, length\}|{length}|' '◌≡◌: board takes it from a place, and it is not imported'
tells board_c 's|\{Finds, Lists\}|{Lists}|' 'Finds: board takes it from a place, and it is not imported'
tells board_c '$a mod more;' 'neither an import nor an export: mod more;'
tells board_c 's|^// Feeds a reader.*|#[tactic(none)]|' 'cs_feed: it is no plain export'
echo "exports: $count exports of board_c, each the call of board's function of its name, with its parameters, answer and clauses; $tried slips are told"
