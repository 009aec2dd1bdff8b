# What a crate offers, for the tests that ask something of each public function.

# CRATE: its public functions, a line each. A From is one, IMPL::from, where IMPL is what rt calls it: the type that it makes, From, and the type that it
# takes, with no marks in them and a tuple by its size.
public_in() {
    awk '
        function named(type,    tuple, count, part, i, name) {
            while (match(type, /[(][^()]*[)]/)) {
                tuple = substr(type, RSTART + 1, RLENGTH - 2)
                type = substr(type, 1, RSTART - 1) "Tuple" split(tuple, part, ", ") " " tuple substr(type, RSTART + RLENGTH)
            }
            count = split(type, part, /[^A-Za-z0-9_]+/)
            for (i = 1; i <= count; i++) name = name toupper(substr(part[i], 1, 1)) substr(part[i], 2)
            return name
        }
        sub(/^ *pub (extern "C" )?fn /, "") { sub(/[^a-z0-9_].*/, ""); print; next }
        /^ *impl.* From</ {
            sub(/^impl From</, ""); sub(/ [{]$/, "")
            made = taken = $0
            sub(/.*> for /, "", made); sub(/> for .*/, "", taken)
            print named(made) "From" named(taken) "::from"
        }' "crates/$1"/src/*.rt
}
