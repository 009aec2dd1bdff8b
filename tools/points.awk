# What the picture is drawn from: awk -v folder=FOLDER -f points.awk LISTING ROWS. Into the folder go
#   range, rate, cn0  lines of a satellite's number, seconds, and kilometres, hertz or dB-Hz
#   gaps              a line for each message with gap bytes before it: seconds, gap bytes
#   facts             for gnuplot: the satellites' numbers and names in order, the first and the last second, the gap bytes in all and those behind the
#                     last message
# A satellite is TYPE/SID; the old form has no TYPE, and its satellites are old/SID. Where several observations of a satellite fall into one of the
# picture's columns of pixels, the lowest and the highest range and rate are kept, and every C/N0 once: a long recording is drawn as fast as a short one.
BEGIN {
    columns = 1200
    cn0 = folder "/cn0"
    gaps = folder "/gaps"
    facts = folder "/facts"
    printf "" >gaps
}

FNR == 1 { next }

# ---- the listing

NR == FNR && $1 == "end" {
    bytes = $2
    gap = $6
    width = last > first ? (last - first) / columns : 1
    next
}

NR == FNR {
    second = $5 / 1000
    if (first == "" || second < first) first = second
    if (last == "" || second > last) last = second
    if ($1 > behind) printf "%.3f %d\n", second, $1 - behind >gaps
    behind = $1 + $2
    next
}

# ---- the rows

# What is kept of a satellite's last column.
function put(panel, satellite,    place) {
    place = panel satellite
    printf "%d %.3f %.6f\n", satellite, low_second[place], low[place] >(folder "/" panel)
    if (low[place] < high[place]) printf "%d %.3f %.6f\n", satellite, high_second[place], high[place] >(folder "/" panel)
}

function see(panel, satellite, value,    place) {
    place = panel satellite
    if (!(place in column) || column[place] != here) {
        if (place in column) put(panel, satellite)
        column[place] = here
        low[place] = high[place] = value
        low_second[place] = high_second[place] = second
    } else if (value < low[place]) {
        low[place] = value
        low_second[place] = second
    } else if (value > high[place]) {
        high[place] = value
        high_second[place] = second
    }
}

{
    name = ($3 == "v1" ? "old" : $4) "/" $5
    if (!(name in number)) number[name] = ++satellites
    second = $2 / 1000
    here = int((second - first) / width)
    see("range", number[name], $8 / 1000)
    see("rate", number[name], $12 + 0)
    if (seen[number[name], $6] == here "") next
    seen[number[name], $6] = here ""
    printf "%d %.3f %d\n", number[name], second, $6 >cn0
}

# ---- the end

function list(name) {
    if (!(name in number)) return
    put("range", number[name])
    put("rate", number[name])
    numbers = numbers number[name] " "
    names = names name " "
}

END {
    for (type = 0; type < 256; type++)
        for (sid = 0; sid < 256; sid++) list(type "/" sid)
    for (sid = 0; sid < 256; sid++) list("old/" sid)
    printf "numbers = '%s'\nnames = '%s'\n", numbers, names >facts
    printf "first = %.3f\nlast = %.3f\n", first, last >facts
    printf "gap_bytes = %d\nbehind_bytes = %d\n", gap, bytes - behind >facts
}
