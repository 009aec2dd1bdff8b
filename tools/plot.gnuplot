# Range, rate and C/N0 of each satellite and the gap bytes before each message, over time: gnuplot -c plot.gnuplot FOLDER NAME.
# FOLDER has what points.awk makes of the recording NAME, and gets the picture.
range = ARG1.'/range'
rate = ARG1.'/rate'
cn0 = ARG1.'/cn0'
gaps = ARG1.'/gaps'
load ARG1.'/facts'
satellites = words(names)

# A satellite is told from 40 others by colour and shape together. The hues go round by the golden ratio, so that neighbours in number differ.
hue(n) = n * 0.618034 - floor(n * 0.618034)
colour(n) = hsv2rgb(hue(n), 0.9, 0.55 + 0.15 * (int(n) % 3))
shape(n) = word('7 5 9 11 13 4 6 8 10 12', 1 + int(n) % 10) + 0

# C/N0 is a whole number, which many share: each satellite is drawn a little off it, by less than half, so that none hides another.
aside(n) = (n - 0.5 * (satellites + 1)) * (satellites > 40 ? 0.8 / satellites : 0.02)

set terminal pngcairo size 1400, 1600 noenhanced
set output ARG1.'/picture'
set multiplot layout 4, 1 title ARG2 font ',18'

# The names stand on the right over the whole height, 60 or more in a column, in four columns at most.
rows = satellites > 240 ? (satellites + 3) / 4 : 60
columns = (satellites + rows - 1) / rows
set label 1 'TYPE/SID' at screen 0.985, screen 0.972 right
do for [i = 1:satellites] {
    n = word(numbers, i) + 0
    x = 1.005 - 0.065 * (columns - (i - 1) / rows)
    y = 0.955 - 0.93 / rows * ((i - 1) % rows)
    set label 1 + i word(names, i) at screen x, screen y left offset 1.5, 0 point pointtype shape(n) linecolor rgb colour(n)
}
set lmargin at screen 0.08
set rmargin at screen 0.98 - 0.065 * columns
set xrange [first - 1:last + 1]
set format x '%.10g'
set format y '%.10g'
set offsets 0, 0, graph 0.05, graph 0.05
set grid
unset key

set title 'Range, km'
plot range using 2:3:(shape($1)):(colour($1)) with points pointtype variable linecolor rgb variable pointsize 0.5
unset label

set title 'Rate, Hz'
plot rate using 2:3:(shape($1)):(colour($1)) with points pointtype variable linecolor rgb variable pointsize 0.5

set title 'C/N0, dB-Hz'
plot cn0 using 2:($3 + aside($1)):(shape($1)):(colour($1)) with points pointtype variable linecolor rgb variable pointsize 0.5

set title sprintf('Gap bytes before each message: %d in all, %d of them behind the last message', gap_bytes, behind_bytes)
set xlabel 'time of week, s'
unset offsets
set logscale y
set yrange [0.7:gap_bytes > 10000 ? 2 * gap_bytes : 20000]
if (gap_bytes > behind_bytes) {
    plot gaps using 1:2 with impulses linecolor rgb 'red' linewidth 2, gaps using 1:2 with points pointtype 7 linecolor rgb 'red'
} else {
    plot NaN
}
unset multiplot
