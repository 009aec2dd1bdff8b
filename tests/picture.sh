#!/bin/sh
# `./cablesound plot`: what the picture is drawn from, the picture where there is a gnuplot, and what is said around the drawing. Needs target/bin, which
# the gate and `./cablesound build` leave.
set -u
root=$(cd "$(dirname "$0")/.." && pwd -P) || exit 2
cd "$root" || exit 2
fail() {
    echo "picture: FAILED: $*"
    exit 1
}
. tests/says

# What it is drawn from.
rm -rf target/points && mkdir target/points || exit 2
awk -v folder=target/points -f tools/points.awk samples/sortie.listing samples/sortie.rows || fail "points.awk stops"
for panel in range rate cn0; do
    [ "$(wc -l <"target/points/$panel")" -eq 472 ] || fail "the picture does not show every $panel"
done
[ "$(head -n 1 target/points/range) $(head -n 1 target/points/rate) $(head -n 1 target/points/cn0)" = \
    '1 245370.000 20583.194121 1 245370.000 1681.600000 1 245370.000 47' ] || fail "the picture shows other numbers"
[ "$(tr '\n' ' ' <target/points/gaps)" = '245370.000 30 245390.500 112 245420.000 5 ' ] || fail "the picture shows other gaps: $(cat target/points/gaps)"
grep -qx "names = '0/2 0/7 0/14 0/24 old/2 old/7 old/14 old/24 '" target/points/facts || fail "the picture names its satellites otherwise"
grep -qx 'behind_bytes = 70' target/points/facts || fail "the picture's last gap is another"

# In a hundred seconds four observations of the first milliseconds share a column of pixels: the lowest and the highest range are shown,
# and each C/N0 once.
printf 'at bytes form obs time\n0 160 v2 6 0\n160 40 v2 1 100000\nend 200 messages 2 gap 0\n' >target/short.listing
awk 'BEGIN { print "heading"; for (i = 1; i <= 4; i++) print 0, i, "v2 0 5", 40, "-", substr("5194", i, 1) * 1000, "- - -", 0, 0; print 160, 100000, "v2 0 5", 40, "-", 7000, "- - -", 0, 0 }' >target/short.rows
awk -v folder=target/points -f tools/points.awk target/short.listing target/short.rows || fail "points.awk stops"
[ "$(tr '\n' ' ' <target/points/range)" = '1 0.002 1.000000 1 0.003 9.000000 1 100.000 7.000000 ' ] || fail "of a column the picture shows: $(cat target/points/range)"
[ "$(tr '\n' ' ' <target/points/cn0)" = '1 0.001 40 1 100.000 40 ' ] || fail "of a column the picture shows: $(cat target/points/cn0)"

# The picture itself, or a line that says what it needs.
if command -v gnuplot >/dev/null 2>&1; then
    says 0 '' ./cablesound plot samples/sortie.macm target/sortie.png
    [ "$(head -c 4 target/sortie.png | tail -c 3)" = PNG ] || fail "plot makes no picture"
else
    says 1 "cablesound: no gnuplot on this machine: install it, on Debian with 'apt install gnuplot-nox'" ./cablesound plot samples/sortie.macm target/sortie.png
fi

# Around the drawing: a gnuplot stands in that writes its words for a picture.
mkdir -p target/drawing && cd target/drawing || exit 2
printf '#!/bin/sh\nshift 2\necho "$2" >"$1/picture"\n' >gnuplot && chmod +x gnuplot
PATH=$PWD:$PATH
export PATH
cp "$root/samples/sortie.macm" -- -sortie.macm || exit 2
says 0 '' "$root/cablesound" plot -sortie.macm -out.png
[ "$(cat -- -out.png)" = -sortie.macm ] || fail "the picture has another name: $(cat -- -out.png)"
cat -- -sortie.macm | "$root/cablesound" plot /dev/stdin out.png || fail "plot of a pipe"
says 1 'cablesound: no observation in /dev/null' "$root/cablesound" plot /dev/null none.png
says 1 'cablesound: this picture cannot be written: none/none.png' "$root/cablesound" plot -sortie.macm none/none.png
says 1 'cablesound: this is a folder: .' "$root/cablesound" plot -sortie.macm .
says 1 "cablesound: the picture would take the recording's place: ./-sortie.macm" "$root/cablesound" plot -sortie.macm ./-sortie.macm
says 1 'cablesound: plot needs a recording and a picture: ./cablesound plot FILE OUT.png' "$root/cablesound" plot -sortie.macm
rm -f line && mkfifo line || exit 2
"$root/cablesound" plot /dev/stdin live.png <line &
live=$!
exec 7>line
sleep 0.3
kill "$live" && wait "$live" 2>/dev/null
[ $? -eq 143 ] || fail "plot does not end by the signal that it is sent"
(head -c 200000 /dev/zero >&7) 2>/dev/null && fail "plot reads on where the command has ended"
exec 7>&-
echo "picture: it shows every observation and every gap, and says what it cannot draw"
