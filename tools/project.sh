# What works in the project alone: proving and building, the gate, the release, the fuzz and the bench. `cablesound` takes this file in.
. "$root/tools/machine.sh"

# CRATE: what is made of it. The exports for C are in board_c, and its archive keeps the name that C hosts link.
made_of() {
    case $1 in
    board_c) echo target/staticlib/libboard.a ;;
    *) echo "target/bin/$1" ;;
    esac
}

# CRATE...: these and all that they rest on, in the order in which rt proves them: each behind those that it names, as it names them.
resting_on() {
    awk -v wanted="$*" '
        function visit(name,    list, count, i) {
            if (!(name in needs) || name in seen) return
            seen[name]
            count = split(needs[name], list, " ")
            for (i = 1; i <= count; i++) visit(list[i])
            print name
        }
        { sub(/#.*/, "") }
        split($0, part, ":") == 2 { sub(/ .*/, "", part[1]); needs[part[1]] = part[2] }
        END {
            count = split(wanted, list, " ")
            for (i = 1; i <= count; i++) visit(list[i])
        }' crates.txt
}

# CRATE...: those of them of which nothing is made yet, or that rest on something that has changed since. What rt keeps in a crate's out/ is no part of
# it, and neither is the time at which that folder came or went.
outdated() {
    for crate in "$@"; do
        made=$(made_of "$crate")
        [ -f "$made" ] && [ -z "$(find crates.txt $(resting_on "$crate" | sed 's|^|crates/|') \
            -name out -prune -o \( -type f -o -path 'crates/*/*' \) -newer "$made" -print -quit)" ] || echo "$crate"
    done
}

# TEXT: says what is being done, on a line of its own or, on a terminal, in the place of the last.
announce() {
    if [ -t 2 ]; then show "$1"; else say "$1"; fi
}

# READER COMMAND...: what the command prints goes through the reader; answers how the command ended. It has a process group of its own, so that no prover
# outlives this run.
through() {
    reader=$1
    shift
    make_pipe printed
    "$reader" <"$work/printed" &
    reading=$!
    await setsid "$@" >"$work/printed" 2>&1
    status=$?
    wait "$reading"
    return "$status"
}

# Says which crate of the plan is being proved, each as rt begins with it, and keeps what rt prints. What is proved already rt passes over in silence.
announce_proofs() {
    set -- $plan
    count=$# begun=$1
    announce "proving $1, 1 of $count"
    while IFS= read -r line; do
        printf '%s\n' "$line"
        case $line in
        'rt: chose --jobs '*" for $begun") ;;
        'rt: chose --jobs '*' for '*)
            begun=${line##* }
            place=$(printf '%s\n' "$@" | grep -nxF -e "$begun" | cut -d : -f 1)
            [ -z "$place" ] || announce "proving $begun, $place of $count"
            ;;
        esac
    done >target/check.log
    [ ! -t 2 ] || unshow
}

# CRATE...: proves them and all that they rest on, and builds them.
prove() {
    plan=$(resting_on "$@")
    through announce_proofs sh tools/prove.sh "$@" || fail "not proved: $*: see target/check.log"
}

# CRATE...: programs, or board_c for the archive: proves and builds those that are out of date. Of two runs that want to, one waits.
provide() {
    here=$PWD
    cd "$root" || exit 2
    if [ -n "$(outdated "$@")" ]; then
        need_rt
        mkdir -p target && { command exec 9>target/lock; } 2>/dev/null || fail "nothing can be written into $root/target"
        flock -n 9 || await flock 9
        renew $(outdated "$@")
        exec 9>&-
    fi
    cd "$here" || exit 2
}

# CRATE...
renew() {
    [ $# -gt 0 ] || return 0
    prove "$@"
    for crate in "$@"; do
        touch "$(made_of "$crate")"
    done
}

need_rt() {
    command -v rt >/dev/null 2>&1 || fail "no rt on this machine: the Rattle toolchain is needed"
}

# Whether x86-64 code can be compiled and run here. Of the emulators before version 10 that were tried, one stops where a program asks for its own memory
# map, as the address sanitizer does, and one has a table of all pages that the sanitizer sets aside, which is more than the machine's memory.
emulates() {
    command -v "$gcc" && command -v "$gxx" && [ -d /usr/lib/rustlib/x86_64-unknown-linux-gnu ] &&
        [ "$(qemu-x86_64 --version | sed -n 's/^qemu-x86_64 version \([0-9]*\).*/\1/p')" -ge 10 ]
} >/dev/null 2>&1

# Debian 12 has that emulator among its backports, at the mirror that the machine goes by. Nothing else is taken from there, and the machine's list of
# sources stays as it is.
install_packages() {
    . /etc/os-release
    backports=$VERSION_CODENAME-backports
    apt-get update &&
        mirror=$(apt-get indextargets --format '$(REPO_URI)' 'Created-By: Packages' "Release: $VERSION_CODENAME" | head -n 1) &&
        cp -R /etc/apt/sources.list.d "$work/sources" &&
        echo "deb [signed-by=/usr/share/keyrings/debian-archive-keyring.gpg] $mirror $backports main" >"$work/sources/backports.list" &&
        dpkg --add-architecture amd64 &&
        apt-get -o Dir::Etc::sourceparts="$work/sources" update &&
        DEBIAN_FRONTEND=noninteractive apt-get -o Dir::Etc::sourceparts="$work/sources" install -y --no-install-recommends $packages "qemu-user/$backports"
}

# On another machine than x86-64, what tools/machine.sh names.
need_emulation() {
    [ -n "$emulator" ] && ! emulates || return 0
    packages='gcc-x86-64-linux-gnu g++-x86-64-linux-gnu rustc-web libstd-rust-web-dev:amd64'
    needed="Debian's $packages, and qemu-user from version 10 on"
    [ "$(id -u)" -eq 0 ] && command -v apt-get >/dev/null || fail "x86-64 code is run here by an emulator: install $needed"
    say "x86-64 code is run here by an emulator: installs $needed"
    mkdir -p target && await install_packages >target/install.log 2>&1 && emulates || fail "not installed: $needed: see target/install.log"
}

# What support and a C host need where there is no toolchain, in one folder that can be copied anywhere.
build() {
    provide $programs board_c
    mkdir -p build/help build/tools build/samples &&
        cp -f cablesound release/* include/cablesound.h tests/host/recording.c build/ &&
        cp -f target/staticlib/libboard.a build/libcablesound.a &&
        (cd target/bin && cp -f $programs ../../build/) &&
        (cd help && cp -f $commands help ../build/help/) &&
        cp -f tools/plot.gnuplot tools/points.awk build/tools/ &&
        cp -f samples/sortie.macm samples/phases.macm samples/locks.macm build/samples/ || fail "nothing can be put into build/"
    say "build/ is a release: build/README.md says what is in it"
}

# SECONDS [SEED]
fuzz() {
    case ${1:-} in
    '' | *[!0-9]*) fail "fuzz needs a number of seconds" ;;
    esac
    need_emulation
    provide board_c
    cd tests && await setsid $cargo run --offline --locked --quiet --bin fuzz -- "$@"
}

# NAME WORD...: a program of bench/, or a part of one, of these files and with these options.
compile() {
    name=$1
    shift
    $gcc -std=c11 -Wall -Wextra -Werror -Ibuild "$@" -o "target/bench/compiled/$name" || fail "bench: $name does not compile"
}

# PROGRAM SCRIPT: leaves a script that runs the program. A process under the emulator can start one of this machine's own alone.
emulated() { printf '#!/bin/sh\nexec %s "%s"\n' "$emulator" "$PWD/$1" >"$2" && chmod +x "$2" || exit 2; }

# PROGRAM: puts it, or a script that runs it, where the bench looks for it.
offer() {
    place=target/bench/$(basename "$1")
    rm -f "$place" || exit 2
    if [ -n "$emulator" ]; then emulated "$1" "$place"; else cp "$1" "$place" || exit 2; fi
}

bench() {
    say "builds the library, its programs and those in C, then measures for the better part of a minute"
    need_emulation
    build
    mkdir -p target/bench/compiled || exit 2
    for program in listing rows; do
        offer "target/bin/$program"
        for level in -O2 -O3; do
            compile "$program$level" "$level" "bench/$program.c" bench/input.c bench/reader.c
            offer "target/bench/compiled/$program$level"
        done
    done
    compile lock.o -O3 -c bench/lock.c
    compile bench -O2 bench/bench.c target/bench/compiled/lock.o bench/locks.c bench/measure.c bench/observations.c bench/process.c bench/programs.c \
        bench/reader.c bench/record.c bench/records.c bench/streams.c build/libcablesound.a
    [ -z "$emulator" ] || say "an emulator runs all of it: the times, and a target that is missed, say nothing of x86-64"
    await setsid $emulator target/bench/compiled/bench target/bench
}

# Keeps what rt prints, and its tally back.
hold_tally() { tee "$work/log" | grep --line-buffered -Ev '^[0-9]+ passed, [0-9]+ failed$'; }

# Whether all is well by what rt printed. A wrong version that does not apply or does not compile is bad: it shows nothing, and rt passes it with a word.
need_tally() {
    grep -q '^rt: ok;' "$work/log" || fail "rt ci does not say that all is well"
    ! grep -E '^rt: ok;.*, [0-9]+ bad(;|$)' "$work/log" >"$work/bad" || fail "rt ci passes wrong versions that show nothing: $(cat "$work/bad")"
    tail -n 1 "$work/log" | grep -Eqx '[0-9]+ passed, 0 failed' || fail "rt ci ends with: $(tail -n 1 "$work/log")"
}

# The programs that rt ci has built and run.
take() {
    mkdir -p target/bin
    for program in $programs; do
        cp -f "crates/$program/out/$program" target/bin/ || fail "rt ci leaves no program $program"
    done
}

# The gate. rt's own tally is held back until everything else has passed, so that it is the very last line.
gate() {
    need_rt
    need_emulation
    through hold_tally rt ci || fail "rt ci failed: $(tail -n 1 "$work/log")"
    need_tally
    take
    renew board_c
    for test in tests/*.sh; do
        await setsid sh "$test" || fail "$test failed"
    done
    left=$(find . -path ./.git -prune -o -type l -print -quit)
    [ -z "$left" ] || fail "a test leaves a link, for which the next rt ci would refuse the project: $left"
    tail -n 1 "$work/log"
}

# COMMAND [WORD...]
project() {
    cd "$root" && exec </dev/null || exit 2
    make_room
    case $1 in
    test) gate ;;
    build) build ;;
    bench) bench ;;
    fuzz)
        shift
        fuzz "$@"
        ;;
    esac
}
