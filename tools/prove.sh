#!/bin/sh
# CRATE...: proves each and all that it rests on, and leaves what is made of it in target/. It stands in a file of its own, so that a process group can be
# made of it. rt builds a program where it runs it: so each is run on nothing, with a TYPE for the one that takes it.
set -u
for crate in "$@"; do
    case $crate in
    board_c)
        (cd crates/board_c && rt lib) && mkdir -p target/staticlib && cp -f crates/board_c/out/libboard_c.a target/staticlib/libboard.a || exit 1
        ;;
    *)
        (cd "crates/$crate" && rt run -- 0 </dev/null 2>&1 >/dev/null) && mkdir -p target/bin && cp -f "crates/$crate/out/$crate" target/bin/ || exit 1
        ;;
    esac
done
