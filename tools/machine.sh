# What compiles and runs code for x86-64, which is all that rt compiles for: there the machine's own compilers and no emulator, elsewhere Debian's cross
# compilers and its emulator. The tests and the bench take this file in.
cc=cc gcc=gcc gxx=g++ cargo=cargo emulator=''
if [ "$(uname -m)" != x86_64 ]; then
    gcc=x86_64-linux-gnu-gcc gxx=x86_64-linux-gnu-g++
    cc=$gcc
    # An x86-64 process has no address from 2^47 on, and the address sanitizer counts on that: its address 0 is put where the machine's own 2^47 is. The
    # emulator copies by `rep` byte after byte, which takes three times as long as what the C library does on a processor without erms.
    emulator='qemu-x86_64 -B 0x800000000000 -cpu max,-erms'
    # For what links the archive. A rustup toolchain may know no machine but its own.
    cargo='env RUSTC=/usr/bin/rustc RUSTDOC=/usr/bin/rustdoc CARGO_BUILD_TARGET=x86_64-unknown-linux-gnu cargo'
    export CARGO_TARGET_X86_64_UNKNOWN_LINUX_GNU_LINKER="$gcc" CARGO_TARGET_X86_64_UNKNOWN_LINUX_GNU_RUNNER="$emulator"
fi
