# Read by the scripts that build and run programs for x86-64, the processor that the kernel's archive is for.
# On x86-64 they need rustc and a C compiler, cc, and count.sh needs the emulator too. On another processor they need
#   rustc with its library for x86-64   rustup target add x86_64-unknown-linux-gnu; or Debian's, whether or not another Rust is there:
#                                       dpkg --add-architecture amd64; apt-get update; apt-get install rustc libstd-rust-dev:amd64
#   a C compiler for x86-64             apt-get install gcc-x86-64-linux-gnu libc6-dev-amd64-cross
#   the emulator qemu-x86_64            apt-get install qemu-user
# RUSTC, CC and QEMU name others of each.
target=x86_64-unknown-linux-gnu

lacking() {
    printf '%s: %s\n' "$(basename "$0")" "$1" >&2
    exit 2
}

need() {
    command -v "$1" >/dev/null || lacking "$1 is not found (Debian: apt-get install $2); the first lines of model/x86-64.sh list all that is needed"
}

on_x86_64() { [ "$(uname -m)" = x86_64 ]; }

has_library() { [ -d "$("$1" --print sysroot 2>/dev/null)/lib/rustlib/$target/lib" ]; }

# Sets RUSTC and CC; and library, an option of the linking by which a program finds the C library for x86-64 on another processor.
find_compilers() {
    library=
    if on_x86_64; then
        RUSTC=${RUSTC:-rustc} CC=${CC:-cc}
        need "$CC" gcc
    else
        CC=${CC:-x86_64-linux-gnu-gcc}
        need "$CC" "gcc-x86-64-linux-gnu libc6-dev-amd64-cross"
        loader=$(readlink -f "$("$CC" -print-file-name=ld-linux-x86-64.so.2)")
        [ ! -f "$loader" ] || library=-Wl,--dynamic-linker=$loader,-rpath,$(dirname "$loader")
        if [ -z "${RUSTC:-}" ]; then
            RUSTC=rustc
            if ! has_library rustc && has_library /usr/bin/rustc; then RUSTC=/usr/bin/rustc; fi
        fi
    fi
    need "$RUSTC" rustc
    has_library "$RUSTC" || lacking "$RUSTC has no library for x86-64: rustup target add $target; or Debian's rustc:
  dpkg --add-architecture amd64; apt-get update; apt-get install rustc libstd-rust-dev:amd64"
}

find_emulator() {
    QEMU=${QEMU:-qemu-x86_64}
    need "$QEMU" qemu-user
}
