#!/bin/sh
# Runs the console on the session of all twenty calls, builds the C and the Rust examples against the proved kernel and runs them; what
# each prints is compared with its file .expected.
# Needs the Rattle kit, rustc and a C compiler. The archive is for x86-64: on another processor it needs also what Debian has as
#   gcc-x86-64-linux-gnu libc6-dev-amd64-cross qemu-user rustc, and libstd-rust-dev for the architecture amd64:
#   dpkg --add-architecture amd64; apt-get update; apt-get install PACKAGES libstd-rust-dev:amd64
# RUSTC, CC and QEMU name others; model/x86-64.sh finds them.
set -eu
cd "$(dirname "$(readlink -f "$0")")/.."
. model/x86-64.sh
made=target/examples
archive=$PWD/target/staticlib/libkernel.a

compare() { # NAME STORED PRINTED
    if ! diff "$2" "$3"; then
        echo "examples: $1 printed something else than $2" >&2
        exit 1
    fi
    echo "$1: $(wc -l <"$2" | tr -d ' ') lines as stored"
}

# Links at the start, not at each function's first call, which would need stack of its own.
build_c() { # NAME
    "$CC" -std=c99 -O2 -Wall -Wextra -Wpedantic -Werror -Iinclude "examples/c/$1.c" "$archive" -Wl,-z,now ${library:+"$library"} \
        -o "$made/$1_c"
}

build_rust() { # NAME
    "$RUSTC" --edition 2021 -O -D warnings --target "$target" -C linker="$CC" -C link-arg="$archive" ${library:+-C link-arg="$library"} \
        "examples/rust/$1.rs" -o "$made/$1_rust"
}

started() { # NAME
    if on_x86_64; then "$made/$1"; else "$QEMU" "$made/$1"; fi
}

command -v rt >/dev/null || lacking "rt is not found: it is the Rattle kit's, so put the folder bin of the kit on the PATH"
find_compilers
on_x86_64 || find_emulator

mkdir -p "$made"
./cabinet --words examples/twenty-calls.txt >"$made/twenty-calls.txt"
compare "the twenty calls" examples/twenty-calls.expected "$made/twenty-calls.txt"
echo "examples: proving the kernel where that has not been done, and writing its archive"
if ! ./libkernel >"$made/rt.log" 2>&1; then
    tail -n 5 "$made/rt.log" >&2
    echo "examples: the archive was not written; $made/rt.log has what was said" >&2
    exit 1
fi

# What the header says of it.
needed=$(nm -u "$archive" | awk 'NF == 2 { print $2 }' | sort -u | tr '\n' ' ')
if [ "$needed" != "memset " ]; then
    echo "examples: the archive needs more of the C library than memset, or other than it: $needed" >&2
    exit 1
fi
echo "the archive: of the C library it needs memset alone"

for example in grant firmware; do
    build_c "$example"
    build_rust "$example"
    for language in c rust; do
        started "${example}_$language" >"$made/${example}_$language.txt"
        compare "$example, $language" "examples/$example.expected" "$made/${example}_$language.txt"
    done
done
build_c stack
started stack_c <examples/twenty-calls.txt >"$made/stack_c.txt"
compare "stack, c" examples/stack.expected "$made/stack_c.txt"
