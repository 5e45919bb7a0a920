#!/bin/sh
# Builds the model and its drivers into model/target/drivers, offline.
#   model/build.sh ARCHIVE   for x86-64, with the proved kernel: ARCHIVE is what ./libkernel writes
#   model/build.sh           for this processor, with a stub that is the model itself: tests the drivers and nothing else
# model/run.sh runs them. The first lines of model/x86-64.sh say what is needed.
set -eu
here=$(dirname "$(readlink -f "$0")")
. "$here/x86-64.sh"
made=$here/target/drivers

case $# in
    0)
        archive=
        machine=$(uname -m)
        RUSTC=${RUSTC:-rustc}
        need "$RUSTC" rustc
        ;;
    1)
        [ -f "$1" ] || lacking "no file $1; ./libkernel writes target/staticlib/libkernel.a"
        archive=$(readlink -f "$1")
        machine=x86_64
        find_compilers
        ;;
    *) lacking "usage: build.sh [ARCHIVE]" ;;
esac

compile() {
    if [ -n "$archive" ]; then
        set -- --target "$target" -C linker="$CC" ${library:+-C link-arg="$library"} "$@"
    else
        set -- --cfg 'feature="stub"' "$@"
    fi
    "$RUSTC" --edition 2021 -C opt-level=3 -C codegen-units=1 "$@"
}

rm -rf "$made"
mkdir -p "$made"
compile --crate-name model --crate-type rlib "$here/src/lib.rs" -o "$made/libmodel.rlib"
for source in "$here"/src/bin/*.rs; do
    compile --extern model="$made/libmodel.rlib" ${archive:+-C link-arg="$archive"} "$source" -o "$made/$(basename "$source" .rs)"
done
echo "$machine" >"$made/machine"
echo "built for $machine by $("$RUSTC" --version), linked with ${archive:-the stub}"
