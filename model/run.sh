#!/bin/sh
# Runs a driver that model/build.sh has built; where it is for another processor, under the emulator.
#   model/run.sh DRIVER [ARGUMENTS]     DRIVER: bench, compare, console, count, damage, hex, hex_cases, lines,
#                                         replay or vectors
set -eu
here=$(dirname "$(readlink -f "$0")")
. "$here/x86-64.sh"
made=$here/target/drivers
[ $# -gt 0 ] || lacking "usage: run.sh DRIVER [ARGUMENTS]"
[ -f "$here/src/bin/$1.rs" ] || lacking "no driver $1; they are the files of model/src/bin"
[ -f "$made/machine" ] || lacking "nothing is built yet: model/build.sh ARCHIVE"
driver=$made/$1
shift
if [ "$(cat "$made/machine")" = "$(uname -m)" ]; then
    exec "$driver" "$@"
fi
find_emulator
exec "$QEMU" "$driver" "$@"
