#!/bin/sh
# Counts the x86-64 instructions of the bench's actions, kernel beside model, in a trace of the emulator. Unlike times, the counts are the
# same on every run; another compiler or C library changes them.
#   model/count.sh     after model/build.sh ARCHIVE
set -eu
here=$(dirname "$(readlink -f "$0")")
. "$here/x86-64.sh"
[ $# -eq 0 ] || lacking "usage: count.sh, after model/build.sh ARCHIVE"
find_emulator
case $("$here/run.sh" count | sed -n 1p) in
    kernel*) ;;
    *) lacking "no driver is built with a kernel: model/build.sh ARCHIVE" ;;
esac
made=$(mktemp -d)
trap 'rm -rf "$made"' EXIT
qemu=$(command -v "$QEMU")
# One instruction a block, each block told: the name of the switch changed between versions of the emulator.
one=-one-insn-per-tb
"$qemu" -help | grep -q -e "$one" || one=-singlestep
mkfifo "$made/trace"
# An empty environment and a short name: their lengths move the stack, and the C library copies in a few steps more or less as bytes lie.
(cd "$here/target/drivers" && exec env -i "$qemu" $one -d exec,nochain,strace -D "$made/trace" ./count) >"$made/names" &
awk '
    / write\(1,/ { cut++; if (cut > 1) count[cut - 1] = n; n = 0; next }
    /^Trace / { n++ }
    END { for (i = 1; i < cut; i++) print count[i] }' "$made/trace" >"$made/counts"
wait
# The first line printed names the kernel that is linked; then a name and an end in turn, the counts between them.
sed 1d "$made/names" | awk -v counts="$made/counts" '
    BEGIN { getline first < counts }
    {
        getline n < counts
        if ($0 == "end") next
        split($0, part, "; ")
        taken[part[1] "; " part[2] "; " part[3]] = n
        if (part[3] == "model") {
            key = part[1] "; " part[2]
            if (part[2] == "nothing") { printf "%s\n", part[1]; base_kernel = taken[key "; kernel"]; base_model = n }
            else {
                k = taken[key "; kernel"] - base_kernel; m = n - base_model
                printf "  %-20s%9d%9d%9.2f\n", part[2], k, m, k / m
            }
        }
    }'
