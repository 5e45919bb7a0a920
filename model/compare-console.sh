#!/bin/sh
# Compares a console with the model's on the same generated lines and files, byte for byte.
#   model/compare-console.sh CONSOLE [count] [seed]     after model/build.sh, with an archive or without
# CONSOLE is ./cabinet, or another program that reads lines from standard input and puts words behind
# the answers when its argument is `--words`, or what WORDS names. Both modes are run, each console in a
# copy of its own of the folder of files that the lines load and save.
# Ends with 0 if all is equal, with 1 at a difference.
set -eu

if [ $# -lt 1 ] || [ $# -gt 3 ]; then
    echo "usage: compare-console.sh CONSOLE [count] [seed]" >&2
    exit 2
fi
count=${2:-50000}
seed=${3:-1}
if ! console=$(command -v "$1"); then
    echo "compare-console.sh: no program $1" >&2
    exit 2
fi
# It is run in another folder.
console=$(cd "$(dirname "$console")" && pwd)/$(basename "$console")
here=$(dirname "$(readlink -f "$0")")
made=$here/target/compare-console
rm -rf "$made"
mkdir -p "$made"
"$here/run.sh" lines "$count" "$seed" "$made/files" >"$made/lines.txt"

lines_in() {
    wc -l <"$1" | tr -d ' '
}

# The comparison is of strings: as numbers, 0 and 00 would be equal.
first_difference() {
    LC_ALL=C awk -v other="$made/console.txt" '
        function tell(model, console) {
            printf "the first difference is in line %d of the output:\n", n
            printf "  model:   %s\n  console: %s\n", model, console
            told = 1
            exit
        }
        {
            n++
            if ((getline theirs < other) <= 0) tell($0, "(no such line)")
            if ($0 "" != theirs "") tell($0, theirs)
        }
        END {
            if (told) exit
            n++
            if ((getline theirs < other) > 0) tell("(no such line)", theirs)
            print "only the end of the last line differs"
        }
    ' "$made/model.txt"
}

# run_in FOLDER PROGRAM [ARGUMENT]: runs a console in a copy of the prepared folder.
run_in() {
    rm -rf "$made/$1"
    cp -R "$made/files" "$made/$1"
    (cd "$made/$1" && shift && exec "$@") <"$made/lines.txt" >"$made/$1.txt"
}

for mode in numbers words; do
    argument= theirs=
    [ $mode = numbers ] || argument=words theirs=${WORDS:---words}
    run_in model "$here/run.sh" console $argument
    run_in console "$console" $theirs || echo "$mode: $1 ended with $?" >&2
    if ! cmp -s "$made/model.txt" "$made/console.txt"; then
        echo "DIFFERENCE ($mode, count $count, seed $seed):"
        first_difference
        echo "lines.txt, model.txt and console.txt are in $made, and the folders in which they ran"
        exit 1
    fi
    if ! diff -r "$made/model" "$made/console" >"$made/files.txt" 2>&1; then
        echo "DIFFERENCE ($mode, count $count, seed $seed): the files saved are not the same, as files.txt in $made says"
        exit 1
    fi
    echo "$mode: $(lines_in "$made/lines.txt") lines in," \
        "$(lines_in "$made/model.txt") lines out, equal byte for byte, and so are" \
        "$(ls "$made/model" | wc -l | tr -d ' ') files"
done
