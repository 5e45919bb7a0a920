#!/bin/sh
# Other people's tools as judges of the texts for the firmware loader: objcopy and srec_cat read what the console writes to the same
# bytes, and the console reads what they write, in every form that is to be accepted, to the same state. A line is printed for each step.
# Needs ./cabinet built (run it once), objcopy (Debian: apt-get install binutils) and srec_cat (Debian: apt-get install srecord). It
# installs nothing; what it makes is below target/examples/loader.
set -eu
cd "$(dirname "$(readlink -f "$0")")/.."
made=target/examples/loader
start=0x20000000
equal=0

lacking() { printf 'loader.sh: %s\n' "$1" >&2; exit 2; }
different() { printf 'loader.sh: %s\n' "$1" >&2; exit 1; }

same() { # WHAT FILE FILE: the two are equal byte for byte
    cmp "$2" "$3" >&2 || different "$1: $2 and $3 differ"
    equal=$((equal + 1))
}

size() { wc -c <"$1" | tr -d ' '; }
lines() { wc -l <"$1" | tr -d ' '; }
without_returns() { tr -d '\r' <"$1"; }

objcopy_reads() { objcopy -I ihex -O binary "$1" "$2"; }
srec_cat_reads() { srec_cat -disable-sequence-warnings "$1" -intel -offset -$start -o "$2" -binary; }
objcopy_writes() { objcopy -I binary -O ihex --change-section-address .data=$start "$1" "$2"; }
srec_cat_writes() { bytes=$1 file=$2; shift 2; srec_cat "$bytes" -binary -offset $start -o "$file" -intel "$@"; }

# The three readers get the same from a text: the tools our bytes, and the console a state whose text is ours.
all_read() { # WHAT FILE
    objcopy_reads "$2" "$made/objcopy.bin"
    same "$1, read by objcopy" "$made/ours.bin" "$made/objcopy.bin"
    srec_cat_reads "$2" "$made/srec_cat.bin"
    same "$1, read by srec_cat" "$made/ours.bin" "$made/srec_cat.bin"
    printf 'load %s\nsave %s\n' "$2" "$made/again.hex" | ./cabinet >"$made/answers.txt"
    printf '0\n0\n' | cmp -s - "$made/answers.txt" || different "$1: the console answers $(cat "$made/answers.txt")"
    same "$1, loaded and saved by the console" "$made/ours.hex" "$made/again.hex"
    echo "$1 ($(size "$2") bytes, $(lines "$2") lines): read alike by objcopy, srec_cat and the console, saved again as ours"
}

# The console refuses a text, says why, and its state stays.
refused() { # WHAT FILE ANSWER
    printf 'load %s\nload %s\nsave %s\n' "$made/ours.hex" "$2" "$made/again.hex" | ./cabinet --words >"$made/answers.txt"
    answer=$(sed -n 2p "$made/answers.txt")
    case $answer in
        "$3:"*) ;;
        *) different "$1: the console answers $answer instead of $3" ;;
    esac
    same "$1, the state after it" "$made/ours.hex" "$made/again.hex"
    echo "$1: $answer"
}

command -v objcopy >/dev/null || lacking "objcopy is not found (Debian: apt-get install binutils)"
command -v srec_cat >/dev/null || lacking "srec_cat is not found (Debian: apt-get install srecord)"
[ -f target/cabinet.built ] || lacking "the console is not built: run ./cabinet once, which proves and builds it"
./cabinet </dev/null # anew, where its sources have changed
mkdir -p "$made"
objcopy --version | sed -n 1p
srec_cat -VERSion | sed -n 1p

./cabinet --hex examples/twenty-calls.txt >"$made/ours.hex" 2>"$made/answers.txt" || different "no text: $(cat "$made/answers.txt")"
objcopy_reads "$made/ours.hex" "$made/ours.bin"
[ "$(size "$made/ours.bin")" = 17472 ] || different "objcopy reads $(size "$made/ours.bin") bytes"
all_read "ours" "$made/ours.hex"

objcopy_writes "$made/ours.bin" "$made/objcopy.hex"
without_returns "$made/objcopy.hex" >"$made/objcopy-lf.hex"
same "objcopy's text without its carriage returns" "$made/ours.hex" "$made/objcopy-lf.hex"
echo "objcopy's text is ours but for CR LF"
all_read "objcopy's text, CR LF" "$made/objcopy.hex"

# Three sections of odd lengths: a record may end at any byte.
head -c 1001 "$made/ours.bin" >"$made/first.bin"
tail -c +1002 "$made/ours.bin" | head -c 77 >"$made/second.bin"
tail -c +1079 "$made/ours.bin" >"$made/third.bin"
set -- --add-section .second="$made/second.bin" --change-section-address .second=$((start + 1001))
set -- "$@" --add-section .third="$made/third.bin" --change-section-address .third=$((start + 1078))
set -- "$@" --set-section-flags .second=alloc,load,contents --set-section-flags .third=alloc,load,contents
objcopy -I binary -O ihex --change-section-address .data=$start "$@" "$made/first.bin" "$made/sections.hex"
all_read "objcopy's text of three sections" "$made/sections.hex"

srec_cat_writes "$made/ours.bin" "$made/srec_cat.hex" --line-length=43
same "srec_cat's text with lines of 43" "$made/ours.hex" "$made/srec_cat.hex"
echo "srec_cat's text with --line-length=43 is ours"
srec_cat_writes "$made/ours.bin" "$made/srec_cat.hex"
all_read "srec_cat's text as it comes" "$made/srec_cat.hex"
for length in 1 7 32 255; do
    srec_cat_writes "$made/ours.bin" "$made/srec_cat.hex" -Output_Block_Size=$length -CRLF
    all_read "srec_cat's records of $length, CR LF" "$made/srec_cat.hex"
done

tr A-F a-f <"$made/ours.hex" >"$made/form.hex"
all_read "ours in lower case" "$made/form.hex"
{ sed -n 1p "$made/ours.hex"; sed '1d;$d' "$made/ours.hex" | tac; sed -n '$p' "$made/ours.hex"; } >"$made/form.hex"
all_read "ours with its data records backwards" "$made/form.hex"

sed '17s/^\(:........\)./\1E/' "$made/ours.hex" >"$made/form.hex"
refused "a digit altered" "$made/form.hex" "-31 line 17"
sed 1000q "$made/ours.hex" >"$made/form.hex"
refused "cut behind a line" "$made/form.hex" "-33 line 1001"
head -c 40000 "$made/ours.hex" >"$made/form.hex"
refused "cut inside a line" "$made/form.hex" "-30 line 910"
sed 17d "$made/ours.hex" >"$made/form.hex"
refused "a line lost" "$made/form.hex" "-32 line 1093"
objcopy -I binary -O ihex "$made/ours.bin" "$made/form.hex"
refused "objcopy without an address" "$made/form.hex" "-32 line 1"
objcopy -I binary -O ihex --change-addresses $start "$made/ours.bin" "$made/form.hex"
refused "objcopy --change-addresses, which adds a start record" "$made/form.hex" "-30 line 1094"

echo "all $equal comparisons equal"
