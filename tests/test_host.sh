#!/bin/sh
# The example host as a new user tries it: each line is a status, a part of what is written, and the command.
#
#     tests/test_host.sh HOST TOLD_HOST [sanitized]
#
# TOLD_HOST is the host with an engine that answers the sheet's first three bytes (told_engine.c).
set -u

host=${1:?no host} told=${2:?no told host} sanitized=${3-}
case $host in /*) ;; *) host=$PWD/$host ;; esac
case $told in /*) ;; *) told=$PWD/$told ;; esac
sheets=$PWD/examples/sheets
room=$(mktemp -d) || exit 1
trap 'rm -rf "$room"' EXIT
cd "$room" || exit 1
cases=0 wrong=0

print_wrong() {
    echo "test_host: wanted status $status with '$part', but got status $got of: $*"
    cat "$room/.out" "$room/.err"
    wrong=$((wrong + 1))
}

# expect STATUS PART COMMAND..: the command ends so and writes this, among other things. Where nothing may be decided, it answers nothing.
expect() {
    status=$1 part=$2
    shift 2
    "$@" >"$room/.out" 2>"$room/.err"
    got=$?
    cases=$((cases + 1))
    if [ "$got" -ne "$status" ]; then print_wrong "$@"; return; fi
    case $status in [3-7]) [ ! -s "$room/.out" ] || { print_wrong "$@"; return; } ;; esac
    grep -qF -e "$part" "$room/.out" "$room/.err" || print_wrong "$@"
}

# Standard input from a file, which may be a directory; no standard input; standard output to a file; no standard output.
from() { in=$1; shift; "$@" <"$in"; }
closed_in() { "$@" <&-; }
onto() { out=$1; shift; "$@" >"$out"; }
closed_out() { "$@" >&-; }

# The sanitizers need much memory for themselves and have a limit of their own.
short_of_memory() {
    if [ -n "$sanitized" ]; then ASAN_OPTIONS=allocator_may_return_null=1:max_allocation_size_mb=16 "$@"
    else (ulimit -v 30000 && "$@"); fi
}

listed='11 00 12 01 21 41 00 01'
echo "$listed" >listed.hex
printf '\021\000\022\001\041\101\000\001' >listed.bin

# ---- 0 yes, 1 no, 2 refused
expect 0 'yes: the first grounded plan keeps these copies: 0' "$host" listed.hex
expect 0 'yes: the first grounded plan keeps these copies: 1' "$host" "$sheets/either_of_two.hex"
expect 0 'yes: the first grounded plan keeps these copies: 0' "$host" "$sheets/either_of_two.hex" -o 1
expect 1 'no: no grounded plan obeys the pins; some plan' "$host" "$sheets/circle_ticked.hex"
expect 0 'yes: the first grounded plan keeps these copies: 0 1' "$host" "$sheets/granted.hex"
expect 0 'yes: the first grounded plan keeps these copies: none' "$host" "$sheets/granted.hex" -i none
expect 0 'yes: the first grounded plan keeps these copies: 1' "$host" "$sheets/granted_bars.hex"
expect 0 'yes: the first grounded plan keeps these copies: none' "$host" "$sheets/both_ways.hex"
expect 1 'some plan meets every rule and obeys them, but is not grounded' "$host" -i 0 "$sheets/both_ways.hex"
expect 0 'yes: the first grounded plan keeps these copies: 0' "$host" -i none "$sheets/barring_both_ways.hex"
expect 1 'some plan meets every rule and obeys them, but is not grounded' "$host" "$sheets/barring_both_ways.hex"
expect 1 'no plan that obeys them even meets every rule' "$host" "$sheets/unmet_rule.hex"
expect 2 'refused: 7 group at byte 2: an operand is over 9' "$host" "$sheets/refused_group.hex"
expect 0 'Exit status: 0 yes, 1 no, 2 refused' "$host" --help

# ---- a long text is read whole
{ head -c 3000000 /dev/zero | tr '\0' '#'; echo; echo "$listed"; } >late.hex
{ echo '11 00'; head -c 3000000 /dev/zero | tr '\0' ' '; echo '12 01 21 41 00 01'; } >parted.hex
expect 0 'read as hexadecimal text: 8 bytes' "$host" late.hex
expect 0 'read as hexadecimal text: 8 bytes' "$host" parted.hex
expect 4 'no sheet has 64 MiB or more' "$host" --raw /dev/zero

# ---- what cannot be read is not an empty sheet
expect 4 '.: cannot be read: Is a directory' "$host" .
expect 4 'standard input: cannot be read: Is a directory' from . "$host" -
expect 4 'standard input: cannot be read: Bad file descriptor' closed_in "$host" -
expect 4 'missing.hex: cannot be read: No such file or directory' "$host" missing.hex
: >empty
expect 2 'refused: 12 unjoined at byte 0' "$host" empty
expect 2 'empty, read as hexadecimal text: 0 bytes' "$host" --hex empty

# ---- limits: numbers, of which the engine refuses some
expect 3 'host: -p 5x: not a number' "$host" -p 5x listed.hex
expect 3 'host: -p abc: not a number' "$host" -p abc listed.hex
expect 3 'host: -p -1: not a number' "$host" -p -1 listed.hex
expect 3 "host: -p '': not a number" "$host" -p '' listed.hex
expect 3 'host: -p 1 2: not one number' "$host" -p '1 2' listed.hex
expect 3 'host: -g +7: not a number' "$host" -g +7 listed.hex
expect 3 'host: -g 0x10: not a number' "$host" -g0x10 listed.hex
expect 3 'host: -p 18446744073709551616: a number beyond 64 bits' "$host" -p 18446744073709551616 listed.hex
expect 2 'refused: 2 limits' "$host" -p 18446744073709551615 listed.hex
expect 2 'refused: 2 limits' "$host" -p 1025 listed.hex
expect 2 'refused: 2 limits' "$host" -g 0 listed.hex
expect 2 'refused: 16 plans full at byte 0' "$host" -p 1 listed.hex
expect 0 'P = 1024, G = 7;' "$host" -p 1024 -g 007 listed.hex

# ---- the true length is told
head -c 5000 /dev/zero >long.bin
head -c 5000 /dev/zero | tr '\0' '\n' | sed 's/^/00/' >long.hex
expect 2 'read as raw bytes: 5000 bytes' "$host" long.bin
expect 2 'read as hexadecimal text: 5000 bytes' "$host" long.hex
expect 2 'refused: 1 overlong' "$host" long.bin

# ---- raw or text
printf '!' >join.bin
printf '1' >digit
printf 'A\000' >cut.bin
printf '\021\011' >tab.bin
printf '\023\011' >granted.bin
printf '11 00\000' >zero.hex
printf '# a bell \007\n%s\n' "$listed" >bell.hex
expect 6 'join.bin: raw bytes or hexadecimal text? It begins with byte 21, not as text' "$host" join.bin
expect 6 'host: say --raw or --hex' "$host" join.bin
expect 2 'refused: 11 bare at byte 0' "$host" --raw join.bin
expect 5 'join.bin:1: not a hexadecimal digit: !' "$host" --hex join.bin
expect 6 'It begins with byte 31, not as text' "$host" digit
expect 6 'It begins as text, but byte 5 is 00' "$host" zero.hex
expect 5 'zero.hex:1: a zero byte in a text: 11 00' "$host" --hex zero.hex
expect 6 'It begins as text, but byte 9 is 07' "$host" bell.hex
expect 0 'bell.hex, read as hexadecimal text: 8 bytes' "$host" --hex bell.hex
expect 0 'listed.bin, read as raw bytes: 8 bytes' "$host" listed.bin
expect 2 'refused: 6 cut at byte 0' "$host" cut.bin
expect 0 'tab.bin, read as raw bytes: 2 bytes' "$host" tab.bin
expect 0 'yes: the first grounded plan keeps these copies: 0' "$host" -i 0 granted.bin
expect 0 'granted.bin, read as raw bytes: 2 bytes' "$host" granted.bin
expect 2 'listed.hex, read as raw bytes: 24 bytes' "$host" --raw listed.hex
expect 3 'host: --hex: --raw and --hex exclude each other' "$host" --raw --hex listed.hex

# ---- the command line
expect 0 'P = 9, G = 32; pinned in: 0; pinned out: none' "$host" listed.hex -p 9 -i 0
expect 1 'pinned in: none; pinned out: 1 2' "$host" "$sheets/office.hex" -o 1 -o2
expect 0 'pinned in: none;' "$host" -i none "$sheets/circle_ticked.hex"
expect 3 'host: -i 64: not a copy, as they are numbered 0 to 63' "$host" -i 64 listed.hex
expect 3 'host: -i 0-2: not a number' "$host" -i 0-2 listed.hex
expect 3 "host: -o '': no copy is listed" "$host" -o '' listed.hex
expect 2 'refused: 13 absent at byte 8' "$host" -i 63 listed.hex
expect 2 'refused: 4 clash: a copy' "$host" -i 0 -o 0 listed.hex
expect 1 '0' sh -c '"$0" -i 0 -o 0 listed.hex | grep -cF "^^"' "$host"
expect 2 'refused: 13 absent at byte 8' "$host" -i 40 -o 40 listed.hex
expect 2 'refused: 13 absent at byte 8' "$host" -i 0 -i 40 -o 0 listed.hex
expect 2 'refused: 12 unjoined at byte 0' "$host" -i 0 -o 0 empty
expect 0 'standard input, read as hexadecimal text: 8 bytes' from listed.hex "$host" -
expect 0 'standard input, read as raw bytes: 8 bytes' from listed.bin "$host" - --raw
expect 3 'host: -x: no such option' "$host" -x listed.hex
expect 3 'host: --rawer: no such option' "$host" --rawer listed.hex
expect 3 'host: SHEET: not given' "$host"
expect 3 'host: SHEET: not given' "$host" -p 3
expect 3 'host: -p: its value is missing' "$host" listed.hex -p
expect 3 'host: listed.bin: a second sheet' "$host" listed.hex listed.bin
expect 3 'usage: host [--raw | --hex]' "$host" listed.hex listed.bin
expect 4 '-x: cannot be read: No such file' "$host" -- -x

# ---- what is wrong with a text, and on which line
text() { printf "$1" >text.hex; }
text '#: pins in 64\n11 00\n'
expect 5 'text.hex:1: not a copy, as they are numbered 0 to 63: pins in 64' "$host" text.hex
text "\357\273\277#: limits 1 1\n$listed\n"
expect 2 'P = 1, G = 1;' "$host" text.hex
text "\357\273\277$listed\n"
expect 0 'read as hexadecimal text: 8 bytes' "$host" text.hex
text '11 00\n\357\273\277\n'
expect 5 'text.hex:2: not a hexadecimal digit: \xEF\xBB\xBF' "$host" text.hex
text '11 00\n12 1\n'
expect 5 'text.hex:2: one digit, where a byte is two: 1' "$host" text.hex
text '11 00 # a copy\r\n\r\n12 0G # a rule\r\n'
expect 5 'text.hex:3: not a hexadecimal digit: G # a rule' "$host" text.hex
expect 5 'host: read as hexadecimal text; --raw reads raw bytes' "$host" text.hex
text "# a copy kept outright\r$listed\r"
expect 0 'read as hexadecimal text: 8 bytes' "$host" text.hex
text '11 00\n#: pin in 0\n'
expect 5 'text.hex:2: no such setting (limits, pins in, pins out, answer, plain): pin in 0' "$host" text.hex
text '#: limits 32\n11 00\n'
expect 5 'text.hex:1: limits are two numbers: limits 32' "$host" text.hex
text '#: limits 32 32 32\n11 00\n'
expect 5 'text.hex:1: limits are two numbers: limits 32 32 32' "$host" text.hex
text '#: limits 32 3x\n11 00\n'
expect 5 'text.hex:1: not a number: limits 32 3x' "$host" text.hex
text '#: limits 32 18446744073709551616\n11 00\n'
expect 5 'text.hex:1: a number beyond 64 bits: limits 32 18446744073709551616' "$host" text.hex
text '#: pins out\n11 00\n'
expect 5 'text.hex:1: no copy is listed: pins out' "$host" text.hex
text '  #: pins out 0 \n#: limits 1 32\n11 00\n'
expect 0 'P = 1, G = 32; pinned in: none; pinned out: 0' "$host" text.hex
text '#: plain 1 0 0\n#: plain 1 0 0\n11 00\n'
expect 5 'text.hex:2: a second answer of its kind: plain 1 0 0' "$host" text.hex
text '#: answer 1 1 0\n#: plain 1 0 0\n#: answer 1 2 0\n11 00\n'
expect 5 'text.hex:3: a second answer of its kind: answer 1 2 0' "$host" text.hex

# ---- names: text is shown, anything else is not, and a faulty sheet gives none
keeps='yes: the first grounded plan keeps these copies:'
expect 0 "$keeps 0 \"archive\", 2" "$host" "$sheets/named.hex"
expect 0 "$keeps 0 \"archive\", 1 \"mirror\"" "$host" -o 2 "$sheets/named.hex"
expect 0 'pinned in: 1 "mirror"; pinned out: 2' "$host" -i 1 -o 2 "$sheets/named.hex"
expect 2 'refused: 4 clash: a copy is pinned in and out: 0 "archive", 1 "mirror"' "$host" -i 0,1 -o 0,1,2 "$sheets/named.hex"
expect 2 'refused: 13 absent at byte 131' "$host" -i 3 "$sheets/named.hex"
expect 2 'pinned in: 3;' "$host" -i 3 "$sheets/named.hex"
expect 2 'refused: 16 plans full at byte 38' "$host" -p 2 "$sheets/named.hex"
expect 2 '  behind the name of copy 0 "archive"' "$host" -p 2 "$sheets/named.hex"
expect 1 '0' sh -c '"$0" -p 1 "$1" | grep -cF "behind the name"' "$host" "$sheets/named.hex"
expect 2 'refused: 6 cut at byte 19' "$host" "$sheets/refused_name.hex"
expect 2 'pinned in: 0;' "$host" -i 0 "$sheets/refused_name.hex"
expect 0 'a name may stand in quotes, as in 51 "archive"' "$host" --help
echo '13 00 51 "partner"' >partner.hex
expect 0 "$keeps 0 \"partner\"" "$host" -i 0 partner.hex
called() { printf '11 00 51 %s 12 01 21 41 00 01\n' "$1" >called.hex; }
called '"sixteen letters."'
expect 0 "$keeps 0 \"sixteen letters.\"" "$host" called.hex
called '"off # site  "'
expect 0 "$keeps 0 \"off # site\"" "$host" called.hex
called '61 22 2C 20 32 20 22 5C 62 20 20 20 20 20 00 00'
expect 0 "$keeps 0 \"a\\\", 2 \\\"\\\\b\"" "$host" called.hex
printf '%s 0\n' "$keeps" >number
for bytes in '""' '20 20 20 20 20 20 20 20 20 20 20 20 20 20 20 20' '61 62 63 00 64 00 00 00 00 00 00 00 00 00 00 00' \
    '61 62 63 0A 64 65 66 20 20 20 20 20 20 20 20 20' '1B 5B 33 31 6D 61 62 63 20 20 20 20 20 20 20 20' \
    '61 7F 00 00 00 00 00 00 00 00 00 00 00 00 00 00' 'C3 A9 74 C3 A9 00 00 00 00 00 00 00 00 00 00 00'; do
    called "$bytes"
    expect 0 '' sh -c '"$0" called.hex | grep -xFf number' "$host"
done
called '"sixteen letters, and more"'
expect 5 'called.hex:1: a name of over 16 bytes: "sixteen letters, and more" 12 01 21' "$host" called.hex
called '"archive # 21'
expect 5 'called.hex:1: a name without its second quote: "archive # 21' "$host" called.hex
called '"archive" "mirror"'
expect 5 'called.hex:1: a name, but no 51 before it: "mirror" 12' "$host" called.hex
text '"archive"\n'
expect 5 'text.hex:1: a name, but no 51 before it: "archive"' "$host" --hex text.hex
printf '\021\000Qarchive\000\000\000\000\000\000\000\000\000\022\001\041\101\000\001' >named.bin
expect 0 'named.bin, read as raw bytes: 25 bytes' "$host" named.bin
expect 0 "$keeps 0 \"archive\"" "$host" named.bin
printf '\021\000Q11 00 # folder 1' >digits.bin
expect 0 'digits.bin, read as raw bytes: 19 bytes' "$host" digits.bin
printf 'Q11 00 # folder 1' >nothing.bin
expect 6 'It begins with byte 51, not as text' "$host" nothing.bin
expect 2 'refused: 11 bare at byte 0' "$host" --raw nothing.bin
for k in $(seq 200); do echo '51 ""'; done | sed '1s/^/11 00 /' >names.hex
expect 0 'read as hexadecimal text: 3402 bytes' "$host" names.hex

# ---- no memory, no room for the output: a sheet of eight parts at once needs three times the words of one of two, which there are
echo '11 00 11 00 11 00 11 00 11 00 11 00 11 00 11 00 21 21 21 21 21 21 21' >eight.hex
expect 7 'host: no memory for 9455616 words' short_of_memory "$host" -p 1024 -g 1024 eight.hex
expect 0 'P = 1024, G = 1024;' short_of_memory "$host" -p 1024 -g 1024 listed.hex
expect 7 '/dev/zero: no memory for its' short_of_memory "$host" --raw /dev/zero
expect 8 'host: output cannot be written: No space left on device' onto /dev/full "$host" listed.hex
expect 8 'host: output cannot be written: No space left on device' onto /dev/full "$host" "$sheets/refused_group.hex"
expect 8 'host: output cannot be written: No space left on device' onto /dev/full "$host" --help
expect 8 'host: output cannot be written: Bad file descriptor' closed_out "$host" listed.hex
expect 4 '.: cannot be read: Is a directory' closed_out "$host" .

# ---- answers that the host does not know
echo '02 12 02' >told.hex
expect 2 'refused: 18 record at byte 2: the record' "$told" told.hex
echo '02 13 02' >told.hex
expect 2 'refused: 19 unknown to this host at byte 2' "$told" told.hex
echo '02 FF FF' >told.hex
expect 2 'refused: 255 unknown to this host at byte 255' "$told" told.hex
expect 1 '0' sh -c '"$0" told.hex | grep -cF "^^"' "$told"
echo '02 00 00' >told.hex
expect 2 'refused: 0 unknown to this host' "$told" told.hex
echo '05 00 00' >told.hex
expect 9 'host: the library answers 5, which this host does not know' "$told" told.hex
echo '03 00 00' >told.hex
expect 9 'host: the library answers 3, which this host does not know' "$told" told.hex

[ "$wrong" -eq 0 ] || exit 1
echo "test_host: $cases commands end and say as they should"
