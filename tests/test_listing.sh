#!/bin/sh
# The listing program on whole sheets, refused ones, and input that cannot be read: what it writes, to the byte.
#
#     tests/test_listing.sh [--may-skip] PROGRAM
#
# Without the program it fails; --may-skip passes then, and says so.
set -u

may_skip=no
if [ "${1-}" = --may-skip ]; then may_skip=yes; shift; fi
listing=${1:?usage: tests/test_listing.sh [--may-skip] PROGRAM}
case $listing in */*) ;; *) listing=./$listing ;; esac
if [ ! -x "$listing" ]; then
    echo "test_listing: there is no $listing; 'rt run <stdin' in crates/listing makes it"
    [ "$may_skip" = yes ] || exit 1
    echo "test_listing: skipped, as asked"
    exit 0
fi

room=$(mktemp -d) || exit 1
trap 'rm -rf "$room"' EXIT
cases=0

# expect WHAT OUTPUT MESSAGE: the program wrote exactly this to standard output, and to standard error.
expect() {
    printf '%s' "$2" >"$room/out.wanted"
    printf '%s' "$3" >"$room/err.wanted"
    cases=$((cases + 1))
    cmp -s "$room/out" "$room/out.wanted" && cmp -s "$room/err" "$room/err.wanted" && return
    echo "test_listing: $1: wanted"
    cat "$room/out.wanted" "$room/err.wanted"
    echo "but it wrote"
    cat "$room/out" "$room/err"
    exit 1
}

# Runs the program on what standard input has.
list() {
    "$listing" >"$room/out" 2>"$room/err"
}

unread='listing: standard input was not read whole: nothing decided
'

printf '\021\000\022\001\041\101\000\001' | list
expect 'the listed sheet' 'answer 1 1 0
plain 1 0 0
table 2
1 1 2098176
2098176 0
' ''

printf '\021\000\022\001\041\101\000\001\121archive and more' | list
expect 'the same with a name behind it' 'answer 1 1 0
plain 1 0 0
table 2
1 1 2098176
2098176 0
' ''

printf '\022\000\021\001\041\101\000\001' | list
expect 'the rule in the first group of the link, the copy in the second' 'answer 1 1 0
plain 1 0 0
table 2
2 1 1050624
1050624 0
' ''

printf '\023\000' | list
expect '13 00, a granted copy' 'answer 1 0 0
plain 1 0 0
table 2
1 0
1024 0
' ''

{ printf '\021'; sleep 0.2; printf '\011'; } | list
expect '11 09, a byte at a time' 'answer 1 0 0
plain 1 0 0
table 2
512 1 524288
524288 0
' ''

printf '\021\012' | list
expect '11 0A' 'answer 2 7 0
plain 2 7 0
' ''

head -c 4096 /dev/zero | list
expect '4096 bytes' 'answer 2 5 0
plain 2 5 0
' ''

head -c 4097 /dev/zero | list
expect '4097 bytes' 'answer 2 1 0
plain 2 1 0
' ''

list </dev/null
expect 'nothing' 'answer 2 12 0
plain 2 12 0
' ''

list <.
expect 'a directory' '' "$unread"

list <&-
expect 'a closed standard input' '' "$unread"

echo "test_listing: $cases inputs give what they should"
