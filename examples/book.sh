#!/bin/sh
# Assigns the series in the file $1 (a pipe will do: /dev/stdin or -), and prints the amounts only where the whole list is there and can be booked. Under R that has the ranges too, which are not printed.
# The exit status is 0 then, 2 for a wrong number of arguments, and 1 where anything else stands in the way.
# A text that was cut off at the end of a line is a shorter series, and is booked as such: see first that all of it came.
# ASSIGN: the program (crates/assign/out/assign of the repository).
set -eu
if [ $# -ne 1 ]; then
    echo "usage: book.sh SERIES" >&2
    exit 2
fi
assign=${ASSIGN:-$(dirname "$0")/../crates/assign/out/assign}
work=$(mktemp -d)
trap 'rm -rf "$work"' EXIT

# A pipe can be read only once.
series=$work/series
cat -- "$1" >"$series" || exit 1
if ! "$assign" <"$series" >"$work/list" 2>"$work/errors" || [ -s "$work/errors" ]; then
    cat "$work/list" "$work/errors" >&2
    exit 1
fi
method=$(sed -n 2p "$series" | cut -d, -f1)
exercised=$(sed -n 2p "$series" | cut -d, -f2)
# A table is a names line and a line for each position; R has two.
table=$(($(wc -l <"$series") - 2))
lines=$table
[ "$method" != R ] || lines=$((2 * table))
if [ "$(wc -l <"$work/list")" -ne "$lines" ] ||
    ! awk -F, -v table="$table" -v lines="$lines" -v exercised="$exercised" '
        NR == 1 { wrong += $0 != "account,assigned"; next }
        NR <= table { account[NR] = $1; assigned += $2; next }
        NR == table + 1 { wrong += $0 != "account,first,last,first2,last2"; next }
        { wrong += NF != 5 || $1 != account[NR - table]; last = $3; last2 = $5 }
        END { exit wrong || NR != lines || assigned != exercised || last2 != 2 * last }' "$work/list"; then
    echo "the list of $1 is not whole" >&2
    exit 1
fi
head -n "$table" "$work/list"
