#!/bin/sh
# Makes a tape of a list of requests, from the files that are named or from standard input, on standard output.
# A line that begins with @ has the caller, the kind and the moment of the entries that follow, as `@ann flow 0`. Each
# other line is one entry's bytes, and is counted in bytes, not in characters. Empty lines are left out.
LC_ALL=C awk '
    /^@/ { head = $0; next }
    NF && head == "" { print "frame.sh: no line with @ before line " NR | "cat >&2"; exit 1 }
    NF { print head, length($0); print }' "$@"
