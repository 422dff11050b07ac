#!/bin/sh
# Proves and builds a program, after the crates that it stands on, lowest first. Says on standard error which crate it is
# at, how far it is, and how many seconds each took, and all that rt said where it fails. Standard output stays empty.
# Usage: tools/build.sh PROGRAM
cd "$(dirname "$0")/.." || exit 1
program=$1
room=$(mktemp -d) || exit 1
trap 'rm -rf "$room"' EXIT

# The program, after the crates of crates.txt that it needs; what has no line there comes with the kit.
crates=$(awk -v program="$program" '
    { sub(/#.*/, "") }
    /:/ { split($0, side, ":"); split(side[1], words, " "); needs[words[1]] = side[2] }
    function tell(crate,    below, count, i) {
        if (!(crate in needs) || told[crate]++) return
        count = split(needs[crate], below, " ")
        for (i = 1; i <= count; i++) tell(below[i])
        print crate
    }
    END { tell(program) }' crates.txt)
all=$(echo "$crates" | wc -l)

# Proves and builds a crate; a program is run on an empty tape besides. Shows how far it is.
prove() {
    command="rt lib"
    [ "$1" = "$program" ] && command="rt run -- run"
    { (cd "crates/$1" && $command < /dev/null 2>&1) || : > "$room/failed"; } |
        tee "$room/log" | grep --line-buffered '^so far:' >&2
    [ ! -f "$room/failed" ] || { cat "$room/log" >&2; return 1; }
}

number=0
for crate in $crates; do
    number=$((number + 1))
    began=$(date +%s)
    echo "[$number of $all] $crate: being proved" >&2
    prove "$crate" || exit 1
    echo "[$number of $all] $crate: proved, $(($(date +%s) - began)) s" >&2
done
