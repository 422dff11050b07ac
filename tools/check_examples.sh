#!/bin/sh
# Runs the built program on each of examples/*.tape, and on the requests that the documents show, each time in a fresh
# folder, and compares what it writes, its exit status and its standard error with what stands beside the tape:
#   X.out       standard output              X.status   the exit status; none: 0
#   X.err       standard error; none: empty  X.args     the program's words; none: run
#   X.requests  the list that frame.sh makes the tape of; none: the tape is written otherwise
# The tapes of a folder in examples/ are run one after another in one folder.
# Usage, at the top of the repository: tools/check_examples.sh PROGRAM. Ends with status 1 where anything differs.
program=$(realpath "$1") && room=$(mktemp -d) || exit 1
trap 'rm -rf "$room"' EXIT
differing=0
: > "$room/empty"
echo 0 > "$room/zero"

# Whether two files are the same; shows where they differ.
same() { diff "$1" "$2" > "$room/differs" 2>&1 || { cut -c 1-300 "$room/differs"; return 1; }; }

# Says whether what was tried came out well.
tell() {
    if [ "$1" -eq 0 ]; then echo "ok       $2"; else echo "DIFFERS  $2"; differing=1; fi
}

fresh() { folder=$(mktemp -d "$room/run-XXXXXX"); }

# Runs the program with these words on standard input, in the last fresh folder; leaves out, err and status.
go_on() { (cd "$folder" && "$program" "$@" > "$room/out" 2> "$room/err"; echo $? > "$room/status"); }

run() { fresh && go_on "$@"; }

# Whether the last run wrote these two files, and ended with the status in the third.
gave() { same "$1" "$room/out" && same "$2" "$room/err" && same "$3" "$room/status"; }

# The name of a file, or of the one that stands in for it where it isn't there.
or_else() { [ -f "$1" ] && echo "$1" || echo "$2"; }

is_framed() {
    [ ! -f "$1.requests" ] || { examples/frame.sh "$1.requests" > "$room/framed" && same "$room/framed" "$1.tape"; }
}

# Runs the program on a tape in the last fresh folder, and compares.
try() {
    example=${1%.tape}
    words=run
    [ -f "$example.args" ] && words=$(cat "$example.args")
    go_on $words < "$1"
    is_framed "$example" &&
        gave "$example.out" "$(or_else "$example.err" "$room/empty")" "$(or_else "$example.status" "$room/zero")"
    tell $? "$1"
}

for tape in examples/*.tape; do
    fresh && try "$tape"
done
for session in examples/*/; do
    fresh
    for tape in "$session"*.tape; do
        try "$tape"
    done
done

# Whether the pairs that a document quotes from examples stand in their runs, in this order.
are_quoted() {
    for example in $(cut -f 1 "$1/quotes" | sort -u); do
        awk '/^@/ { head = $0; next } NF { print head "\t" $0 }' "${example%.tape}.requests" |
            paste - "${example%.tape}.out" > "$room/pairs" || return 1
        awk -F '\t' -v example="$example" '
            FILENAME ~ /pairs$/ { head[FNR] = $1; pair[FNR] = $2 "\t" $3; all = FNR; next }
            $1 != example { next }
            { do at++; while (at <= all && (pair[at] != $3 "\t" $4 || ($2 != "" && head[at] != $2))) }
            at > all { print "not in the run of " example ", or not in this place: " $2 " " $3 " " $4; exit 1 }
            ' "$room/pairs" "$1/quotes" || return 1
    done
}

# Whether the blocks that show a file whole are that file.
are_files() {
    number=0
    while read -r file; do
        number=$((number + 1))
        same "$file" "$1/file-$number" || return 1
    done < "$1/files"
}

# Whether the document's own requests are answered as it shows.
are_answered() {
    examples/frame.sh "$1/requests" > "$1/tape" && run run < "$1/tape" && gave "$1/replies" "$room/empty" "$room/zero"
}

for document in README.md docs/*.md; do
    shown=$(mktemp -d "$room/shown-XXXXXX")
    awk -v into="$shown" -f tools/document.awk "$document" &&
        are_answered "$shown" && are_quoted "$shown" && are_files "$shown"
    fine=$?
    replies=$(cat "$shown/replies" "$shown/quotes" | wc -l)
    files=$(cat "$shown/files" | wc -l)
    [ $fine -eq 0 ] && [ $((replies + files)) -eq 0 ] || tell $fine "$document: $replies replies, $files files"
done

# Streams that fail: a folder gives no bytes, and /dev/full takes none.
echo "read fault" > "$room/read-fault"
echo 4 > "$room/four"
run run < "$room"
gave "$room/empty" "$room/read-fault" "$room/four"
tell $? "standard input that fails"
if [ -w /dev/full ]; then
    fresh
    (cd "$folder" && "$program" run > /dev/full 2> "$room/err") < examples/first.tape
    [ $? -eq 5 ] && [ "$(cat "$room/err")" = "write fault" ]
    tell $? "standard output that fails"
fi
exit $differing
