# Takes what a document shows of the program out of its fenced blocks, into the folder `into`:
#   requests, replies   the document's own spool: a list for frame.sh, and the lines that answer it
#   quotes              EXAMPLE, the line with @ (or nothing), request and reply, with tabs between, of quoted blocks
#   files, file-N       the files that blocks show whole, a name a line, and the N-th of these blocks
# In a block a line that begins with {"op": is a request, another one that begins with { is the reply to the line before,
# and one that begins with @ has the caller, the kind and the moment of the requests that follow; `@ann flow 0` at first.
# `<!-- from examples/X.tape -->` says that the blocks up to the next heading are quoted from that example,
# `<!-- file F -->` that the next block is the file F. Ends with status 1 where a request or a reply stands alone.
function fault(what) {
    print FILENAME ": line " FNR ": " what | "cat >&2"
    failed = 1
    exit 1
}
BEGIN {
    requests = into "/requests"; replies = into "/replies"; quotes = into "/quotes"; files = into "/files"
    print "@ann flow 0" > requests
    printf "" > replies; printf "" > quotes; printf "" > files
}
!fenced && /^#/ { example = "" }
!fenced && /^<!-- from / { example = $3; head = "" }
!fenced && /^<!-- file / { file = $3 }
/^```/ {
    if (asked != "") fault("the request before has no reply")
    fenced = !fenced
    if (fenced && file != "") { print file > files; block = into "/file-" ++blocks; printf "" > block }
    if (!fenced) file = ""
    next
}
!fenced { next }
file != "" { print > block; next }
/^@/ && example != "" { head = $0; next }
/^@/ { print > requests; next }
/^\{"op":/ {
    if (asked != "") fault("the request before has no reply")
    asked = $0
    next
}
/^\{/ {
    if (asked == "") fault("the reply answers no request")
    if (example != "") print example "\t" head "\t" asked "\t" $0 > quotes
    else { print asked > requests; print > replies }
    asked = ""
}
END {
    if (!failed && asked != "") fault("the last request has no reply")
    if (failed) exit 1
}
