# Counts the matches of a printed table and those that are one piece, and the cuts on both sides and those that no match
# ends at, which were carried there.
# usage: awk -f count.awk NAME.txt
/[+-]$/ {
    pieces[$1]++
    cut("A", $2, $1)
    cut("A", $2 + $4, $1)
    cut("B", $3, $1)
    cut("B", $3 + $4, $1)
}

function cut(side, place, number) {
    cuts[side, place]
    span = side SUBSEP number
    if (!(span in left) || place < left[span]) left[span] = place
    if (!(span in right) || place > right[span]) right[span] = place
}

END {
    for (number in pieces) {
        matches++
        whole += pieces[number] == 1
    }
    for (span in left) {
        split(span, parts, SUBSEP)
        ends[parts[1], left[span]]
        ends[parts[1], right[span]]
    }
    for (c in cuts) {
        all++
        carried += !(c in ends)
    }
    print matches + 0 " matches, " whole + 0 " of them whole; " all + 0 " cuts, " carried + 0 " of them carried"
}
