# chart.awk: an SVG picture of a plan that was read. The first file is the plan, the second its listing after
# forcing, or the listing as sent and the line of refusal 14; the environment has the plan's NAME and its
# sha256 as SUM.
#
# Each row is scaled to its own deadline: the frame is D, dark is C, and light goes on to the bound. A forced
# task is hatched. Of a refused table the bounds are those of the test, as sent; the row of the refusal's
# place is marked.
function escaped(text) {
    gsub(/&/, "\\&amp;", text); gsub(/</, "\\&lt;", text); gsub(/>/, "\\&gt;", text)
    gsub(/[\001-\037\177]/, "?", text)
    return text
}
function bar(class, y, part, least,    width) {
    width = wide * part
    if (width < least) width = least
    printf "<rect class=\"%s\" x=\"%d\" y=\"%d\" ", class, left, y + 4
    printf "width=\"%.1f\" height=\"15\"/>\n", width
}
function words(class, x, y, text) {
    printf "<text class=\"%s\" x=\"%d\" y=\"%d\">%s</text>\n", class, x, y, escaped(text)
}
function numbers(class, y, t, c, b, d, l) {
    words(class, right, y, t); words(class, right + column, y, c); words(class, right + 2 * column, y, b)
    words(class, right + 3 * column, y, d); words(class, right + 4 * column, y, l)
}
function style() {
    print "<style>text{font-size:12px;fill:#222;font-family:sans-serif}"
    print ".title{font-size:15px;font-weight:bold}"
    print ".note{fill:#555}.sum{fill:#555;font-family:monospace;font-size:11px}.name{font-weight:bold}"
    print ".number{text-anchor:end}.over{text-anchor:end;fill:#555}"
    print ".deadline{fill:none;stroke:#888}.cost{fill:#1d3a5f}.bound{fill:#9dbde3}"
    print ".forced{fill:url(#hatch)}.missed{fill:none;stroke:#c00000;stroke-width:2.5}</style>"
    print "<defs><pattern id=\"hatch\" width=\"6\" height=\"6\" patternUnits=\"userSpaceOnUse\""
    print " patternTransform=\"rotate(45)\"><rect width=\"6\" height=\"6\" fill=\"#f3d3ab\"/>"
    print "<line x1=\"0\" y1=\"0\" x2=\"0\" y2=\"6\" stroke=\"#c26a10\" stroke-width=\"3\"/></pattern></defs>"
}

# The plan: 01 cores policy n check, and for each task 02 flag T C D check.
FNR == NR && FNR == 1 {
    head = sprintf("plan %s cores %d tasks %d", from_hex(substr($0, 5, 2)) ? "FP" : "EDF",
        from_hex(substr($0, 3, 2)), from_hex(substr($0, 7, 2)))
}
FNR == NR && FNR > 1 {
    n = FNR - 1
    flag[n] = from_hex(substr($0, 3, 2)) ? "P" : "N"; given[n] = "as sent"
    period[n] = from_hex(substr($0, 5, 8))
    cost[n] = from_hex(substr($0, 13, 8))
    deadline[n] = from_hex(substr($0, 21, 8))
}

# The listing: "task K F GIVEN bound B deadline D load L"; as sent "task K F bound B deadline D load L" or
# "task K F none deadline D load L", and then "refused 14 place K passes P".
FNR < NR && $1 == "task" && $4 == "bound" { bound[$2] = $5; load[$2] = $9; next }
FNR < NR && $1 == "task" && $4 == "none" { load[$2] = $8; next }
FNR < NR && $1 == "task" { flag[$2] = $3; given[$2] = $4; bound[$2] = $6; load[$2] = $10 }
FNR < NR && $1 == "refused" { place = $4 }
FNR < NR { last = $0 }

END {
    left = 128; wide = 420; row = 24; top = 112; right = 612; column = 66
    height = top + n * row + 64
    printf "<svg xmlns=\"http://www.w3.org/2000/svg\" viewBox=\"0 0 892 %d\">\n", height
    printf "<title>%s</title>\n", escaped(head ", " ENVIRON["NAME"])
    style()
    printf "<rect width=\"892\" height=\"%d\" fill=\"#fff\"/>\n", height
    words("title", 16, 26, place ? head ": " last : head)
    words("name", 16, 46, ENVIRON["NAME"])
    words("sum", 16, 63, "sha256 " substr(ENVIRON["SUM"], 1, 64))
    words("note", 16, 82, "each row is scaled to its own deadline: the frame is D, dark is C, " \
        (place ? "and light goes on to the bound as sent" : "and light goes on to the bound"))
    numbers("over", top - 6, "T", "C", "bound", "D", "load")
    for (k = 1; k <= n; k++) {
        y = top + (k - 1) * row
        words("task", 16, y + 16, "task " k " " flag[k] " " given[k])
        if (k in bound) bar(given[k] == "forced" ? "forced" : "bound", y, bound[k] / deadline[k], 1)
        bar("cost", y, cost[k] / deadline[k], 1.5)
        bar(k == place ? "missed" : "deadline", y, 1, 0)
        numbers("number", y + 16, period[k], cost[k], k in bound ? bound[k] : "none",
            deadline[k], load[k])
    }
    y = top + n * row + 26
    if (place) words("note", 16, y, "the red frame: the lowest task without a bound after forcing")
    else words("note", 16, y, last "; hatched: made non-preemptive by forcing")
    words("note", 16, y + 18, "all times in quanta; load in thousandths of one core")
    print "</svg>"
}
