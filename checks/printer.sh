#!/bin/sh
# printer.sh: the plan printer by itself, at its border to the system, which is not proved: the first 1,004
# bytes of an input that comes in pieces, failed reads, failed writes. Prints the first difference and exits
# with 1; prints one line and exits with 0 where all is well.
set -u
cd -- "$(dirname -- "$0")/.." || exit 1
printer=target/bin/plan_printer longest=corpus/good/most-tasks.plan count=0
[ -s $printer ] || { echo "printer.sh: there is no $printer: run make"; exit 1; }

# same WHAT WANTED GOT
same() {
    [ "$2" = "$3" ] || { printf 'printer.sh: %s: wrote "%s", expected "%s"\n' "$1" "$3" "$2"; exit 1; }
    count=$((count + 1))
}

# in_pieces SIZE FILE: the file, SIZE bytes at a time with a rest between them, so that no read gets them all.
in_pieces() {
    at=1 end=$(wc -c <"$2")
    while [ "$at" -le "$end" ]; do
        tail -c "+$at" "$2" | head -c "$1"
        at=$((at + $1))
        sleep 0.02
    done
}

for size in 1 7 31 64; do
    same "b in pieces of $size" "$(cat examples/b.listing)" "$(in_pieces $size examples/b.plan | $printer)"
done
same "the longest plan" "$(cat corpus/good/most-tasks.listing)" "$($printer <$longest)"
same "the longest plan and a byte" "refused 12 place 34" "$({ cat $longest; printf 0; } | $printer)"
same "the longest plan and a line end" "refused 12 place 34" "$({ cat $longest; echo; } | $printer)"
same "the longest plan twice" "refused 12 place 34" "$(cat $longest $longest | $printer)"
for size in 100 502 1002 1003; do
    same "the longest plan in pieces of $size" "$(cat corpus/good/most-tasks.listing)" \
        "$(in_pieces $size $longest | $printer)"
    same "the longest plan in pieces of $size and a byte" "refused 12 place 34" \
        "$({ in_pieces $size $longest; printf 0; } | $printer)"
done
same "a plan and a byte after a rest" "refused 12 place 4" \
    "$({ cat examples/b.plan; sleep 0.1; printf 0; } | $printer)"
same "a folder" "plan_printer: standard input could not be read" "$($printer <examples 2>&1)"
same "closed input" "plan_printer: standard input could not be read" "$($printer 2>&1 <&-)"
same "a full disk" "plan_printer: standard output could not be written" \
    "$($printer 2>&1 >/dev/full <examples/b.plan)"
printf 'printer.sh: %s answers of the printer are as they should be\n' "$count"
