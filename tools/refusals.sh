# shellcheck shell=sh
# refusals.sh: refusals in words, from the rows of docs/REFUSALS.md. Taken in by `plan`, which has set root.

# cell NUMBER COLUMN of the row of a refusal: 2 what is wrong, 3 whose fault, 4 what to do, 7 what a place is.
cell() {
    awk -F ' *[|] *' -v n="$1" -v c="$2" '$2 "" == n "" { print $(c + 1) }' "$root/docs/REFUSALS.md"
}

# The numbers of the refusals, a line each; the same as "1 to 14"; and whether NUMBER is one of them.
refusal_numbers() { awk -F ' *[|] *' '$2 ~ /^[0-9]+$/ { print $2 }' "$root/docs/REFUSALS.md"; }

refusal_ranges() {
    refusal_numbers | awk '
        function range() { return first (last > first ? " to " last : "") }
        NR > 1 && $1 != last + 1 { told = told range() " or " }
        NR == 1 || $1 != last + 1 { first = $1 }
        { last = $1 }
        END { print told range() }'
}
is_refusal() {
    case $1 in '' | *[!0-9]*) return 1 ;; esac
    refusal_numbers | grep -qx -e "$1"
}

line_in_words() {
    if [ "$1" -eq 1 ]; then printf 'line 1 (the head)'; else printf 'line %s (task %s)' "$1" $(($1 - 1)); fi
}

# within PLACE LEAST MOST: whether PLACE is a plain number of that range.
within() {
    case $1 in '' | *[!0-9]* | ???* | 0?) return 1 ;; esac
    [ "$1" -ge "$2" ] && [ "$1" -le "$3" ]
}

# place_in_words NUMBER PLACE: where in a plan the fault is. Nothing where no plan can have it there.
place_in_words() {
    case $(cell "$1" 7) in
        line) if within "$2" 1 33; then line_in_words "$2"; fi ;;
        head) if within "$2" 1 1; then line_in_words "$2"; fi ;;
        'task line') if within "$2" 2 33; then line_in_words "$2"; fi ;;
        end) if within "$2" 3 34; then printf 'line %s (after task %s, the last)' "$2" $(($2 - 2)); fi ;;
        task) if within "$2" 1 32; then printf 'task %s' "$2"; fi ;;
    esac
}

# list_place_in_words NUMBER PLACE: the same for a table that a program lends as a list of tasks.
list_place_in_words() {
    case $(cell "$1" 7) in
        head | none) if within "$2" 0 0; then printf 'the list that a program lends'; fi ;;
        buffer) if within "$2" 0 0; then printf 'the buffer that a program lends'; fi ;;
        'task line' | 'list task')
            if within "$2" 1 32; then printf 'task %s of a list that a program lends' "$2"; fi ;;
    esac
}

# hint PREFIX: the refusal's line in $listing as a sentence, on standard error. $text is the plan.
hint() {
    prefix=$1
    # shellcheck disable=SC2086 # the words of "refused NUMBER place PLACE .."
    set -- $listing
    wrong=$(cell "$2" 2 | awk '{ sub(/\. .*|\.$/, ""); print tolower(substr($0, 1, 1)) substr($0, 2) }')
    if [ "$2" -eq 3 ]; then
        wrong="$wrong; $(awk -f "$root/tools/hex.awk" -f "$root/tools/check_byte.awk" -v place="$4" "$text")"
    fi
    say "$prefix$(place_in_words "$2" "$4"): $wrong [plan explain $2]"
}

# list_hint: the same for a table that was typed; the place is the task's number, and 0 for the head or, where
# a place is nothing, the whole table.
list_hint() {
    # shellcheck disable=SC2086 # the words of "refused NUMBER place PLACE"
    set -- $listing
    wrong=$(cell "$2" 2 | awk '{ sub(/\. .*|\.$/, ""); print tolower(substr($0, 1, 1)) substr($0, 2) }')
    case $(cell "$2" 7) in none) where='the table' ;; *) where='the head' ;; esac
    [ "$4" -eq 0 ] || where="task $4"
    say "$where: $wrong [plan explain $2]"
}
