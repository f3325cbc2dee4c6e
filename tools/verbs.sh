# shellcheck shell=sh
# verbs.sh: the verbs of `plan`, a function for each row of its table. Taken in by `plan` after desk.sh and
# refusals.sh.

# Without a verb: the listing of each file. A file's name stands above its listing where there are several.
verb_() {
    ready_to_list
    [ $# -gt 0 ] || set -- -
    worst=0
    for file in "$@"; do
        above='' prefix=''
        [ $# -eq 1 ] || above="$file:
" prefix="$file: "
        ask "$file"
        status=$?
        case $status in
            0) answer "$above$listing" ;;
            1 | 2) refuse "$above$listing"; hint "$prefix" ;;
        esac
        [ "$status" -le "$worst" ] || worst=$status
    done
    return "$worst"
}

# A table that was read is drawn, one refused with 14 too, with the bounds of the test: the picture is then
# the answer. The refusal's line goes to standard output only where the picture does not.
verb_chart() {
    ready
    file=${1:--}
    ask "$file"
    status=$?
    case $status in
        0) ;;
        1)
            [ -z "$draft" ] || { refuse "$listing"; refused=''; }
            hint ''
            last=$listing
            ready desk
            desk_says test || return
            listing="$listing
$last"
            ;;
        2) refuse "$listing"; hint ''; return 2 ;;
        *) return "$status" ;;
    esac
    [ "$file" != - ] || file='standard input'
    printf '%s' "$file" | iconv -f UTF-8 -t UTF-8 >/dev/null 2>&1 ||
        file=$(printf '%s' "$file" | LC_ALL=C tr -c '[:print:]' '?')
    picture=$(printf '%s\n' "$listing" | NAME=$file SUM=$(sha256sum <"$text") \
        awk -f "$root/tools/hex.awk" -f "$root/tools/chart.awk" "$text" -) ||
        stop "the picture could not be drawn: awk failed"
    answer "$picture"
    return "$status"
}

# The table as sent: no task is forced. Under edition 2 the rounds follow the answer.
verb_test() {
    ask_desk "test${edition#1}" "${1:--}" || return
    case $listing in
        *"answer yes" | *"answer yes rounds "*) answer "$listing" ;;
        *) answer "$listing"; return 1 ;;
    esac
}

# The fewest cores, whatever the head says, and the listing with them.
verb_cores() {
    ask_desk cores "${1:--}" || return
    answer "$listing"
}

# The plan as changed by forcing: what the loader installs.
verb_apply() {
    ask_desk "apply${edition#1}" "${1:--}" || return
    answer "$listing"
}

# What a release is held to. FILE is read once, and every question goes to what was read; the manifest is
# written whole, after the last answer.
verb_manifest() {
    ready desk
    ready
    ask "${1:--}"
    status=$?
    case $status in
        0) ;;
        1 | 2) refuse "$listing"; hint ''; return "$status" ;;
        *) return "$status" ;;
    esac
    verdict=${listing##*total load }
    sent=$(digest <"$text") || return 3
    listed=$(printf '%s\n' "$listing" | digest) || return 3
    desk_says apply || return
    install=$(printf '%s\n' "$listing" | digest) || return 3
    desk_says word || return
    answer "eskihrum $(cat "$root/VERSION") edition 1
sent sha256 $sent
install sha256 $install
listing sha256 $listed
$listing
accepted ${verdict#* }"
}

# A plan as a table that people edit, and such a table as a plan.
verb_show() {
    ask_desk show "${1:--}" || return
    answer "$(printf '%s\n' "$listing" | awk -f "$root/tools/shown.awk")"
}

# What the proved writer wrote is read back by the proved reader and compared with what was typed, before a
# byte goes out.
verb_make() {
    ready desk
    keep_text "${1:--}" || return
    typed=$(awk -f "$root/tools/typed.awk" "$text") || { say "${1:-standard input}: $typed"; return 3; }
    listing=$(printf 'make\n%s\n' "$typed" | "$desk")
    case $listing in
        "refused "*) refuse "$listing"; list_hint; return 2 ;;
    esac
    back=$(printf 'show\n%s\n' "$listing" | "$desk")
    [ "$back" = "$typed" ] || stop "what was written does not read back as it was typed: nothing is given out"
    answer "$listing"
}

verb_explain() {
    is_refusal "$1" ||
        usage "explain takes the number of a refusal, $(refusal_ranges), and not '$1'"
    told="refusal $1: $(cell "$1" 2) Whose fault: $(cell "$1" 3) What to do: $(cell "$1" 4)"
    if [ $# -eq 2 ]; then
        in_plan=$(place_in_words "$1" "$2") in_list=$(list_place_in_words "$1" "$2")
        [ -n "$in_plan$in_list" ] || usage "refusal $1 never has the place '$2'"
        told="$told
place $2: $in_plan${in_plan:+${in_list:+; or }}$in_list"
    fi
    answer "$told"
}
