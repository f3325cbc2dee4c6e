# shellcheck shell=sh
# desk.sh: what every verb of `plan` stands on: where answers go, and how the printer is asked. Taken in by
# `plan`, which has set root, printer and output.
#
# A verb writes its answer with `answer`, a refusal's line with `refuse`, and what helps a person with `say`.

# ---- Where answers go. Standard output may be the draft of -o's FILE; number 3 is standard output itself.
room='' draft='' refused=''

clean_up() {
    [ -z "$room" ] || rm -rf "$room"
    [ -z "$draft" ] || rm -f "$draft"
}
trap clean_up EXIT
trap 'exit 129' HUP
trap 'exit 130' INT
trap 'exit 143' TERM

# Writes standard input on. A reader that has gone away (`plan .. | head`) needs no word.
write_on() {
    why=$(cat 2>&1 >&4)
    wrote=$?
    [ "$wrote" -eq 0 ] && return 0
    [ "$wrote" -gt 128 ] || say "the answer could not be written (${why##*: })"
    exit 3
} 4>&1

answer() { printf '%s\n' "$1" | write_on || exit 3; }

# The line of a refusal; after it the file of -o stays as it was.
refuse() {
    refused=yes
    printf '%s\n' "$1" | write_on >&3 || exit 3
}

# Sends what is written from here on to a draft beside the file of -o. `close_output STATUS` gives the draft
# the file's name, unless something was refused, and ends.
open_output() {
    (: 5>&1) 2>/dev/null || stop "standard output is closed"
    exec 3>&1
    case $output in '' | -) return 0 ;; esac
    output=$(real_path "$output")
    [ ! -e "$output" ] || [ -f "$output" ] || stop "-o $output: this is no ordinary file, and is left alone"
    draft=$(mktemp "$(dirname -- "$output")/.plan.XXXXXX" 2>/dev/null) ||
        stop "-o $output: its folder is not there, or nothing can be written to it"
    chmod "$(printf '%o' $((0666 & ~$(umask))))" "$draft"
    exec >"$draft"
}

close_output() {
    if [ -n "$draft" ] && [ -z "$refused" ] && [ "$1" -lt 3 ]; then
        mv -f -- "$draft" "$output" || stop "-o $output: it could not be written"
        draft=''
    fi
    exit "$1"
}

# ---- How the printer is asked.

# ready [printer | desk]: the program is there and, in a work tree, built from the sources as they stand.
ready() {
    [ ! -f "$root/crates.txt" ] || "$root/tools/build.sh" "${1:-printer}" || exit 3
    case ${1:-printer} in printer) program=$printer ;; *) program=$desk ;; esac
    [ -x "$program" ] || stop "there is no ${1:-printer} at $program: install Eskihrum again"
    [ -n "$room" ] || room=$(mktemp -d) || stop "no temporary folder can be made: has ${TMPDIR:-/tmp} room?"
    text=$room/text
}

# Keeps the plan of FILE in $text, so that it can be read twice. What is longer than a megabyte is cut there:
# it is still longer than any plan.
keep_text() {
    if [ "$1" = - ]; then
        (: 5<&0) 2>/dev/null || { say "standard input is closed"; return 3; }
        [ ! -t 0 ] || say "waiting for a plan on the terminal (Ctrl-D ends it; plan --help says more)"
        why=$(head -c 1048576 2>&1 >"$text") && return 0
        say "standard input could not be read (${why##*: })"
    elif [ ! -e "$1" ]; then
        also=''
        [ -z "$1" ] || ! is_verb "$1" || also=' (a verb has to be the first word)'
        say "${1:-''}: no such file$also"
    elif [ -d "$1" ]; then
        say "$1: this is a folder"
    elif [ ! -r "$1" ]; then
        say "$1: this file may not be read"
    else
        why=$(head -c 1048576 <"$1" 2>&1 >"$text") && return 0
        say "$1: could not be read (${why##*: })"
    fi
    return 3
}

# The sha256 of standard input.
digest() {
    sum=$(sha256sum) || { say "sha256sum failed"; return 3; }
    printf '%s\n' "${sum%% *}"
}

# ready_to_list: the program that lists plans is there: the printer under edition 1, the desk under edition 2.
ready_to_list() {
    case $edition in 2) ready desk ;; *) ready ;; esac
}

# Asks for the listing of the plan of FILE. $listing is what is written; the status is what that stands for.
# An answer that is not whole is the program's fault, since the text is there.
ask() {
    listing=''
    keep_text "$1" || return 3
    case $edition in
        2) listing=$({ printf 'list2\n'; cat "$text"; } | "$program") ;;
        *) listing=$("$program" <"$text") ;;
    esac
    case $listing in
        "plan "*"
total load "*) return 0 ;;
        "refused 14 place "* | "refused 15 place "*) return 1 ;;
        "refused "*" place "*) return 2 ;;
    esac
    say "the printer gave no whole answer: $program is damaged; run make, or install Eskihrum again"
    return 3
}

# ask_desk WHAT FILE: asks the desk program about the plan of FILE. $listing is what it writes; a refusal's
# line is written and told, and the status is then 1 or 2.
ask_desk() {
    ready desk
    listing=''
    keep_text "$2" || return 3
    desk_says "$1"
}

# desk_says WHAT: the same of the plan that is kept in $text.
desk_says() {
    listing=$({ printf '%s\n' "$1"; cat "$text"; } | "$desk")
    case $listing in
        "refused 14 place "* | "refused 15 place "*) refuse "$listing"; hint ''; return 1 ;;
        "refused "*" place "*) refuse "$listing"; hint ''; return 2 ;;
        ?*) return 0 ;;
    esac
    say "the desk program gave no whole answer: $desk is damaged; run make, or install Eskihrum again"
    return 3
}
