#!/usr/bin/env bash
# manual.sh: the table of verbs in `plan`, its --help, the manual page and the completion say the same. Each
# line of --help stands in the page; each verb has its function, and each function its verb.
set -euo pipefail
cd -- "$(dirname -- "$0")/.."
fail() { printf 'manual.sh: %s\n' "$*"; exit 1; }

tools/manual.sh | cmp -s - docs/plan.1 || fail "docs/plan.1 is not what tools/manual.sh writes: make man"

# The page as plain words, and the words of --help that have to be in it, in their order.
plain=$(sed -e '/^\.[A-Za-z\\]/d' -e 's/\\f[BIR]//g' -e 's/\\-/-/g' docs/plan.1)
count=0
while IFS= read -r line; do
    case $line in '' | usage:* | Verbs: | Options:) continue ;; esac
    left=${line:2:30} right=${line:32}
    if [ "${line:0:2}" != "  " ]; then
        left=${line#Exit status: } right=
    fi
    left=${left%"${left##*[! ]}"}
    for part in "$left" "$right"; do
        [ -z "$part" ] || grep -qxF -e "$part" <<<"$plain" || fail "the manual page does not have: $part"
    done
    count=$((count + 1))
done < <(./plan --help)
[ "$count" -gt 12 ] || fail "--help has only $count lines"

in_table=$(sed -n '/^verbs() {/,/^}/s/^\([a-z]*\)|.*/\1/p' plan | sort)
functions=$(sed -n 's/^verb_\([a-z]*\)() {.*/\1/p' tools/verbs.sh | sort)
[ "$in_table" = "$functions" ] || fail "verbs of the table: $in_table; functions: $functions"

# The completion: what TAB would offer after some words.
# shellcheck source=tools/completion.bash
. tools/completion.bash
offers() { # WANTED WORD..: the last word is the one that is begun
    wanted=$1
    shift
    COMP_WORDS=("$@") COMP_CWORD=$(($# - 1)) COMPREPLY=()
    _plan
    got=$(printf '%s\n' "${COMPREPLY[@]}" | sort | tr '\n' ' ')
    [ "$got" = "$wanted" ] || fail "after '$*' completion offers '$got', expected '$wanted'"
}
offers "chart " ./plan char
offers "explain " ./plan exp
offers "manifest " ./plan man
offers "examples/b.listing examples/b.plan " ./plan chart examples/b.
offers "--edition --help --version " ./plan --
offers "-o " ./plan chart -o
offers " " ./plan explain e
offers "examples/b.plan " ./plan -o x examples/b.p
printf 'manual.sh: %s lines of --help stand in the manual page, and the completion follows\n' "$count"
