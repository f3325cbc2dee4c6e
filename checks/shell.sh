#!/usr/bin/env bash
# shell.sh: the scripts of the desk and of the gate. Each is read by its own shell without being run, has
# lines of at most 110 characters, and shellcheck has no word to say. Where shellcheck is not installed the
# rest is still done, and that it was left out is said.
set -euo pipefail
cd -- "$(dirname -- "$0")/.."
scripts=(plan .ci/run tools/*.sh tools/*.bash checks/*.sh)
fail=0
for script in "${scripts[@]}"; do
    case $(head -n 1 "$script") in *bash*) shell='bash' ;; *) shell='sh' ;; esac
    "$shell" -n "$script" || fail=1
done
awk 'length > 110 { print FILENAME ":" FNR ": " length " characters"; bad = 1 } END { exit bad }' \
    "${scripts[@]}" tools/*.awk checks/*.py || fail=1
[ "$fail" -eq 0 ] || { echo "shell.sh: to mend"; exit 1; }
if command -v shellcheck >/dev/null; then
    # What plan takes in is checked with it.
    for script in "${scripts[@]}"; do
        case $script in tools/desk.sh | tools/refusals.sh | tools/verbs.sh | checks/bare.sh) continue ;; esac
        shellcheck -x -a "$script"
    done
    printf 'shell.sh: %s scripts, and shellcheck finds nothing\n' "${#scripts[@]}"
else
    printf 'shell.sh: %s scripts can be read; shellcheck is not here, and was left out\n' "${#scripts[@]}"
fi
