#!/bin/sh
# commit.sh: one line that says what the work tree holds: its commit, and whether files differ from it.
set -eu
cd -- "$(dirname -- "$0")/.."
commit=$(git rev-parse HEAD 2>/dev/null) || { echo "commit unknown"; exit 0; }
[ -z "$(git status --porcelain)" ] || commit="$commit, with changes"
printf 'commit %s\n' "$commit"
