#!/bin/sh
# gate.sh: runs the gate, keeps what it wrote as target/gate.log, with the commit that it was run on in the
# first line, and sees that printer and archive are there afterwards. The status is the gate's.
set -u
cd -- "$(dirname -- "$0")/.." || exit 3
log=$(mktemp) || exit 3
trap 'rm -f "$log" "$log.status"' EXIT
tools/commit.sh >"$log" || exit 3
{ .ci/run 2>&1; echo $? >"$log.status"; } | tee -a "$log"
status=$(cat "$log.status")
[ "$status" -eq 0 ] || { echo "make check: the gate ended with $status" >&2; exit "$status"; }
tools/build.sh printer archive || exit 3
cp "$log" target/gate.log
