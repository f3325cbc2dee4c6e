#!/bin/sh
# second.sh: the second program's own tests. They hold the stored plans, listings and batches to what it
# writes, and show that each wrong planner and each wrong reader is caught by a stored plan.
set -eu
cd -- "$(dirname -- "$0")/../second"
mkdir -p ../target
cargo test --offline >../target/second.log 2>&1 || { tail -n 60 ../target/second.log; exit 1; }
grep '^test result' ../target/second.log | awk '{ n += $4 } END { print "second program: " n " tests pass" }'
