#!/bin/sh
# editions.sh: the listing under edition 2 of every example and corpus plan, and of tables in which slacks
# count, against what the second program writes. Run after second.sh, which builds the second program.
set -eu
cd -- "$(dirname -- "$0")/.."
second=second/target/debug/second
room=$(mktemp -d)
trap 'rm -rf "$room"' EXIT

# name:policy:cores:tasks, as people type tables
made() {
    while IFS=: read -r name policy cores tasks; do
        { printf 'policy %s\ncores %s\n' "$policy" "$cores"; printf '%s' "$tasks" | tr '/' '\n'; echo; } |
            ./plan make -o "$room/$name.plan"
    done <<'TABLES'
slacks-pass:FP:1:task 12 4 12 P/task 24 9 18 P
four-rounds:EDF:1:task 5 1 5 P/task 2 1 2 N
five-rounds:EDF:1:task 6 2 6 P/task 4 1 3 P
difference-counts:EDF:1:task 2 1 1 N/task 6 2 6 N
lowest-is-forced:FP:1:task 3 1 3 P/task 5 1 5 P/task 5 1 3 N
fifteen:FP:1:task 2 1 2 P/task 5 1 5 N/task 9 2 9 P
pass-more:FP:1:task 8 1 7 P/task 8 2 7 P/task 29 4 29 N
edition-1-refuses:FP:2:task 10 4 10 P/task 10 4 10 P/task 20 8 19 P
many-rounds:EDF:1:task 1000000 399998 999998 P/task 799997 199999 600000 P
TABLES
}
made

count=0
for plan in examples/*.plan corpus/good/*.plan corpus/bad/*.plan "$room"/*.plan; do
    want=$("$second" listing 2 <"$plan")
    case $want in
        "plan "*) due=0 ;;
        "refused 15 "*) due=1 ;;
        *) due=2 ;;
    esac
    status=0
    got=$(./plan --edition 2 "$plan" 2>/dev/null) || status=$?
    if [ "$got" != "$want" ] || [ "$status" -ne "$due" ]; then
        printf 'editions: %s: status %s, and\n%s\nbut the second program says\n%s\n' \
            "$plan" "$status" "$got" "$want"
        exit 1
    fi
    count=$((count + 1))
done
grep -q 'rounds 400000$' <<END || { echo "editions: no table has 400,000 rounds"; exit 1; }
$(./plan --edition 2 "$room/many-rounds.plan")
END
echo "editions: $count listings under edition 2 are the second program's"
