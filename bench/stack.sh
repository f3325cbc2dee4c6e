#!/bin/sh
# stack.sh: how many bytes of stack the archive and the printer take, on small and on the largest plans.
# The archive by a painted stack (stack.c); the printer's `main` likewise, without the start of its process
# (start.c). ESKIHRUM_LIB_DIR may name another folder that holds libeskihrum.a.
set -eu
cd -- "$(dirname -- "$0")/.."
folder=${ESKIHRUM_LIB_DIR:-target/staticlib}
mkdir -p target
cc -O2 -Wall -Wextra -Werror -Iinclude -Wl,-z,now bench/stack.c "$folder/libeskihrum.a" -lpthread \
    -o target/stack
cc -O2 -Wall -Wextra -Werror -shared -fPIC bench/start.c -o target/start.so
out=$(mktemp)
trap 'rm -f "$out"' EXIT

# The printer's bytes, or a dash where the printer is not there.
printer() {
    if [ ! -x target/bin/plan_printer ]; then
        echo -
        return
    fi
    STACK_FILE=$out LD_BIND_NOW=1 LD_PRELOAD=$PWD/target/start.so \
        target/bin/plan_printer <"$1" >/dev/null 2>&1
    cat "$out"
}

printf '| plan | archive: on the text | on its tasks | calls that write | printer |\n|---|---|---|---|---|\n'
for plan in corpus/bad/01-empty.plan examples/b.plan corpus/good/most-tasks.plan \
    corpus/good/most-tasks-and-cores-edf.plan; do
    printf '| `%s` | %s | %s | %s | %s |\n' "$plan" "$(target/stack <"$plan")" \
        "$(target/stack tasks <"$plan")" "$(target/stack write <"$plan")" "$(printer "$plan")"
done
