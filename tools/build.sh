#!/bin/sh
# build.sh [printer] [desk] [archive]: proves and builds the plan printer, the desk program, or the archive
# for C and Rust, unless it is there as built from these very sources. Standard error gets a line for each
# crate that is proved. Status 0: all that was named is there; 3: something could not be built.
#
# What counts is what the files hold, not their dates. Beside each product stands NAME.made, with one sum over
# all that it is made of and one over the product itself: a change of either builds it again.
#
# rt makes a program by running it, once, on the crate's file stdin; what it leaves in the crate's out/ is
# copied to target/. What rt said last of a crate while it proved it here is kept as target/log/CRATE.
#
# Builds and the gate take turns by a lock on the folder of the repository. Whoever holds it says so to what
# it starts, by ESKIHRUM_LOCK=held.
set -u
root=$(CDPATH='' cd -- "$(dirname -- "$0")/.." && pwd -P) || exit 3
cd -- "$root" || exit 3

say() { printf 'plan: %s\n' "$*" >&2; }
sum() { sha256sum | cut -d ' ' -f 1; }

# The crates of crates.txt that CRATE stands on, and itself, a line each: the name, a colon, what the name's
# line has after it. A line may have words between name and colon, as `eskihrum staticlib:`.
reached() {
    awk -v top="$1" '
        {
            sub(/#.*/, "")
            split($0, part, ":")
            if (split(part[1], word, " ")) {
                line[word[1]] = part[2]
                sub(/^ *[^ ]+ */, "", part[1])
                kind[word[1]] = part[1]
            }
        }
        function visit(name,    i, n, below) {
            if (!(name in line) || name in seen) return
            seen[name] = 1
            n = split(line[name], below, " ")
            for (i = 1; i <= n; i++) visit(below[i])
            print name ":" line[name] (kind[name] == "" ? "" : " " kind[name])
        }
        END { visit(top) }' crates.txt
}

# One sum over what CRATE is made of: its crates, their code, definitions and proofs, and the toolchain.
sources() {
    {
        cat TOOLCHAIN
        reached "$1"
        # a crate's name has no space, and a folder that it lacks has no file
        # shellcheck disable=SC2046
        find $(reached "$1" | awk -F : '{ c = "crates/" $1; print c "/src", c "/specs", c "/proofs" }') \
            -type f \( -name '*.rt' -o -name '*.antt' \) -exec sha256sum {} + 2>/dev/null | LC_ALL=C sort
    } | sum
}

made_of() { printf '%s %s\n' "$(sources "$1")" "$(sum <"$2")"; }
is_there() { [ -s "$2" ] && [ -f "$2.made" ] && [ "$(cat "$2.made")" = "$(made_of "$1" "$2")" ]; }

# One line for each crate that rt proves, with its place in the order in which rt builds them: of one that is
# unchanged rt says nothing. All that rt says goes to a log, and what it says of a crate to target/log.
progress() {
    order=$1 log=$2 began=$(date +%s) of=0
    # until rt names another crate, it speaks of the last one
    for name in $order; do of=$((of + 1)); done
    : >"$log.crate"
    while IFS= read -r line; do
        printf '%s\n' "$line" >>"$log"
        printf '%s\n' "$line" >>"$log.crate"
        case $line in
            "crate "*": modules "*) name=${line#crate } name=${name%%:*} ;;
            logic=*)
                mv "$log.crate" "target/log/$name"
                : >"$log.crate"
                case $line in logic=proved*) ;; *) continue ;; esac
                count=0
                for one in $order; do
                    count=$((count + 1))
                    [ "$one" != "$name" ] || break
                done
                now=$(date +%s)
                say "$count of $of proved ($name, $((now - began)) s)"
                began=$now
                ;;
        esac
    done
    rm -f "$log.crate"
}

# What rt says of CRATE while it makes the program, or the archive.
program() (
    cd "crates/$1" || exit
    rt run 2>&1 <stdin >/dev/null
)
archive() (
    cd "crates/$1" || exit
    rt lib 2>&1
)

take_lock() {
    [ -z "${ESKIHRUM_LOCK-}" ] || return 0
    command -v flock >/dev/null 2>&1 || { say "flock is not there: start one build at a time"; return 0; }
    exec 9<"$root"
    flock -n 9 || { say "another build, or the gate, is at work here: waiting for it"; flock 9; }
    export ESKIHRUM_LOCK=held
}

# build NAME program|archive CRATE FILE PRODUCT: FILE is what rt makes in the crate's out/. A product that was
# not seen to be built is not trusted, so what rt made before goes first, with its note of the sources.
build() {
    name=$1 how=$2 crate=$3 made=crates/$3/out/$4 product=$5
    is_there "$crate" "$product" && return 0
    if ! command -v rt >/dev/null 2>&1; then
        say "the $name is not built from these sources, and the command rt, which builds it, is not there:"
        say "install the Rattle toolchain ($(cat TOOLCHAIN)), or take a release, which has it built"
        return 3
    fi
    take_lock
    is_there "$crate" "$product" && return 0
    [ "$(rt version)" = "$(cat TOOLCHAIN)" ] ||
        say "the toolchain here is $(rt version), and this work was checked with $(cat TOOLCHAIN)"
    say "proving and building the $name: some minutes the first time"
    log=$(mktemp) || return 3
    mkdir -p target/log "${product%/*}" || return 3
    rm -f "$made" "$made.stamp" "$product" "$product.made"
    { "$how" "$crate"; echo "rt ended with $?"; } | progress "$(reached "$crate" | sed 's/:.*//')" "$log"
    if [ "$(tail -n 1 "$log")" = "rt ended with 0" ] && [ -s "$made" ] && cp "$made" "$product"; then
        made_of "$crate" "$product" >"$product.made"
        rm -f "$log"
        return 0
    fi
    # without the counts of what rt loaded
    grep -Ev '^(logic /|statements |library )' "$log" | tail -n 20 >&2
    rm -f "$log"
    say "the $name could not be built: the lines above are the end of what rt said"
    return 3
}

[ $# -gt 0 ] || set -- printer
for what in "$@"; do
    case $what in
        printer) build printer program plan_printer plan_printer target/bin/plan_printer || exit 3 ;;
        desk) build 'desk program' program desk desk target/bin/desk || exit 3 ;;
        archive)
            build archive archive eskihrum libeskihrum.a target/staticlib/libeskihrum.a || exit 3
            ;;
        *) say "build.sh builds printer, desk and archive, not '$what'"; exit 3 ;;
    esac
done
