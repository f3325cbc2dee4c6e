#!/bin/sh
# build.sh: how `plan` gets its printer: two first starts at once, old dates, stray files, damaged printers,
# no toolchain, a lock that is held. A stand-in for rt, which tells what a run of rt tells and takes a second,
# makes it a matter of seconds. Prints the first difference and exits with 1.
# shellcheck disable=SC2016 # commands in single quotes are for the shell that is started
set -u
cd -- "$(dirname -- "$0")/.." || exit 1
# shellcheck source=checks/bare.sh
. checks/bare.sh
room=$(mktemp -d) || exit 1
holder=''
trap '[ -z "$holder" ] || kill "$holder"; rm -rf "$room"' EXIT
tree=$room/tree count=0
unset ESKIHRUM_LOCK
out=$room/out err=$room/err
: >"$out"
: >"$err"

fail() {
    printf 'build.sh: %s\n' "$*"
    cat "$out" "$err"
    exit 1
}

mkdir "$tree" "$room/with_rt"
cp -R plan tools docs crates.txt TOOLCHAIN VERSION .ci checks "$tree"
# without what rt made
tar -cf - --exclude='crates/*/out' crates | tar -xf - -C "$tree"
cp target/bin/plan_printer "$room/printer" || fail "there is no printer: run make"
bare_tools "$room/bare"

cat >"$room/with_rt/rt" <<EOF
#!/bin/sh
# A stand-in for rt: it proves nothing. Two at a time are one too many. As rt does, it works in the folder of
# a crate, speaks of a program on standard error, and runs it on what it gets.
case \$1 in
    version) cat "$room/version"; exit 0 ;;
    ci) cat "$room/ci"; exit "\$(cat "$room/ci_status")" ;;
    run) exec 3>&1 1>&2; grep -q . || { echo "rt: the program gets no input"; exit 1; } ;;
esac
crate=\${PWD##*/}
mkdir "$room/busy" || { echo "rt: two at once"; exit 1; }
echo run >>"$room/runs"
echo "crate base: modules loaded=26 checked=1"
echo "logic=proved functions=0 sum=0"
sleep 1
mkdir -p out
rmdir "$room/busy"
echo "crate \$crate: modules loaded=0 checked=9"
[ ! -f "$room/fails" ] || { echo "logic=not-proved"; echo "rattle build: nothing was built"; exit 1; }
echo "logic=proved functions=5 axioms=3 sum=0"
case \$1 in
    run) cp "$room/printer" out/\$crate; echo "what the program writes" >&3 ;;
    lib) echo archive >out/lib\$crate.a ;;
esac
EOF
chmod +x "$room/with_rt/rt"
cp TOOLCHAIN "$room/version"

# start PATH-FOLDERS WORDS..: plan of the copy, with that much of a machine.
start() {
    path=$1
    shift
    PATH=$path "$tree/plan" "$@" >"$out" 2>"$err"
}
bare=$room/bare full=$room/with_rt:$PATH

# is STATUS WHAT: the status of the last command, which is $?
is() {
    got=$?
    [ "$got" -eq "$1" ] || fail "$2: status $got, expected $1"
    count=$((count + 1))
}
# until_true COMMAND..: waits for it, ten seconds at most.
until_true() {
    tries=0
    until "$@"; do
        tries=$((tries + 1))
        [ "$tries" -lt 200 ] || fail "waited in vain: $*"
        sleep 0.05
    done
}
is_free() { flock -n "$tree" true; }
is_locked() { ! is_free; }

listed() { cmp -s "$out" examples/b.listing || fail "$1: not the listing of b"; }
runs() {
    [ "$(wc -l <"$room/runs")" -eq "$1" ] || fail "$2: rt was run $(wc -l <"$room/runs") times, expected $1"
}
says() { grep -qF -e "$1" "$err" || fail "it should have said: $1"; }

# No printer and no toolchain.
start "$bare" examples/b.plan
is 3 "no printer and no rt"
says 'plan: the printer is not built from these sources, and the command rt, which builds it, is not there:'
says "plan: install the Rattle toolchain ($(cat TOOLCHAIN)), or take a release, which has it built"

# A build that fails: the end of what rt said.
touch "$room/fails"
start "$full" examples/b.plan
is 3 "a build that fails"
says 'rattle build: nothing was built'
says 'plan: the printer could not be built: the lines above are the end of what rt said'
rm "$room/fails" "$room/runs"

# Two first starts at once: one builds, the other waits for it, and both answer.
PATH=$full "$tree/plan" examples/b.plan >"$room/first" 2>"$room/first.err" &
until_true test -d "$room/busy"
start "$full" examples/b.plan
is 0 "the second of two first starts"
listed "the second of two first starts"
says 'plan: another build, or the gate, is at work here: waiting for it'
wait $!
is 0 "the first of two first starts"
runs 1 "two first starts"
cmp -s "$room/first" examples/b.listing || fail "the first of two first starts: not the listing of b"
cp "$room/first.err" "$err"
reached=$(awk '{ sub(/#.*/, ""); split($0, p, ":"); split(p[1], w, " "); on[w[1]] = p[2] }
    END { n = split("plan_printer", left, " ")
          for (i = 1; i <= n; i++) { if (!(left[i] in on) || seen[left[i]]++) continue
              of++; m = split(on[left[i]], more, " "); for (j = 1; j <= m; j++) left[++n] = more[j] }
          print of }' crates.txt)
says "plan: 1 of $reached proved (base, "
says "plan: $reached of $reached proved (plan_printer, "
[ "$(grep -c ' proved (' "$err")" -eq 2 ] || fail "a crate of which rt says nothing needs no line"
! grep -q writes "$room/first" || fail "what the program wrote while it was made is no answer"
grep -qx 'logic=proved functions=0 sum=0' "$tree/target/log/base" || fail "no log of base"
grep -q '^logic=proved functions=5 ' "$tree/target/log/plan_printer" || fail "no log of the printer"

# Built: no toolchain is needed any more, not even with stray files that are newer.
own=$tree/crates/plan_printer
touch "$own/notes" "$own/src/main.rt~" "$own/src/main.rt"
start "$bare" examples/b.plan
is 0 "stray files and a new date"
listed "stray files and a new date"

# A source that changed is built again, whatever its date.
echo '// changed' >>"$own/src/main.rt"
touch -d 2001-01-01 "$own/src/main.rt"
start "$full" examples/b.plan
is 0 "a source with an older date"
runs 2 "a source with an older date"

# A printer that is empty or damaged is built again, and never blamed on the plan.
: >"$tree/target/bin/plan_printer"
start "$full" examples/b.plan
is 0 "an empty printer"
listed "an empty printer"
runs 3 "an empty printer"
printf x >>"$tree/target/bin/plan_printer"
start "$bare" examples/b.plan
is 3 "a damaged printer and no rt"
says 'plan: the printer is not built from these sources'
start "$full" examples/b.plan
is 0 "a damaged printer"
runs 4 "a damaged printer"

# Another toolchain than the one that this work was checked with.
echo another-kit >"$room/version"
rm "$tree/target/bin/plan_printer.made"
start "$full" examples/b.plan
is 0 "another toolchain"
says "plan: the toolchain here is another-kit, and this work was checked with $(cat TOOLCHAIN)"
cp TOOLCHAIN "$room/version"

# Through symbolic links, one of them relative.
mkdir "$room/bin"
ln -s ../tree/plan "$room/bin/one"
ln -s "$room/bin/one" "$room/two"
PATH=$bare "$room/two" examples/b.plan >"$out" 2>"$err"
is 0 "a link to a link to plan"
listed "a link to a link to plan"

# The gate waits while a build holds the lock, and holds it itself. Its first check sleeps and fails.
printf 'import time\ntime.sleep(2)\nraise SystemExit(1)\n' >"$tree/checks/layers.py"
(exec 9<"$tree" && flock 9 && exec sleep 60) &
holder=$!
until_true is_locked
PATH=$full timeout 1 "$tree/.ci/run" >"$out" 2>"$err"
is 124 "the gate while a build is at work"
says 'gate: another build, or the gate, is at work here: waiting for it'
[ ! -s "$out" ] || fail "the gate began without the lock"
kill "$holder"
holder=''
until_true is_free
PATH=$full "$tree/.ci/run" >"$out" 2>"$err" &
until_true test -s "$out"
is_locked
is 0 "the lock while the gate runs"
wait $!
is 1 "a gate whose first check fails"

# The gate ends as rt ci does, with its last line, and fails on edits that no longer fit. Its other checks are
# left out of this copy.
sed '/^step /d' .ci/run >"$tree/.ci/run"
# ends STATUS OK-LINE LAST-LINE RT-STATUS: the gate's status where rt ci says that and ends so.
ends() {
    { echo "== base"; echo "$2"; echo "$3"; } >"$room/ci"
    echo "$4" >"$room/ci_status"
    PATH=$full "$tree/.ci/run" >"$out" 2>"$err"
    is "$1" "the gate after: $2"
    [ "$(tail -n 1 "$out")" = "$3" ] || fail "the gate's last line is not rt ci's"
    [ "$(grep -cxF -e "$2" "$out")" -eq 1 ] || fail "the gate keeps a line of rt ci"
}
known="rt: ok; handles allowed: none; must-fail edits: 255 refused"
ends 0 "$known; every proof and must-fail edit was done in this run" "345 passed, 0 failed" 0
ends 0 "$known, 1 of them only by a limit; every proof" "345 passed, 0 failed" 0
ends 1 "$known, 2 bad; every proof" "345 passed, 0 failed" 0
ends 1 "$known, 1 of them only by a limit, 12 bad; every proof" "345 passed, 0 failed" 0
ends 1 "rt: all is left out" "0 passed, 0 failed" 0
ends 1 "rt: FAILED: bound" "344 passed, 1 failed" 1
ends 2 "rt: crates.txt lists no crate" "0 passed, 1 failed" 2

# make check: the gate's record, and printer and archive again after a gate that removed them.
printf '#!/bin/sh\nrm -rf target\nmkdir target\necho "3 passed, 0 failed"\n' >"$tree/.ci/run"
PATH=$full "$tree/tools/gate.sh" >"$out" 2>"$err"
is 0 "make check"
for file in bin/plan_printer staticlib/libeskihrum.a gate.log; do
    [ -s "$tree/target/$file" ] || fail "make check: there is no target/$file afterwards"
done
[ "$(cat "$tree/target/gate.log")" = "commit unknown
3 passed, 0 failed" ] || fail "make check: its record is $(cat "$tree/target/gate.log")"
printf '#!/bin/sh\nexit 7\n' >"$tree/.ci/run"
PATH=$full "$tree/tools/gate.sh" >"$out" 2>"$err"
is 7 "make check with a gate that fails"
says 'make check: the gate ended with 7'
printf 'build.sh: %s starts of plan and of the gate are as they should be\n' "$count"
