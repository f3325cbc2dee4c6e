#!/bin/sh
# plan.sh: the script `plan` on every plan of examples/ and corpus/, and all that its grammar says: every exit
# status, every message, every way to name input and output. Prints the first difference and exits with 1;
# prints one line and exits with 0 where all is well.
# shellcheck disable=SC2016 # commands in single quotes are for the shell that is started
set -u
cd -- "$(dirname -- "$0")/.." || exit 1
room=$(mktemp -d) || exit 1
trap 'rm -rf "$room"' EXIT
out=$room/out err=$room/err count=0
b=examples/b.plan d=examples/d.plan nine=corpus/bad/09-period-zero.plan most=corpus/good/most-tasks.plan
small=corpus/good/lower-case.plan
export b d nine most small room plan words

fail() {
    printf 'plan.sh: %s\n' "$*"
    printf 'standard output:\n%s\nstandard error:\n%s\n' "$(cat "$out")" "$(cat "$err")"
    exit 1
}

# gives STATUS COMMAND..: the command's status; what it wrote and said is left in $out and $err.
gives() {
    want=$1
    shift
    "$@" >"$out" 2>"$err" </dev/null
    got=$?
    [ "$got" -eq "$want" ] || fail "$*: status $got, expected $want"
    did=$* count=$((count + 1))
}
# sh_gives STATUS SCRIPT: the same of a line for the shell.
sh_gives() { gives "$1" sh -c "$2"; }

# What the last command wrote and said, whole; `holds FILE` compares with a file.
wrote() { [ "$(cat "$out")" = "$1" ] || fail "$did: it should have written: $1"; }
said() { [ "$(cat "$err")" = "$1" ] || fail "$did: it should have said: $1"; }
holds() { cmp -s "$out" "$1" || fail "$did: it should have written what $1 holds"; }
says_part() { grep -qF -e "$1" "$err" || fail "$did: it should have said: $1"; }

told_14='plan: task 1: forcing has ended, and the task still has no bound [plan explain 14]'
told_9='plan: line 3 (task 2): the period T is not 1 to 1,000,000 quanta [plan explain 9]'

# ---- One file by name, by -, by a named pipe, in pieces: document 01's bytes and nothing else.
gives 0 ./plan $b
holds examples/b.listing
said ''
sh_gives 0 'cat $b | ./plan -'
holds examples/b.listing
sh_gives 0 'mkfifo "$room/pipe" && { cat $b >"$room/pipe" & ./plan "$room/pipe"; }'
holds examples/b.listing
sh_gives 0 '{ head -c 40 $b; sleep 0.2; tail -c +41 $b; } | ./plan'
holds examples/b.listing

# ---- Long inputs: the longest plan is accepted, and with one byte more it is not.
[ "$(wc -c <$most)" -eq 1003 ] || fail "$most is not the longest plan"
sh_gives 2 '{ cat "$most"; printf 0; } | ./plan'
wrote 'refused 12 place 34'
said 'plan: line 34 (after task 32, the last): bytes follow the last line [plan explain 12]'
sh_gives 2 'head -c 3000000 /dev/zero | ./plan'
wrote 'refused 2 place 1'
sh_gives 2 '{ cat $b; head -c 3000000 /dev/zero; } | ./plan'
wrote 'refused 12 place 4'
sh_gives 2 'yes | ./plan'

# ---- Places in words.
gives 1 ./plan $d
said "$told_14"
gives 2 ./plan $nine
said "$told_9"
gives 2 ./plan corpus/bad/01-last-line-end-missing.plan
says_part ', or the last line end is missing [plan explain 1]'
gives 2 ./plan examples/l.plan
says_part 'plan: line 1 (the head): fewer bytes are left'
gives 2 ./plan corpus/bad/03-sum-off-by-one.plan
says_part '; check byte E1 fits, E2 stands there [plan explain 3]'
sh_gives 2 "sed 's/FB\$/FC/' \$b | ./plan"
wrote 'refused 3 place 1'
says_part 'plan: line 1 (the head): '
says_part '; check byte FB fits, FC stands there [plan explain 3]'
sh_gives 2 'printf "0100000000\n" | ./plan'
says_part '; check byte FF fits, 00 stands there [plan explain 3]'
sh_gives 2 'printf "01FF000001\n" | ./plan'
says_part '; check byte 00 fits, 01 stands there [plan explain 3]'

# ---- Two and more files: the name above what follows, and the largest status.
gives 1 ./plan $b $d
{ echo $b:; cat examples/b.listing; echo $d:; cat examples/d.listing; } >"$room/two"
holds "$room/two"
said "plan: $d${told_14#plan}"
gives 2 ./plan $nine $d
gives 3 ./plan $b examples/none.plan $nine
{ echo $b:; cat examples/b.listing; echo $nine:; echo refused 9 place 3; } >"$room/two"
holds "$room/two"
says_part 'plan: examples/none.plan: no such file'
says_part "plan: $nine${told_9#plan}"

# ---- The grammar: the verb first, options anywhere after it, -- ends them, ./chart is a file.
gives 0 ./plan $b -o "$room/a"
wrote ''
said ''
cmp -s "$room/a" examples/b.listing || fail "-o after a file: not the listing"
gives 0 ./plan chart $b -o "$room/c"
gives 0 ./plan chart -o "$room/c" -- $b
gives 0 ./plan -- $b
holds examples/b.listing
gives 0 ./plan -o - $b
holds examples/b.listing
sh_gives 0 'here=$PWD; cp $b "$room/chart"; cp $b "$room/-o"; cd "$room" && "$here/plan" ./chart'
holds examples/b.listing
sh_gives 0 'here=$PWD; cd "$room" && "$here/plan" -- -o'
holds examples/b.listing
sh_gives 0 'here=$PWD; cd "$room" && "$here/plan" -- chart'
holds examples/b.listing
gives 3 ./plan -- -o
said 'plan: -o: no such file'
gives 3 ./plan --nothing
said "plan: unknown option '--nothing' [plan --help]"
gives 3 ./plan $b -x
wrote ''
said "plan: unknown option '-x' [plan --help]"
gives 3 ./plan -o
said 'plan: -o takes the name of a file [plan --help]'
gives 3 ./plan -o '' $b
said 'plan: -o takes the name of a file [plan --help]'
gives 3 ./plan -o "$room/a" -o "$room/b" $b
said 'plan: -o was given twice [plan --help]'
gives 3 ./plan chart $b $d
said 'plan: chart takes [FILE], and 2 words were given [plan --help]'
gives 3 ./plan -o "$room/new" chart $b
says_part 'plan: chart: no such file (a verb has to be the first word)'
[ ! -e "$room/new" ] || fail "a file that could not be read: -o's file was written"

# ---- Files that cannot be read.
gives 3 ./plan examples/none.plan
wrote ''
said 'plan: examples/none.plan: no such file'
gives 3 ./plan ''
said "plan: '': no such file"
gives 3 ./plan examples
said 'plan: examples: this is a folder'
sh_gives 3 './plan <examples'
wrote ''
said 'plan: standard input could not be read (Is a directory)'
sh_gives 3 './plan <&-'
wrote ''
said 'plan: standard input is closed'
if [ "$(id -u)" -ne 0 ]; then
    sh_gives 3 'cp $b "$room/shut"; chmod 0 "$room/shut"; ./plan "$room/shut"'
    said "plan: $room/shut: this file may not be read"
fi
TMPDIR=$room/none gives 3 ./plan $b
says_part "plan: no temporary folder can be made: has $room/none room?"

# ---- Answers that cannot be written: 3 everywhere.
for words in "$b" "$d" "$nine" "chart $b" "chart $nine" "explain 9" --help --version; do
    sh_gives 3 './plan $words >/dev/full'
    says_part 'plan: the answer could not be written (No space left on device)'
    sh_gives 3 './plan $words >&-'
    said 'plan: standard output is closed'
done
gives 3 ./plan -o "$room/none/a" $b
said "plan: -o $room/none/a: its folder is not there, or nothing can be written to it"
gives 3 ./plan -o "$room" $b
said "plan: -o $room: this is no ordinary file, and is left alone"
gives 3 ./plan -o "$room/pipe" $b
said "plan: -o $room/pipe: this is no ordinary file, and is left alone"
[ -p "$room/pipe" ] || fail "-o replaced a pipe"
sh_gives 0 './plan --help | head -n 1 >/dev/null'
said ''

# ---- -o: whole or not at all, and a refusal's line to standard output.
for words in "$d" "$nine" "$b $d" "chart $nine"; do
    echo before >"$room/kept"
    case $words in *"$d") status=1 ;; *) status=2 ;; esac
    sh_gives "$status" './plan $words -o "$room/kept"'
    grep -q '^refused ' "$out" || fail "$words -o: the refusal's line is not on standard output"
    [ "$(cat "$room/kept")" = before ] || fail "$words -o: the file was touched"
done
sh_gives 0 'umask 027; ./plan $b -o "$room/mode"; stat -c %a "$room/mode"'
wrote 640
sh_gives 0 'ln -s a "$room/link"; echo >"$room/a"; ./plan $b -o "$room/link" && test -L "$room/link"'
cmp -s "$room/a" examples/b.listing || fail "-o through a symbolic link: not the listing"
[ -z "$(find "$room" -name '.plan.*')" ] || fail "-o left a draft behind"

# ---- test, cores, apply, show, make: the desk program's verbs.
gives 1 ./plan test $b
wrote 'plan FP cores 1 tasks 2
task 1 P bound 4 deadline 12 load 334
task 2 P none deadline 18 load 375
total load 709 answer no'
said ''
gives 0 ./plan cores $b
wrote "fewest 1
$(cat examples/b.listing)"
said ''
gives 0 ./plan cores examples/g.plan
wrote 'fewest 2
plan FP cores 2 tasks 3
task 1 P given bound 4 deadline 10 load 400
task 2 P given bound 4 deadline 10 load 400
task 3 P given bound 20 deadline 20 load 400
total load 1200 forced 0 passes 1'
gives 0 ./plan apply $b -o "$room/release.plan"
gives 0 ./plan test "$room/release.plan"
[ "$(tail -n 1 "$out")" = 'total load 709 answer yes' ] || fail "the plan as changed does not pass its test"
gives 0 ./plan apply "$room/release.plan"
holds "$room/release.plan"
gives 0 ./plan show $b
wrote 'policy FP
cores 1
# T C D flag
task 12 4 12 P
task 24 9 18 P'
sh_gives 0 './plan show $b | ./plan make | cmp - $b'
wrote ''
sh_gives 0 './plan show examples/j.plan | sed "s/^cores .*/cores 16/" | ./plan make -o "$room/16"'
sh_gives 0 './plan cores "$room/16" | head -n 2'
wrote 'fewest 2
plan FP cores 2 tasks 3'
for words in test cores apply show; do
    gives 2 ./plan $words $nine
    wrote 'refused 9 place 3'
    said "$told_9"
done
gives 1 ./plan apply $d
wrote 'refused 14 place 1 passes 2'
said "$told_14"
echo before >"$room/kept"
gives 1 ./plan apply $d -o "$room/kept"
[ "$(cat "$room/kept")" = before ] || fail "apply -o: the file was touched by a refusal"

# ---- manifest: each digest is that of the real bytes, the word is by bits, and one reading serves all.
sum_of() { sha256sum | cut -d ' ' -f 1; }
# manifest_of PLAN WORD COUNTS: what the manifest of a plan has to be, from the plan and the other verbs.
manifest_of() {
    printf 'eskihrum %s edition 1\nsent sha256 %s\n' "$(cat VERSION)" "$(sum_of <"$1")"
    printf 'install sha256 %s\nlisting sha256 %s\n' "$(./plan apply "$1" | sum_of)" "$(./plan "$1" | sum_of)"
    printf 'word %s\naccepted %s\n' "$2" "$3"
}
while read -r plan word counts; do
    manifest_of "$plan" "$word" "$counts" >"$room/manifest"
    gives 0 ./plan manifest "$plan"
    holds "$room/manifest"
    said ''
done <<EOF
examples/c.plan 00000000 forced 0 passes 1
$most AAAAAAAA forced 0 passes 1
$small 00000003 forced 2 passes 3
$b 00000003 forced 2 passes 3
EOF
# Letters count in what was sent, and in nothing else; what is installed is in upper case.
sh_gives 0 './plan manifest $small | grep -v "^sent "'
grep -v '^sent ' "$room/manifest" >"$room/upper"
holds "$room/upper"
sh_gives 0 './plan manifest <$b'
holds "$room/manifest"
sh_gives 0 'cat $b | ./plan manifest -'
holds "$room/manifest"
# A file that is another plan as soon as it has been read: a `head` that replaces it stands in for who did.
mkdir "$room/late"
printf '#!/bin/sh\n%s "$@"\ncp %s "%s"\n' "$(command -v head)" $most "$room/changes" >"$room/late/head"
chmod +x "$room/late/head"
sh_gives 0 'cp $b "$room/changes"; PATH=$room/late:$PATH ./plan manifest "$room/changes"'
holds "$room/manifest"
cmp -s "$room/changes" $most || fail "the plan of the manifest was not replaced after it was read"
sh_gives 0 '{ cat $b >"$room/pipe" & timeout 20 ./plan manifest "$room/pipe"; }'
holds "$room/manifest"
# -o, and refusals: as for the listing, and no manifest.
gives 0 ./plan manifest $b -o "$room/kept"
wrote ''
cmp -s "$room/kept" "$room/manifest" || fail "manifest -o: not the manifest"
echo before >"$room/kept"
gives 1 ./plan manifest -o "$room/kept" $d
wrote 'refused 14 place 1 passes 2'
said "$told_14"
sh_gives 2 '{ cat $b; echo; } | ./plan manifest -o "$room/kept"'
wrote 'refused 12 place 4'
said 'plan: line 4 (after task 2, the last): bytes follow the last line [plan explain 12]'
gives 2 ./plan manifest $nine
wrote 'refused 9 place 3'
said "$told_9"
[ "$(cat "$room/kept")" = before ] || fail "manifest -o: the file was touched by a refusal"

# ---- Edition 2: sums of document 02, worked out apart from the programs. checks/editions.sh has more plans.
gives 0 ./plan --edition 2 $b
wrote 'plan FP cores 1 tasks 2
task 1 P given bound 4 deadline 12 load 334
task 2 P given bound 17 deadline 18 load 375
total load 709 forced 0 passes 1 rounds 3'
said ''
gives 0 ./plan test $b --edition 2
wrote 'plan FP cores 1 tasks 2
task 1 P bound 4 deadline 12 load 334
task 2 P bound 17 deadline 18 load 375
total load 709 answer yes rounds 3'
gives 0 ./plan apply --edition 2 $b
cmp -s "$out" $b || fail "the plan as changed under edition 2: not the plan as sent, which passes"
gives 0 ./plan --edition 1 $b
holds examples/b.listing
printf 'policy FP\ncores 1\ntask 2 1 2 P\ntask 5 1 5 N\ntask 9 2 9 P\n' >"$room/15.table"
gives 0 ./plan make "$room/15.table" -o "$room/15"
for words in '' apply; do
    # shellcheck disable=SC2086 # no word, or one
    gives 1 ./plan $words --edition 2 "$room/15"
    wrote 'refused 15 place 3 passes 3'
    says_part 'plan: task 3: forcing under the second edition has ended'
done
gives 1 ./plan test --edition 2 "$room/15"
wrote 'plan FP cores 1 tasks 3
task 1 P bound 2 deadline 2 load 500
task 2 N bound 3 deadline 5 load 200
task 3 P none deadline 9 load 223
total load 923 answer no rounds 2'
gives 2 ./plan --edition 2 $nine
wrote 'refused 9 place 3'
said "$told_9"
for edition in 0 3 02 '' -o; do
    gives 3 ./plan --edition "$edition" $b
    said 'plan: --edition takes 1 or 2 [plan --help]'
done
gives 3 ./plan --edition
said 'plan: --edition takes 1 or 2 [plan --help]'
gives 3 ./plan --edition 2 --edition 2 $b
said 'plan: --edition was given twice [plan --help]'
for words in chart cores manifest show make explain; do
    gives 3 ./plan $words --edition 2 9
    said "plan: $words has edition 1 only [plan --help]"
done

# ---- Letters in either case: every verb reads them and answers alike, and what is written is upper case.
sed 's/FB$/fB/; s/0C0/0c0/; s/CA$/cA/' $b >"$room/mixed"
for words in '' test cores apply show '--edition 2' 'test --edition 2' 'apply --edition 2'; do
    if [ "$words" = test ]; then status=1; else status=0; fi
    sh_gives $status './plan $words $b'
    cp "$out" "$room/upper"
    for plan in $small "$room/mixed"; do
        sh_gives $status './plan $words "$plan"'
        holds "$room/upper"
        said ''
    done
done
sh_gives 0 './plan chart $b | grep -vF -e sha256 -e $b'
cp "$out" "$room/upper"
sh_gives 0 './plan chart $small | grep -vF -e sha256 -e $small'
holds "$room/upper"
sh_gives 1 './plan apply corpus/good/mixed-case.plan | grep -q "[a-f]"'
sh_gives 2 'sed "s/ca\$/Cb/" $small | ./plan'
wrote 'refused 3 place 3'
says_part '; check byte CA fits, Cb stands there [plan explain 3]'
gives 2 ./plan corpus/bad/02-lower-letter-g.plan
wrote 'refused 2 place 1'

# made STATUS TABLE ANSWER HINT: what make says of a table that is typed.
made() {
    printf '%b' "$2" >"$room/typed"
    gives "$1" ./plan make "$room/typed"
    wrote "$3"
    said "$4"
}
head='policy FP\ncores 1\n'
made 2 "${head}task 12 4 12 P\ntask 12 0 12 N # C\n" 'refused 11 place 2' \
    'plan: task 2: the execution time C is not 1 to D [plan explain 11]'
made 2 'policy EDF\ncores 17\ntask 1 1 1 P\n' 'refused 5 place 0' \
    'plan: the head: the number of cores is not 1 to 16 [plan explain 5]'
made 2 "$head" 'refused 7 place 0' 'plan: the head: the number of tasks is not 1 to 32 [plan explain 7]'
made 2 "${head}task 99999999999999999999 1 1 P\n" 'refused 9 place 1' \
    'plan: task 1: the period T is not 1 to 1,000,000 quanta [plan explain 9]'
made 2 "${head}task 12 4 12 P\ntask 12 4 12 N 33\n" 'refused 17 place 2' \
    'plan: task 2: the level is not 1 to 32 [plan explain 17]'
told_17='plan: task 1: the level is not 1 to 32 [plan explain 17]'
made 2 "${head}task 12 4 12 P 0\ntask 0 4 12 P 1\n" 'refused 17 place 1' "$told_17"
made 2 'policy EDF\ncores 1\ntask 6 2 6 P 99999999999999999999\n' 'refused 17 place 1' "$told_17"
made 2 "${head}task 12 13 12 P 0\n" 'refused 11 place 1' \
    'plan: task 1: the execution time C is not 1 to D [plan explain 11]'
told_18='plan: the table: the levels are not 1, 2 and so on in table order, and plan lines carry no others'
for levels in '1 1' '2 1' '1 3' '2 3'; do
    for words in FP EDF; do
        made 2 "policy $words\ncores 1\ntask 6 2 6 P ${levels% *}\ntask 6 2 6 N ${levels#* }\n" \
            'refused 18 place 0' "$told_18 [plan explain 18]"
    done
done
for levels in ' 1/ 2' ' 01/' '/ 002'; do
    printf '%btask 12 4 12 P%s\ntask 24 9 18 P%s\n' "$head" "${levels%/*}" "${levels#*/}" >"$room/typed"
    gives 0 ./plan make "$room/typed"
    holds $b
done
# The numbers of a table whose levels are not its places, shown and typed.
printf '1 1 3\n1 6 2 6\n0 6 2 6 1\n1 9 9 9\n' >"$room/numbers"
gives 0 awk -f tools/shown.awk "$room/numbers"
wrote 'policy FP
cores 1
# T C D flag level
task 6 2 6 P 1
task 6 2 6 N 1
task 9 9 9 P 3'
sh_gives 0 'awk -f tools/shown.awk "$room/numbers" | awk -f tools/typed.awk'
holds "$room/numbers"
while IFS='|' read -r table why; do
    made 3 "$table" '' "plan: $room/typed: $why"
done <<'EOF'
policy FP\ncores 1\ntask 12 4 x P\n|line 3: 'x' is no number for D
policy FP\ncores 1\ntask 12 4 12 Q\n|line 3: 'Q' is no flag: P or N
policy FP\ncores 1\ntask 12 4 12\n|line 3: after '12' a word is missing: task T C D FLAG [LEVEL]
policy FP\ncores 1\ntask 12 4 12 P 1 2\n|line 3: '2' is a word too many: task T C D FLAG [LEVEL]
policy FP\ncores 1\ntask 12 4 12 P x\n|line 3: 'x' is no number for the level
policy FP\ncores 1\ncores 2\n|line 3: 'cores' was given before
policy RM\n|line 1: 'RM' is no policy: EDF or FP
plan FP\n|line 1: 'plan' begins no line: policy, cores, task or #
cores 1\ntask 1 1 1 P\n|there is no line 'policy EDF' or 'policy FP'
policy FP\ntask 1 1 1 P\n|there is no line 'cores NUMBER'
EOF
printf '\n  policy\tFP # words\r\ncores 01\n#\ntask 12 4 12 P\ntask 24 9 18 P' >"$room/typed"
gives 0 ./plan make "$room/typed"
holds $b

# ---- explain.
gives 0 ./plan explain 9
wrote "refusal 9: The period T is not 1 to 1,000,000 quanta. Whose fault: Whoever filled in the task, or a \
period in another unit. What to do: Give T in quanta."
cp "$out" "$room/nine"
gives 0 ./plan --explain 9
holds "$room/nine"
explained() {
    gives 0 ./plan explain "$1" "$2"
    [ "$(tail -n 1 "$out")" = "place $2: $3" ] || fail "explain $1 $2: it should have ended: place $2: $3"
}
explained 9 3 'line 3 (task 2); or task 3 of a list that a program lends'
explained 9 33 'line 33 (task 32)'
explained 9 1 'task 1 of a list that a program lends'
explained 1 1 'line 1 (the head)'
explained 3 33 'line 33 (task 32)'
explained 5 0 'the list that a program lends'
explained 5 1 'line 1 (the head)'
explained 12 34 'line 34 (after task 32, the last)'
explained 13 0 'the list that a program lends'
explained 14 32 'task 32'
explained 16 0 'the buffer that a program lends'
explained 17 32 'task 32 of a list that a program lends'
explained 18 0 'the list that a program lends'
for number in '' No. --- 1e1 +9 -9 0 00 09 9.0 ' 9' 19 100 14x '9
9'; do
    gives 3 ./plan explain -- "$number"
    wrote ''
    said "plan: explain takes the number of a refusal, 1 to 18, and not '$number' [plan --help]"
done
gives 3 ./plan explain ---
gives 3 ./plan --explain
said 'plan: explain takes NUMBER [PLACE], and 0 words were given [plan --help]'
gives 3 ./plan explain 1 2 3
for pair in '1 0' '1 34' '5 2' '9 0' '9 34' '12 2' '12 35' '13 1' '14 0' '14 33' '14 03' '14 x' '14 100' \
    '17 0' '17 33' '18 1'; do
    # shellcheck disable=SC2086 # two words
    gives 3 ./plan explain $pair
    said "plan: refusal ${pair% *} never has the place '${pair#* }' [plan --help]"
done

# ---- --help and --version.
gives 0 ./plan --help
grep -q '^Exit status: 0 ' "$out" || fail "--help: no word on the exit status"
cp "$out" "$room/help"
gives 0 ./plan chart -h
holds "$room/help"
gives 0 ./plan --version
wrote "Eskihrum $(cat VERSION)
toolchain $(cat TOOLCHAIN)
printer $(sha256sum <target/bin/plan_printer | cut -d ' ' -f 1)"

# ---- A terminal: it says that it waits.
if command -v script >/dev/null 2>&1; then
    gives 2 script -qec ./plan /dev/null
    grep -q '^plan: waiting for a plan on the terminal' "$out" || fail "it does not say that it waits"
fi

# ---- Refusal 14's advice: on one core under FP, (5,2,4,P) (14,8,14,P) is refused, no longer deadline helps,
# and a shorter one does.
lines() {
    for frame in "$@"; do
        bytes=$(printf '%s' "$frame" | sed 's/../0x& + /g')
        printf '%s%02X\n' "$frame" $(((256 - (${bytes}0) % 256) % 256))
    done
}
two_tasks() {
    lines 01010102 "02010000000500000002$(printf '%08X' "$1")" 02010000000E000000080000000E >"$room/p"
}
two_tasks 4
gives 1 ./plan "$room/p"
two_tasks 5
gives 1 ./plan "$room/p"
two_tasks 3
gives 0 ./plan "$room/p"

# ---- Every stored plan, by name and as standard input.
for plan in examples/*.plan corpus/good/*.plan corpus/bad/*.plan; do
    listing=${plan%.plan}.listing
    case $(head -n 1 "$listing") in "plan "*) status=0 ;; "refused 14 "*) status=1 ;; *) status=2 ;; esac
    tr a-f A-F <"$plan" >"$room/raised"
    [ "$status" -eq 2 ] || sh_gives 0 './plan show "$plan" | ./plan make | cmp - "$room/raised"'
    sh_gives "$status" 'tr A-F a-f <"$plan" | ./plan'
    holds "$listing"
    gives "$status" ./plan "$plan"
    holds "$listing"
    [ "$status" -gt 0 ] || said ''
    sh_gives "$status" './plan <"$plan"'
    holds "$listing"
done
printf 'plan.sh: %s runs of plan are as they should be\n' "$count"
