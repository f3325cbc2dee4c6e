# typed.awk: a table as people type it, as numbers for the desk program.
#
#   policy FP              cores policy n
#   cores 1          ->    flag T C D, a line for each task
#   task 12 4 12 P         flag T C D level, where a level is typed that is not the task's place
#   task 24 9 18 P 1
#
# `#` begins a comment; empty lines count for nothing. The first line that cannot be read is told with its
# number and word, as "line 3: ..", and the exit status is 1. Whether a number is in its range the planner
# says.
function wrong(why) { print "line " FNR ": " why; failed = 1; exit 1 }
function number(word, what) {
    if (word !~ /^[0-9]+$/) wrong("'" word "' is no number for " what)
    sub(/^0+/, "", word)
    return word == "" ? "0" : word
}
function takes(fewest, most, words) {
    if (NF < fewest) wrong("after '" $NF "' a word is missing: " words)
    if (NF > most) wrong("'" $(most + 1) "' is a word too many: " words)
}
{ sub(/\r$/, ""); sub(/#.*/, "") }
NF == 0 { next }
$1 == "policy" {
    takes(2, 2, "policy EDF, or policy FP")
    if (policy != "") wrong("'policy' was given before")
    if ($2 != "EDF" && $2 != "FP") wrong("'" $2 "' is no policy: EDF or FP")
    policy = $2 == "FP"
    next
}
$1 == "cores" {
    takes(2, 2, "cores NUMBER")
    if (cores != "") wrong("'cores' was given before")
    cores = number($2, "cores")
    next
}
$1 == "task" {
    takes(5, 6, "task T C D FLAG [LEVEL]")
    if ($5 != "P" && $5 != "N") wrong("'" $5 "' is no flag: P or N")
    task[++n] = ($5 == "P") " " number($2, "T") " " number($3, "C") " " number($4, "D")
    level = NF == 6 ? number($6, "the level") : n ""
    if (level != n "") task[n] = task[n] " " level
    next
}
{ wrong("'" $1 "' begins no line: policy, cores, task or #") }
END {
    if (failed) exit 1
    if (policy == "") { print "there is no line 'policy EDF' or 'policy FP'"; exit 1 }
    if (cores == "") { print "there is no line 'cores NUMBER'"; exit 1 }
    print cores, policy, n + 0
    for (i = 1; i <= n; i++) print task[i]
}
