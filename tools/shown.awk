# shown.awk: the numbers of the desk program as a table that people edit; typed.awk reads it back. A line has
# a fifth number where a task's level is not its place. Levels are shown where there is such a task, and then
# of all tasks, so that a line can be moved or taken away and the others keep theirs.
NR == 1 { print "policy " ($2 == 1 ? "FP" : "EDF"); print "cores " $1; next }
{
    task[NR - 1] = "task " $2 " " $3 " " $4 " " ($1 == 1 ? "P" : "N")
    level[NR - 1] = NF > 4 ? $5 : NR - 1
    levels = levels || NF > 4
}
END {
    print "# T C D flag" (levels ? " level" : "")
    for (i = 1; i < NR; i++) print task[i] (levels ? " " level[i] : "")
}
