#!/bin/sh
# manual.sh: the manual page of `plan`, made of what `plan --help` shows, so that both say the same. It writes
# roff to standard output: `tools/manual.sh > docs/plan.1`. No other program is needed.
set -eu
cd -- "$(dirname -- "$0")/.."
printf '.\\" Made by tools/manual.sh from plan --help.\n'
printf '.TH PLAN 1 "" "Eskihrum %s"\n' "$(cat VERSION)"
cat <<'EOF'
.SH NAME
plan \- say whether every task of a plan meets its deadline, after forcing
.SH SYNOPSIS
.B plan
[\fIVERB\fR] [\fIOPTIONS\fR] [\fIFILE\fR..]
.SH DESCRIPTION
A plan is a table of tasks in lines of hexadecimal. \fBplan\fR tests it, makes preemptive tasks
non-preemptive where that is needed (forcing), and writes the listing: each task's flag, bound, deadline and
load. Install the table as changed by the listing, never as sent.
EOF
./plan --help | awk '
    function roff(text) { gsub(/-/, "\\-", text); return text }
    /^usage:/ { next }
    /^Verbs:$/ { print ".SH VERBS"; next }
    /^Options:$/ { print ".SH OPTIONS"; next }
    /^  / {
        words = substr($0, 3, 30); sub(/ +$/, "", words)
        printf ".TP\n\\fB%s\\fR\n%s\n", roff(words), roff(substr($0, 33))
        listed = 1
        next
    }
    /^Exit status: / { print ".SH EXIT STATUS"; sub(/^Exit status: /, ""); listed = 0 }
    /^$/ { gap = 1; next }
    { if (listed) print ".SH NOTES"; else if (gap) print ".PP"; listed = gap = 0; print roff($0) }'
cat <<'EOF'
.SH EXAMPLES
.nf
plan < b.plan
plan cores b.plan
plan manifest b.plan \-o release.manifest
plan apply b.plan \-o release.plan
plan show b.plan | plan make | cmp \- b.plan
plan chart b.plan \-o b.svg
plan explain 9 3
.fi
.SH SEE ALSO
The refusals and what to do about each stand in REFUSALS.md, what is proved in CLAIMS.md and what is trusted
in TRUST.md, in the folder of papers.
EOF
