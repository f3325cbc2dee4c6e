#!/bin/sh
# install.sh FOLDER: puts what a desk and a program need below FOLDER, which is a prefix such as /usr/local:
# bin/plan with its printer and its words, the archive with header and pkg-config file, the manual page, the
# completion and the papers. Nothing of it names FOLDER, so the whole can be moved.
set -eu
cd -- "$(dirname -- "$0")/.."
to=${1:?install.sh takes a folder}
own=$to/share/eskihrum

put() { # MODE FOLDER FILE..
    mode=$1 folder=$2
    shift 2
    mkdir -p "$folder"
    install -m "$mode" "$@" "$folder"
}

put 755 "$to/bin" plan
put 755 "$to/libexec/eskihrum" target/bin/plan_printer target/bin/desk
put 644 "$own" VERSION TOOLCHAIN
put 644 "$own/docs" docs/REFUSALS.md
put 644 "$own/tools" tools/desk.sh tools/refusals.sh tools/verbs.sh tools/*.awk
put 644 "$to/lib" target/staticlib/libeskihrum.a
put 644 "$to/include" include/*.h
put 644 "$to/share/man/man1" docs/plan.1
put 644 "$to/share/doc/eskihrum" README.md CHANGELOG.md docs/*.md
mkdir -p "$to/share/bash-completion/completions" "$to/lib/pkgconfig"
install -m 644 tools/completion.bash "$to/share/bash-completion/completions/plan"
cat >"$to/lib/pkgconfig/eskihrum.pc" <<EOF
prefix=\${pcfiledir}/../..
libdir=\${prefix}/lib
includedir=\${prefix}/include

Name: eskihrum
Description: Response-time test and forcing of task tables, proved
Version: $(cat VERSION)
Libs: -L\${libdir} -leskihrum
Cflags: -I\${includedir}
EOF
chmod 644 "$to/lib/pkgconfig/eskihrum.pc"
echo "installed below $to"
