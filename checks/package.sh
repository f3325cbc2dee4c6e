#!/bin/sh
# package.sh: what `make install` and `make dist` give on a machine without the toolchain: plan runs, a
# program in C finds the archive by pkg-config, every file of the release is the one of SHA256SUMS, and no
# release is made without a gate that passed on this commit. Prints the first difference and exits with 1.
set -u
cd -- "$(dirname -- "$0")/.." || exit 1
# shellcheck source=checks/bare.sh
. checks/bare.sh
room=$(mktemp -d) || exit 1
trap 'rm -rf "$room"' EXIT
fail() { printf 'package.sh: %s\n' "$*"; cat "$room/log" 2>/dev/null; exit 1; }
same() { [ "$2" = "$3" ] || fail "$1: wrote '$3', expected '$2'"; }
bare_tools "$room/bare"

# runs PLAN WHAT: every verb of plan, away from the work tree and without the toolchain.
runs() {
    cp examples/b.plan examples/d.plan "$room"
    same "$2: b" "$(cat examples/b.listing)" "$(cd "$room" && PATH=$room/bare "$1" b.plan 2>&1)"
    same "$2: d" "$(cat examples/d.listing)" "$(cd "$room" && PATH=$room/bare "$1" d.plan 2>/dev/null)"
    same "$2: hint" "$(./plan examples/d.plan 2>&1)" "$(cd "$room" && PATH=$room/bare "$1" d.plan 2>&1)"
    same "$2: manifest" "$(./plan manifest examples/b.plan)" \
        "$(cd "$room" && PATH=$room/bare "$1" manifest b.plan 2>&1)"
    same "$2: explain" "$(./plan explain 3 2)" "$(PATH=$room/bare "$1" explain 3 2 2>&1)"
    same "$2: chart" "$(cd "$room" && PATH=$room/bare "$1" chart b.plan 2>&1 | sha256sum)" \
        "$(here=$PWD; cd "$room" && "$here/plan" chart b.plan | sha256sum)"
    same "$2: help" "$(./plan --help)" "$(PATH=$room/bare "$1" --help)"
    same "$2: version" "$(./plan --version)" "$(PATH=$room/bare "$1" --version)"
}

make install DESTDIR="$room/stage" PREFIX=/usr >"$room/log" 2>&1 || fail "make install"
usr=$room/stage/usr
runs "$usr/bin/plan" "installed"
for file in share/man/man1/plan.1 share/bash-completion/completions/plan include/eskihrum.h; do
    [ -s "$usr/$file" ] || fail "make install: there is no $file"
done
: >"$usr/libexec/eskihrum/plan_printer"
# An installation that is not whole says what is missing.
broken() { PATH=$room/bare "$usr/bin/plan" examples/b.plan 2>&1; }
printer=$usr/bin/../libexec/eskihrum/plan_printer
: >"$printer"
told="plan: the printer gave no whole answer: $printer is damaged; run make, or install Eskihrum again"
same "an empty printer" "$told" "$(broken)"
rm "$printer"
same "no printer" "plan: there is no printer at $printer: install Eskihrum again" "$(broken)"
rm -r "$usr/share/eskihrum"
told="plan: the rest of plan is not at $usr/bin/../share/eskihrum: install Eskihrum again"
same "no words" "$told" "$(broken)"

if command -v pkg-config >/dev/null; then
    PKG_CONFIG_PATH=$usr/lib/pkgconfig
    export PKG_CONFIG_PATH
    same "pkg-config" "$(cat VERSION)" "$(pkg-config --modversion eskihrum)"
    # shellcheck disable=SC2046 # words for the compiler
    cc -O1 $(pkg-config --cflags eskihrum) examples/caller.c $(pkg-config --libs eskihrum) -o "$room/caller" \
        >"$room/log" 2>&1 || fail "a program in C by pkg-config"
    told="accepted, 2 forced in 3 passes, bound of task 1: 12"
    same "a program in C" "$told" "$("$room/caller" <examples/b.plan)"
else
    echo "package.sh: pkg-config is not here, and its file was not tried"
fi

# refused RECORD WORDS: no release without the record of a gate that passed here.
refused() {
    make dist GATE="$1" DIST="$room/dist" >"$room/log" 2>&1 && fail "a release was made, though: $2"
    grep -qF -e "$2" "$room/log" || fail "make dist: it should have said: $2"
}
refused "$room/none" "there is no record of a gate at $room/none: run make check first"
printf 'commit 0\n9 passed, 0 failed\n' >"$room/gate"
refused "$room/gate" "the record is of commit 0, and this is $(tools/commit.sh): run make check again"
{ tools/commit.sh; echo "8 passed, 1 failed"; } >"$room/gate"
refused "$room/gate" "the record does not end as a gate that passed"

# A record made here stands in for the gate's, which has not ended yet.
{ tools/commit.sh; echo "rt: ok"; echo "9 passed, 0 failed"; } >"$room/gate"
make dist GATE="$room/gate" DIST="$room/dist" >"$room/log" 2>&1 || fail "make dist"
name=eskihrum-$(cat VERSION)-x86_64
tar -C "$room" -xzf "$room/dist/$name.tar.gz" || fail "the release cannot be unpacked"
(cd "$room/$name" && sha256sum -c SHA256SUMS >"$room/log" 2>&1) ||
    fail "a file of the release has another sum"
same "the gate's last line" "9 passed, 0 failed" "$(tail -n 1 "$room/$name/GATE")"
runs "$room/$name/plan" "release"
echo "package.sh: plan runs as installed and as unpacked, without the toolchain"
