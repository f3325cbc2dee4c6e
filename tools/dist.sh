#!/bin/sh
# dist.sh RECORD FOLDER: makes a release in FOLDER, as an archive: what install.sh installs, with papers,
# examples and corpus beside it, the sums of all files and the last lines of the gate. RECORD is the log of a
# gate that passed on this very commit, as `make check` leaves it. ./plan runs from the release without the
# toolchain. The release is put together outside of the work tree, since it has a link, and `rt ci` refuses
# links wherever they lie below its folder.
set -eu
cd -- "$(dirname -- "$0")/.."
record=${1:?dist.sh takes the record of a gate}
name=eskihrum-$(cat VERSION)-x86_64
dist=${2:?dist.sh takes the folder for the release}

stop() { printf 'make dist: %s\n' "$*" >&2; exit 3; }
[ -f "$record" ] || stop "there is no record of a gate at $record: run make check first"
[ "$(head -n 1 "$record")" = "$(tools/commit.sh)" ] ||
    stop "the record is of $(head -n 1 "$record"), and this is $(tools/commit.sh): run make check again"
tail -n 1 "$record" | grep -q '^[0-9]* passed, 0 failed$' ||
    stop "the record does not end as a gate that passed"

room=$(mktemp -d)
trap 'rm -rf "$room"' EXIT
to=$room/$name
rm -rf "${dist:?}/$name" "$dist/$name.tar.gz"
mkdir -p "$to" "$dist"
tools/install.sh "$to" >/dev/null
ln -s bin/plan "$to/plan"
cp -R README.md CHANGELOG.md docs examples corpus "$to"
{ head -n 1 "$record"; tail -n 3 "$record"; } >"$to/GATE"
sums=$(cd "$to" && find . -type f -exec sha256sum {} + | LC_ALL=C sort -k 2)
printf '%s\n' "$sums" >"$to/SHA256SUMS"
tar -C "$room" --sort=name --mtime='2000-01-01 00:00Z' --owner=0 --group=0 --numeric-owner -cf - "$name" |
    gzip -n >"$dist/$name.tar.gz"
(cd "$dist" && sha256sum "$name.tar.gz" | tee "$name.tar.gz.sha256")
