# shellcheck shell=sh
# bare.sh: taken in by checks that need a machine without the toolchain.

# bare_tools FOLDER: fills it with links to all that `plan` needs of a machine, and with nothing else.
bare_tools() {
    mkdir -p "$1"
    for tool in sh awk cat chmod cut dirname find flock grep head iconv mktemp mv readlink rm sha256sum sort \
        tail tr wc; do
        ln -s "$(command -v "$tool")" "$1/$tool"
    done
}
