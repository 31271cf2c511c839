#!/bin/sh
# Installs what is beside this file, or removes what was installed. It needs no root, and changes nothing outside of PREFIX.
#
#   ./install.sh [--replace] PREFIX     commands in PREFIX/bin, what they run in PREFIX/lib/compax, the rest in PREFIX/share
#   ./install.sh --uninstall PREFIX     removes what PREFIX/lib/compax/INSTALLED lists; folders of clusters are never in it
#
# Another version is replaced only with --replace, and none while a cluster runs from there: all processes of a cluster run the same
# program. A file that isn't listed in INSTALLED is never replaced. The exit status is 0 where all was done; 2 for bad words; else 1.
set -eu

fail() {
    echo "install.sh: $1" >&2
    exit "${2:-1}"
}

usage() {
    fail "use: install.sh [--replace | --uninstall] PREFIX" 2
}

check_letters() {
    case $1 in
        *[!A-Za-z0-9/._+-]*) fail "$1 has a letter that a unit can't name: only A-Z a-z 0-9 / . _ + - are taken" 2 ;;
    esac
}

# Whether this machine can run it.
check_runs() {
    "$here/out/compax" gen 7 1 2>&1 | grep -q '^events 1$' || fail "the program doesn't run here: README says what it needs"
    python3 -c 'import sys; sys.exit(sys.version_info < (3, 11))' || fail "the tools need Python 3.11 or newer, as python3"
}

check_idle() {
    # on standard input, so that grep doesn't find itself
    found=$(printf '%s\n' "$home/out/compax" "$home/tools/supervisor.py" | grep -lzsFx -f - /proc/[0-9]*/cmdline | head -n 1) || :
    [ -z "$found" ] || fail "a cluster runs from $home, as ${found%/cmdline}: end it first"
}

# Whether a file was installed before.
is_ours() {
    [ -f "$list" ] && grep -Fqx -e "$1" "$list"
}

check_free() {
    while read -r _ to _; do
        if [ -e "$prefix/$to" ] || [ -L "$prefix/$to" ]; then
            is_ours "$to" || fail "$prefix/$to is there, and wasn't installed by this"
        fi
    done < "$here/FILES"
}

check_version() {
    if [ -e "$home/VERSION" ] && ! cmp -s "$here/VERSION" "$home/VERSION" && [ "$mode" != --replace ]; then
        fail "$home has another version: $(head -n 1 "$home/VERSION"). --replace replaces it"
    fi
}

# Puts a file or a link to its place as a whole.
put() {
    to="$prefix/$2"
    mkdir -p "${to%/*}"
    case $1 in
        link) ln -sf "$3" "$to.new" ;;
        unit) sed "s|@PREFIX@|$prefix|" "$here/$3" > "$to.new" ;;
        *) cp "$here/$3" "$to.new" ;;
    esac
    mv -f "$to.new" "$to"
}

# Removes the files that are listed on standard input, and the folders that are then empty.
remove() {
    rm -rf "$home/tools/__pycache__"
    while read -r name; do
        rm -f "$prefix/$name"
        (cd "$prefix" && rmdir -p "${name%/*}" 2> /dev/null) || :
    done
}

install() {
    check_runs
    check_version
    check_free
    check_idle
    mkdir -p "$home"
    # all that may be there, so that also an end in between can be uninstalled
    { cut -d ' ' -f 2 "$here/FILES"; echo lib/compax/INSTALLED; cat "$list" 2> /dev/null || :; } | sort -u > "$list.new"
    mv -f "$list.new" "$list"
    while read -r kind to from; do
        put "$kind" "$to" "$from"
    done < "$here/FILES"
    { cut -d ' ' -f 2 "$here/FILES"; echo lib/compax/INSTALLED; } | sort -u > "$list.new"
    comm -13 "$list.new" "$list" | remove
    mv -f "$list.new" "$list"
    echo "installed: $(head -n 1 "$home/VERSION"), in $prefix. Next: $prefix/bin/compax-cluster new FILE"
}

uninstall() {
    [ -f "$list" ] || fail "nothing is installed in $prefix"
    check_idle
    grep -Fvx lib/compax/INSTALLED "$list" | remove
    echo lib/compax/INSTALLED | remove
    echo "uninstalled: $prefix"
}

mode=install
case ${1-} in
    --replace|--uninstall) mode=$1; shift ;;
esac
[ $# -eq 1 ] || usage
case $1 in
    ""|-*) usage ;;
    /*) check_letters "$1" ;;
    *) check_letters "$PWD/$1" ;;
esac
LC_ALL=C
export LC_ALL
here=$(cd "$(dirname "$0")" && pwd -P)
[ "$mode" = --uninstall ] || mkdir -p "$1"
prefix=$(cd "$1" && pwd -P)
check_letters "$prefix"
home="$prefix/lib/compax"
list="$home/INSTALLED"
if [ "$mode" = --uninstall ]; then uninstall; else install; fi
