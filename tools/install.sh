#!/bin/sh
# Installs the programs, the C library, its header, vtrun, the users' tools and the manual pages, as they were built.
#
# usage: tools/install.sh [--unproved] PREFIX [LIBDIR=FOLDER] [DESTDIR=FOLDER]
#
# PREFIX is the folder under which they stand later, such as /usr/local or ~/.local; it is written into vt.pc, so a
# relative one is taken from the folder where the tool is started. LIBDIR is the folder of the library, from PREFIX or
# absolute (lib without it). With DESTDIR, here or in the environment, all files go below DESTDIR/PREFIX instead, as
# packages want it. `vt` keeps its name; `watch`, `picture`, `redraw`, `explore` and the tools get names that begin with `vt-`. The
# clone isn't needed afterwards. PREFIX/share/vt/BUILD names what was installed, of which commit, and whether it is
# proved.
#
# `rt run` in crates/vt makes the proved program and libvt/tools/build_c.sh the library. What isn't there, or isn't
# proved, is named and left out; with --unproved the programs and the library that tools/build.py made are installed in
# its place. Statuses: 0 installed; 1 the words aren't of the form, there is neither a program nor the library, or a
# file can't be written.
set -eu

usage='usage: install.sh [--unproved] PREFIX [LIBDIR=FOLDER] [DESTDIR=FOLDER]'

stop() {
    echo "install.sh: $*" >&2
    exit 1
}

unproved=''
[ "${1-}" != --unproved ] || { unproved=1; shift; }
[ $# -ge 1 ] && [ -n "$1" ] || stop "$usage"
case $1 in
    -* | LIBDIR=* | DESTDIR=*) stop "$usage" ;;
    /*) prefix=$1 ;;
    *) prefix=$(pwd)/$1 ;;
esac
shift
libdir=lib below=${DESTDIR-}
for word in "$@"; do
    case $word in
        LIBDIR=?*) libdir=${word#LIBDIR=} ;;
        DESTDIR=*) below=${word#DESTDIR=} ;;
        *) stop "$usage" ;;
    esac
done
top=$(cd "$(dirname "$0")/.." && pwd)
command -v python3 > /dev/null || stop "python3 isn't there, which the tools for users need"
case $libdir in
    /*) library_to=$libdir ;;
    *) library_to=$prefix/$libdir ;;
esac

# The crate and the installed name of each program.
programs='vt:vt:vt watch:watch:vt-watch picture:picture:vt-picture redraw:redraw:vt-redraw
explore:explore:vt-explore'
commit=$(git -C "$top" describe --always '--dirty=, changed' --abbrev=40 '--exclude=*' 2> /dev/null) || commit=unknown
toolchain=$(rt version 2> /dev/null) || toolchain='a toolchain that is unknown'
made=$(mktemp)
trap 'rm -f "$made"' EXIT
trap 'exit 1' HUP INT TERM

# The file of a program that is to be installed, if there is one. Its line of the file BUILD is kept.
chosen() {
    name=$1 crate=$2
    if [ -f "$top/crates/$crate/out/$crate" ]; then
        echo "$top/crates/$crate/out/$crate"
        echo "$name: proved, commit $commit, $toolchain" >> "$made"
    elif [ -f "$top/out/bin/$name" ] && [ -n "$unproved" ]; then
        echo "$top/out/bin/$name"
        grep "^$name: " "$top/out/bin/BUILD" >> "$made" || echo "$name: not proved" >> "$made"
    elif [ -f "$top/out/bin/$name" ]; then
        echo "install.sh: $name isn't proved, and is left out: rt run in crates/$crate proves it;" \
            "--unproved installs it" >&2
    else
        echo "install.sh: $name isn't built, and is left out: rt run in crates/$crate makes it" >&2
    fi
}

# The folder of the library, if it is to be installed. Its line of the file BUILD is kept.
chosen_library() {
    if [ ! -f "$top/out/c/lib/libvt.a" ]; then
        echo "install.sh: the library isn't built, and is left out: libvt/tools/build_c.sh makes it" >&2
    elif grep -q '^libvt: proved' "$top/out/c/BUILD" 2> /dev/null || [ -n "$unproved" ]; then
        echo "$top/out/c"
        cat "$top/out/c/BUILD" >> "$made" 2> /dev/null || echo "libvt: not proved" >> "$made"
    else
        echo "install.sh: the library isn't proved, and is left out: libvt/tools/build_c.sh proves it;" \
            "--unproved installs it" >&2
    fi
}

# Copies files with the mode to a folder.
put() {
    mode=$1 folder=$below$2
    shift 2
    mkdir -p "$folder" || stop "$folder can't be made"
    for file in "$@"; do
        install -m "$mode" "$file" "$folder/" || stop "$folder/${file##*/} can't be written"
        echo "$folder/${file##*/}"
    done
}

put_library() {
    put 644 "$prefix/include" "$1/include/vt.h"
    put 644 "$library_to" "$1/lib/libvt.a"
    put 755 "$library_to" "$1/lib/libvt.so.1"
    put 644 "$prefix/share/vt/keymaps" "$top/examples/keymaps/us.map"
    ln -sf libvt.so.1 "$below$library_to/libvt.so"
    echo "$below$library_to/libvt.so"
    mkdir -p "$below$library_to/pkgconfig"
    sed -e "s|^prefix=.*|prefix=$prefix|" -e "s|^libdir=.*|libdir=$library_to|" "$1/lib/pkgconfig/vt.pc" \
        > "$below$library_to/pkgconfig/vt.pc"
    echo "$below$library_to/pkgconfig/vt.pc"
    # The engine libvt of vt-engines finds the library as in a clone.
    up=../../../..
    mkdir -p "$below$prefix/share/vt/out/c"
    ln -sfn "$up/include" "$below$prefix/share/vt/out/c/include"
    case $libdir in
        /*) ln -sfn "$libdir" "$below$prefix/share/vt/out/c/lib" ;;
        *) ln -sfn "$up/$libdir" "$below$prefix/share/vt/out/c/lib" ;;
    esac
}

# vtrun stands on the library: it is installed with it.
put_vtrun() {
    if [ -f "$top/out/bin/vtrun" ]; then
        put 755 "$prefix/bin" "$top/out/bin/vtrun"
    else
        echo "install.sh: vtrun isn't built, and is left out: vtrun/build.sh makes it" >&2
    fi
}

put_tools() {
    files=$("$top/tools/user_tools.py")
    for file in $files; do
        mode=644
        [ ! -x "$top/$file" ] || mode=755
        put "$mode" "$prefix/share/vt/$(dirname "$file")" "$top/$file"
    done
    mkdir -p "$below$prefix/bin"
    "$top/tools/user_tools.py" --names | while read -r name file; do
        ln -sf "../share/vt/$file" "$below$prefix/bin/$name"
        echo "$below$prefix/bin/$name"
    done
}

library=$(chosen_library)
found=$library
for row in $programs; do
    name=${row%%:*} rest=${row#*:}
    file=$(chosen "$name" "${rest%%:*}")
    if [ -n "$file" ]; then
        found=1
        mkdir -p "$below$prefix/bin" || stop "$below$prefix/bin can't be made"
        install -m 755 "$file" "$below$prefix/bin/${rest#*:}" || stop "$below$prefix/bin/${rest#*:} can't be written"
        echo "$below$prefix/bin/${rest#*:}"
    fi
done
[ -n "$found" ] ||
    stop "nothing that may be installed is built: rt run in crates/vt makes the program," \
        "libvt/tools/build_c.sh the library"
[ -z "$library" ] || { put_library "$library"; put_vtrun; }
put_tools
for page in "$top"/man/*.[1-9]; do
    put 644 "$prefix/share/man/man${page##*.}" "$page"
done
install -m 644 "$made" "$below$prefix/share/vt/BUILD"
echo "$below$prefix/share/vt/BUILD"
