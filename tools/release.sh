#!/bin/sh
# Packs what the gate built as one archive: the programs, the C library, the users' tools and the manual pages.
#
# usage: tools/release.sh [--unproved] [FOLDER]
#
# The archive is FOLDER/vt-VERSION-x86_64-linux.tar.gz (FOLDER is out in the clone, if there is none). It has one folder
# with the files that tools/install.sh installs, the file BUILD with the commit and the toolchain, and SHA256SUMS with
# the sum of each file. That folder can stand anywhere. The same files give the same archive. Prints its name and sum.
# Statuses: 0 packed; 1 a program or the library isn't built, or isn't proved (--unproved takes what tools/build.py
# made), a file of the clone was changed since its commit or since the program was built, or a step failed.
set -eu
# (only the programs of this clone)
unset VT WATCH PICTURE REDRAW EXPLORE

stop() {
    echo "release.sh: $*" >&2
    exit 1
}

unproved='' proved=--proved
[ "${1-}" != --unproved ] || { unproved=--unproved proved=''; shift; }
case "${1-}" in -*) stop 'usage: release.sh [--unproved] [FOLDER]' ;; esac
[ $# -le 1 ] || stop 'usage: release.sh [--unproved] [FOLDER]'
top=$(cd "$(dirname "$0")/.." && pwd)
to=${1-$top/out}
mkdir -p "$to" || stop "$to can't be made"

"$top/tools/programs.py" $proved vt watch picture redraw explore > /dev/null || stop "a program is missing"
grep -q "^libvt: ${proved:+proved}" "$top/out/c/BUILD" ||
    stop "out/c has no such library: libvt/tools/build_c.sh makes it"
changed=$(git -C "$top" status --porcelain --untracked-files=no) || stop "$top is no clone"
[ -z "$changed" ] || stop "files were changed since the commit: $(echo "$changed" | head -n 3 | tr '\n' ' ')"
if [ -n "$proved" ]; then
    for program in $("$top/tools/programs.py" --proved vt watch picture redraw explore) "$top/out/c/lib/libvt.a"; do
        newer=$(find "$top"/crates/*/src -name '*.rt' -newer "$program" | head -n 1)
        [ -z "$newer" ] || stop "$newer was changed after $program was built"
    done
fi
version=$(sed -n 's/^\.Os "vt \([0-9.]*\)"$/\1/p' "$top/man/vt.3")
name=vt-$version-x86_64-linux

work=$(mktemp -d)
trap 'rm -rf "$work"' EXIT
trap 'exit 1' HUP INT TERM
"$top/tools/install.sh" $unproved "/$name" DESTDIR="$work" > "$work/log" || stop "tools/install.sh failed"
# (a folder that can stand anywhere)
sed -i -e 's|^prefix=.*|prefix=${pcfiledir}/../..|' -e 's|^libdir=.*|libdir=${prefix}/lib|' \
    "$work/$name/lib/pkgconfig/vt.pc"
mv "$work/$name/share/vt/BUILD" "$work/$name/BUILD"
ln -s ../../BUILD "$work/$name/share/vt/BUILD"
(cd "$work/$name" && find . -type f ! -name SHA256SUMS | LC_ALL=C sort | sed 's|^\./||' | xargs sha256sum > SHA256SUMS)
tar -C "$work" --sort=name --owner=0 --group=0 --numeric-owner --mtime="@$(git -C "$top" log -1 --format=%ct)" \
    -cf "$work/$name.tar" "$name"
gzip -9n "$work/$name.tar"
mv "$work/$name.tar.gz" "$to/$name.tar.gz"
(cd "$to" && sha256sum "$name.tar.gz")
