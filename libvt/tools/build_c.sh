#!/bin/sh
# Builds the C library from a clone: the archive, the shared object, the header, the pkg-config file and the manual page.
#
# usage: libvt/tools/build_c.sh [--built | --gate | --unproved OBJECT] [OUT]
#
# OUT (out/c in the clone, if there is none) gets the folders of an installed library:
#
#     OUT/include/vt.h  OUT/lib/libvt.a  OUT/lib/libvt.so.1  OUT/lib/libvt.so  OUT/lib/pkgconfig/vt.pc  OUT/share/man/man3/vt.3
#
# and the file OUT/BUILD, which has in a line whether the library is proved, its commit and the toolchain.
#
# It wants the Rattle toolchain (rt), a C compiler (CC, or cc), ld, ar and objcopy. `rt lib` proves the three crates of the
# library and those below them, if they aren't proved yet. With --gate the crates below are taken as `rt ci` just left
# them in this clone, and only the three crates are proved; `rt lib` doesn't take these, since they are without the proofs.
# With --built the archives in the folders `out` of these crates are taken as they stand, and rt isn't called;
# with --unproved the library is made of an object file, which tools/build.py compiles without proofs. A program that is
# linked with the library wants only a C compiler. Status 1: something is missing, which the last line names, or a step
# failed.
set -eu

stop() {
    echo "build_c.sh: $*" >&2
    exit 1
}

usage='usage: build_c.sh [--built | --gate | --unproved OBJECT] [OUT]'
built='' gate='' object=''
case "${1-}" in
    --built) built=1; shift;;
    --gate) gate=1; shift;;
    --unproved) [ -f "${2-}" ] || stop "$usage"; object=$2; shift 2;;
esac
case "${1-}" in -*) stop "$usage";; esac
[ $# -le 1 ] || stop "$usage"

top=$(cd "$(dirname "$0")/../.." && pwd)
out=${1-$top/out/c}
cc=${CC-cc}
for tool in "$cc" ld ar objcopy sed; do
    command -v "$tool" > /dev/null || stop "$tool isn't there; Debian's packages gcc and binutils have it"
done
[ -n "$built$object" ] || command -v rt > /dev/null || stop "rt isn't there: the Rattle toolchain's folder bin belongs in PATH"
case $("$cc" -dumpmachine) in
    x86_64-*linux*) ;;
    *) stop "$cc compiles for $("$cc" -dumpmachine); the library is for Linux on x86-64" ;;
esac

version=$(sed -n 's/^\.Os "vt \([0-9.]*\)"$/\1/p' "$top/man/vt.3")
[ -n "$version" ] || stop "man/vt.3 names no version"

work=$(mktemp -d)
trap 'rm -rf "$work"' EXIT
trap 'exit 1' HUP INT TERM

# The libraries that a crate names in crates.txt.
uses_of() {
    sed -n "s/^$1 staticlib: //p" "$top/crates.txt"
}

# Whether the libraries below a crate are those that `rt ci` left: the ones of `rt check` and `rt lib` have a stamp.
is_of_gate() {
    for name in $(uses_of "$1"); do
        [ ! -d "$top/crates/$name" ] ||
            { [ -d "$top/crates/$name/out/rlib/$name.rlib" ] && [ ! -e "$top/crates/$name/out/rlib/stamp" ]; } || return 1
    done
}

# Proves a crate over these libraries, and makes its archive.
build_over_gate() {
    crate=$1
    kit=$(dirname "$(dirname "$(readlink -f "$(command -v rt)")")")
    set -- --extern "std=$kit/rlibs/std.rlib" -L "dependency=$kit/rlibs"
    for name in $(uses_of "$crate"); do
        rlib=$top/crates/$name/out/rlib/$name.rlib
        [ -d "$rlib" ] || rlib=$kit/rlibs/$name.rlib
        set -- "$@" --extern "$name=$rlib"
    done
    for folder in "$top"/crates/*/out/rlib; do
        set -- "$@" -L "dependency=$folder"
    done
    mkdir -p "$top/crates/$crate/out"
    (cd "$top/crates/$crate" && "$kit/bin/rattle" build --crate-name "$crate" src/lib.rt "$@" --crate-type staticlib \
        --links "$crate=" --antt-project "$kit/rattle/logic/antt-project.json" --logic-built "$kit/logic_built" \
        --toolchain "$kit/toolchain" --cpu "$cpu" --backend llvm --jobs "$(nproc)" -o "out/lib$crate.a")
}

# Every processor of x86-64 runs the code: nobody looks at the processor before a call.
cpu=x86-64
objects=$object crates='screen_c keys_c machine_c'
[ -z "$object" ] || crates=
for crate in $crates; do
    archive=$top/crates/$crate/out/lib$crate.a
    if [ -n "$gate" ] && is_of_gate "$crate"; then
        build_over_gate "$crate" > "$work/log" 2>&1 ||
            { tail -n 20 "$work/log" >&2; stop "crates/$crate isn't built over what rt ci left"; }
    elif [ -z "$built" ]; then
        echo "build_c.sh: rt lib in crates/$crate; the first proof of the crates below takes minutes" >&2
        (cd "$top/crates/$crate" && rt lib --cpu "$cpu") > "$work/log" 2>&1 ||
            { tail -n 20 "$work/log" >&2; stop "rt lib failed in crates/$crate"; }
    fi
    [ -f "$archive" ] || stop "$archive isn't there: rt lib in crates/$crate makes it"
    mkdir "$work/$crate"
    (cd "$work/$crate" && ar x "$archive")
    objects="$objects $(echo "$work/$crate"/*.o)"
done
headers=$(dirname "$top/libvt/include/vt.h")
for file in libvt/src/heap.c libvt/src/calls.c; do
    "$cc" -std=c11 -O2 -fPIC -Wall -Wextra -Werror "-I$headers" -c "$top/$file" -o "$work/$(basename "$file" .c).o" ||
        stop "$file wasn't compiled"
done

# One object, whose symbols for others are the calls of vt.h.
ld -r -o "$work/vt.o" $objects "$work/calls.o" "$work/heap.o" || stop "ld joined no object"
objcopy --wildcard --keep-global-symbol=vt_version --keep-global-symbol=vt_columns \
    --keep-global-symbol='vt_screen_*' --keep-global-symbol='vt_keys_*' --keep-global-symbol='vt_machine_*' \
    "$work/vt.o" || stop "objcopy failed"
mkdir -p "$out/include" "$out/lib/pkgconfig" "$out/share/man/man3" || stop "$out can't be made"
rm -f "$out"/lib/libvt.* "$out/BUILD"
ar rcsD "$out/lib/libvt.a" "$work/vt.o"
"$cc" -shared -o "$out/lib/libvt.so.1" "$work/vt.o" -Wl,-soname,libvt.so.1 \
    -Wl,--version-script="$top/libvt/src/vt.map" \
    -Wl,-z,defs -Wl,-z,text -Wl,-z,now -Wl,-z,noexecstack || stop "libvt.so.1 wasn't linked"
ln -s libvt.so.1 "$out/lib/libvt.so"
cp "$top/libvt/include/vt.h" "$out/include/vt.h"
cp "$top/man/vt.3" "$out/share/man/man3/vt.3"
# pcfiledir is the folder of vt.pc, so that the folders can be used where they are.
sed -e 's|@PREFIX@|${pcfiledir}/../..|' -e "s|@VERSION@|$version|" "$top/libvt/src/vt.pc.in" \
    > "$out/lib/pkgconfig/vt.pc"
proved=proved
[ -z "$object" ] || proved='not proved'
commit=$(git -C "$top" describe --always '--dirty=, changed' --abbrev=40 '--exclude=*' 2> /dev/null) || commit=unknown
toolchain=$(rt version 2> /dev/null) || toolchain='a toolchain that is unknown'
echo "libvt: $proved, commit $commit, $toolchain" > "$out/BUILD"
echo "$out: libvt.a, libvt.so.1, vt.h, vt.pc and vt(3) of version $version, $proved"
