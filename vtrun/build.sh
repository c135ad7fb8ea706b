#!/bin/sh
# Builds vtrun over the C library.
#
# usage: vtrun/build.sh [OUT]
#
# OUT (out in the clone, if there is none) has the library in OUT/c, as libvt/tools/build_c.sh or tools/build.py made it,
# and gets OUT/bin/vtrun. It wants a C compiler (CC, or cc) for Linux on x86-64, of a release from 5.14 on. If nothing
# has changed since the last build, nothing is done. Status 1: something is missing, or a file wasn't compiled.
set -eu

stop() {
    echo "build.sh: $*" >&2
    exit 1
}

[ $# -le 1 ] || stop 'usage: build.sh [OUT]'
top=$(cd "$(dirname "$0")/.." && pwd)
out=${1-$top/out}
cc=${CC-cc}
library=$out/c/lib/libvt.a
command -v "$cc" > /dev/null || stop "$cc isn't there; Debian's package gcc has it"
[ -f "$library" ] || stop "$library isn't there: tools/build.py c makes it"

made=$out/bin/vtrun
if [ -f "$made" ] && [ -z "$(find "$top/vtrun/src" "$top/vtrun/build.sh" "$library" "$top/examples/keymaps/us.map" -newer "$made")" ]; then
    echo "$made is up to date"
    exit 0
fi
work=$(mktemp -d)
trap 'rm -rf "$work"' EXIT
trap 'exit 1' HUP INT TERM

# The keymap of a US keyboard, as a text of C.
{
    echo 'static const char us_keymap[] ='
    sed -e 's/\\/\\\\/g' -e 's/"/\\"/g' -e 's/	/\\t/g' -e 's/^/    "/' -e 's/$/\\n"/' "$top/examples/keymaps/us.map"
    echo '    ;'
} > "$work/us_keymap.h"
mkdir -p "$out/bin" || stop "$out/bin can't be made"
"$cc" -std=c11 -D_GNU_SOURCE -O2 -Wall -Wextra -Werror ${CFLAGS-} "-I$work" "-I$top/vtrun/src" "-I$out/c/include" \
    -o "$work/vtrun" "$top"/vtrun/src/*.c "$library" || stop "vtrun wasn't compiled"
mv "$work/vtrun" "$made"
echo "$made: vtrun, over the library of $out/c"
