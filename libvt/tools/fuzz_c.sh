#!/bin/sh
# Looks for inputs that break the C library: libFuzzer over all of its calls, with libvt/tests/fuzz.c.
#
# usage: libvt/tools/fuzz_c.sh [--library OUT] [--keep] [SECONDS]
#
# The library is built without proofs, by dev/bench/build_counted.py, so that libFuzzer counts what an input reaches
# inside it, and keeps the inputs that reach more. With --library it is the archive of a folder OUT that
# libvt/tools/build_c.sh filled, in which nothing is counted: so that the inputs of the corpus run on what was proved.
# The last lines have how many edges of the code there are and how many were reached (cov).
#
# Runs so many seconds (60), or with 0 only the inputs of libvt/tests/corpus.hex, a line in hexadecimal digits each. New
# inputs are deleted at the end; with --keep that file gets as few inputs as reach every edge that was reached.
# libvt/tests/fuzz.dict has the sequences that inputs are made of. It wants clang with libFuzzer, and Python; without
# --library also the Rattle toolchain (rt). Status 1: a fault was found, and the input is written to the folder fault-
# and the time; 2: something is missing; 77: clang has no libFuzzer.
set -eu

stop() {
    echo "fuzz_c.sh: $*" >&2
    exit 2
}

# The edges of fuzz.c alone are fewer than half as many.
FEWEST=1000

top=$(cd "$(dirname "$0")/../.." && pwd)
library=
keep=
while :; do
    case "${1-}" in
        --library) [ $# -ge 2 ] || stop "--library OUT"; library=$(cd "$2" && pwd) || stop "$2: no folder"; shift 2 ;;
        --keep) keep=1; shift ;;
        -*) stop "usage: fuzz_c.sh [--library OUT] [--keep] [SECONDS]" ;;
        *) break ;;
    esac
done
[ $# -le 1 ] || stop "usage: fuzz_c.sh [--library OUT] [--keep] [SECONDS]"
seconds=${1-60}
case $seconds in '' | *[!0-9]* | ??????*) stop "$seconds: seconds from 0 to 99999 were wanted" ;; esac
[ -z "$library" ] || [ -f "$library/lib/libvt.a" ] ||
    stop "$library/lib/libvt.a isn't there: libvt/tools/build_c.sh makes it"
command -v clang > /dev/null || stop "clang isn't there"
[ -z "$keep" ] || [ -z "$library" ] || stop "--keep wants a library that is counted, so no --library"

headers="-I$top/libvt/include"
work=$(mktemp -d)
trap 'rm -rf "$work"' EXIT
trap 'exit 1' HUP INT TERM
if [ -n "$library" ]; then
    set -- "$library/lib/libvt.a"
else
    "$top/dev/bench/build_counted.py" "$top/out/counted" || stop "the library isn't built"
    for file in libvt/src/heap.c libvt/src/calls.c; do
        clang -std=c11 -O2 "$headers" -c "$top/$file" -o "$work/$(basename "$file" .c).o" || stop "$file isn't compiled"
    done
    set -- "$top/out/counted/vt.o" "$work/calls.o" "$work/heap.o"
fi
clang -std=c11 -O1 -g -Wall -Wextra -Werror -fsanitize=fuzzer,address,undefined -fno-sanitize-recover=all \
    "$headers" -o "$work/fuzz" "$top/libvt/tests/fuzz.c" "$@" 2> "$work/why" || {
    head -n 5 "$work/why" >&2
    grep -q 'fuzzer' "$work/why" && exit 77
    stop "libvt/tests/fuzz.c isn't compiled"
}
corpus=$work/corpus
mkdir "$corpus" "$work/new"
python3 - "$top/libvt/tests/corpus.hex" "$corpus" << 'END' || stop "libvt/tests/corpus.hex can't be read"
import pathlib, sys
for number, line in enumerate(open(sys.argv[1], encoding="ascii")):
    pathlib.Path(sys.argv[2], str(number)).write_bytes(bytes.fromhex(line))
END
status=0
if [ "$seconds" -eq 0 ]; then
    "$work/fuzz" -runs=0 -artifact_prefix="$work/fault-" "$corpus" > "$work/log" 2>&1 || status=1
else
    "$work/fuzz" -max_total_time="$seconds" -max_len=4096 -dict="$top/libvt/tests/fuzz.dict" \
        -artifact_prefix="$work/fault-" "$work/new" "$corpus" > "$work/log" 2>&1 || status=1
fi
edges=$(sed -n 's/^INFO: Loaded .*(\([0-9]*\) inline 8-bit counters).*/\1/p' "$work/log")
grep -E '^(Done|stat::number_of_executed|#.*DONE)' "$work/log" || true
echo "edges of the code: ${edges:-none}"
[ -n "$library" ] || [ "${edges:-0}" -ge "$FEWEST" ] || stop "nothing is counted inside the library"
if [ "$status" -ne 0 ]; then
    tail -n 40 "$work/log" >&2
    folder=fault-$(date +%Y%m%d%H%M%S)
    mkdir "$folder" && cp "$work"/fault-* "$folder/" && echo "fuzz_c.sh: the input is in $folder" >&2
elif [ -n "$keep" ]; then
    mkdir "$work/least"
    "$work/fuzz" -set_cover_merge=1 -runs=0 "$work/least" "$corpus" "$work/new" > "$work/log" 2>&1
    [ -n "$(ls "$work/least")" ] || stop "this libFuzzer can't choose inputs (-set_cover_merge): LLVM 14 can"
    python3 - "$work/least" > "$top/libvt/tests/corpus.hex" << 'END'
import pathlib, sys
inputs = sorted((file.read_bytes() for file in pathlib.Path(sys.argv[1]).iterdir()), key=lambda it: (len(it), it))
print("\n".join(it.hex() for it in inputs))
END
    echo "$(wc -l < "$top/libvt/tests/corpus.hex") inputs in libvt/tests/corpus.hex"
fi
exit $status
