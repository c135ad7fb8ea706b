#!/bin/sh
# Builds the Debian packages of this commit, compares lintian's remarks with those of the page, and uses the packages in
# an empty root.
#
# usage: libvt/tools/check_packages.sh [--no-root] [FOLDER]
#
# The programs and the library are those that stand in the clone, proved or not (tools/build.py makes what is missing).
# FOLDER, if there is one, gets the packages. The root is made by mmdebstrap, of Debian 12, with compilers of C and C++,
# pkg-config, man and kbd; apt installs the packages there, and the tests of debian/tests run. --no-root leaves that out.
# It wants Debian's packages debhelper, dh-python, lintian and mmdebstrap, a mirror of Debian, and the rights of root for
# the root. Prints what lintian says. Statuses: 0 all is well; 1 a step failed, which the last line names; 2 something
# is missing.
set -eu

fail() {
    echo "check_packages.sh: $*" >&2
    exit 1
}

missing() {
    echo "check_packages.sh: $*" >&2
    exit 2
}

has_root=1
[ "${1-}" != --no-root ] || { has_root=''; shift; }
case "${1-}" in -*) missing 'usage: check_packages.sh [--no-root] [FOLDER]' ;; esac
[ $# -le 1 ] || missing 'usage: check_packages.sh [--no-root] [FOLDER]'
top=$(cd "$(dirname "$0")/../.." && pwd)
page=$top/docs/guide/install.md
for tool in dpkg-buildpackage dh dh_python3 lintian git; do
    command -v "$tool" > /dev/null || missing "$tool isn't there; Debian's packages debhelper, dh-python and lintian have it"
done

work=$(mktemp -d)
root=$work/root
clean() {
    for folder in "$root/dev/pts" "$root/proc"; do
        ! mountpoint -q "$folder" || umount "$folder"
    done
    rm -rf --one-file-system "$work"
}
trap clean EXIT
trap 'exit 1' HUP INT TERM
log=$work/log

# The tree of the commit, with what is built in the clone.
git clone -q "$top" "$work/vt"
for built in "$top"/out/bin "$top"/out/c "$top"/crates/*/out; do
    [ ! -d "$built" ] || [ "$(basename "$built")" = out ] && [ ! -f "$built/$(basename "$(dirname "$built")")" ] || {
        mkdir -p "$work/vt/${built#"$top/"}"
        cp -r "$built/." "$work/vt/${built#"$top/"}/"
    }
done
(cd "$work/vt" && dpkg-buildpackage -us -uc -b) > "$log" 2>&1 || { tail -n 30 "$log" >&2; fail "the packages aren't built"; }
for name in vt libvt1 libvt-dev python3-libvt; do
    [ -n "$(find "$work" -maxdepth 1 -name "${name}_*.deb")" ] || fail "there is no package $name"
done
[ $# -eq 0 ] || { mkdir -p "$1" && cp "$work"/*.deb "$1/"; }

# Each remark is in the list of the page, and the list has no other.
lintian --no-cfg --tag-display-limit 0 "$work"/*.changes > "$work/remarks" 2> "$log" || true
cat "$work/remarks"
grep -E '^[EW]: ' "$work/remarks" | sed 's/^[EW]: [^ ]* \(changes\|source\)\?:\? *\([^ ]*\).*/\2/' | sort -u > "$work/found"
sed -n '/^| remark of lintian/,/^$/s/^| `\([a-z0-9-]*\)` |.*/\1/p' "$page" | sort -u > "$work/listed"
diff "$work/listed" "$work/found" >&2 || fail "the list of docs/guide/install.md (<) isn't what lintian says (>)"

[ -n "$has_root" ] || { echo "the packages are built; they weren't installed"; exit 0; }
command -v mmdebstrap > /dev/null || missing "mmdebstrap isn't there"
[ "$(id -u)" = 0 ] || missing "only root makes an empty root"
mmdebstrap --variant=apt bookworm "$root" > "$log" 2>&1 || { tail -n 5 "$log" >&2; fail "there is no empty root"; }
mkdir "$root/packages"
cp "$work"/*.deb "$root/packages/"
cp -r "$work/vt/debian/tests" "$root/tests"
cp /etc/resolv.conf "$root/etc/resolv.conf"
# (without pseudo-terminals and /proc debian/tests/python and vtrun run no program)
mount -t devpts -o newinstance,ptmxmode=0666 devpts "$root/dev/pts" && ln -sf pts/ptmx "$root/dev/ptmx" &&
    mount -t proc proc "$root/proc" || echo "skipped: programs on a pseudo-terminal in the root"
in_root() {
    chroot "$root" env -i PATH=/usr/sbin:/usr/bin:/sbin:/bin DEBIAN_FRONTEND=noninteractive LC_ALL=C.UTF-8 \
        sh -c "cd / && $*"
}
beside='gcc g++ libc6-dev pkg-config man-db kbd'
in_root "apt-get update -qq && apt-get install -y -qq --no-install-recommends $beside /packages/*.deb" \
    > "$log" 2>&1 || { tail -n 10 "$log" >&2; fail "the packages aren't installed"; }
for test in library program pages python; do
    in_root "/tests/$test" > "$log" 2>&1 || { tail -n 10 "$log" >&2; fail "debian/tests/$test fails in the root"; }
    grep '^skipped: ' "$log" || true
    echo "debian/tests/$test passes in the root"
done
in_root 'apt-get purge -y -qq vt libvt1 libvt-dev python3-libvt' > "$log" 2>&1 || fail "the packages aren't purged"
left=$(in_root 'find / -xdev \( -name "libvt*" -o -path "*/share/vt*" -o -path /usr/include/vt.h \) -not -path "/packages/*" -not -path "/proc/*"' || true)
[ -z "$left" ] || fail "what a purge leaves: $left"
echo "the packages are installed, used and purged in an empty root"
