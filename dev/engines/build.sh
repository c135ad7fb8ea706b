#!/bin/sh
# Builds the engines that ../bench/screens.py times `vt` beside, into built/. They stand on Debian 12's packages:
#
#     apt install gcc libvterm-dev libtsm-dev cargo librust-vt100-dev librust-alacritty-terminal-dev
set -eu
cd "$(dirname "$0")"
mkdir -p built
for name in libvterm libtsm; do
    gcc -O3 -Wall -Wextra -o built/$name $name.c -l${name#lib}
done
# No engine, but plain C for the same screens.
gcc -O3 -Wall -Wextra -o built/plain plain.c
registry=$(dpkg -L librust-vt100-dev | grep -m1 '/cargo/registry$')
CARGO_TARGET_DIR=built/cargo cargo build --release --offline \
    --config 'source.crates-io.replace-with="packaged"' \
    --config "source.packaged.directory=\"$registry\""
cp built/cargo/release/alacritty built/cargo/release/vt100 built/
for name in libvterm libtsm alacritty vt100 plain; do
    [ "$(printf abcdefghijk | built/$name screen 2 5)" = "$(printf '|fghij|\n|k    |')" ] ||
        { echo "$name doesn't draw abcdefghijk on two rows of five"; exit 1; }
done
