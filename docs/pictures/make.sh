#!/usr/bin/env bash
# SPDX-License-Identifier: MIT OR Apache-2.0
# Makes the pictures of maps of the README and of this folder anew; make_page.py makes those of the page. It needs Tiled's tmxrasterizer
# and ImageMagick:
#   apt-get install tiled imagemagick
#
#   docs/pictures/make.sh
#
# Empty cells are dark grey. Each session runs over a copy of the example maps: examples/*.session, and what stands on the page of this folder.
set -eu

cd "$(dirname "$0")/../.."
work=$(mktemp -d)
trap 'rm -rf "$work"' EXIT
cp examples/maps/* "$work"
# Where there is no screen.
export QT_QPA_PLATFORM=offscreen

# The lines of the table under a heading of the page.
lines_of() {
    awk -v heading="## $1" '$0 == heading { on = 1; next } /^## / { on = 0 } on && /^\| `/ { split($0, part, "`"); print part[2] }' \
        docs/pictures/README.md
}

# Runs the session of standard input, in which no line may be refused.
run() {
    ./tile_editor --folder "$work" >"$work/replies"
    if grep '^no ' "$work/replies"; then
        exit 1
    fi
}

# The picture of a map, without the layer of doors and areas, which Tiled draws as frames.
picture() {
    tmxrasterizer --hide-layer Places "$work/$1.tmj" "$work/$1.png"
    /usr/bin/convert "$work/$1.png" -background '#404040' -flatten -strip -define png:exclude-chunks=date,time -define png:compression-level=9 "PNG8:docs/pictures/$1.png"
}

picture town
for name in town house lava; do
    run <"examples/$name.session"
done
for heading in Stamp Fill Resize 'Move a group'; do
    lines_of "$heading" | run
done
for name in orchard new_house lava stamped filled resized moved; do
    picture "$name"
done
