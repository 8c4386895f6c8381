#!/usr/bin/env bash
# SPDX-License-Identifier: MIT OR Apache-2.0
# Runs a session over a folder of maps. The first refused line ends the run, so nothing is saved after it. Changes that are
# unsaved at the end fail the run too. Standard error says which line or document it was.
#
#   examples/build.sh SESSION FOLDER [OPTION ..]     the options are those of tile_editor
#
# The exit status is 0 if each line was accepted and all is saved, and else that of tile_editor.
set -eu

if [ $# -lt 2 ]; then
    echo 'usage: examples/build.sh SESSION FOLDER [OPTION ..]' >&2
    exit 2
fi
session=$1
folder=$2
shift 2
top=$(dirname -- "$(dirname -- "$(realpath -- "${BASH_SOURCE[0]}")")")
exec "$top/tile_editor" --strict --folder "$folder" "$@" <"$session" >/dev/null
