#!/usr/bin/env bash
# The C example of c/: built over the proved archive, run, and its output held to the stored one.
set -u
cd "$(dirname "$0")/.." || exit 1
. tests/kit.sh
c_library || exit 1
c_object c/example.c || exit 1
c_program example "$c_out/example.o" "$c_archive" || exit 1
c_command example
"${c_words[@]}" >"$c_out/example.out" || exit 1
diff c/example.out "$c_out/example.out"
