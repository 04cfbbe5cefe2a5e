#!/usr/bin/env bash
# Writes docs/FIGURES.md: the library against a plain C implementation (times as ratios, instructions, answers), its stack, its lines.
# Runs on x86-64; on another processor times and counts say nothing, and it stops. Instructions need valgrind, the stack needs objdump.
# The seconds of each crate's check are those of the last `.ci/run` whose target/ is still there.
set -eu
cd "$(dirname "$0")/.."
. tests/kit.sh
[ "$(uname -m)" = x86_64 ] || { echo "figures are made on x86-64 alone"; exit 1; }

c_library
c_object bench/plain.c
c_object bench/bench.c -Ibench
figures=$c_out/figures
rm -rf "$figures"
mkdir -p "$figures"
# Where a loop falls in a cache line changes its speed: the code is placed in four ways, and the ratios' median counts.
for pad in 48 32 16 0; do
  printf '.fill %d, 1, 0x90\n' "$pad" | "$kit_tools/bin/clang" --target=x86_64-linux-gnu -x assembler -c - -o "$c_out/pad.o"
  c_program bench "$c_out/pad.o" "$c_out/bench.o" "$c_out/plain.o" "$c_archive"
  c_command bench
  for _ in 1 2 3 4 5; do
    "${c_words[@]}" times >>"$figures/times"
  done
done
"${c_words[@]}" answers >"$figures/answers"
"${c_words[@]}" stack >"$figures/stack.measured"
python3 bench/stack.py "$c_archive" >"$figures/stack"
if command -v valgrind >/dev/null; then
  for n in 2 4 8; do
    for way in library:stamp plain:plain; do
      valgrind --tool=callgrind --callgrind-out-file="$c_out/callgrind.out" "$c_out/bench" count "$n" "${way%:*}" >"$c_out/valgrind.log" 2>&1
      python3 bench/count.py "${way#*:}" "$c_out/callgrind.out" >"$figures/count.$n.${way%:*}"
    done
  done
fi
python3 bench/lines.py >"$figures/lines"
python3 bench/figures.py "$figures" >docs/FIGURES.md
