#!/usr/bin/env bash
# The built library against the counter program: about two million calls, answer by answer and byte by byte, through the C driver;
# then a wrong answer planted in each place, which must be noticed. The last line counts the kinds of calls and the plants.
set -u
cd "$(dirname "$0")/.." || exit 1
. tests/kit.sh

# Nothing could be compared: that counts as a failure.
broken() {
  printf '%s\n' "failed: $1" "0 passed, 1 failed"
  exit 1
}

c_library || broken "the archive was not built"
c_object c/driver.c || broken "the driver was not compiled"
c_program driver "$c_out/driver.o" "$c_archive" || broken "the driver was not linked"
(cd counter && cargo build --release --offline --bin compare) || broken "the comparing program was not built"
compare=counter/target/release/compare
c_command driver

out=$("$compare" "${c_words[@]}" 2>&1)
status=$?
printf '%s\n' "$out"
[[ $(tail -n 1 <<<"$out") =~ ^([0-9]+)\ passed,\ ([0-9]+)\ failed$ ]] || broken "the comparison gave no count"
passed=${BASH_REMATCH[1]}
failed=${BASH_REMATCH[2]}
[ "$status" -eq 0 ] || [ "$failed" -gt 0 ] || failed=1

for plant in number out byte guard; do
  out=$("$compare" --plant "$plant" "${c_words[@]}" 2>&1)
  if [ $? -eq 1 ] && grep -q '^[0-9]* calls, 1 wrong$' <<<"$out"; then
    printf 'a wrong %s planted in one answer: noticed\n' "$plant"
    passed=$((passed + 1))
  else
    printf 'a wrong %s planted in one answer: NOT noticed\n' "$plant"
    failed=$((failed + 1))
  fi
done

printf '%s passed, %s failed\n' "$passed" "$failed"
[ "$failed" -eq 0 ] && [ "$passed" -gt 0 ]
