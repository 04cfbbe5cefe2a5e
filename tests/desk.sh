#!/usr/bin/env bash
# The program's cases. Each tests/desk/NAME.in goes through ./stampdesk and must give NAME.out, byte for byte; inputs at the limit of length
# and generated programs go through it too. The counter program must give the same for all of them. The last line counts.
set -u -o pipefail
cd "$(dirname "$0")/.." || exit 1
readonly programs=600
passed=0
failed=0
room=$(mktemp -d) || exit 1
trap 'rm -rf "$room"' EXIT
counter=counter/target/release/counter-desk

fail() {
  printf 'failed: %s\n' "$1"
  failed=$((failed + 1))
}

# same NAME INPUT WANTED..: the program's whole output is the counter program's, and each file that is wanted.
same() {
  local name=$1 input=$2 wanted
  shift 2
  if ! ./stampdesk <"$input" >"$room/ours" 2>"$room/said"; then
    fail "$name: the program ended badly: $(cat "$room/said")"
    return
  fi
  "$counter" <"$input" >"$room/theirs" || fail "$name: the counter program ended badly"
  for wanted in "$room/theirs" "$@"; do
    if ! cmp -s "$room/ours" "$wanted"; then
      fail "$name: $(cmp "$room/ours" "$wanted" 2>&1)"
      return
    fi
  done
  passed=$((passed + 1))
}

# Programs 1 to N as DIR/K.in, the same on every machine: mostly calls with numbers that few copies have, now and then a number of any size,
# a second `I`, a line that cannot be read, a byte changed; the last LF stands or lacks.
generate() {
  LC_ALL=C awk -v count="$1" -v dir="$2" '
    function below(n) {
      state = (state * 16807) % 2147483647
      return int(state / 2147483647 * n)
    }
    function pick(list, n) {
      split(list, item, "|")
      return item[1 + below(n)]
    }
    function number() {
      if (below(12) == 0) return pick("8|9|10|99|100|199|200|249|255", 9)
      if (below(40) == 0) return pick("256|260|300|999|00|01|+1|-1||x", 10)
      return below(copies + (below(6) == 0))
    }
    function line(kind, text, at) {
      kind = below(30)
      if (kind < 9) text = "U " number()
      else if (kind < 18) text = "M " number() " " number()
      else if (kind < 24) text = "C " number() " " number()
      else if (kind < 27) text = "D"
      else if (kind == 27) text = "I " pick("0|1|2|3|4|5|6|7|8|9|255", 11)
      else if (kind == 28) text = pick("|D |I|U|M 0|C 1|d|D 1|I 3 3|M 0 1 2|E| |DD", 13)
      else {
        text = pick("I 3|U 0|M 0 1|C 1 0|D", 5)
        at = 1 + below(length(text))
        text = substr(text, 1, at - 1) pick("I|U|M|C|D| |0|1|9|\t|\r|?", 12) substr(text, at + below(2))
      }
      return text
    }
    BEGIN {
      state = 20041
      for (k = 1; k <= count; k++) {
        file = dir "/" k ".in"
        copies = 2 + below(7)
        lines = below(pick("2|10|40|150", 4))
        printf "%s", "" >file
        if (below(8) > 0) printf "I %d\n", copies >file
        for (i = 0; i < lines; i++) printf "%s\n", line() >file
        printf "%s", line() (below(2) ? "\n" : "") >file
        close(file)
      }
    }'
}

# `I 8`, then the other lines over and over, cut off after so many bytes.
calls() {
  { printf 'I 8\n' && yes $'U 0\nM 0 1\nC 7 0\nU 7\nM 7 1\nD\nM 2 9'; } 2>/dev/null | head -c "$1"
}

if ! (cd counter && cargo build --release --offline --quiet) || [ ! -x "$counter" ]; then
  fail "the counter program was not built"
elif ! ./stampdesk </dev/null >/dev/null; then
  fail "the program was not built"
else
  for input in tests/desk/*.in; do
    same "$(basename "$input" .in)" "$input" "${input%.in}.out"
  done

  header='line call answer'
  yes '' 2>/dev/null | head -c 65536 >"$room/lines"
  { echo "$header" && seq -f '%.0f ? refused 9' 65536; } >"$room/lines.out"
  same "65,536 empty lines" "$room/lines" "$room/lines.out"
  [ "$(wc -c <"$room/ours")" -eq 1168559 ] || fail "65,536 empty lines: not 1,168,559 bytes"
  head -c 65536 /dev/zero | tr '\0' D >"$room/long"
  printf '%s\n1 ? refused 9\n' "$header" >"$room/long.out"
  same "one line of 65,536 bytes" "$room/long" "$room/long.out"
  calls 65536 >"$room/calls"
  same "65,536 bytes of calls" "$room/calls"
  printf '%s\n0 ? refused 9\n' "$header" >"$room/over.out"
  for size in 65537 65538 131072 1000000; do
    calls "$size" >"$room/over"
    same "$size bytes of calls" "$room/over" "$room/over.out"
  done
  yes '' 2>/dev/null | head -c 65537 >"$room/over"
  same "65,537 empty lines" "$room/over" "$room/over.out"

  # A read that fails, here of a folder, writes nothing.
  ./stampdesk </ >"$room/ours" 2>/dev/null
  if [ -s "$room/ours" ]; then fail "a failed read: something was written"; else passed=$((passed + 1)); fi

  mkdir "$room/programs"
  generate "$programs" "$room/programs"
  [ "$(find "$room/programs" -name '*.in' | wc -l)" -eq "$programs" ] || fail "not $programs generated programs"
  for input in "$room"/programs/*.in; do
    same "generated program $(basename "$input" .in)" "$input"
  done
fi

printf '%d passed, %d failed\n' "$passed" "$failed"
[ "$failed" -eq 0 ] && [ "$passed" -gt 0 ]
