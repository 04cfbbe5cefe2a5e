#!/usr/bin/env python3
"""count.py PREFIX OUT: from a file of callgrind's, the instructions of one call, all callees in. Prints `CALL INSTRUCTIONS` for each
function PREFIX_CALL; each was called 64 times (COUNTED in bench.c)."""
import re
import subprocess
import sys

COUNTED = 64
prefix, out = sys.argv[1:]
text = subprocess.run(
    ["callgrind_annotate", "--inclusive=yes", "--threshold=100", out], capture_output=True, text=True, check=True
).stdout
for total, call in re.findall(r"^\s*([0-9,]+) \([^)]*\)\s+\S*?:" + prefix + r"_(\w+)", text, re.M):
    print(call, round(int(total.replace(",", "")) / COUNTED))
