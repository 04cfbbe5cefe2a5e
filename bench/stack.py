#!/usr/bin/env python3
"""stack.py ARCHIVE: for each exported function of the archive the bytes of stack that a call takes: its frames along the call graph, as
the compiled code has them (pushes, `sub rsp`, what a leaf keeps below the stack pointer, return addresses). memcpy and memset of the C
library count with their return address alone. Prints `NAME BYTES PATH`. Needs objdump for x86-64."""
import re
import subprocess
import sys

listing = subprocess.run(
    ["objdump", "-dr", "--no-show-raw-insn", "-M", "intel", sys.argv[1]], capture_output=True, text=True, check=True
).stdout
symbols = subprocess.run(["nm", sys.argv[1]], capture_output=True, text=True, check=True).stdout

frame, below, calls, jumps = {}, {}, {}, {}
name, depth, jump = None, 0, False
for line in listing.splitlines():
    start = re.match(r"[0-9a-f]+ <(.*)>:$", line)
    if start:
        name, depth = start.group(1), 0
        frame[name], below[name], calls[name], jumps[name] = 0, 0, set(), set()
        continue
    reached = re.search(r"R_X86_64_(?:PLT32|PC32)\s+(\S.*?)(?:[-+]0x[0-9a-f]+)?$", line)
    if reached:
        if jump in ("call", "jmp"):
            (calls if jump == "call" else jumps)[name].add(reached.group(1).removeprefix(".text."))
        jump = False
        continue
    code = re.match(r"\s+[0-9a-f]+:\s+(\S+)\s*(.*)", line)
    if not code:
        continue
    word, rest = code.groups()
    jump = word
    if word == "push":
        depth += 8
    elif word == "pop":
        depth = max(0, depth - 8)
    elif word in ("sub", "add") and rest.startswith("rsp,0x"):
        size = int(rest[4:], 16)
        depth = depth + size if word == "sub" else max(0, depth - size)
    frame[name] = max(frame[name], depth)
    for low in re.findall(r"\[rsp-0x([0-9a-f]+)\]", rest):
        below[name] = max(below[name], int(low, 16))


def deepest(f):
    """Bytes from entry to `f` down, and the functions on that way."""
    if f not in frame:
        return 0, [f]
    ways = [(frame[f] + below[f], [f])]
    for g in calls[f]:
        bytes_, way = deepest(g)
        ways.append((frame[f] + 8 + bytes_, [f, *way]))
    for g in jumps[f] - {f}:
        bytes_, way = deepest(g)
        ways.append((bytes_, [f, *way]))
    return max(ways, key=lambda w: w[0])


for f in re.findall(r" T (\S+)", symbols):
    bytes_, way = deepest(f)
    print(f, bytes_ + 8, ",".join(way))
