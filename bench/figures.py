#!/usr/bin/env python3
"""figures.py DIR: docs/FIGURES.md from what bench/run.sh measured, on standard output."""
import pathlib
import statistics
import sys

DIR = pathlib.Path(sys.argv[1])
CALLS = ["check", "update", "meet", "compare", "superfluous"]
COPIES = [2, 4, 8]
AIM_RATIO, AIM_STACK = 1.2, 2048


def rows(name):
    return [line.split() for line in (DIR / name).read_text().split("\n") if line]


def table(head, lines):
    print("| " + " | ".join(head) + " |")
    print("|" + "---|" * len(head))
    for line in lines:
        print("| " + " | ".join(line) + " |")
    print()


# For each measurement the ratios of all runs, and the best time of each way.
ratios, best = {}, {}
for what, n, call, one, other in rows("times"):
    key = what, int(n), call
    ratios.setdefault(key, []).append(float(one) / float(other))
    before = best.get(key, (float("inf"), float("inf")))
    best[key] = (min(before[0], float(one)), min(before[1], float(other)))


def ratio(*key):
    return statistics.median(ratios[key])


def spread(*key):
    return f"{ratio(*key):.2f} ({min(ratios[key]):.2f} to {max(ratios[key]):.2f})"


counts = {}
for n in COPIES:
    for way in ("library", "plain"):
        if (DIR / f"count.{n}.{way}").exists():
            counts.update({(n, way, call): int(number) for call, number in rows(f"count.{n}.{way}")})
stack = rows("stack")
measured = {name: size for _, name, size in rows("stack.measured")}
answers = rows("answers")[0]

print("# Figures")
print()
print("Made again by `bench/run.sh` (x86-64; valgrind for the instructions, objdump for the stack). No test depends on them.")
print()
print("## Against plain C")
print()
print(
    "`bench/plain.c` is a plain C implementation of the same calls with the same refusals: its check looks at each byte once. Both are compiled by the kit's clang at -O3 for"
    " the same processor, and called in turn on the same tables, made by histories of 20 N calls. A ratio is of the best of 10 runs each way, and the median of 20 such ratios, with"
    " the code placed in four ways; beside it stand the lowest and the highest of them. Their answers were compared on"
    f" {int(answers[1]):,} calls, on damaged tables too: {answers[3]} different."
)
print()
print(
    "*Many* goes over about 590 KB of different tables, as a dock meets them, *few* over the same four tables again and again. Times scatter with what else the machine does, as the"
    " ranges show; the instructions are exact."
)
print()
table(
    ["N", "call", "library, ns", "plain C, ns", "ratio, many", "ratio, few", "instructions", "of plain C", "ratio"],
    [
        [
            str(n),
            call,
            f"{best['many', n, call][0]:,.0f}",
            f"{best['many', n, call][1]:,.0f}",
            spread("many", n, call),
            spread("few", n, call),
            *(
                [f"{counts[n, 'library', call]:,}", f"{counts[n, 'plain', call]:,}", f"{counts[n, 'library', call] / counts[n, 'plain', call]:.2f}"]
                if counts
                else ["", "", ""]
            ),
        ]
        for n in COPIES
        for call in CALLS
    ],
)
over = [f"{call} ({ratio('many', 8, call):.2f})" for call in CALLS if ratio("many", 8, call) > AIM_RATIO]
print(f"Aim: no call above {AIM_RATIO} times plain C at N = 8. " + (f"Above it in time: {', '.join(over)}." if over else "Met."))
if counts:
    over = [call for call in CALLS if counts[8, "library", call] / counts[8, "plain", call] > AIM_RATIO]
    print(f"In instructions, which do not depend on the machine's mood: {', '.join(over) if over else 'none is above'}.")
print()
print((pathlib.Path(__file__).parent / "why.md").read_text())
print("## Stack")
print()
print(
    "Bytes of one call, its return address in, from the frame sizes of the compiled archive along its call graph; beside it the bytes that a call at N = 8 was seen to write"
    " (painted beforehand; without the return address). memcpy and memset of the C library add their own."
)
print()
table(["call", "frames", "seen", "deepest way"], [[f"`{name}`", size, measured.get(name, ""), way.replace(",", " → ")] for name, size, way in stack])
worst = max(int(size) for _, size, _ in stack)
print(f"Aim: each below {AIM_STACK} bytes. " + ("Met" if worst < AIM_STACK else "NOT met") + f"; the most is {worst}.")
print()
print("## Lines")
print()
print(
    "Without blank lines, comments and `use`. *Code* is without contracts; *definitions* and *laws* stand in `specs/` and the law files of `proofs/`, *answers* in the files of"
    " the functions' proofs. The last column is the crate's check in seconds in the last run from nothing, with whatever else ran beside it."
)
print()
print((DIR / "lines").read_text(), end="")
