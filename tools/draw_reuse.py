#!/usr/bin/env python3
"""Draws docs/reuse.svg: a history of three copies in which a symbol of slice 0 is used again while copy 2 stays away.

The rows are worked out by document 01's rules. A cell is a pair (symbol, value); the rules look at symbols alone, the value is the
count that the symbol was given to, and is drawn under it.
"""
import os

N = 3
CALLS = [("U", 0), ("M", 0, 2), ("M", 0, 1), ("U", 0), ("M", 0, 1), ("U", 0), ("M", 0, 1), ("U", 0), ("M", 0, 2)]


def symbols(row):
    return [cell[0] for cell in row]


def update(slice0, value):
    used = {s for row in slice0 for s in symbols(row)}
    new = min(s for s in range(N * N) if s not in used)
    heads = {slice0[k][0][0] for k in range(1, N)}
    slice0[0] = [(new, value)] + [cell for cell in slice0[0] if cell[0] in heads]
    return new


def meet(table, a, b):
    won, lost = (b, a) if table[a][a][0][0] in symbols(table[b][b]) else (a, b)
    w = table[won][won]
    order = symbols(w)
    heads = []
    for k in range(N):
        x, y = table[lost][k][0][0], table[won][k][0][0]
        heads.append(order[0] if k in (a, b) else min(x, y, key=order.index) if x in order else y)
    cut = [cell for cell in w if cell[0] in heads]
    own = {a: [list(r) for r in table[a]], b: [list(r) for r in table[b]]}
    for c, other in ((a, b), (b, a)):
        for k in range(N):
            table[c][k] = list(cut) if k in (a, b) else own[c][k] if own[c][k][0][0] == heads[k] else own[other][k]


def history():
    """After fresh and after each call: the call, the principal rows, record 0's cached rows, the symbol that an update took."""
    table = [[[(0, 0)] for _ in range(N)] for _ in range(N)]
    count, steps = 0, []
    for call in [("fresh",)] + CALLS:
        new = None
        if call[0] == "U":
            count += 1
            new = update(table[0], count)
        elif call[0] == "M":
            meet(table, call[1], call[2])
        steps.append((call, [list(table[c][c]) for c in range(N)], [list(r) for r in table[0]], new))
    return steps


CELL, STEP, LEFT = 20, 112, 80
LANE = [112, 200, 288]
HELD = [386, 436]
INK, FAINT, FIRST, AGAIN = "#222222", "#8a8a8a", "#f3c969", "#8fb8de"


def text(x, y, s, size=13, fill=INK, anchor="middle", weight="normal"):
    return f'<text x="{x}" y="{y}" font-size="{size}" fill="{fill}" text-anchor="{anchor}" font-weight="{weight}">{s}</text>'


def row(x, y, cells, twice):
    """A row as boxes, centred at x, its values under it."""
    out = []
    left = x - CELL * len(cells) // 2
    for i, (s, v) in enumerate(cells):
        fill = "#ffffff" if s != twice[0] else FIRST if v == twice[1] else AGAIN
        out.append(f'<rect x="{left + i * CELL}" y="{y}" width="{CELL}" height="{CELL}" fill="{fill}" stroke="{INK}" stroke-width="1"/>')
        out.append(text(left + i * CELL + CELL // 2, y + 15, s))
        out.append(text(left + i * CELL + CELL // 2, y + CELL + 11, v, 10, FAINT))
    return out


def draw():
    steps = history()
    width, height = LEFT + STEP * len(steps), 532
    taken = [(new, rows[0][0][1]) for _, rows, _, new in steps if new is not None]
    again = next((s, v) for i, (s, v) in enumerate(taken) if s in [t for t, _ in taken[:i]])
    twice = (again[0], next(v for s, v in taken if s == again[0]), again[1])
    away = [i for i, (call, *_) in enumerate(steps) if 2 in call[1:]]
    xs = [LEFT + STEP * i + STEP // 2 for i in range(len(steps))]
    out = [
        f'<svg xmlns="http://www.w3.org/2000/svg" width="{width}" height="{height}" viewBox="0 0 {width} {height}" font-family="sans-serif">',
        f'<title>Symbol {twice[0]} of slice 0 is used for update {twice[1]} and again for update {twice[2]} while copy 2 stays away</title>',
        f'<rect width="{width}" height="{height}" fill="#ffffff"/>',
    ]
    for c, y in enumerate(LANE):
        out.append(text(12, y + 5, f"copy {c}", 15, anchor="start", weight="bold"))
        for i in range(len(xs) - 1):
            dash = ' stroke-dasharray="3 5"' if c == 2 and away[0] <= i < away[-1] else ""
            out.append(f'<line x1="{xs[i]}" y1="{y}" x2="{xs[i + 1]}" y2="{y}" stroke="{FAINT}" stroke-width="1.5"{dash}/>')
    out.append(text((xs[away[0]] + xs[away[-1]]) // 2, LANE[2] - 8, "copy 2 stays away; its principal row holds 1 and 0 all the time", 12, FAINT))
    for i, (call, principal, _, new) in enumerate(steps):
        x = xs[i]
        name = call[0] if call[0] == "fresh" else " ".join(str(w) for w in call)
        out.append(text(x, 28, name, 14, weight="bold"))
        if new is not None:
            out.append(text(x, 46, f"takes symbol {new}", 11, FAINT))
        here = range(N) if call[0] == "fresh" else call[1:]
        if call[0] == "M":
            out.append(f'<line x1="{x}" y1="{LANE[call[1]]}" x2="{x}" y2="{LANE[call[2]]}" stroke="{INK}" stroke-width="2"/>')
        for c in here:
            dot = INK if call[0] == "U" else "#ffffff"
            out.append(f'<circle cx="{x}" cy="{LANE[c]}" r="6" fill="{dot}" stroke="{INK}" stroke-width="2"/>')
            out += row(x, LANE[c] - 46 if c == 0 else LANE[c] + 12, principal[c], twice)
    out.append(f'<line x1="12" y1="352" x2="{width - 12}" y2="352" stroke="{FAINT}" stroke-width="0.75"/>')
    out.append(text(12, 372, "what record 0 holds of the others: its cached rows of slice 0", 12, FAINT, "start"))
    for k, y in zip((1, 2), HELD):
        out.append(text(12, y + 15, f"of copy {k}", 14, anchor="start"))
        for i, (_, _, rows, _) in enumerate(steps):
            out += row(xs[i], y, rows[k], twice)
    out.append(text(12, 494, "Boxes are symbols of slice 0, the head first; under each symbol the update that it stands for.", 12, anchor="start"))
    for x, fill, said in ((12, FIRST, f"symbol {twice[0]} for update {twice[1]}"), (220, AGAIN, f"symbol {twice[0]} again, for update {twice[2]}: by then no row of record 0 holds it")):
        out.append(f'<rect x="{x}" y="505" width="14" height="14" fill="{fill}" stroke="{INK}" stroke-width="1"/>')
        out.append(text(x + 22, 517, said, 12, anchor="start"))
    out.append("</svg>")
    return "\n".join(out) + "\n"


if __name__ == "__main__":
    here = os.path.dirname(os.path.abspath(__file__))
    with open(os.path.join(here, "..", "docs", "reuse.svg"), "w", encoding="utf-8") as f:
        f.write(draw())
