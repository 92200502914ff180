#!/usr/bin/env python3
"""Draws docs/architecture.svg from crates.txt: a box for each crate, at the height of its dependency depth, and a line to each crate that it uses directly
and through no other. usage: picture.py [--check]      (--check: only say whether the stored picture differs, or docs/ARCHITECTURE.md has no line for a crate,
and fail if so)"""
import glob
import os
import re
import sys

top = os.path.dirname(os.path.dirname(os.path.abspath(__file__)))
stored = os.path.join(top, "docs", "architecture.svg")

GROUPS = {
    "theory": ("definitions and laws, no code", "#e3d9f3", "#6b4fa0"),
    "code": ("proved code", "#d6e8f7", "#2f6a9e"),
    "calls": ("exported calls", "#ffe2b8", "#b36b00"),
    "programs": ("the program, once for each case", "#d8efd3", "#3b7d2c"),
    "tests": ("cases: the proved table, test programs", "#ececec", "#6a6a6a"),
}
ROW, BOX, GAP, MARGIN, LETTER = 58, 32, 18, 30, 7.8


def crates():
    """The crates in the order of crates.txt, each with what it uses."""
    lines = (line.split("#")[0].strip() for line in open(os.path.join(top, "crates.txt"), encoding="utf8"))
    return {name.split()[0]: uses.split() for name, uses in (line.split(":") for line in lines if line)}


def group(name):
    """Its name tells a test, a program and the exported calls; theory is what has no function to prove."""
    if name.startswith("case"):
        return "tests"
    if name.startswith("report"):
        return "programs"
    if name in ("checker", "checker_c"):
        return "calls"
    files = glob.glob(os.path.join(top, "crates", name, "src", "**", "*.rt"), recursive=True)
    return "code" if any(re.search(r"\bfn ", open(file, encoding="utf8").read()) for file in files) else "theory"


def directly(uses):
    """What a crate uses and no other crate that it uses does."""
    below = {}
    for name in uses:
        below[name] = set(uses[name]).union(*(below.get(u, set()) for u in uses[name]))
    return {name: [u for u in uses[name] if u in uses and not any(u in below.get(v, ()) for v in uses[name])] for name in uses}


def layered(uses, direct):
    """The rows of the picture, lowest first, and the links between neighbouring rows. A link over several rows goes by a point in each, (crate, row), which all
    links up from that crate share."""
    depth = {}
    for name in uses:
        depth[name] = 1 + max((depth[u] for u in uses[name] if u in depth), default=-1)
    rows = [[n for n in uses if depth[n] == d] for d in range(max(depth.values()) + 1)]
    links = set()
    for name in uses:
        for u in direct[name]:
            last = u
            for d in range(depth[u] + 1, depth[name]):
                point = (u, d)
                if point not in rows[d]:
                    rows[d].append(point)
                links.add((last, point))
                last = point
            links.add((last, name))
    return rows, sorted(links, key=str)


def ordered(rows, links):
    """The rows with few crossings: each box near the middle of those it is linked to, from below and from above in turn."""
    neighbours = {}
    for a, b in links:
        neighbours.setdefault(a, []).append(b)
        neighbours.setdefault(b, []).append(a)

    def crossings(rows):
        place = {v: i for row in rows for i, v in enumerate(row)}
        row_of = {v: d for d, row in enumerate(rows) for v in row}
        return sum(
            row_of[a] == row_of[c] and (place[a] - place[c]) * (place[b] - place[d]) < 0
            for i, (a, b) in enumerate(links)
            for c, d in links[:i]
        )

    best = rows
    for turn in range(24):
        rows = [list(row) for row in rows]
        for d in range(len(rows)) if turn % 2 == 0 else range(len(rows) - 1, -1, -1):
            beside = rows[d - 1] if turn % 2 == 0 and d > 0 else rows[d + 1] if turn % 2 and d + 1 < len(rows) else []
            place = {v: i for i, v in enumerate(beside)}
            middle = {}
            for i, v in enumerate(rows[d]):
                found = [place[n] for n in neighbours.get(v, []) if n in place]
                middle[v] = sum(found) / len(found) if found else i
            rows[d].sort(key=lambda v: middle[v])
        if crossings(rows) < crossings(best):
            best = rows
    return best, neighbours


def width(v):
    return 8 if isinstance(v, tuple) else LETTER * len(v) + 22


def placed(rows, neighbours):
    """The middle of each box: drawn to the middle of its neighbours again and again, and kept apart in its row. The points of one link are drawn to each other
    more than to the rest, so that a long link is nearly straight."""
    x = {}
    for row in rows:
        at = 0
        for v in row:
            x[v] = at + width(v) / 2
            at += width(v) + GAP

    def drawn_to(v):
        pulls = [(4 if isinstance(v, tuple) and isinstance(n, tuple) else 1, x[n]) for n in neighbours.get(v, [])] or [(1, x[v])]
        return sum(w * at for w, at in pulls) / sum(w for w, _ in pulls)

    for _ in range(1500):
        for row in rows:
            want = {v: drawn_to(v) for v in row}
            right, left = dict(want), dict(want)
            for a, b in zip(row, row[1:]):
                right[b] = max(right[b], right[a] + (width(a) + width(b)) / 2 + GAP)
            for a, b in list(zip(row, row[1:]))[::-1]:
                left[a] = min(left[a], left[b] - (width(a) + width(b)) / 2 - GAP)
            for v in row:
                x[v] = (right[v] + left[v]) / 2
    least = min(x[v] - width(v) / 2 for v in x)
    return {v: round(x[v] - least + MARGIN) for v in x}


def picture():
    uses = crates()
    rows, links = layered(uses, directly(uses))
    rows, neighbours = ordered(rows, links)
    x = placed(rows, neighbours)
    legend = ROW + 10
    y = {v: legend + MARGIN + ROW * (len(rows) - 1 - d) for d, row in enumerate(rows) for v in row}
    wide = max(round(max(x[v] + width(v) / 2 for v in x)) + MARGIN, 640)
    high = legend + MARGIN + ROW * len(rows)
    kit = sorted({u for name in uses for u in uses[name] if u not in uses})
    of_kit = f" Of the kit: {', '.join(kit)}." if kit else ""
    out = [
        f'<svg xmlns="http://www.w3.org/2000/svg" viewBox="0 0 {wide} {high}" width="{wide}" height="{high}" font-family="DejaVu Sans, Verdana, sans-serif" font-size="13">',
        f"<title>The crates; a line goes down to what a crate uses directly.{of_kit}</title>",
        f'<rect width="{wide}" height="{high}" fill="#ffffff"/>',
    ]
    at, down = MARGIN, 20
    for what, fill, line in GROUPS.values():
        if wide < at + 22 + round(6.7 * len(what)):
            at, down = MARGIN, down + 26
        out.append(f'<rect x="{at}" y="{down}" width="16" height="16" rx="3" fill="{fill}" stroke="{line}"/><text x="{at + 22}" y="{down + 13}" font-size="12">{what}</text>')
        at += 22 + round(6.7 * len(what)) + 24
    for a, b in links:
        low, up = y[a] + (0 if not isinstance(a, tuple) else BOX // 2), y[b] + (BOX if not isinstance(b, tuple) else BOX // 2)
        bend = (low - up) // 2
        out.append(f'<path d="M{x[a]} {low} C{x[a]} {low - bend} {x[b]} {up + bend} {x[b]} {up}" fill="none" stroke="#8a8a8a" stroke-width="1.3"/>')
    for row in rows:
        for v in row:
            if isinstance(v, tuple):
                continue
            _, fill, line = GROUPS[group(v)]
            w, of_kit = round(width(v)), [u for u in uses[v] if u in kit]
            out.append(f'<rect x="{x[v] - w // 2}" y="{y[v]}" width="{w}" height="{BOX}" rx="6" fill="{fill}" stroke="{line}" stroke-width="1.3"/>')
            out.append(f'<text x="{x[v]}" y="{y[v] + (15 if of_kit else 21)}" text-anchor="middle">{v}</text>')
            if of_kit:
                out.append(f'<text x="{x[v]}" y="{y[v] + 27}" text-anchor="middle" font-size="9" fill="#444444">kit: {" ".join(of_kit)}</text>')
    return "\n".join(out + ["</svg>", ""])


def faults(drawn):
    """What lags behind crates.txt: the stored picture, or the table of crates."""
    same = os.path.isfile(stored) and open(stored, encoding="utf8").read() == drawn
    page = open(os.path.join(top, "docs", "ARCHITECTURE.md"), encoding="utf8").read()
    described = {name for line in page.splitlines() if line.startswith("| `") for name in re.findall(r"`(\w+)`", line.split("|")[1])}
    return ([] if same else ["docs/architecture.svg differs from crates.txt: run tools/picture.py"]) + [
        f"docs/ARCHITECTURE.md has no line for crate {name}" for name in crates() if name not in described
    ]


drawn = picture()
if sys.argv[1:] == ["--check"]:
    found = faults(drawn)
    print(f"picture: {len(crates())} crates, {len(found)} faults")
    for fault in found:
        print("  ", fault)
    sys.exit(1 if found else 0)
open(stored, "w", encoding="utf8").write(drawn)
