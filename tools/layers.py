#!/usr/bin/env python3
"""Of messages the crates graph, property, judge, verdict and writer know equality alone: of crate message they name nothing but its promise, they do not
use the crates that make canonical forms, and they do not name the test of canonical bytes. Crates that are not there yet are passed over."""
import glob
import os
import re
import sys

top = os.path.dirname(os.path.dirname(os.path.abspath(__file__)))
above = ("graph", "property", "judge", "verdict", "writer")
forms = ("factors", "product", "canonical")
faults, read = [], 0
with open(os.path.join(top, "crates.txt"), encoding="utf8") as lines:
    for crate, uses in re.findall(r"^(\w+):(.*)$", lines.read(), re.M):
        if crate in above:
            faults += [f"crates.txt: {crate} uses {name}" for name in uses.split() if name in forms]
for crate in above:
    for path in sorted(glob.glob(os.path.join(top, "crates", crate, "**", "*"), recursive=True)):
        if not path.endswith((".antt", ".rt")) or "/out/" in path:
            continue
        read += 1
        text = open(path, encoding="utf8").read()
        named = [
            name
            for name in re.findall(r"Rattle\.message\.(?:specs|proofs)\.[\w.]+", text)
            if not re.fullmatch(r"Rattle\.message\.(?:specs|proofs)\.Promise\.?", name)
        ] + re.findall(r"\bsame_term\b", text)
        faults += [f"{os.path.relpath(path, top)} names {name}" for name in named]
print(f"layers: {read} files of {', '.join(above)}, {len(faults)} faults")
for fault in faults:
    print("  ", fault)
sys.exit(1 if faults else 0)
