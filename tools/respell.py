#!/usr/bin/env python3
"""Brings the repository's own definitions and lemmas to the spelling of the kit: words in snake case, where they were joined by dashes or capitals.

usage: tools/respell.py [--check]

It reads what crates/*/specs and crates/*/proofs declare, and respells each such name in specs, proofs, contracts, and, between backticks, in comments.
Functions of src/, goals that Rattle names, types and modules keep their names. Names that would fall together are printed, and nothing is written.
"""
import glob
import os
import re
import sys

os.chdir(os.path.join(os.path.dirname(os.path.realpath(__file__)), '..'))

# Files whose names the kit takes for itself.
MOVED = {'factors': ('Contracts', 'Asked'), 'product': ('Contracts', 'Asked')}

# What Rattle makes: goals, invariants, measures, steps.
MADE = re.compile(r'(loop|invariant|decreases|overflow|returns|requires|ensures|bounds|in|if|then|else|type|slice|shared|shape_of|c|same)-')

TOKEN = re.compile(r"[^\s(){}\[\].,;:\"`|]+")
DECLARED = re.compile(r"^\s*(?:(?:abbrev|unfoldable|pub|private)\s+)*((?:[^\s(){}\[\].,;:\"`|]+ )+):(?=\s)")
CAPITAL = re.compile(r'^[a-z].*[A-Z]')
PLAIN = re.compile(r"[a-z][A-Za-z0-9_'₀-₉ℕ-]*$")


# Definitions beside which a lemma has the name that they take.
LEMMAS = {'atFirst', 'placeFound', 'sizeIn', 'countBy'}


def snake(name):
    name = name.replace('′', "'").replace('-', '_')
    return re.sub(r'(?<=[a-z0-9ℕ])([A-Z])', lambda m: '_' + m.group(1).lower(), name)


def code_of(line, mark):
    """The line's code and its comment."""
    at = line.find(mark)
    return (line, '') if at < 0 else (line[:at], line[at:])


def declared():
    names = set()
    for f in glob.glob('crates/*/specs/**/*.antt', recursive=True) + glob.glob('crates/*/proofs/**/*.antt', recursive=True):
        made = f.endswith('/Proof.antt') or '/+' in f
        for line in open(f, encoding='utf-8'):
            m = DECLARED.match(code_of(line, '--')[0])
            for name in m.group(1).split() if m else []:
                if PLAIN.match(name) and snake(name) != name and not (made and (MADE.match(name) or 'tie.' in line)):
                    names.add(name)
    return names


def respelled(text, mark, names):
    out = []
    for line in text.split('\n'):
        code, comment = code_of(line, mark)
        code = TOKEN.sub(lambda m: names.get(m.group(0), m.group(0)), code)
        comment = TOKEN.sub(lambda m: names.get(m.group(0), m.group(0)) if CAPITAL.search(m.group(0)) else m.group(0), comment)
        comment = re.sub(r'`[^`]*`', lambda b: TOKEN.sub(lambda m: names.get(m.group(0), m.group(0)), b.group(0)), comment)
        out.append(code + comment)
    return '\n'.join(out)


def fallen(f, names):
    """The sets of names of a file's code that would be one name."""
    seen = {}
    for line in open(f, encoding='utf-8'):
        for t in TOKEN.findall(code_of(line, '--' if f.endswith('.antt') else '//')[0]):
            seen.setdefault(names.get(t, t), set()).add(t)
    return [old for old in seen.values() if len(old) > 1]


def main(check):
    names = {n: snake(n) for n in declared()} | {'isLeaf': 'leaf'}
    names |= {snake(n): snake(n) + '_lem' for n in LEMMAS if n in names}
    files = sorted(glob.glob('crates/*/specs/**/*.antt', recursive=True) + glob.glob('crates/*/proofs/**/*.antt', recursive=True) + glob.glob('crates/*/src/**/*.rt', recursive=True))
    # A local name that is another definition's now.
    names_here = {'crates/rewriting/specs/Earliest/Laws.antt': {'same_place': 'at_same'}}
    together = 0
    for f in files:
        for old in fallen(f, names):
            for n in old:
                if '-' in n and n in names:
                    names[n] = snake(n) + '_lem'
    for f in files:
        for old in fallen(f, names):
            together += 1
            print(f'{f}: {", ".join(sorted(old))} would all be {names[min(old)]}')
    print(f'{len(names)} names, {len(files)} files, {together} fall together')
    if check:
        return
    for f in files + sorted(glob.glob('crates/*/must-fail/*.edit')):
        old = open(f, encoding='utf-8').read()
        mark = '--' if f.endswith('.antt') else '//' if f.endswith('.rt') else '# '
        new = respelled(old, mark, names | names_here.get(f, {}))
        for crate, (was, now) in MOVED.items():
            new = new.replace(f'Rattle.{crate}.specs.{was}', f'Rattle.{crate}.specs.{now}')
            if f == f'crates/{crate}/specs/Lib.antt':
                new = re.sub(rf'\bmod {was}\b', f'mod {now}', new)
        if new != old:
            open(f, 'w', encoding='utf-8').write(new)
    for crate, (was, now) in MOVED.items():
        for end in ('.antt', ''):
            if os.path.exists(f'crates/{crate}/specs/{was}{end}'):
                os.rename(f'crates/{crate}/specs/{was}{end}', f'crates/{crate}/specs/{now}{end}')


main('--check' in sys.argv[1:])
