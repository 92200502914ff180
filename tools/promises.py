#!/usr/bin/env python3
"""Checks docs/PROMISES.md.

Each row of its tables says "open" or cites `FILE: NAME, NAME ..`, and each name is defined in its file. What a reader must believe is
closed: the contracts of the exported calls and the definitions of the listed files use only names that one of these files defines, names of the kit
and types of the code that are listed, and names of which the last table cites the theorems that say what they are; these theorems' statements
use no others. Lemmas that stand beside definitions do not count. Each listed file has as many lines of definitions as stated, and no
name is listed that is not used."""
import os
import re
import sys

top = os.path.dirname(os.path.dirname(os.path.abspath(__file__)))


missing_files = set()


def read(path):
    """The text of a file; of a file that is missing an empty one, and that is a fault."""
    if not os.path.isfile(os.path.join(top, path)):
        missing_files.add(path)
        return ""
    return open(os.path.join(top, path), encoding="utf8").read()


def defined(name, text):
    """Whether a file of specs or of source defines the name: a signature, a data or record type, a constructor or field, a function."""
    n = re.escape(name)
    return re.search(
        rf"(?m)^\s*(?:(?:abbrev|unfoldable)\s+)?(?:pub\s+)?(?:extern\s+\S+\s+)?(?:(?:data|record|fn|struct|enum|const|mod)\s+)?{n}(?=[\s:({{<,]|$)", text
    ) is not None


def cites(text):
    """The pairs of a file and a name that `FILE: NAME, NAME ..` cite."""
    return [(path, name) for path, names in re.findall(r"`([\w./-]+): ([^`]+)`", text) for name in names.split(", ")]


# ── a file of specs ──


def indent(line):
    return len(line) - len(line.lstrip())


def words(text):
    """The words of a text; of `a.b` also a, and of a variable bound by λ the word without its dot."""
    found = set()
    for word in re.findall(r"[^\s(){},;]+", text):
        found.update((word, word.rstrip("."), word.split(".")[0]))
    return found


def signature(text):
    """The words in front of the colon of a signature, without those in brackets; none for a clause."""
    depth, before = 0, []
    for word in text.split():
        if depth == 0 and word in (":", "="):
            return before if word == ":" else []
        if depth == 0 and word[0] not in "({":
            before.append(word)
        depth += len(re.findall(r"[({]", word)) - len(re.findall(r"[)}]", word))
    return []


def uses(name, found):
    """Whether these are the words of a text that uses the name, also as an operator: `◌∷◌` as `a ∷ l`."""
    return name in found or "◌" in name and all(part in found for part in name.split("◌") if part)


def imported(line):
    """The module, the names and the alias of an import, in a file of specs or of source. Without brackets and alias, the last word is a name."""
    m = re.match(r"(?:ghost )?use (\S+?)(?:\.\{([^}]*)\})?(?: as (\S+?))?;?$", line.rstrip())
    if m and not m[2] and not m[3]:
        module, _, name = m[1].rpartition(".")
        return module, [name], None
    return m and (m[1], m[2] and m[2].split(", "), m[3])


def used(imports, text):
    """The imported names that a text uses, each with its module."""
    found = words(text)
    for module, names, alias in imports:
        if names:
            yield from ((module, name) for name in names if uses(name, found))
        else:
            yield from ((module, word[len(alias) + 1:]) for word in found if word.startswith(alias + "."))


class Specs:
    """A file of specs: its imports, the names that it defines, its lemmas, the text of its definitions, the statement of each name."""

    def __init__(self, path):
        self.imports, self.defines, self.lemmas, self.lines, self.states = [], set(), set(), [], {}
        body = []
        for line in re.sub(r"(?m)(^|\s)--(?=\s|$).*$", "", read(path)).split("\n"):
            if imported(line):
                self.imports.append(imported(line))
            elif line.strip() and not re.match(r"\s*(pub mod|unfolding|open) ", line):
                body.append(line)
        self.items(body, False, "")

    def items(self, lines, all_defined, outer):
        """The items of one depth: an item is a line and the deeper ones behind it. Whether a definition is among them."""
        some, is_definition = False, False
        parts = []
        for line in lines:
            if parts and indent(line) > indent(lines[0]):
                parts[-1].append(line)
            else:
                parts.append([line])
        for part in parts:
            head = part[0].strip()
            if head.startswith("module "):
                n = next(i for i, line in enumerate(part) if line.endswith("where")) + 1
                is_definition = self.inside(part[:n], part[n:], all_defined, outer + " ".join(part[:n]) + " ")
            elif head.endswith("mutual"):
                is_definition = self.inside(part[:1], part[1:], all_defined or head != "mutual", outer)
            else:
                given = signature(" ".join(part))
                marks = [word for word in given if word in ("abbrev", "unfoldable", "data", "record")]
                names = [word for word in given if word not in marks + ["pub"]]
                if names:
                    is_definition = bool(marks or all_defined)
                    self.states.update({name: outer + " ".join(part) for name in names})
                    if marks and marks[0] in ("data", "record"):
                        names += [name for line in part[1:] for name in signature(line) if name != "pub"]
                    (self.defines if is_definition else self.lemmas).update(names)
                if is_definition or head.startswith("infix"):
                    self.lines += part
            some = some or is_definition
        return some

    def inside(self, head, lines, all_defined, outer):
        place = len(self.lines)
        if lines and self.items(lines, all_defined, outer):
            self.lines[place:place] = head
            return True
        return False


# ── what a reader must believe ──


def home(module):
    """The file of a module of this repository, and the type of the code that it is about, if it is about one."""
    m = re.match(r"Rattle\.(\w+)\.(specs|proofs)\.(.+)$", module)
    if not m or not os.path.isdir(os.path.join(top, "crates", m[1])):
        return None, None
    if m[3].startswith("declared."):
        return f"crates/{m[1]}/src", m[3].split(".")[1]
    return f"crates/{m[1]}/{m[2]}/{m[3].replace('.', '/')}.antt", None


def exported():
    """The contract of each exported call, with its file and the imports there."""
    for folder, folders, names in os.walk(os.path.join(top, "crates")):
        folders[:] = [name for name in folders if name != "out"]
        for path in (os.path.relpath(os.path.join(folder, name), top) for name in names if name.endswith(".rt")):
            text = read(path)
            for name, contract in re.findall(r'pub extern "C" fn (\w+)(.*?)\n\{', text, re.S):
                yield path, [imported(line) for line in text.split("\n") if line.startswith("ghost use ")], contract, name


class Believed:
    """What a reader must believe, as docs/PROMISES.md lists it, and what is wrong with that."""

    def __init__(self, text):
        self.counts = {f"crates/{path}": int(n) for path, n in re.findall(r"(?m)^- `([\w./]+)` (\d+)$", text)}
        self.total = re.findall(r"(?m)^- in all (\d+)$", text)
        self.files = {path: Specs(path) for path in self.counts}
        self.kit = {(m, name) for m, names in re.findall(r"(?m)^- `(\w[\w.]*)`: (.+)$", text) for name in names.split(", ")}
        self.types = set(cites("\n".join(re.findall(r"(?m)^- types of the code: .*$", text))))
        self.said = {}
        for names, by in re.findall(r"(?m)^\| (`[^|]*`) \| (`[^|]*`) \|$", text.split("| Name | Said by |")[-1]):
            self.said.update({known: cites(by) for known in cites(names)})
        self.met, self.missing = set(), {}

    def meets(self, where, what, listed):
        """A use of a name that must be among the listed ones."""
        self.met |= listed
        if not listed:
            self.missing.setdefault(what, {})[where] = True

    def close(self, imports, text, where):
        """Every imported name that a text uses is listed, believed or said by a theorem."""
        for module, name in used(imports, text):
            file, kind = home(module)
            if file is None:
                self.meets(where, f"{name} of {module} is not listed", {(module, name)} & self.kit)
            elif kind:
                self.meets(where, f"{kind}, a type of {file}, is not listed", {t for t in self.types if t[1] == kind and t[0].startswith(file + "/")})
            else:
                self.own(where, file, name)

    def own(self, where, file, name):
        """A use of a name of the repository's specs."""
        if file not in self.files or name not in self.files[file].defines | self.files[file].lemmas:
            self.meets(where, f"{name} of {file} is neither believed nor said by a theorem", {(file, name)} & set(self.said))

    def faults(self):
        faults = []
        for path, spec in self.files.items():
            self.close(spec.imports, "\n".join(spec.lines), path)
            if len(spec.lines) != self.counts[path]:
                faults.append(f"{path} has {len(spec.lines)} lines to believe, not {self.counts[path]}")
        if self.total != [str(self.lines())]:
            faults.append(f"the lines to believe are {self.lines()} in all")
        for path, theorem in (by for theorems in self.said.values() for by in theorems):
            spec, where = Specs(path), f"{path}: {theorem}"
            self.close(spec.imports, spec.states.get(theorem, ""), where)
            for name in spec.defines:
                if uses(name, words(spec.states.get(theorem, ""))):
                    self.own(where, path, name)
        for path, imports, contract, name in exported():
            self.close(imports, contract, f"{path}: {name}")
        faults += [f"{path} does not define {name}" for path, name in self.types if not defined(name, read(path))]
        faults += [f"{what}; used by {', '.join(places)}" for what, places in self.missing.items()]
        return faults + [f"listed and not used: {': '.join(left)}" for left in sorted((self.kit | self.types | set(self.said)) - self.met)]

    def lines(self):
        return sum(len(spec.lines) for spec in self.files.values())


def main():
    text = read("docs/PROMISES.md")
    faults, rows, opened, cited = [], 0, 0, 0
    lines = text.split("\n")
    for number, line in enumerate(lines, 1):
        if not line.startswith("|") or line.startswith("|---") or lines[number].startswith("|---"):
            continue
        rows += 1
        answer = line.rstrip().rstrip("|").rsplit(" | ", 1)[-1].strip()
        if answer == "open":
            opened += 1
            continue
        if not cites(answer) and not answer.startswith("says"):
            faults.append(f"line {number}: neither open nor a citation: {answer}")
        for path, name in cites(line):
            cited += 1
            if not defined(name, read(path)):
                faults.append(f"line {number}: {path} does not define {name}")
    belief = Believed(text)
    faults += belief.faults()
    faults += [f"no file {path}" for path in sorted(missing_files)]
    print(f"promises: {rows} rows, {opened} open, {cited} names cited, {belief.lines()} lines to believe, {len(faults)} faults")
    for fault in faults:
        print("  ", fault)
    sys.exit(1 if faults or rows == 0 else 0)


main()
