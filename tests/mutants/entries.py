"""Lists of changes, of which one line says what the next ones are:
  @ the file   * the name   - the text as it stands   + what stands in its place   = why it is equivalent"""


def entries(path):
    """(name, file, old, new, equivalent): the parts of a list of changes."""
    entry = None
    for line in path.read_text().splitlines():
        mark, rest = line[:1], line[2:]
        if mark == "@":
            file = rest
        elif mark == "*":
            entry = {"name": rest, "file": file, "old": [], "new": [], "equivalent": None}
        elif mark == "=":
            entry["equivalent"] = rest
        elif mark == "-":
            entry["old"].append(rest)
        elif mark == "+":
            entry["new"].append(rest)
        elif entry and not line.strip():
            yield entry
            entry = None
    if entry:
        yield entry
