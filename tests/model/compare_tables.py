"""Compares tables.json with tables that a document has: in tests/, python3 -m model.compare_tables FILE..

The files are Markdown. Their tables have a node and its rows, parted by semicolons: a tag or `untagged`, a mark (`!` mandatory, `?`
OPTIONAL, `=v` DEFAULT, `x` left out, none in a CHOICE), a name, and a type: a letter, a node, or SEQUENCE OF these. A later file changes
rows of an earlier one, and adds nodes; a file may say more of ILL-APDU's rows in a table with their numbers.
"""
import re
import sys
from pathlib import Path

from .tables import ALL_LISTS, ALL_ROWS, CHOICES, NAMES, ROOTS, reached

LETTERS = dict(
    zip("BIEDTPSNOCKRF", "Boolean Integer Enumerated IsoDate IsoTime PrintableString IllString Null ObjectIdentifier OctetString BitString ObjectDescriptor Any".split())
)
PRESENCE = {"!": "Must", "?": "May", "x": "LeftOut", None: "Must"}
ROW = re.compile(r"(untagged|\d+) (?:([!?x]|=\w+) )?([\w-]+)(?::? (SEQUENCE OF )?([\w-]+))?( explicit)?$")


def read_row(text):
    """A row's tag, mark, name, type and whether its tag is explicit; a list's type is in a tuple."""
    tag, mark, name, of, kind, explicit = ROW.match(text.strip().rstrip(".")).groups()
    return [None if tag == "untagged" else int(tag), mark, name, (kind,) if of else kind, bool(explicit)]


def read_rows(text):
    rows = []
    for part in text.split("; "):
        many = re.match(r"then (\w), all (.): (.*)", part)
        if many:
            rows += [read_row(f"{row.split()[0]} {many[2]} {row.split()[1]} {many[1]}") for row in many[3].split(", ")]
        else:
            rows.append(read_row(part))
    return rows


class Document:
    """The tables of the files that were read."""

    def __init__(self):
        self.rows, self.choices, self.lists, self.head = {}, {"Results"}, {}, []

    def read(self, text):
        head = re.search(r"head H:\n(.*)", text)
        if head:
            self.head = read_rows(head[1])
        results = re.search(r"Results \(CHOICE\), each alternative explicit: (.*)", text)
        if results:
            self.rows["Results"] = read_rows(results[1])
        for cells in re.findall(r"^\| (.*) \|$", text, re.M):
            cells = cells.split(" | ")
            if len(cells) == 3 and cells[0].isdigit() and ROW.match(cells[2].removeprefix("H, but ").removeprefix("H; ").split("; ")[0]):
                self.apdu(*cells[1:])
            elif len(cells) == 2:
                self.node(*cells)

    def apdu(self, name, text):
        rows = [list(row) for row in self.head]
        for row in read_rows(text.removeprefix("H, but ").removeprefix("H; ")):
            same = [old for old in rows if old[0] == row[0] and text.startswith("H, but")]
            if same:
                same[0][:] = row
            else:
                rows.append(row)
        self.rows[name] = rows

    def node(self, names, text):
        if names.startswith("every APDU but"):
            for rows in self.rows.values():
                for row in rows:
                    if row[0] == 49 and row[1] == "x":
                        row[1:] = ["?", row[2], "Extensions", row[2].startswith("overdue")]
            return
        if text.startswith("SEQUENCE OF "):
            self.lists[names] = text.removeprefix("SEQUENCE OF ")
            return
        text = text.removeprefix("at its end: ")
        if not ROW.match(text.split("; ")[0]):
            return
        for name in names.split(", "):
            if name.endswith(" (CHOICE)"):
                name = name.removesuffix(" (CHOICE)")
                self.choices.add(name)
            table = self.rows.setdefault(name, [])
            for row in read_rows(text):
                same = [old for old in table if old[0] is not None and old[0] == row[0]]
                if same:
                    same[0][:] = row
                else:
                    table.append(row)

    def is_explicit(self, kind, explicit):
        return explicit or kind in ("S", "F") or kind in self.choices


def same_type(document, kind, node, explicit):
    """What differs between a type of the document and a node."""
    if isinstance(kind, tuple) or kind in document.lists:
        inside = kind[0] if isinstance(kind, tuple) else document.lists[kind]
        return [] if node in ALL_LISTS and not same_type(document, inside, ALL_ROWS[node][0].node, False) else [f"{kind}: {node}"]
    if kind in LETTERS:
        return [] if LETTERS[kind] == node else [f"{kind}: {node}"]
    if node == "TaggedExternal":
        node = ALL_ROWS[node][0].node
    return [] if NAMES[node][0] == kind else [f"{kind}: {node}"]


def compare(document, node):
    """What differs between a node and the document's."""
    name, names = NAMES[node]
    if node in ALL_LISTS or node == "TaggedExternal" or name == "ILL-APDU":
        return []
    rows = document.rows.get(name)
    if rows is None:
        return [f"no rows of {name}"]
    if (name in document.choices) != (node in CHOICES):
        return [f"{name}: a choice or not"]
    if [row[2] for row in rows] != names:
        return [f"{name}: names {names}, {[row[2] for row in rows]}"]
    found = []
    for (tag, mark, title, kind, explicit), row in zip(rows, ALL_ROWS[node], strict=True):
        presence = "Default" if mark and mark[0] == "=" else PRESENCE[mark]
        default = int({"FALSE": "0", "TRUE": "1"}.get(mark[1:], mark[1:])) if presence == "Default" else None
        if name == "Results":
            mode = "ExplicitOrBare"
        elif presence == "LeftOut":
            mode = "Implicit"
        elif tag is None:
            mode = None
        else:
            mode = "Explicit" if document.is_explicit(kind, explicit) else "Implicit"
        due = (presence, default, ("context", tag) if tag is not None else None, mode)
        if due != (row.presence, row.default, row.tag, row.mode):
            found.append(f"{name}.{title}: {due}, {row}")
        elif presence != "LeftOut":
            found += [f"{name}.{title}: {what}" for what in same_type(document, kind, row.node, explicit)]
    return found


def main():
    document = Document()
    failed = 0
    for file, root in zip(sys.argv[1:], ROOTS.values()):
        document.read(Path(file).read_text())
        nodes = reached(root)
        found = [what for node in nodes if node in ALL_ROWS for what in compare(document, node)]
        print(f"{root}: {len(nodes)} nodes, {sum(len(ALL_ROWS.get(node, [])) for node in nodes)} rows, {len(found)} differences")
        for what in found:
            print(" ", what)
        failed += len(found)
    sys.exit(failed > 0)


if __name__ == "__main__":
    main()
