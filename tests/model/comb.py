#!/usr/bin/env python3
"""`python3 -m model.comb [--write]`, in tests/: the spots of usual messages and the elements that are due at them, from tables.json, as tables of ill_grammar. Without
--write it compares them with the files.

The tables are one comb: the entry of an element lies at the offset of its spot plus the key of its identifier, between those of other spots,
and says whose it is. `rt check` proves each entry, so that a wrong one is refused there."""
import re
import sys

from .tables import ALL_LISTS, ALL_ROWS, CHOICES, ROOTS, TOP

CRATE = TOP / "crates/ill_grammar"
LEVELS = TOP / "crates/ill_read/src/usual/level.rt"
CLASSES = {"universal": 0, "application": 1, "context": 2}
# the kinds of leaves, and the numbers of their universal tags
KINDS = {
    "Boolean": ("Boolean", 1),
    "Integer": ("Integer", 2),
    "Enumerated": ("Enumerated", 10),
    "IsoDate": ("Date", 26),
    "IsoTime": ("Time", 26),
    "PrintableString": ("Printable", 19),
}
SEQUENCE = 16
NOTHING = ("Nothing",)
KEYS = 320
# in a line of the spots' file
CHUNK = 16


def key(tag, constructed):
    """The key of an identifier: its octet, or 256, the bit of its form and what a number has above 31."""
    number = tag[1] if tag[1] < 31 else tag[1] - 31
    return (64 * CLASSES[tag[0]] if tag[1] < 31 else 256) + 32 * constructed + number


def own(node, tag):
    """The usual elements of a node by a tag, or by its own: of each the key, the kind, and the spot in it."""
    if node in KINDS:
        kind, number = KINDS[node]
        return [(key(tag or ("universal", number), False), kind, None)]
    if node not in ALL_ROWS or node in CHOICES:
        return []
    first = ("Items", node) if node in ALL_LISTS else ("Rows", node, 0)
    return [(key(tag or ("universal", SEQUENCE), True), "Constructed", first)]


def of_row(node, number, row):
    """The usual elements by which a row may begin."""
    if row.presence == "LeftOut" or row.mode == "Explicit" and row.node == "Any":
        return []
    if row.mode == "Explicit" and row.node == "IllString":
        return [(key(row.tag, True), "StringWrapper", None)]
    if row.mode == "Explicit":
        return [(key(row.tag, True), "Constructed", ("Inner", node, number, row.node))]
    if row.mode == "ExplicitOrBare":
        return [(key(row.tag, True), "Constructed", ("Either", node, number, row.node))]
    return own(row.node, row.tag) + (alternatives(row.node) if row.tag is None else [])


def alternatives(node):
    """Those by which the alternatives of a choice begin."""
    return [element for n, row in enumerate(ALL_ROWS[node]) for element in of_row(node, n, row)] if node in CHOICES else []


def from_row(node, position):
    """What is due from a row of a sequence on, and whether the rest may lack."""
    elements = []
    for number, row in enumerate(ALL_ROWS[node][position:], position):
        default = row.default if row.presence == "Default" else 255
        elements += [(*element, ("Rows", node, number + 1), default) for element in of_row(node, number, row)]
        if row.presence == "Must":
            return elements, False
    return elements, True


def due(spot):
    """The elements that are due at a spot: of each the key, the kind, the spot in it and the one after it, and the default. And whether the
    element round them may end there. In a loose wrapper only the SEQUENCE is usual."""
    match spot:
        case ("Rows", node, position):
            return from_row(node, position)
        case ("Inner", _, _, node):
            return [(*element, NOTHING, 255) for element in own(node, None) + alternatives(node)], False
        case ("Items", node):
            return [(*element, spot, 255) for element in of_row(node, 0, ALL_ROWS[node][0])], True
        case ("Either", _, _, node):
            return [(*element, NOTHING, 255) for element in own(node, None)], False
    return [], True


def reached():
    """The spots that usual messages have, each with what is due there."""
    spots = [("Inner", root, 0, root) for root in ROOTS.values()] + [NOTHING]
    for spot in spots:
        spots += [other for element in due(spot)[0] for other in element[2:4] if other and other not in spots]
    return {spot: due(spot) for spot in spots}


def most_levels(spots):
    """The number of constructed elements that are open at once in the deepest usual message."""
    most, before = dict.fromkeys(spots, 0), None
    while most != before:
        before = dict(most)
        for spot, (elements, _) in spots.items():
            for _, kind, first, after, _ in elements:
                most[spot] = max(most[spot], most[after], 1 + most[first] if kind == "Constructed" else 0)
    return max(most.values())


def lay(spots):
    """The offsets of the spots, those where an element may end last, and the first of these."""
    offsets, taken = {}, set()
    start = 0
    for complete in (False, True):
        start = (max(offsets.values(), default=-1) // CHUNK + 1) * CHUNK
        for spot in sorted((s for s in spots if spots[s][1] == complete), key=lambda s: -len(spots[s][0])):
            keys = [element[0] for element in spots[spot][0]]
            at = start
            while at in offsets.values() or any(at + k in taken for k in keys):
                at += 1
            offsets[spot] = at
            taken |= {at + k for k in keys}
    return offsets, start


def entry(spot, offsets, element):
    _, kind, first, after, default = element
    return f"e!({offsets[spot]}, {offsets[after]}, {offsets[first] if first else 0}, {kind}, {default})"


def entries_file(spots, offsets, start):
    size = max(offsets.values()) + 1
    rows = ["e!()"] * (size + KEYS)
    for spot, (elements, _) in spots.items():
        for element in elements:
            rows[offsets[spot] + element[0]] = entry(spot, offsets, element)
    tops = {profile: offsets["Inner", root, 0, root] for profile, root in ROOTS.items()}
    lines = [
        "//! The entries of the comb, and the offsets of some spots. `tests/model/comb.py` writes this file.",
        "",
        "use crate::spot::{SpotEntry, UsualKind};",
        "",
        "/// The first of the spots where an element may end.",
        f"pub const COMPLETE: u16 = {start};",
        "",
        "/// The spot where a message of profile 2 begins.",
        f"pub const TOP: u16 = {tops['2']};",
        "",
        "/// The spot where a message of the module profile begins.",
        f"pub const MODULE_TOP: u16 = {tops['module']};",
        "",
        "/// The entry of an element: its spot, the spots after and in it, its kind, and its default or 255.",
        "macro_rules! e {",
        "    () => { e!(65535, 0, 0, Constructed, 255) };",
        "    ($spot:literal, $after:literal, $first:literal, $kind:ident, $default:literal) => {",
        "        SpotEntry {",
        "            after: $after,",
        "            first: $first,",
        "            kind: UsualKind::$kind,",
        "            default: $default,",
        "            spot: $spot,",
        "        }",
        "    };",
        "}",
        "",
        "/// The entries, each at the offset of its spot and the key of its identifier. 65535 is no spot.",
        "#[rattlefmt::skip]",
        f"pub static ENTRIES: [SpotEntry; {size + KEYS}] = [",
        *("    " + " ".join(f"{row}," for row in rows[k : k + 4]) for k in range(0, len(rows), 4)),
        "];",
    ]
    return "\n".join(lines) + "\n"


def word(spot):
    match spot:
        case ("Rows", node, position):
            return f"Rows {node} {position}"
        case ("Inner" | "Either" as name, parent, row, node):
            return f"{name.lower()} {parent} {row} {node}"
        case ("Items", node):
            return f"Items {node}"
    return "Nothing"


def spots_file(spots, offsets, start):
    at = {offset: spot for spot, offset in offsets.items()}
    words = [word(at.get(offset, NOTHING)) for offset in range(max(at) + 1)]
    nodes = sorted({part for spot in spots for part in spot[1:] if isinstance(part, str)})
    chunks = [" ∷ ".join(words[i : i + CHUNK]) + " ∷ []" for i in range(0, len(words), CHUNK)]
    lines = [
        "-- What may come next at each spot. `tests/model/comb.py` writes this file.",
        "use Rattle.std.specs.Prelude.{ℕ, ◌/◌, ◌%◌, List, [], ◌∷◌, get_or}",
        "use Rattle.ill_tables.specs.declared.node.NodeId.{NodeId}",
        "use Rattle.ill_tables.specs.declared.node.NodeId.TheVariants.{%s}" % ", ".join(nodes),
        "use Rattle.ill_grammar.specs.declared.due.Next.{Next}",
        "use Rattle.ill_grammar.specs.declared.due.Next.TheVariants.{Rows, Inner, Items, Either, Nothing}",
        "use Rattle.ill_grammar.specs.declared.element.Wrapped.{Wrapped}",
        "",
        "abbrev wrapped : NodeId → ℕ → NodeId → Wrapped",
        "wrapped parent row node = record { part = record { node = parent; row = row }; node = node }",
        "",
        "abbrev inner : NodeId → ℕ → NodeId → Next",
        "inner parent row node = Inner (wrapped parent row node)",
        "",
        "abbrev either : NodeId → ℕ → NodeId → Next",
        "either parent row node = Either (wrapped parent row node)",
        "",
        f"-- by {CHUNK} spots",
        "unfoldable pub spots : List (List Next)",
        "spots =",
        *(f"    {'' if i == 0 else '∷ '}({chunk})" for i, chunk in enumerate(chunks)),
        "    ∷ []",
        "",
        "-- the end of the offsets",
        "abbrev pub offset_end : ℕ",
        f"offset_end = {len(words)}",
        "",
        "-- the first of the spots where an element may end",
        "abbrev pub complete_start : ℕ",
        f"complete_start = {start}",
        "",
        "-- what may come next at the spot of this offset",
        "unfoldable pub next_at_offset : ℕ → Next",
        f"next_at_offset offset = get_or (get_or spots (offset / {CHUNK}) []) (offset % {CHUNK}) Nothing",
    ]
    return "\n".join(lines) + "\n"


def main():
    spots = reached()
    offsets, start = lay(spots)
    files = {
        CRATE / "src/spot_entries.rt": entries_file(spots, offsets, start),
        CRATE / "specs/code/SpotTable.antt": spots_file(spots, offsets, start),
    }
    for path, text in files.items():
        if "--write" in sys.argv:
            path.write_text(text)
        elif path.read_text() != text:
            sys.exit(f"{path.relative_to(TOP)}: not what comb.py writes")
    levels = re.search(r"MAX_LEVELS: usize = (\d+);", LEVELS.read_text())[1]
    if int(levels) != most_levels(spots):
        sys.exit(f"{LEVELS.relative_to(TOP)}: MAX_LEVELS is not {most_levels(spots)}")
    elements = sum(len(elements) for elements, _ in spots.values())
    print(f"{len(spots)} spots, {elements} entries, {max(offsets.values()) + 1} offsets")


if __name__ == "__main__":
    main()
