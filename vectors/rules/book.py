"""Groups of test vectors, each with its rule. What is expected is said where the test vector is made, and judged once more when it is added."""
import re

from model.encoder import Writer
from model.judge import Refused, message
from model.tables import ALL_ROWS, NAMES, ROOTS

from rules.messages import around, octets_of
from rules.octets import SHORT, runs
from rules.values import from_json, to_json

SOURCES = {"clause", "row", "limit", "cause"}
APDUS = NAMES["IllApdu"][1]
TOO_MANY = "TooManyMessages"
BOTH = ["2", "module"]


class Book:
    """One JSON file, of a profile."""

    def __init__(self, name, title, profile="2"):
        self.name, self.title, self.profile, self.groups = name, title, profile, []
        self.root = ROOTS[profile]

    def group(self, name, text, **source):
        """A new group, for a rule; the source says where the rule is from."""
        assert len(source) == 1 and source.keys() <= SOURCES, source
        self.groups.append(Group({"name": name, **source, "text": text}, self.profile))
        return self.groups[-1]

    def around(self, node, inner):
        """The small APDU of the profile in which a value of the node stands."""
        return around(node, inner, self.root)

    def octets_of(self, apdu):
        """The octets of an APDU in which octets stand in place of a part."""
        return octets_of(apdu, self.root)

    def id(self, name):
        """A name that no test vector of another profile has."""
        return name if self.profile == "2" else f"{self.profile}-{name}"

    def vectors(self):
        return [vector for group in self.groups for vector in group.vectors]


class Group:
    """The test vectors of one rule."""

    def __init__(self, rule, profile="2"):
        self.rule, self.vectors, self.profile, self.root = rule, [], profile, ROOTS[profile]

    def valid(self, name, comment, octets, apdu, value):
        """Octets that spell the APDU of this name and value."""
        self.spells(name, comment, octets, (APDUS.index(apdu), from_json(node_of(apdu, self.profile), value)))

    def spells(self, name, comment, octets, apdu):
        """Octets that spell this APDU, which is as the encoder has it."""
        normal = Writer().value(self.root, apdu, None)
        for spelling in {bytes(octets), normal}:
            if judged(spelling, self.profile) != apdu:
                raise AssertionError(f"{name}: {shown(spelling)} is judged otherwise: {judged(spelling, self.profile)}")
        self.add(name, comment, octets, result(apdu, self.profile))

    def refused(self, name, comment, octets, cause, part=""):
        """Octets that are refused for this cause at the mark."""
        expected = cause, octets.mark, part
        found = judged(bytes(octets), self.profile)
        if found != expected:
            raise AssertionError(f"{name}: {shown(octets)} is judged otherwise: {found}, not {expected}")
        self.add(name, comment, octets, result(expected, self.profile))

    def stream(self, name, comment, messages, rest=None, cause=None, part=""):
        """Messages one after another, each (octets, normal form, count), and then octets that are refused for this cause at the mark."""
        for octets, normal, _ in messages:
            if Writer().value("IllApdu", judged(bytes(octets)), None) != normal:
                raise AssertionError(f"{name}: {shown(octets)} is judged otherwise: {judged(bytes(octets))}")
        said = {"result": "refused" if cause else "valid", "messages": sum(count for *_, count in messages)}
        said.update(repeated("normal", [(normal, count) for _, normal, count in messages]))
        if cause:
            said["cause"] = cause
        if cause and cause != TOO_MANY:
            if judged(bytes(rest)) != (cause, rest.mark, part):
                raise AssertionError(f"{name}: {shown(rest)} is judged otherwise: {judged(bytes(rest))}")
            said.update({"offset": rest.mark, **({"part": part} if part else {})})
        if all(alike(octets) for octets, *_ in messages) and (not rest or alike(rest)):
            said["profiles"] = BOTH
        octets = repeated("octets", [(octets, count) for octets, _, count in messages] + ([(rest, 1)] if rest else []))
        self.vectors.append({"id": name, "comment": comment, **octets, **said})

    def add(self, name, comment, octets, said):
        assert re.fullmatch(r"[a-z0-9]+(-[a-z0-9]+)*", name), name
        both = {"profiles": BOTH} if self.profile == "2" and alike(octets) else {}
        self.vectors.append({"id": name, "comment": comment, **written("octets", octets), **said, **both})


def node_of(apdu, profile="2"):
    """The node of an APDU, by its name."""
    return ALL_ROWS[ROOTS[profile]][APDUS.index(apdu)].node


def alike(octets):
    """Whether octets give the same in both profiles."""
    first, second = (result(judged(bytes(octets), profile), profile) for profile in BOTH)
    return first == second


def result(found, profile):
    """What a test vector says of an APDU, or of cause, offset and part."""
    if isinstance(found[0], str):
        cause, offset, part = found
        return {"result": "refused", "cause": cause, "offset": offset, **({"part": part} if part else {})}
    number, body = found
    normal = Writer().value(ROOTS[profile], found, None)
    value = to_json(node_of(APDUS[number], profile), body)
    return {"result": "valid", **written("normal", normal), "apdu": APDUS[number], "value": value}


def judged(octets, profile="2"):
    """The APDU that the octets spell, or cause, offset and part."""
    try:
        return message(octets, profile)
    except Refused as fault:
        return fault.cause, fault.at, fault.part_name()


def shown(octets):
    return bytes(octets[:200]).hex()


def repeated(name, pieces):
    """Pieces of octets, each repeated by its count."""
    if any(count > 1000 for _, count in pieces):
        return {runs_name(name): [[bytes(octets).hex(), count] for octets, count in pieces]}
    return written(name, b"".join(bytes(octets) * count for octets, count in pieces))


def runs_name(name):
    return "runs" if name == "octets" else f"{name}_runs"


def written(name, octets):
    """Octets as hexadecimal, or long ones as runs."""
    if len(octets) < SHORT:
        return {name: bytes(octets).hex()}
    pairs = runs(octets)
    if 2 * sum(len(unit) for unit, _ in pairs) > len(octets):
        return {name: bytes(octets).hex()}
    return {runs_name(name): pairs}
