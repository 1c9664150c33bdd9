"""An element of each kind in a small message, written by whatever writes elements."""
from rules.messages import GROUP, HEAD, HEAD_VALUE, QUALIFIER, REQUEST_VALUE, SERVICE, VERSION, expired, message, request, with_head
from rules.octets import element, text

EXPIRED = "Expired", HEAD_VALUE
LOST = "Lost", with_head(note={"general": "A"})
REPLY = "Cancel-Reply", with_head(answer=True)
REQUESTED = "ILL-Request", with_head(REQUEST_VALUE)
MEDIUM = "ILL-Request", with_head({**REQUEST_VALUE, "supply-medium-info-type": [{"supply-medium-type": 1}]})
RETRY = "ILL-Answer", with_head({"transaction-results": 2, "results-explanation": {"retry-results": {"reason-not-available": 1}}})


def answer(results):
    return message("ILL-Answer", "9F 1F 01 02", results)


# the name of each kind, what it is, the message with the element that `write` makes, and what the message says
CONSTRUCTED = {
    "apdu": ("an APDU", lambda write: write("74", element("30", HEAD)), EXPIRED),
    "sequence": ("a SEQUENCE", lambda write: element("74", write("30", HEAD)), EXPIRED),
    "implicit-sequence": (
        "a SEQUENCE with an IMPLICIT tag",
        lambda write: element("74", element("30", VERSION, write("A1", GROUP, QUALIFIER), SERVICE)),
        EXPIRED,
    ),
    "explicit-tag": ("an EXPLICIT tag", lambda write: expired(group=write("A1", element("1B", "47"))), EXPIRED),
    "high-tag": ("an EXPLICIT tag of more than 30", lambda write: message("Lost", write("BF 2E", element("1B", "41"))), LOST),
    "result": ("the tag of a result", lambda write: answer(element("BF 20", write("A2", "30 03 80 01 01"))), RETRY),
    "bare-apdu": ("an APDU round the parts of its SEQUENCE", lambda write: write("74", HEAD), EXPIRED),
    "bare-result": ("the tag of a result round the parts of its SEQUENCE", lambda write: answer(element("BF 20", write("A2", "80 01 01"))), RETRY),
    "list": ("a SEQUENCE OF", lambda write: request(write("A9", "0A 01 01")), REQUESTED),
    "sequence-item": ("a SEQUENCE in a SEQUENCE OF", lambda write: request(medium=element("AD", write("30", "80 01 01"))), MEDIUM),
    "constructed-string": ("a string in segments", lambda write: expired(group=element("A1", write("3B", "04 01 47"))), EXPIRED),
    "constructed-date": ("a date in segments", lambda write: expired(date=write("A0", element("04", text("20240229")))), EXPIRED),
    "constructed-segment": ("a segment in segments", lambda write: expired(group=element("A1", element("3B", write("24", "04 01 47")))), EXPIRED),
}
PRIMITIVE = {
    "integer": ("an INTEGER", lambda write: expired(version=write("80", "02")), EXPIRED),
    "boolean": ("a BOOLEAN", lambda write: message("Cancel-Reply", write("9F 23", "FF")), REPLY),
    "item": ("an ENUMERATED in a SEQUENCE OF", lambda write: request(element("A9", write("0A", "01"))), REQUESTED),
    "string": ("a string", lambda write: expired(group=element("A1", write("1B", "47"))), EXPIRED),
    "date": ("a date", lambda write: expired(date=write("80", text("20240229"))), EXPIRED),
    "segment": ("a segment", lambda write: expired(group=element("A1", element("3B", write("04", "47")))), EXPIRED),
}
ALL = {**CONSTRUCTED, **PRIMITIVE}
