#!/usr/bin/env python3
"""Writes module.ber, a message of each of the 20 APDUs of ISO 10161-1 as library systems send them, and module.der, their normal forms.

Every message has an extension. Constructed elements are in indefinite form, as many codecs write them. The judge of tests/ has to
read the values that are written down here. Usage: make.py [--check]. With --check nothing is written, and the status is 1 where a file differs.
"""
import sys
from pathlib import Path

FOLDER = Path(__file__).resolve().parent
sys.path[:0] = [str(FOLDER.parent / "vectors"), str(FOLDER.parent / "tests")]

from model.encoder import Writer
from model.judge import message
from model.tables import ALL_ROWS, NAMES, ROOTS
from rules.octets import element, text
from rules.values import from_json, identifier_from_json

ROOT = ROOTS["module"]
MARC_21, DELIVERY_INFO = "1.2.840.10003.5.10", "1.0.10161.13.3"
RECORD = "00084nam a2200037 a 450000100080000024500100000800000040000\x1e12345678\x1e10$aWinter\x1e\x1d"


class Indefinite(Writer):
    """Writes each constructed element in indefinite form."""

    def element(self, tag, constructed, contents):
        return self.identifier(tag, True) + b"\x80" + contents + b"\0\0" if constructed else super().element(tag, False, contents)


def general(value):
    return {"general": value}


def institution(symbol):
    return {"person-or-institution-symbol": {"institution-symbol": general(symbol)}}


def foreign(octets):
    return {"foreign": octets.hex()}


def string(number, value):
    return element(f"{0xA0 + number:02X}", element("1B", text(value)))


def delivery_parameters(address):
    """Encodings 3 (BER) and 2 (BER in MIME), and a transport: service and address."""
    return element("30", element("A0", "02 01 03", "02 01 02"), element("A1", string(0, "SMTP"), string(1, address)))


def extension():
    """An extension that isn't critical: the addresses of the sender and the recipient, in an EXTERNAL."""
    info = element("30", element("A0", delivery_parameters("ill@oonl.example")), element("A1", delivery_parameters("ill@qmm.example")))
    external = element("28", element("06", identifier_from_json(DELIVERY_INFO)), element("A0", info))
    return {"identifier": 1, "critical": False, "item": foreign(external)}


def marc(record):
    """An EXTERNAL with a record in MARC 21."""
    return {"direct-reference": MARC_21, "encoding": {"octet-aligned": {"octets": record.encode().hex()}}}


def address():
    return {"telecom-service-identifier": general("SMTP"), "telecom-service-address": general("articles@oonl.example")}


def electronic():
    """Delivery of a PDF file by mail."""
    return {
        "e-delivery-service": {"e-delivery-mode": "1.0.10161.2.1", "e-delivery-parameters": foreign(element("05"))},
        "document-type": {"document-type-id": "1.2.840.10003.109.1", "document-type-parameters": foreign(element("30", element("02", "01")))},
        "e-delivery-description": general("PDF"),
        "e-delivery-details": {"e-delivery-address": address()},
        "delivery-time": "120000",
    }


HEAD = {
    "protocol-version-num": 2,
    "transaction-id": {
        "initial-requester-id": institution("CaOONL"),
        "transaction-group-qualifier": general("2026-0117"),
        "transaction-qualifier": general("1"),
    },
    "service-date-time": {"date-time-of-this-service": {"date": "20260117", "time": "101500"}},
    "requester-id": institution("CaOONL"),
    "responder-id": institution("CaQMM"),
}
OPTIONAL = {"can-send-received": True, "can-send-returned": True, "requester-shipped": 2, "requester-checked-in": 2}
BODIES = {
    "ILL-Request": {
        "delivery-service": {"electronic-delivery": [electronic()]},
        "ill-service-type": [2],
        "responder-specific-service": {"data-value-descriptor": "rush", "encoding": {"arbitrary": {"bits": 3, "octets": "a0"}}},
        "requester-optional-messages": OPTIONAL,
        "item-id": {
            "item-type": 2,
            "title": general("Journal of Documentation"),
            "author-of-article": general("Jones, K."),
            "title-of-article": general("Winter"),
            "national-bibliography-no": marc(RECORD),
            "issn": general("0022-0418"),
            "system-no": {"indirect-reference": 1, "encoding": {"single-asn1-type": foreign(element("1B", text("12345678")))}},
        },
        "supplemental-item-description": [marc(RECORD)],
        "copyright-compliance": general("CCG"),
    },
    "Forward-Notification": {"intermediary-id": institution("CaOTU"), "notification-note": general("sent on to OTU")},
    "Shipped": {
        "supplemental-item-description": [marc(RECORD)],
        "shipped-service-type": 2,
        "supply-details": {
            "date-shipped": "20260118",
            "shipped-via": {"electronic-delivery": electronic()},
            "no-of-units-per-medium": [{"medium": 1, "no-of-units": 12}],
        },
    },
    "ILL-Answer": {
        "transaction-results": 5,
        "results-explanation": {
            "will-supply-results": {
                "reason-will-supply": 5,
                "supply-date": "20260120",
                "return-to-address": {"city": general("Montreal"), "country": general("Canada")},
                "electronic-delivery-service": electronic(),
            }
        },
        "responder-specific-results": {"indirect-reference": 2, "encoding": {"octet-aligned": {"octets": ""}}},
    },
    "Conditional-Reply": {"answer": True},
    "Cancel": {"requester-note": general("no longer wanted")},
    "Cancel-Reply": {"answer": True},
    "Received": {"supplemental-item-description": [marc(RECORD)], "date-received": "20260121", "shipped-service-type": 2},
    "Recall": {"responder-note": general("wanted here")},
    "Returned": {"supplemental-item-description": [], "date-returned": "20260301", "insured-for": {"currency-code": "CAD", "monetary-value": "80.00"}},
    "Checked-In": {"date-checked-in": "20260305"},
    "Overdue": {"date-due": {"date-due-field": "20260215", "renewable": False}},
    "Renew": {"desired-due-date": "20260315"},
    "Renew-Answer": {"answer": False},
    "Lost": {"note": general("lost in the mail")},
    "Damaged": {"damaged-details": {"document-type-id": "1.2.840.10003.109.1", "damaged-portion": {"specific-units": [3, 4]}}},
    "Message": {"note": general("please scan in colour")},
    "Status-Query": {},
    "Status-Or-Error-Report": {
        "status-report": {
            "user-status-report": {
                "title": general("Journal of Documentation"),
                "date-of-last-transition": "20260118",
                "most-recent-service": 3,
                "date-of-most-recent-service": "20260118",
                "initiator-of-most-recent-service": institution("CaQMM"),
            },
            "provider-status-report": 5,
        },
        "error-report": {
            "correlation-information": general("1"),
            "report-source": 2,
            "provider-error-report": {"state-transition-prohibited": {"apdu-type": 9, "current-state": 8}},
        },
    },
    "Expired": {},
}


def values():
    """The APDUs, as the encoder has them."""
    for number, (name, row) in enumerate(zip(NAMES[ROOT][1], ALL_ROWS[ROOT], strict=True)):
        body = {**HEAD, **BODIES[name], NAMES[row.node][1][-1]: [extension()]}
        yield number, from_json(row.node, body)


def main():
    files = {"module.ber": b"", "module.der": b""}
    for apdu in values():
        for name, writer in (("module.ber", Indefinite()), ("module.der", Writer())):
            octets = writer.value(ROOT, apdu, None)
            assert message(octets, "module") == apdu, apdu
            files[name] += octets
    wrong = [name for name, octets in files.items() if not (FOLDER / name).exists() or (FOLDER / name).read_bytes() != octets]
    if "--check" in sys.argv:
        sys.exit(f"examples/make.py: {wrong} differ" if wrong else 0)
    for name in wrong:
        (FOLDER / name).write_bytes(files[name])


if __name__ == "__main__":
    main()
