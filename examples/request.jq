# An ILL-REQUEST for a loan, of an object with `id`, `day` (as 20270131) and `title`.
def text: {general: .};
{apdu: "ILL-Request", value: {
  "protocol-version-num": 2,
  "transaction-id": {"transaction-group-qualifier": (.id | text), "transaction-qualifier": ("1" | text)},
  "service-date-time": {"date-time-of-this-service": {date: .day}},
  "ill-service-type": ["loan"],
  "requester-optional-messages": {
    "can-send-received": true,
    "can-send-returned": true,
    "requester-shipped": 1,
    "requester-checked-in": 1
  },
  "item-id": {"item-type": "monograph", title: (.title | text)}
}}
