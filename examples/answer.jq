# An ILL-ANSWER to a request, of its line of JSON: the item is not supplied. --arg day 20270201 is the day of the answer.
{apdu: "ILL-Answer", value: (
  .value
  # What the request doesn't have is null here, and null is no value.
  | {"protocol-version-num", "transaction-id", "requester-id", "responder-id"}
  | with_entries(select(.value))
  + {
    "service-date-time": {"date-time-of-this-service": {date: $day}},
    "transaction-results": "unfilled",
    "results-explanation": {"unfilled-results": {"reason-unfilled": 1}}
  }
)}
