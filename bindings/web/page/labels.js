/* The labels of a message's rows, and the sections of its form. */

/** Labels of rows. A row that isn't here has its own name as its label. */
const LABELS = {
  "account-number": "Account number",
  "additional-no-letters": "Additional numbers or letters",
  "already-tried-list": "Already tried",
  "apdu-type": "APDU",
  "arbitrary": "Bits",
  "billing-address": "Bill to",
  "can-send-checked-in": "Can send Checked-In",
  "can-send-received": "Can send Received",
  "can-send-returned": "Can send Returned",
  "can-send-shipped": "Can send Shipped",
  "client-id": "Client",
  "client-identifier": "Number",
  "client-name": "Name",
  "client-status": "Status",
  "conditional-results": "Conditional",
  "cost-info-type": "Costs",
  "currency-code": "Currency",
  "date-due": "Due",
  "date-due-field": "Date due",
  "date-for-reply": "Reply by",
  "date-time-of-original-service": "Original service",
  "date-time-of-this-service": "This service",
  "delivery-address": "Deliver to",
  "desired-due-date": "Desired date due",
  "e-delivery-address": "Electronic address",
  "e-delivery-description": "Description",
  "e-delivery-id": "System",
  "e-delivery-mode": "Mode",
  "e-delivery-parameters": "Parameters of the mode",
  "document-type-parameters": "Parameters of the type",
  "estimate-results": "Estimate",
  "expiry-flag": "Expires",
  "extended-postal-delivery-address": "Additional address",
  "forward-flag": "Forwarded",
  "held-medium-type": "Medium held",
  "hold-placed-medium-type": "Medium",
  "hold-placed-results": "Hold placed",
  "ill-service-type": "Service type",
  "initial-requester-id": "Initial requester",
  "initiator-of-most-recent-service": "Initiator of the most recent service",
  "institution-symbol": "Symbol of institution",
  "intermediary-id": "Intermediary",
  "isbn": "ISBN",
  "issn": "ISSN",
  "item-id": "Item",
  "level-of-service": "Level of service",
  "location-id": "Library",
  "location-list": "Location",
  "locations-results": "Locations provided",
  "monetary-value": "Amount",
  "name-of-institution": "Name of institution",
  "name-of-person": "Name of person",
  "national-bibliography-no": "National bibliography number",
  "need-before-date": "Need before",
  "no-of-units": "Number of units",
  "no-of-units-per-medium": "Units",
  "octet-aligned": "Octets",
  "pagination": "Pages",
  "person-symbol": "Symbol of person",
  "place-on-hold": "Place on hold",
  "protocol-version-num": "Protocol version",
  "publication-date": "Date of publication",
  "publication-date-of-component": "Date of publication of the part",
  "reason-locs-provided": "Reason",
  "reason-no-report": "Reason for no report",
  "reason-not-available": "Reason",
  "reason-unfilled": "Reason",
  "reason-will-supply": "Reason",
  "requester-checked-in": "Wants Checked-In",
  "requester-id": "Requester",
  "requester-optional-messages": "Optional messages of the requester",
  "requester-shipped": "Wants Shipped",
  "responder-id": "Responder",
  "responder-optional-messages": "Optional messages of the responder",
  "responder-received": "Wants Received",
  "responder-returned": "Wants Returned",
  "retry-date": "Retry on",
  "retry-flag": "Retried",
  "retry-results": "Retry",
  "return-insurance-require": "Insurance for the return",
  "search-type": "Search",
  "send-to-list": "Send to",
  "shipped-conditions": "Conditions",
  "shipped-service-type": "Service type",
  "single-asn1-type": "ASN.1 value",
  "street-and-number": "Street and number",
  "sub-title": "Subtitle",
  "sub-transaction-qualifier": "Subtransaction",
  "supplemental-item-description": "Description of the item",
  "supplier-id": "Supplier",
  "supply-details": "Supply",
  "supply-medium-info-type": "Medium",
  "supply-medium-type": "Medium",
  "system-id": "System",
  "system-no": "System number",
  "telecom-service-address": "Address",
  "telecom-service-identifier": "Network",
  "third-party-info-type": "Third parties",
  "transaction-group-qualifier": "Transaction group",
  "transaction-id": "Transaction",
  "transaction-qualifier": "Transaction number",
  "transaction-results": "Result",
  "unfilled-results": "Unfilled",
  "volume-issue": "Volume and issue",
  "will-supply-results": "Will supply",
};

/** Rows without a label: what is in them stands beside them, in the group round it. */
const SEEN_THROUGH = new Set([
  "person-or-institution-symbol", "name-of-person-or-institution", "service-date-time", "results-explanation", "damaged-portion", "encoding",
]);

/** The rows of an APDU that come first, by their sections; all others are in the last one, in the message's order. */
const SECTIONS = [
  { title: "Who", rows: "requester-id responder-id transaction-id intermediary-id supplier-id client-id" },
  { title: "What", rows: "ill-service-type shipped-service-type transaction-type item-id supplemental-item-description supply-details" },
  { title: "Dates", rows: "service-date-time search-type date-received date-returned date-checked-in date-due desired-due-date" },
  { title: "Results",
    rows: "transaction-results results-explanation responder-specific-results answer reason-no-report status-report error-report damaged-details" },
];
const LAST_SECTION = "More";

/** The label of a row. */
export function labelOf(row) {
  if (Object.hasOwn(LABELS, row)) return LABELS[row];
  const words = row.replaceAll("-", " ");
  return words.charAt(0).toUpperCase() + words.slice(1);
}

/** Says whether a row has no label of its own. */
export function isSeenThrough(row) {
  return SEEN_THROUGH.has(row);
}

/** The rows in sections, in the order in which a person reads them. Each row is in one of them, and no section is empty. */
export function inSections(rows) {
  const sections = SECTIONS.map(({ title, rows: names }) => ({ title, rows: names.split(" ").filter((row) => rows.includes(row)) }));
  const taken = new Set(sections.flatMap((section) => section.rows));
  sections.push({ title: LAST_SECTION, rows: rows.filter((row) => !taken.has(row)) });
  return sections.filter((section) => section.rows.length);
}
