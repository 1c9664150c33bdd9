/* The names of the numbers of a message, as the module of ISO 10161-1 spells them. */

/** Each enumeration: the rows that have its numbers, and each number with its name. */
const ENUMERATIONS = [
  { rows: "transaction-type", names: "1 simple, 2 chained, 3 partitioned" },
  { rows: "ill-service-type shipped-service-type", names: "1 loan, 2 copy-non-returnable, 3 locations, 4 estimate, 5 responder-specific" },
  { rows: "place-on-hold", names: "1 yes, 2 no, 3 according-to-responder-policy" },
  { rows: "item-type", names: "1 monograph, 2 serial, 3 other" },
  { rows: "held-medium-type hold-placed-medium-type",
    names: "1 printed, 3 microform, 4 film-or-video-recording, 5 audio-recording, 6 machine-readable, 7 other" },
  { rows: "supply-medium-type medium",
    names: "1 printed, 2 photocopy, 3 microform, 4 film-or-video-recording, 5 audio-recording, 6 machine-readable, 7 other" },
  { rows: "requester-shipped requester-checked-in responder-received responder-returned", names: "1 requires, 2 desires, 3 neither" },
  { rows: "expiry-flag", names: "1 need-Before-Date, 2 other-Date, 3 no-Expiry" },
  { rows: "preference", names: "1 ordered, 2 unordered" },
  { rows: "shipped-conditions",
    names: "22 library-use-only, 23 no-reproduction, 24 client-signature-required, 25 special-collections-supervision-required, "
      + "27 other" },
  { rows: "transaction-results",
    names: "1 conditional, 2 retry, 3 unfilled, 4 locations-provided, 5 will-supply, 6 hold-placed, 7 estimate" },
  { rows: "conditions",
    names: "13 cost-exceeds-limit, 14 charges, 15 prepayment-required, 16 lacks-copyright-compliance, 22 library-use-only, "
      + "23 no-reproduction, 24 client-signature-required, 25 special-collections-supervision-required, 27 other, "
      + "28 responder-specific, 30 proposed-delivery-service" },
  { rows: "reason-not-available",
    names: "1 in-use-on-loan, 2 in-process, 6 on-order, 7 volume-issue-not-yet-available, 8 at-bindery, 13 cost-exceeds-limit, "
      + "14 charges, 15 prepayment-required, 16 lacks-copyright-compliance, 17 not-found-as-cited, 19 on-hold, 27 other, "
      + "28 responder-specific" },
  { rows: "reason-unfilled",
    names: "1 in-use-on-loan, 2 in-process, 3 lost, 4 non-circulating, 5 not-owned, 6 on-order, 7 volume-issue-not-yet-available, "
      + "8 at-bindery, 9 lacking, 10 not-on-shelf, 11 on-reserve, 12 poor-condition, 13 cost-exceeds-limit, 14 charges, "
      + "15 prepayment-required, 16 lacks-copyright-compliance, 17 not-found-as-cited, 18 locations-not-found, 19 on-hold, "
      + "20 policy-problem, 21 mandatory-messaging-not-supported, 22 expiry-not-supported, "
      + "23 requested-delivery-services-not-supported, 24 preferred-delivery-time-not-possible, 27 other, 28 responder-specific" },
  { rows: "reason-locs-provided",
    names: "1 in-use-on-loan, 2 in-process, 3 lost, 4 non-circulating, 5 not-owned, 6 on-order, 7 volume-issue-not-yet-available, "
      + "8 at-bindery, 9 lacking, 10 not-on-shelf, 11 on-reserve, 12 poor-condition, 13 cost-exceeds-limit, 19 on-hold, "
      + "27 other, 28 responder-specific" },
  { rows: "reason-will-supply",
    names: "1 in-use-on-loan, 2 in-process, 6 on-order, 8 at-bindery, 19 on-hold, 26 being-processed-for-supply, 27 other, "
      + "28 responder-specific, 30 electronic-delivery" },
  { rows: "most-recent-service",
    names: "1 iLL-REQUEST, 21 fORWARD, 2 fORWARD-NOTIFICATION, 3 sHIPPED, 4 iLL-ANSWER, 5 cONDITIONAL-REPLY, 6 cANCEL, "
      + "7 cANCEL-REPLY, 8 rECEIVED, 9 rECALL, 10 rETURNED, 11 cHECKED-IN, 14 rENEW-ANSWER, 15 lOST, 16 dAMAGED, 17 mESSAGE, "
      + "18 sTATUS-QUERY, 19 sTATUS-OR-ERROR-REPORT, 20 eXPIRED" },
  { rows: "current-state provider-status-report",
    names: "1 nOT-SUPPLIED, 2 pENDING, 3 iN-PROCESS, 4 fORWARD, 5 cONDITIONAL, 6 cANCEL-PENDING, 7 cANCELLED, 8 sHIPPED, "
      + "9 rECEIVED, 10 rENEW-PENDING, 11 nOT-RECEIVED-OVERDUE, 12 rENEW-OVERDUE, 13 oVERDUE, 14 rETURNED, 15 cHECKED-IN, "
      + "16 rECALL, 17 lOST, 18 uNKNOWN" },
  { rows: "apdu-type",
    names: "1 iLL-REQUEST, 2 fORWARD-NOTIFICATION, 3 sHIPPED, 4 iLL-ANSWER, 5 cONDITIONAL-REPLY, 6 cANCEL, 7 cANCEL-REPLY, "
      + "8 rECEIVED, 9 rECALL, 10 rETURNED, 11 cHECKED-IN, 12 oVERDUE, 13 rENEW, 14 rENEW-ANSWER, 15 lOST, 16 dAMAGED, "
      + "17 mESSAGE, 18 sTATUS-QUERY, 19 sTATUS-OR-ERROR-REPORT, 20 eXPIRED" },
  { rows: "intermediary-problem", names: "1 cannot-send-onward" },
  { rows: "unable-to-perform", names: "1 not-available, 2 resource-limitation, 3 other" },
  { rows: "general-problem",
    names: "1 unrecognized-APDU, 2 mistyped-APDU, 3 badly-structured-APDU, 4 protocol-version-not-supported, 5 other" },
  { rows: "transaction-id-problem", names: "1 duplicate-transaction-id, 2 invalid-transaction-id, 3 unknown-transaction-id" },
  { rows: "report-source", names: "1 user, 2 provider" },
  { rows: "reason-no-report", names: "1 temporary, 2 permanent" },
];

/** The enumerations by their rows: a list of pairs of a number and its name. */
const PAIRS_OF_ROWS = new Map(ENUMERATIONS.flatMap(({ rows, names }) => {
  const pairs = names.split(", ").map((pair) => pair.split(" ")).map(([number, name]) => [Number(number), name]);
  return rows.split(" ").map((row) => [row, pairs]);
}));

/** The numbers of a row, each with its name as the module spells it; null where its numbers have no names. */
export function namesOfNumbers(row) {
  return PAIRS_OF_ROWS.get(row) || null;
}

/** A name of a number as a person reads it: `in-use-on-loan` as “In use on loan”, `iLL-REQUEST` as “ILL request”. */
export function spokenName(name) {
  const words = name.toLowerCase().replaceAll("-", " ").replace(/\b(ill|apdu)\b/g, (word) => word.toUpperCase());
  return words.charAt(0).toUpperCase() + words.slice(1);
}
