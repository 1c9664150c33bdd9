/* Why no message is made of the fields, in words. */

/** What the causes of `NotBuilt` say of a field. */
const WORDS_FOR_CAUSES = {
  NotJson: "A character is half of a pair.",
  LineTooLong: "The fields have too much text for a message.",
  WrongType: "Another kind of value is due.",
  UnknownMember: "This part is not due here.",
  RepeatedMember: "This part is there twice.",
  LeftOut: "Profile 2 doesn’t read this part. The module profile does.",
  MissingMember: "This has to be there.",
  NotOneMember: "One of several parts has to be there, and no more.",
  UnknownName: "This is no name of a number.",
  OtherName: "The number has another name.",
  NotWhole: "This is no whole number.",
  NumberTooLong: "The number has more than 64 bits.",
  BadCharacter: "A character is not in Latin-1, so no ISO ILL message can have it.",
  BadText: "A character is not one that this field can have.",
  BadDate: "This is no day that exists. Write year, month and day as 2027-01-31.",
  BadTime: "This is no time of day. Write hours, minutes and seconds as 14:05:00.",
  BadHexadecimal: "These are no pairs of hexadecimal digits.",
  BadBits: "The number of bits is not that of the octets.",
  BadOid: "This is no object identifier, such as 1.2.840.10003.5.10.",
  BadForeign: "This is no DER of one element.",
  NormalTooLong: "The message would have more than 1,048,576 octets.",
  OtherProfile: "The message is of the other profile.",
};

/** What is said of a text in the place of a number. */
const WORDS_FOR_NUMBERS = "This is no whole number.";

/** What a refusal says of a part of a kind. */
export function wordsOfRefusal({ cause }, kind) {
  if (kind === "number" && (cause === "WrongType" || cause === "UnknownName")) return WORDS_FOR_NUMBERS;
  return WORDS_FOR_CAUSES[cause] || "";
}
