/* A message of an input, without its octets, which stay in the input. */

/** What a message is, for the filter. */
export function kindOf(message) {
  if (message.refusal) return "refused";
  return message.isNormal ? "normal" : "other";
}

/** The class and the words of a message's badge. */
export function badgeOf(message) {
  return { refused: ["bad", "refused"], normal: ["good", "normal"], other: ["warn", "not normal"] }[kindOf(message)];
}

export class Message {
  constructor(input, { number, offset, octets, isNormal, normalSize, refusal, isEndKnown }) {
    Object.assign(this, { input, number, offset, size: octets.length, isNormal, normalSize, refusal, isEndKnown, name: "" });
  }

  get octets() {
    return this.input.octets.subarray(this.offset, this.offset + this.size);
  }

  /** The name of the input. */
  get file() {
    return this.input.name;
  }
}
