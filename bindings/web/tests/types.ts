/* A caller in TypeScript, which is only compiled: tsc -p tsconfig.json. What comes after @ts-expect-error has to be an error. */
import { BUILD_CAUSES, CAUSES, LIMIT, LINE_LIMIT, NotBuilt, OutOfMemory, Refused, Stopped, load } from "illcanon";
import type { Dump, Found, Illcanon, Json, Message, Octets, Placing, Profile, Reading, Writing } from "illcanon";

const calls: Illcanon = await load(new Uint8Array(8));
const octets: Octets[] = [new Uint8Array(1), new ArrayBuffer(1), new DataView(new ArrayBuffer(1))];
const profile: Profile = "module", reading: Reading = { profile }, writing: Writing = { profile, number: 7 };

/* What a type is has to be what is wanted, and no more: each takes the other. */
type Is<One, Other> = [One] extends [Other] ? ([Other] extends [One] ? true : false) : false;
function isSo<Holds extends true>(): Holds | undefined { return undefined; }

function useFound({ number, offset, octets, isNormal, normalSize, refusal, isEndKnown }: Found): void {
  isSo<Is<typeof number, number>>();
  isSo<Is<typeof offset, number>>();
  isSo<Is<typeof octets, Uint8Array>>();
  isSo<Is<typeof isNormal, boolean>>();
  isSo<Is<typeof normalSize, number | null>>();
  isSo<Is<typeof refusal, Refused | null>>();
  isSo<Is<typeof isEndKnown, boolean>>();
  if (isEndKnown) calls.normalise(octets, reading);
}

function useRefused({ offset, cause, part, number, message }: Refused): void {
  isSo<Is<typeof offset, number>>();
  isSo<Is<typeof cause, string>>();
  isSo<Is<typeof part, string | null>>();
  isSo<Is<typeof number, number>>();
  isSo<Is<typeof message, string>>();
}

function useNotBuilt({ cause, number, pointer, path, message }: NotBuilt): void {
  isSo<Is<typeof cause, string>>();
  isSo<Is<typeof number, number>>();
  isSo<Is<typeof pointer, string>>();
  isSo<Is<typeof path, readonly (string | number)[]>>();
  isSo<Is<typeof message, string>>();
}

const placing: Placing = { ...writing, offset: 9 }, json: string = calls.json(octets[0], placing), parsed: Message = calls.parse(octets[0], { offset: 9 });
const value: Json = { apdu: "Expired", value: { "protocol-version-num": 2n ** 63n - 1n, list: [1, null, true, "x"] } };
parsed.value["service-date-time"]["date-time-of-this-service"].date = "20270101";
const built: Uint8Array[] = [calls.build(parsed, reading), calls.build(json), calls.build(value), calls.build({ ...parsed, octets: 7n }), calls.build(new Uint8Array(1)), calls.build(json, { profile: "module", defaults: true })];
const said: string = parsed.apdu, isOfModule: boolean = parsed.profile === "module", longest: 16777216 = LINE_LIMIT, last: string | undefined = BUILD_CAUSES[21];
console.log(built, said, isOfModule, longest, last, useNotBuilt);

const form: Uint8Array = calls.normalise(octets[0], reading), sum: Uint8Array = calls.digest(form);
const isNormal: boolean = calls.check(form, {}), isSame: boolean = calls.same(form, form, reading);
const text: string = calls.show(form, writing), dump: Dump = calls.dump(form, { number: 1 });
isSo<Is<typeof dump, { text: string; refusal: Refused | null }>>();
for (const found of calls.messages(form, reading)) useFound(found);
if (dump.refusal) useRefused(dump.refusal);
const size: number = calls.memorySize, limit: 1048576 = LIMIT, first: string | undefined = CAUSES[0];
const errors: Error[] = [new OutOfMemory(), new Stopped()];
console.log(sum, isNormal, isSame, text, size, limit, first, errors);

// @ts-expect-error: text is no octets.
calls.normalise("74");
// @ts-expect-error: the profile alone is no options.
calls.check(form, "module");
// @ts-expect-error: there is no such option.
calls.check(form, { Profile: "module" });
// @ts-expect-error: there is no such profile.
calls.check(form, { profile: "3" });
// @ts-expect-error: a message has no number where it isn't written.
calls.check(form, { number: 7 });
// @ts-expect-error: only a line has an offset.
calls.show(form, { offset: 7 });
// @ts-expect-error: what is built has no number.
calls.build(json, { number: 7 });
// @ts-expect-error: undefined is no value of JSON.
calls.build({ apdu: undefined });
// @ts-expect-error: a function is no value of JSON.
calls.build({ apdu: () => "Expired" });
// @ts-expect-error: a refusal is not changed.
if (dump.refusal) dump.refusal.offset = 7;
// @ts-expect-error: the numbers of the causes are not changed.
CAUSES.push("Other");
