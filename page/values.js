/** Values of the interface: names, keys and numbers, as docs/http.md has them. */

import { dateText, grouped, plural, point } from "./text.js";

/** What a field for a name takes: as typed, so in small letters too. */
export const NAME_TYPED = "[A-Za-z0-9][A-Za-z0-9\\-]{0,15}";

/** What a field for a key takes. */
export const KEY_TYPED = "[A-Za-z0-9]{8,32}";

/** The owner that is the plant itself. */
export const PLANT = "HOUSE";

/** The most batches of an order. */
export const MOST_BATCHES = 99;

/** Whether it is a name, which may stand in an address. */
export const isName = name => typeof name === "string" && /^[A-Z0-9][A-Z0-9-]{0,15}$/.test(name);

/** A whole number in groups of three digits: 1,000. Sums may be larger than what a Number holds. */
export const number = value => grouped(BigInt(value));

/** A recorded whole number as measured: so many of its digits stand behind the point. */
export function decimal(value, decimals = 0) {
  if (decimals === 0) return number(value);
  const [sign, digits] = BigInt(value) < 0n ? ["-", String(-BigInt(value))] : ["", String(value)];
  const padded = digits.padStart(decimals + 1, "0");
  return `${sign}${number(padded.slice(0, -decimals))}${point()}${padded.slice(-decimals)}`;
}

/** The date that a day is, at midnight of Greenwich: of six digits that are one of this century (YYMMDD); null of another number. */
export function dateOf(value) {
  const [, year, month, date] = /^([1-9]\d)(\d\d)(\d\d)$/.exec(value) ?? [];
  const text = `20${year}-${month}-${date}`;
  const time = new Date(`${text}T00:00:00Z`);
  return !Number.isNaN(time.getTime()) && time.toISOString().startsWith(text) ? time : null;
}

/** A day as people read it: a date in the form of their language, another number as it is. */
export function day(value) {
  const date = dateOf(value);
  return date ? dateText(date) : String(value);
}

/** The day, as six digits, that it is on this machine so many days from now. */
export function dayFromNow(days, now = new Date()) {
  const date = new Date(now.getFullYear(), now.getMonth(), now.getDate() + days);
  return Number(date.toLocaleDateString("sv").replaceAll("-", "").slice(2));
}

/** An amount with its measure: 1,000 kg. */
export const amount = (value, measure) => `${number(value)} ${measure}`;

/** How many lots there are: 1 lot, 2,000 lots. */
export const lotCount = n => plural(n, "{0} lot", "{0} lots");

/** How many days. */
export const dayCount = n => plural(n, "{0} day", "{0} days");

/** A time in minutes, which may be less than one: 15 minutes, 30 seconds. */
export const time = minutes => (Number.isInteger(minutes) ? plural(minutes, "{0} minute", "{0} minutes") : plural(Math.round(minutes * 60), "{0} second", "{0} seconds"));

/** How much of what is required is there: 98 %, 100.2 %. It is rounded down, so that 100 % is never less. */
export function share(actual, required) {
  const tenths = (BigInt(actual) * 1000n) / BigInt(required);
  return `${grouped(tenths / 10n)}${tenths % 10n === 0n ? "" : `${point()}${tenths % 10n}`} %`;
}

/** The value that a reply's JSON text tells. Numbers of 16 digits and more stay texts, as they stand. */
export const parse = text => JSON.parse(text.replace(/("[a-z]+":)(\d{16,})(?=[,}])/g, '$1"$2"'));

/** Puts numbers in order, those that are texts too. */
export const compareNumbers = (a, b) => (BigInt(a) < BigInt(b) ? -1 : BigInt(a) > BigInt(b) ? 1 : 0);

/** Puts names in the order of the interface. */
export const compareNames = (a, b) => (a < b ? -1 : a > b ? 1 : 0);
