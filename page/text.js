/**
 * The page's texts in the browser's language. A text is named by its English words, which stand in the code; a file of
 * texts/ has them in another language, the form of numbers and days, and which words are of which plural.
 */

import { DE } from "./texts/de.js";
import { EN } from "./texts/en.js";

const LANGUAGES = new Map([["en", EN], ["de", DE]]);

/** The first of the languages that a browser prefers that the page has, without its region; English where it has none. */
export const bestOf = preferred => preferred.map(name => name.split("-")[0].toLowerCase()).find(name => LANGUAGES.has(name)) ?? "en";

let spoken;

/** Has all texts be in a language from now on. */
export function speak(language) {
  const file = LANGUAGES.get(language);
  const day = (given, zone) => new Intl.DateTimeFormat(file.days, { ...given, ...(zone && { timeZone: zone }) });
  const date = { year: "numeric", month: "2-digit", day: "2-digit" };
  spoken = {
    language, texts: file.texts, numbers: new Intl.NumberFormat(language), plurals: new Intl.PluralRules(language),
    days: day(date, "UTC"), moments: day({ ...date, hour: "2-digit", minute: "2-digit", second: "2-digit", hourCycle: "h23" }),
    point: new Intl.NumberFormat(language).formatToParts(1.5).find(part => part.type === "decimal").value,
  };
}

speak(bestOf(globalThis.navigator?.languages ?? []));

/** The language that is spoken: the name that <html lang> has. */
export const language = () => spoken.language;

/** The sign between the whole and the decimals of a number. */
export const point = () => spoken.point;

/** A whole number in groups of three digits. */
export const grouped = value => spoken.numbers.format(value);

/** A date, given as the moment of its midnight at Greenwich. */
export const dateText = date => spoken.days.format(date);

/** A moment with its seconds, in the machine's time zone. */
export const momentText = date => spoken.moments.format(date);

const PLACE = /\{(\d)\}/;

/** A text with its values in their places, piece by piece. */
const filled = (text, values) => text.split(PLACE).map((part, i) => (i % 2 === 1 ? values[part] : part)).filter(part => part !== "");

const keyOf = parts => parts.map((part, i) => (i > 0 ? `{${i - 1}}${part}` : part)).join("");

const textOf = name => (Object.hasOwn(spoken.texts, name) ? spoken.texts[name] : name);

/** A text with its values: t`Order ${name} is placed.` */
export const t = (parts, ...values) => filled(textOf(keyOf(parts)), values).join("");

/** The same in pieces, some of which are elements. */
export const inline = (parts, ...values) => filled(textOf(keyOf(parts)), values);

const literal = text => text.replace(/[.*+?^${}()|[\]\\]/g, "\\$&");

/** The text of a sentence that a module made in English, whatever stands in its places; one that isn't known stays. */
export function phrase(sentence) {
  if (typeof textOf(sentence) === "string" && textOf(sentence) !== sentence) return textOf(sentence);
  for (const [name, text] of Object.entries(spoken.texts)) {
    if (typeof text !== "string" || !PLACE.test(name)) continue;
    const places = [...name.matchAll(/\{(\d)\}/g)].map(([, place]) => Number(place));
    const match = new RegExp(`^${name.split(/\{\d\}/).map(literal).join("(.+?)")}$`).exec(sentence);
    if (match) return filled(text, Object.fromEntries(places.map((place, i) => [place, match[i + 1]]))).join("");
  }
  return sentence;
}

/** A word of the page that stands for something, and is shown by `word`. */
export const key = ([name]) => name;

/** What a word of the page is called, such as that of a verdict; a word of the office's own is called as it is. */
export const word = name => textOf(name);

/**
 * A text about how many there are, in the form that this number has: plural(n, "{0} lot", "{0} lots"). The number is in
 * {0}, further values in {1} and so on.
 */
export function plural(n, one, other, ...values) {
  const forms = Object.hasOwn(spoken.texts, other) ? spoken.texts[other] : { one, other };
  const form = spoken.plurals.select(Number(n));
  return filled(forms[form] ?? forms.other, [grouped(BigInt(n)), ...values]).join("");
}
