/**
 * Papers that an owner takes as PDF, where the site makes them (docs/persons.md): certificates, batch records and statements
 * of what is its own. Each is asked for once; what comes instead of it is told.
 */

import { html } from "../dom.js";
import { tell } from "../notices.js";
import { wayOf } from "../person.js";
import { t } from "../text.js";

// the site makes a paper in some seconds, or in two minutes at most
const LONGEST_REQUEST = 160_000;
const REFUSALS = new Map([
  [401, () => t`Your session is over. Log in again.`],
  [403, () => t`You may not take this paper.`],
  [404, () => t`There is no such paper.`],
  [429, () => t`Other papers are being made. Try again in a moment.`],
]);
const unmade = () => t`The site can't make papers now. Try again later, or ask the plant.`;

/** Whether the site makes papers, as its settings say. */
let isOffered = false;

/** Offers papers on all views, where the site's settings say that it makes them. */
export function offerPapers(settings) {
  isOffered = settings.papers === true;
}

/** The paper of a path as a file, for who asks. Fails with an error that says why there is none. */
export async function take(who, path, { fetch = (...request) => globalThis.fetch(...request), signal } = {}) {
  const way = wayOf(who, path);
  const limit = AbortSignal.timeout(LONGEST_REQUEST);
  const how = { headers: way.headers, credentials: way.credentials, signal: signal ? AbortSignal.any([signal, limit]) : limit, cache: "no-store", redirect: "error" };
  const reply = await fetch(way.path, how).catch(() => null);
  const isPaper = reply?.status === 200 && reply.headers.get("content-type") === "application/pdf";
  const file = isPaper ? await reply.blob().catch(() => null) : null;
  if (!file) throw new Error((REFUSALS.get(reply?.status) ?? unmade)());
  return file;
}

/** The name of a paper's file: whose it is, and what. */
export const fileOf = ({ owner }, path) => `${owner}${path.replace("/papers", "").replaceAll("/", "-")}.pdf`;

function save(name, file) {
  const address = URL.createObjectURL(file);
  html("a", { href: address, download: name }).click();
  // the browser has taken it by then
  setTimeout(() => URL.revokeObjectURL(address), 10_000);
}

async function download(page, button, path) {
  button.disabled = true;
  tell(t`The paper is being made.`);
  try {
    const file = await take(page.who, path, { signal: page.signal });
    save(fileOf(page.who, path), file);
    tell(t`The paper is in your downloads.`, "good");
  } catch (error) {
    if (!page.signal.aborted) tell(error.message, "bad");
  } finally {
    button.disabled = false;
  }
}

function paperButton(page, path, text) {
  const button = html("button", { type: "button", class: "quiet", "data-key": `paper-${path}`, click: () => download(page, button, path) }, text);
  return html("p", {}, button);
}

/** A button that takes a lot's certificate; nothing where the site makes no papers. */
export const certificateButton = (page, lot) => isOffered && paperButton(page, `/papers/certificate/${lot}`, t`Certificate (PDF)`);

/** A button that takes a batch's record. */
export const batchButton = (page, order, batch) => isOffered && paperButton(page, `/papers/batch/${order}/${batch}`, t`Record of batch ${batch} (PDF)`);

/** A date as the office has days: six digits. */
const dayOf = date => date.slice(2).replaceAll("-", "");

/** The first and the last day of the month before a date. */
export function lastMonth(now) {
  const day = (year, month, number) => new Date(year, month, number).toLocaleDateString("sv");
  return [day(now.getFullYear(), now.getMonth() - 1, 1), day(now.getFullYear(), now.getMonth(), 0)];
}

/** A form that takes a statement of receipts, uses, shipments and stock between two days, by default of the last month. */
export function statementForm(page, now = new Date()) {
  if (!isOffered) return null;
  const [first, last] = lastMonth(now).map((value, place) => html("input", { type: "date", name: ["from", "to"][place], required: true, value }));
  const button = html("button", { class: "quiet" }, t`Statement (PDF)`);
  function submit(event) {
    event.preventDefault();
    if (first.value > last.value) tell(t`The last day is before the first one.`, "bad");
    else download(page, button, `/papers/statement/${dayOf(first.value)}/${dayOf(last.value)}`);
  }
  return html("section", { class: "card" },
    html("h2", {}, t`Statement`), html("p", { class: "soft" }, t`Receipts, uses, shipments and stock of each lot, between two days.`),
    html("form", { class: "fields", submit }, html("label", {}, t`From`, first), html("label", {}, t`To`, last), button));
}
