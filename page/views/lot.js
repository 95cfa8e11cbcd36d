/** A lot: its disposition and what decides it, its tests, sublots, results and shipments, and its genealogy. */

import { chip } from "../chips.js";
import { downloadButton } from "../csv.js";
import { fact, html, link, unseen } from "../dom.js";
import { Genealogy } from "../genealogy/view.js";
import { table } from "../list.js";
import { toOrder, toStock } from "../router.js";
import { inline, t, word } from "../text.js";
import { amount, dateOf, day, dayFromNow, number } from "../values.js";
import { blocksOf, heldBy, judgementOf, limits, measured, verdict, verdictsOf } from "../verdicts.js";
import { deciding } from "./deciding.js";
import { certificateButton } from "./papers.js";

const MEANINGS = {
  quarantined: () => t`In quarantine: nothing is shipped or consumed out of this lot until you release it.`,
  released: () => t`Released: the plant may ship it, and consume it in your batches. You may still reject it.`,
  rejected: () => t`Rejected, which nobody can undo: nothing is shipped or consumed out of this lot any more.`,
};

export async function lot(page) {
  const { name } = page.route;
  const [askedLot, records] = await Promise.all([page.get(`/lots/${name}`), page.records()]);
  const place = html("div", {}, html("p", { class: "card soft" }, t`Reading the genealogy…`));
  const drawn = page.fill(place, () => drawGenealogy(page, name, records, place));
  const tests = records?.testsOf(askedLot.material);
  return {
    upward: link(toStock(), t`Stock`),
    title: t`Lot ${askedLot.lot}`,
    mark: chip(askedLot.disposition),
    drawn,
    body: [
      facts(page, askedLot, records, tests),
      html("div", { class: "two" },
        tests?.length > 0 && testsPart(page, askedLot, tests), results(page, askedLot, tests, records?.lot(askedLot.lot)), sublots(page, askedLot), records && shipments(page, askedLot, records)),
      place,
    ],
  };
}

/** What the picture stands on: both traces, the lots in stock by name, and what the companion tells. */
async function drawGenealogy(page, name, records, place) {
  const [back, forward, stock] = await Promise.all([`/trace/back/${name}`, `/trace/forward/${name}`, "/stock"].map(path => page.get(path)));
  const genealogy = new Genealogy(page, { back: back.lots, forward: forward.lots, stock: new Map(stock.lots.map(row => [row.lot, row])), records });
  place.replaceChildren(genealogy.element);
  await genealogy.drawn;
}

function facts(page, askedLot, records, tests) {
  const whole = askedLot.sublots.reduce((sum, sublot) => sum + BigInt(sublot.amount), 0n);
  const row = records?.lot(askedLot.lot);
  return html("section", { class: "card facts" },
    html("dl", {},
      fact(t`Material`, link(toStock({ material: askedLot.material }), askedLot.material)),
      fact(t`On hand`, amount(whole, askedLot.measure)),
      fact(t`Comes from`, origin(askedLot.origin)),
      row && notedFacts(row, records)),
    html("p", {}, MEANINGS[askedLot.disposition]()),
    row && warnings(row).map(text => html("p", { class: "blocks" }, text)),
    records?.reasonFor({ lot: askedLot.lot }) && html("p", {}, html("span", { class: "soft" }, t`The plant noted:`), " ", records.reasonFor({ lot: askedLot.lot })),
    deciding(page, askedLot, records ? blocksOf(row, tests, askedLot.results) : []),
    certificateButton(page, askedLot.lot));
}

/** What the plant noted of a lot. */
function notedFacts(row, records) {
  const isDay = ([, value]) => value !== undefined;
  const days = [[t`Made on`, row.made], [t`Test again on`, row.retest], [t`Expires on`, row.expires], [t`Signed by the plant on`, row.signed?.day]];
  const sources = records.movementsOf(row.lot).filter(each => each.kind === "receipt" && !each.voided).map(each => sourceOf(each, records)).filter(Boolean);
  return [days.filter(isDay).map(([title, value]) => fact(title, day(value))), sources.length > 0 && fact(t`Received`, [...new Set(sources)].join("; "))];
}

/** Who a receipt is from, the supplier's name of the lot, and the document. */
const sourceOf = ({ from, supplierLot, document }, records) => [from && records.partyOf(from), supplierLot && t`lot ${supplierLot}`, document].filter(Boolean).join(", ");

/** What doesn't keep the lot from being released, and is to be known: the plant's word, and days that have passed. */
function warnings(row, now = new Date()) {
  const { expires, retest } = row;
  const isPast = date => date !== undefined && dateOf(date) && date < dayFromNow(0, now);
  return [
    heldBy(row),
    ...(row.foreign ?? []).map(noted => t`It contains material of another owner, noted on ${day(noted.day)}.`),
    isPast(expires) && t`It expired on ${day(expires)}.`,
    isPast(retest) && t`It was to be tested again on ${day(retest)}.`,
  ].filter(Boolean);
}

function origin(from) {
  if (from === "receipts") return t`receipts`;
  const [name, batch] = from.split("/");
  return inline`batch ${batch} of order ${link(toOrder(name), name)}`;
}

/** A part of the view with its table, or what is said where it has no rows. */
function part(page, { title, file, rows, columns, none, note }) {
  const shown = () => [table({ caption: title, rows, columns }), note];
  return html("section", { class: "card" },
    html("div", { class: "line" }, html("h2", {}, title), rows.length > 0 && downloadButton(page, { file, title }, columns, () => rows)),
    rows.length === 0 ? html("p", { class: "soft" }, none) : shown());
}

/** A test with its full name and its method, as noted. */
const testCell = ({ test, description, method }) => [test, (description || method) && html("small", { class: "soft" }, ` ${[description, method].filter(Boolean).join(", ")}`)];

/** Each test of the material: its limits, the latest value, and whether that passes. */
const testsPart = (page, askedLot, tests) => part(page, {
  title: t`Tests`,
  file: `${askedLot.lot}-tests`,
  rows: verdictsOf(tests, askedLot.results),
  columns: [
    { title: t`Test`, cell: testCell, values: { Test: row => row.test, Description: row => row.description, Method: row => row.method } },
    { title: t`Value`, number: true, cell: row => (row.value === undefined ? "" : measured(row, row.value)), values: { Value: row => row.value } },
    { title: t`Limits`, number: true, cell: limits, values: { Low: row => row.low, High: row => row.high, Unit: row => row.unit, Decimals: row => row.decimals } },
    { title: t`Verdict`, cell: row => chip(row.word), values: { Verdict: row => row.word } },
  ],
});

const sublots = (page, askedLot) => part(page, {
  title: t`Sublots`,
  file: `${askedLot.lot}-sublots`,
  none: t`The lot has no sublot.`,
  rows: askedLot.sublots,
  columns: [
    { title: t`Sublot`, cell: sublot => sublot.sublot, values: { Sublot: sublot => sublot.sublot } },
    { title: t`On hand`, number: true, cell: sublot => amount(sublot.amount, askedLot.measure), values: { "On hand": sublot => sublot.amount, Measure: () => askedLot.measure } },
  ],
});

/** Of a result that is a bound: the measured value is below or above it. */
const SIGNS = { below: "<", above: ">" };

/** All results, as they came. The last of each test is the one that counts for the release. */
function results(page, askedLot, tests, row) {
  const bounds = row?.bounds ?? [];
  const counts = new Set(new Map(askedLot.results.map(result => [result.test, result])).values());
  const standingOf = result => (counts.has(result) ? t`counts` : t`earlier`);
  const testOf = row => tests?.find(test => test.test === row.test);
  const bound = result => SIGNS[bounds.find(each => each.test === result.test && each.value === result.value && each.day === result.day)?.bound] ?? "";
  const judgement = result => judgementOf(row, tests, result);
  const value = result => (judgement(result) ? null : `${bound(result)}${testOf(result) ? measured(testOf(result), result.value) : number(result.value)}`);
  const verdictOf = result => judgement(result) ?? (testOf(result) && verdict(testOf(result), result.value));
  const passing = { title: t`Verdict`, cell: result => word(verdictOf(result)), values: { Verdict: verdictOf } };
  const test = result => [result.test, judgement(result) && html("small", { class: "soft" }, ` ${t`the plant's own test`}`)];
  return part(page, {
    title: t`Results`,
    file: `${askedLot.lot}-results`,
    none: t`The plant has recorded no result of this lot yet.`,
    rows: askedLot.results,
    columns: [
      { title: t`Test`, cell: test, values: { Test: result => result.test } },
      { title: t`Value`, number: true, cell: value, values: { Value: result => result.value } },
      { title: t`Day`, number: true, cell: result => day(result.day), values: { Day: result => result.day } },
      ...(tests ? [passing] : []),
      { title: unseen(t`Whether it counts`), cell: result => (counts.has(result) ? standingOf(result) : html("span", { class: "soft" }, standingOf(result))), values: { Counts: result => (counts.has(result) ? "counts" : "earlier") } },
    ],
    note: html("p", { class: "soft" }, t`All that were recorded, in the order in which they came. The last of each test counts.`),
  });
}

/** What was shipped of the lot, and to whom. Voided shipments are left out. */
const shipments = (page, askedLot, records) => part(page, {
  title: t`Shipments`,
  file: `${askedLot.lot}-shipments`,
  none: t`The plant has recorded no shipment of this lot.`,
  rows: records.shipmentsOf(askedLot.lot).filter(row => !row.voided),
  columns: [
    { title: t`Recipient`, cell: row => (row.to ? records.partyOf(row.to) : html("span", { class: "soft" }, t`not noted`)), values: { Recipient: row => row.to } },
    { title: t`Day`, number: true, cell: row => day(row.day), values: { Day: row => row.day } },
    { title: t`Sublot`, cell: row => row.sublot, values: { Sublot: row => row.sublot } },
    { title: t`Amount`, number: true, cell: row => amount(row.amount, askedLot.measure), values: { Amount: row => row.amount, Measure: () => askedLot.measure } },
    { title: t`Document`, cell: row => row.document, values: { Document: row => row.document, Key: row => row.key } },
  ],
});
