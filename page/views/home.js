/** What needs the owner: lots to decide on, failed tests, batches that stand, and what is new. */

import { chip } from "../chips.js";
import { fact, html, link } from "../dom.js";
import { table } from "../list.js";
import { FINISHED, OPEN, statusIn } from "../order-status.js";
import { mayRelease } from "../person.js";
import { toHome, toLot, toOrder, toOrders, toPlantLot, toRelease, toStock } from "../router.js";
import { t } from "../text.js";
import { amount, dateOf, day, dayCount, dayFromNow, number } from "../values.js";
import { waitingOf, waitOf } from "../waiting.js";
import { statementForm } from "./papers.js";
import { traceField } from "./tracing.js";

/** The most rows of a list; all others are a click away. */
const MOST = 10;

const STANDING = new Set(["holding", "held", "aborting", "aborted"]);

/** For how many days back something counts as new, as it may be chosen. */
const DAYS = [1, 7, 30];
const USUAL_DAYS = 7;

export async function home(page) {
  const [{ lots }, { orders }, records] = await Promise.all([page.get("/stock"), page.get("/orders"), page.records()]);
  const waiting = waitingOf(lots);
  return {
    title: t`Home`,
    body: [
      html("section", { class: "card" }, traceField(page)),
      records ? needs(waiting, records, mayRelease(page.who)) : quarantine(waiting),
      records ? news(page, records, new Map(lots.map(row => [row.lot, row.measure]))) : null,
      standing(lots, orders, records),
      statementForm(page),
    ],
  };
}

// What needs the owner

/** A part of the view: how many rows there are, and the first of them. */
function part(title, rows, draw, target, act = null) {
  const rest = rows.length - MOST;
  return html("section", { class: "card need" },
    html("h2", {}, title, " ", html("span", { class: rows.length > 0 ? "tally" : "tally none" }, number(rows.length))),
    rows.length === 0 ? html("p", { class: "soft" }, t`None.`) : html("ul", { class: "rows" }, rows.slice(0, MOST).map(row => html("li", {}, draw(row)))),
    rows.length > 0 && act,
    rest > 0 && html("p", {}, link(target, t`and ${number(rest)} more`)));
}

const QUARANTINED = toStock({ disposition: "quarantined" });

const lotLine = (row, ...details) => [link(toLot(row.lot), row.lot), html("span", { class: "soft" }, ` ${row.material}, ${amount(row.amount, row.measure)}`), details];

function needs(waiting, records, isReleasing) {
  const rows = waiting.map(row => waitOf(row, records));
  const ready = rows.filter(row => row.blocks.length === 0);
  const failed = rows.filter(row => row.hasFailed);
  const others = rows.filter(row => row.blocks.length > 0 && !row.hasFailed);
  const why = row => lotLine(row, html("span", { class: row.hasFailed ? "why failed-test" : "why" }, row.blocks.join(" ")));
  const stands = records.batches.filter(row => STANDING.has(row.state) && !row.closed);
  return html("div", { class: "two" },
    part(t`Lots to release`, ready, row => lotLine(row, row.held && html("span", { class: "why" }, row.held)), isReleasing ? toRelease() : QUARANTINED,
      isReleasing && html("p", {}, link(toRelease(), t`Release many lots`))),
    part(t`Failed tests`, failed, why, QUARANTINED),
    part(t`Batches held or aborted`, stands, row => batchLine(row, records), toOrders()),
    part(t`Lots that wait for the plant`, others, why, QUARANTINED));
}

function batchLine({ order, batch, state, unit }, records) {
  const why = records.reasonFor({ order, batch });
  return [link(toOrder(order), `${order}/${batch}`), " ", chip(state), html("span", { class: "soft" }, ` ${t`on unit ${unit}`}`), why && html("span", { class: "why" }, why)];
}

const quarantine = waiting => part(t`Lots in quarantine`, waiting, row => lotLine(row), QUARANTINED);

// What is new

/** What is news of a movement; nothing of a split, and of what a batch consumed. */
const WORDS = {
  receipt: () => t`received`, scrap: () => t`scrapped`, shipment: (row, records) => (row.to ? t`shipped to ${records.partyOf(row.to)}` : t`shipped`), actual: row => (row.use === "produced" ? t`made` : null),
};
const wordOf = (row, records) => WORDS[row.kind]?.(row, records) ?? null;

/** What was received, made, shipped and scrapped on the last days, the latest first. */
export function newsOf(records, days, now) {
  const first = dayFromNow(1 - days, now);
  const isNews = row => row.day >= first && dateOf(row.day) && !row.voided && wordOf(row, records);
  return records.movements.filter(isNews).reverse().sort((a, b) => b.day - a.day);
}

/** `measures` has the measure of each lot. */
function news(page, records, measures) {
  const days = DAYS.find(each => String(each) === page.route.query.get("days")) ?? USUAL_DAYS;
  const rows = newsOf(records, days);
  const way = each => html("a", { href: toHome({ days: each }), "aria-current": each === days && "page" }, dayCount(each));
  const columns = [
    { title: t`Lot`, cell: row => link(row.lotOwner === records.owner ? toLot(row.lot) : toPlantLot(row.lot), row.lot) },
    { title: t`Day`, cell: row => day(row.day) },
    { title: t`What`, cell: row => wordOf(row, records) },
    { title: t`Amount`, number: true, cell: row => amount(row.amount, measures.get(row.lot) ?? "") },
    { title: t`Batch`, cell: row => row.order && link(toOrder(row.order), `${row.order}/${row.batch}`) },
  ];
  return html("section", { class: "card need" },
    html("div", { class: "line" }, html("h2", {}, t`Received, made and shipped`, " ", html("span", { class: "tally none" }, number(rows.length))),
      html("nav", { class: "ways", "aria-label": t`How far back` }, DAYS.map(way))),
    rows.length === 0 ? html("p", { class: "soft" }, t`The plant recorded nothing for the last ${dayCount(days)}.`)
      : table({ caption: t`What was received, made, shipped and scrapped, the latest first`, columns, rows: rows.slice(0, MOST), signal: page.signal }),
    rows.length > MOST && html("p", { class: "soft" }, t`The latest ${MOST} of ${number(rows.length)}.`));
}

// What there is

/** How many orders and lots there are. Which orders are finished is known by a companion alone. */
function standing(lots, orders, records) {
  const statuses = orders.map(order => statusIn(records, order));
  const tally = (title, status) => fact(title, link(toOrders({ status }), number(statuses.filter(each => each === status).length)));
  return html("section", { class: "card facts" },
    html("dl", {}, tally(t`Open orders`, OPEN), records && tally(t`Finished orders`, FINISHED), fact(t`Lots`, link(toStock(), number(lots.length)))));
}
