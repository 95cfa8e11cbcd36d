/** An order with its batches: their states, and what they took and made beside what is required. */

import { bar } from "../bar.js";
import { chip } from "../chips.js";
import { downloadButton } from "../csv.js";
import { fact, html, link } from "../dom.js";
import { table } from "../list.js";
import { daysOf, OPEN, statusIn, statusOf } from "../order-status.js";
import { mayOrder } from "../person.js";
import { toLot, toOrders, toStock } from "../router.js";
import { plural, t } from "../text.js";
import { day, lotCount, number, PLANT } from "../values.js";
import { batchOf, cancelButton } from "./cancelling.js";
import { batchButton } from "./papers.js";

const AT_A_TIME = 3;

/** The most lots of a batch that are named at once. */
const NAMED = 12;

/** What the file of an order has: a row for each requirement of each batch. */
const COLUMNS = [
  { values: { Order: batch => batch.order, Batch: batch => batch.batch, Unit: batch => batch.unit, State: batch => batch.state, Closed: batch => (batch.closed ? "yes" : "no"), "Opened on": batch => batch.openedOn, "Closed on": batch => batch.closedOn } },
  { values: { Material: requirement => requirement.material, Owner: requirement => requirement.owner, Segment: requirement => requirement.segment, Use: requirement => requirement.use, Required: requirement => requirement.required, Actual: requirement => requirement.actual } },
];

export async function order(page) {
  const [askedOrder, records] = await Promise.all([page.get(`/orders/${page.route.name}`), page.records()]);
  const [opened, closed] = [html("span", {}, "…"), html("span", {}, "…")];
  const acts = html("div", { class: "buttons" });
  const batches = html("div", { class: "batches" });
  const status = html("span", {}, chip(statusIn(records, askedOrder)));
  const drawn = page.fill(batches, async () => {
    const read = await drawBatches(page, records, askedOrder, batches);
    opened.textContent = t`${read.length} of ${askedOrder.batches}`;
    closed.textContent = t`${read.filter(batch => batch.closed).length} of ${askedOrder.batches}`;
    status.replaceChildren(chip(statusOf(askedOrder, n => read[n - 1]?.closed === true)));
    if (read.length > 0) acts.append(downloadButton(page, { file: askedOrder.order, title: t`batches` }, COLUMNS, () => rowsOf(read, records)));
    else {
      const isOpen = askedOrder.status === OPEN;
      batches.append(html("p", { class: "card soft" }, isOpen ? t`The plant has opened no batch of it yet.` : t`No batch of it was opened.`));
      if (isOpen && mayOrder(page.who)) acts.append(cancelButton(page, askedOrder.order));
    }
  });
  return {
    upward: link(toOrders(), t`Orders`),
    title: t`Order ${askedOrder.order}`,
    mark: status,
    drawn,
    body: [
      html("section", { class: "card facts" },
        html("dl", {}, fact(t`Recipe`, askedOrder.recipe), fact(t`Batches opened`, opened), fact(t`Batches closed`, closed), dayFacts(daysOf(records, askedOrder))), acts),
      batches,
    ],
  };
}

/** The days of an order, as far as they are known. */
const dayFacts = ({ placed, begun, finished }) => [[t`Placed on`, placed], [t`Begun on`, begun], [t`Finished on`, finished]]
  .filter(([, value]) => value !== undefined).map(([title, value]) => fact(title, day(value)));

/** Each requirement of each batch, with what the batch is, and its days where the companion tells them. */
export function rowsOf(batches, records) {
  const daysOfBatch = ({ order, batch }) => {
    const { openedOn, closedOn } = records?.batch(order, batch) ?? {};
    return { openedOn, closedOn };
  };
  return batches.flatMap(batch => batch.requirements.map(requirement => ({ ...batch, ...daysOfBatch(batch), ...requirement })));
}

/** Reads and draws batches until there is no further one, and gives those that there are. */
async function drawBatches(page, records, { order: name, batches: most }, place) {
  const read = [];
  for (let at = 1; at <= most; at += AT_A_TIME) {
    const numbers = Array.from({ length: Math.min(AT_A_TIME, most - at + 1) }, (_, i) => at + i);
    const replies = await Promise.all(numbers.map(n => batchOf(page, name, n)));
    const none = replies.indexOf(null);
    const batches = none < 0 ? replies : replies.slice(0, none);
    read.push(...batches);
    place.append(...batches.map(batch => card(page, records, batch)));
    if (none >= 0) break;
  }
  return read;
}

function card(page, records, batch) {
  const measured = (row, value) => [number(value), measureOf(records, row)].filter(Boolean).join(" ");
  return html("section", { class: "card", "aria-label": t`Batch ${batch.batch}` },
    html("h2", {}, t`Batch ${batch.batch}`, " ", chip(batch.state), batch.closed && [" ", chip("closed")]),
    html("p", { class: "soft" }, aboutBatch(batch, records?.batch(batch.order, batch.batch))),
    table({
      caption: t`Requirements and actuals of batch ${batch.batch}`,
      rows: batch.requirements,
      columns: [
        { title: t`Material`, cell: requirement => materialOf(page, requirement) },
        { title: t`Segment`, number: true, cell: requirement => number(requirement.segment) },
        { title: t`Use`, cell: requirement => requirement.use },
        { title: t`Required`, number: true, cell: requirement => measured(requirement, requirement.required) },
        { title: t`Actual`, number: true, cell: requirement => measured(requirement, requirement.actual) },
        { title: t`Share`, cell: requirement => bar(requirement) },
      ],
    }),
    whyOf(records?.reasonFor({ order: batch.order, batch: batch.batch })),
    lotsMade(records?.batch(batch.order, batch.batch)),
    batchButton(page, batch.order, batch.batch));
}

/** Where a batch is made, on which days, and by how much of its recipe. */
const aboutBatch = (batch, { openedOn, closedOn } = {}) => [
  t`On unit ${batch.unit}.`, openedOn !== undefined && t`Opened on ${day(openedOn)}.`, closedOn !== undefined && t`Closed on ${day(closedOn)}.`,
  plural(batch.requirements.length, "{0} requirement of its recipe.", "{0} requirements of its recipe."),
].filter(Boolean).join(" ");

/** The measure of a requirement's material, where the companion tells it. */
const measureOf = (records, { owner, material }) => records?.material(owner, material)?.measure;

/** Why the plant gave the batch its last command that has a reason. */
const whyOf = text => text && html("p", {}, html("span", { class: "soft" }, t`The plant noted:`, " "), text);

/** The lots that a batch made, where the companion tells them. */
function lotsMade(batch) {
  const lots = batch?.lots ?? [];
  if (lots.length === 0) return batch && html("p", { class: "soft" }, t`It has made no lot yet.`);
  const names = lots.flatMap((name, i) => [i > 0 && ", ", link(toLot(name), name)]);
  const line = html("p", { class: "made" }, html("span", { class: "soft" }, t`Made ${lotCount(lots.length)}:`), " ", names);
  return lots.length <= NAMED ? line : html("details", {}, html("summary", {}, t`Made ${lotCount(lots.length)}`), line);
}

const materialOf = (page, { material, owner }) => (owner === page.who.owner ? link(toStock({ material }), material)
  : [material, html("small", { class: "soft" }, owner === PLANT ? ` ${t`the plant's`}` : ` ${t`${owner}'s`}`)]);
