/** The owner's orders: all of them, a new one, and cancelling. */

import { chip } from "../chips.js";
import { html, link, unseen } from "../dom.js";
import { Finder, table } from "../list.js";
import { tell } from "../notices.js";
import { daysOf, OPEN, statusIn, STATUSES } from "../order-status.js";
import { mayOrder } from "../person.js";
import { toOrder, toStock } from "../router.js";
import { plural, t } from "../text.js";
import { amount, compareNames, day, MOST_BATCHES, NAME_TYPED, number, PLANT } from "../values.js";
import { CancelButtons } from "./cancelling.js";
import { drafted } from "./draft.js";
import { fieldAtFault, needsOf, outcome, recipesOffered, standing } from "./placing.js";

/** A phone's width, as in style.css: the form is folded. */
const NARROW = "(max-width: 40rem)";

const byOrder = (a, b) => compareNames(a.order, b.order);
const byStatus = (a, b) => STATUSES.indexOf(a.status) - STATUSES.indexOf(b.status) || byOrder(a, b);

/** Puts rows in the order of a day, the latest first; those without one come last. */
const byDay = name => (a, b) => (b[name] ?? -1) - (a[name] ?? -1) || byOrder(a, b);

export async function orders(page) {
  const [{ orders: placed }, records] = await Promise.all([page.get("/orders"), page.records()]);
  const isOffered = mayOrder(page.who);
  const stock = isOffered && records?.recipes.length > 0 ? (await page.get("/stock")).lots : [];
  const rows = placed.map(order => ({ ...order, status: statusIn(records, order), ...daysOf(records, order) }));
  const finder = orderList(page, rows);
  return {
    title: t`Orders`,
    body: [isOffered && newOrder(page, recipesOffered(records, rows), records, stock), html("section", { class: "card" }, html("h2", { class: "unseen" }, t`All orders`), finder.element)],
    drawn: finder.drawn,
  };
}

/** The list: open orders come first, then the finished and the cancelled ones. */
function orderList(page, rows) {
  const buttons = mayOrder(page.who) && new CancelButtons(page);
  const dated = (name, title, file) => rows.some(row => row[name] !== undefined) && {
    name, title, cell: order => (order[name] === undefined ? "" : day(order[name])), compare: byDay(name), values: { [file]: order => order[name] },
  };
  return new Finder(page, {
    caption: t`Orders`,
    file: "orders",
    words: {
      find: t`Find orders`, search: t`Search orders`, title: t`orders`, none: t`No orders yet.`, nothing: t`No order fits what you searched and chose.`,
      count: n => plural(n, "{0} order", "{0} orders"), all: n => plural(n, "Show the order", "Show all {0} orders"),
    },
    rows,
    usualSort: "status",
    search: order => `${order.order} ${order.recipe}`,
    classOf: order => (order.status === OPEN ? null : "past"),
    choices: [{ name: "status", title: t`Status`, options: STATUSES, of: order => order.status }],
    columns: [
      { name: "order", title: t`Order`, cell: order => link(toOrder(order.order), order.order), compare: byOrder, values: { Order: order => order.order } },
      { name: "recipe", title: t`Recipe`, cell: order => order.recipe, compare: (a, b) => compareNames(a.recipe, b.recipe) || byOrder(a, b), values: { Recipe: order => order.recipe } },
      { name: "batches", title: t`Batches`, number: true, cell: order => number(order.batches), compare: (a, b) => a.batches - b.batches || byOrder(a, b), values: { Batches: order => order.batches } },
      { name: "status", title: t`Status`, cell: order => chip(order.status), compare: byStatus, values: { Status: order => order.status } },
      dated("placed", t`Placed on`, "Placed on"), dated("begun", t`Begun on`, "Begun on"), dated("finished", t`Finished on`, "Finished on"),
      buttons && { name: "acts", title: unseen(t`What can be done`), acts: true, cell: order => order.status === OPEN && buttons.place(order.order) },
    ].filter(Boolean),
  });
}

function newOrder(page, recipes, records, stock) {
  const draft = drafted();
  const name = field({ name: "order", title: t`1 to 16 letters, digits and -` });
  const isChosen = records?.recipes.length > 0;
  const recipe = isChosen ? recipeChoice(recipes) : field({ name: "recipe", title: t`1 to 16 letters, digits and -`, list: "recipes" });
  const batches = html("input", { name: "batches", type: "number", min: 1, max: MOST_BATCHES, value: 1, required: true, ...CHECKED("batches") });
  const button = html("button", { class: "main" }, t`Place the order`);
  const fields = { order: name, recipe };

  async function submit(event) {
    event.preventDefault();
    const body = { order: name.value.toUpperCase(), recipe: recipe.value.toUpperCase(), batches: Number(batches.value) };
    await page.act(button, "/orders", {
      body,
      before: get => standing(get, body.order),
      notice: (reply, stood) => {
        const result = outcome(reply, stood);
        if (result.tone !== "bad") draft.clear();
        return result;
      },
      refused: error => {
        const wrong = fields[fieldAtFault(error)];
        wrong.focus();
        wrong.select?.();
      },
    });
  }

  const needs = html("div", { class: "needs", role: "status" });
  const showNeeds = () => needs.replaceChildren(...needsPart(page, records, stock, recipe.value, Number(batches.value)));
  const form = html("form", { class: "fields", submit, input: showNeeds, change: showNeeds },
    html("label", {}, t`Order`, name), html("label", {}, t`Recipe`, recipe), html("label", { class: "narrow" }, t`Batches`, batches), button);
  draft.fill(form);
  showNeeds();
  return html("section", { class: "card" },
    html("details", { class: "fold", open: draft.isBegun || !matchMedia(NARROW).matches },
      html("summary", {}, html("h2", {}, t`New order`)), form, needs, recipes.length === 0 && html("p", { class: "soft" }, noRecipes(records))),
    html("datalist", { id: "recipes" }, recipes.map(known => html("option", { value: known }))));
}

/** A field that offers the recipes. */
const recipeChoice = recipes => html("select", { name: "recipe", required: true, ...CHECKED("recipe") },
  html("option", { value: "" }, t`choose a recipe`), recipes.map(known => html("option", { value: known }, known)));

/** What so many batches of a recipe need beside what is on hand, and what they make. */
function needsPart(page, records, stock, name, batches) {
  const recipe = records?.recipes.find(each => each.recipe === name);
  if (!recipe || !(batches >= 1 && batches <= MOST_BATCHES)) return [];
  const { consumed, produced } = needsOf(recipe, batches, stock, page.who.owner);
  const measured = (row, value) => amount(value, records.material(row.owner, row.material)?.measure ?? "");
  const nameOf = row => {
    const { description } = records.material(row.owner, row.material) ?? {};
    const isOwn = row.owner === page.who.owner;
    return [isOwn ? link(toStock({ material: row.material }), row.material) : row.material, row.owner === PLANT && html("small", { class: "soft" }, ` ${t`the plant's`}`), description && html("small", { class: "soft" }, ` ${description}`)];
  };
  const columns = [
    { title: t`It needs`, cell: nameOf },
    { title: t`Amount`, number: true, cell: row => measured(row, row.needed) },
    { title: t`Released on hand`, number: true, cell: row => row.released !== null && measured(row, row.released) },
    { title: t`In quarantine`, number: true, cell: row => row.quarantined !== null && measured(row, row.quarantined) },
    { title: t`Enough`, cell: row => row.missing !== null && (row.missing > 0n ? html("span", { class: "why failed-test" }, t`${measured(row, row.missing)} missing`) : t`yes`) },
  ];
  const made = produced.map(row => `${measured(row, row.needed)} ${row.material}`).join(", ");
  return [
    consumed.length > 0 && table({ caption: t`What the order needs`, columns, rows: consumed }),
    html("p", { class: "soft" }, made && t`It makes ${made}.`, " ", consumed.length > 0 && t`Other orders may need the same stock.`),
  ].filter(Boolean);
}

/** What is said where no recipe can be offered. */
const noRecipes = records => (records ? t`The plant has defined no recipe for you yet.` : t`Ask the plant for the names of your recipes.`);

/** What a field has so that a redrawn view finds it again, and that an old notice goes when it is checked. */
const CHECKED = name => ({ "data-key": `new-${name}`, invalid: () => tell("") });

const field = given => html("input", {
  required: true, pattern: NAME_TYPED, autocomplete: "off", autocapitalize: "characters", spellcheck: "false", class: "name", ...given, ...CHECKED(given.name),
});
