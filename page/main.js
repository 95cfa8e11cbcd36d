/** The page: who logs in and off, what stands around the views, and which view is shown. */

import { Forbidden, Office } from "./api.js";
import { Companion } from "./companion.js";
import { drawContact, introduce } from "./contact.js";
import { html } from "./dom.js";
import { IdleWatch } from "./idle.js";
import { MOST_PRINTED } from "./list.js";
import { failed, tell, waits, warnIdle } from "./notices.js";
import { isActing, Page } from "./page.js";
import { isPerson, loginOf, logOut, mayRelease, nameOf } from "./person.js";
import { read, toHome, toOrders, toRelease, toStock } from "./router.js";
import { goBackTo, leaving, stoodAt } from "./scrolling.js";
import { forget, giveUp, keep, see, seenAt, whoAsks } from "./session.js";
import { readSettings } from "./settings.js";
import { inline, language, momentText, t } from "./text.js";
import { time } from "./values.js";
import { home } from "./views/home.js";
import { logIn } from "./views/log-in.js";
import { lot } from "./views/lot.js";
import { nowhere } from "./views/nowhere.js";
import { order } from "./views/order.js";
import { orders } from "./views/orders.js";
import { offerPapers } from "./views/papers.js";
import { plant } from "./views/plant.js";
import { release } from "./views/releasing.js";
import { stock } from "./views/stock.js";

const VIEWS = { home, orders, order, stock, lot, plant, release, nowhere };
/** The pages of the menu: the title, the address, and the views that belong to each. */
const PARTS = [
  [t`Home`, toHome(), ["home"]], [t`Orders`, toOrders(), ["orders", "order"]], [t`Stock`, toStock(), ["stock", "lot", "plant"]],
  [t`Release`, toRelease(), ["release"]],
];
const TITLES = { home: t`Home`, orders: t`Orders`, order: t`Order`, stock: t`Stock`, lot: t`Lot`, plant: t`Lot`, release: t`Release` };

const UNKNOWN = t`Whether the last thing was done isn't known.`;

const at = id => document.getElementById(id);

document.documentElement.lang = language();
at("skip").textContent = t`To the content`;
at("nav").setAttribute("aria-label", t`Pages`);
at("programs").replaceChildren(...inline`For programs, the same interface: ${html("a", { href: "openapi.yaml" }, "openapi.yaml")}, and in words ${html("a", { href: "http.md" }, "http.md")}`);

const office = new Office({ waits });
const companion = new Companion(office, { late: drawAnew });
const app = { office, companion, show, sendAway, isShown: page => page === current };

let current = null;

const settings = await readSettings();
introduce(settings, companion);
offerPapers(settings);

// Logging in and off

/** The owner, or its person, who was logged off by the office or for doing nothing. */
let sentAway = null;

async function logInAs(who, signal) {
  await app.office.ask(who, "GET", "/orders", { signal });
  keep(who);
  const back = sentAway === loginOf(who);
  sentAway = null;
  if (!back && !["", "#/", toHome()].includes(location.hash)) history.replaceState(null, "", toHome());
  await show();
}

function logOff() {
  const unanswered = isActing();
  logOut(whoAsks());
  forget();
  sentAway = null;
  history.replaceState(null, "", "#/");
  show();
  if (unanswered) tell(`${t`You logged off before the office had answered.`} ${UNKNOWN}`, "bad");
}

/** The owner is logged off by somebody else, logs in again, and comes back to where it was. */
function logOffAnd(text) {
  // several requests may be told so
  if (!whoAsks()) return;
  const unanswered = isActing();
  sentAway = loginOf(whoAsks());
  logOut(whoAsks());
  forget();
  show();
  tell(unanswered ? `${text} ${UNKNOWN}` : text, "bad");
}

/** The key isn't taken any more. */
function sendAway() {
  logOffAnd(isPerson(whoAsks()) ? t`Your session is over. Log in again.` : t`The office doesn't take this name and key any more. Log in again.`);
}

const watch = new IdleWatch({
  minutes: settings.idleMinutes,
  session: { isOn: () => whoAsks() !== null, seenAt, see },
  warn: warnIdle,
  end: () => logOffAnd(t`You were logged off after ${time(settings.idleMinutes)} without a key or a click.`),
});

// Showing a view

async function show({ anew = false } = {}) {
  const stood = anew ? scrollY : stoodAt();
  current?.leave();
  const page = current = new Page(read(location.hash), app);
  if (!anew) tell("");
  drawBar(page);
  at("content").setAttribute("aria-busy", "true");
  const late = setTimeout(() => { if (!anew && page === current) at("view").replaceChildren(html("h1", { class: "reading" }, t`Reading…`)); }, 300);
  const view = await viewOf(page);
  clearTimeout(late);
  if (page !== current || !view) return;
  drawContact(at("plant"));
  draw(page, view, anew);
  goBackTo(stood, view.drawn, () => page === current);
}

async function viewOf(page) {
  try {
    return page.who ? await VIEWS[page.route.view](page) : logIn({ logInAs, tell, login: sentAway, settings, signal: page.signal });
  } catch (error) {
    if (page.signal.aborted) return null;
    if (error instanceof Forbidden) return sendAway();
    return { title: [TITLES[page.route.view], page.route.name].filter(Boolean).join(" "), body: failed(error, () => show()), isUnread: true };
  }
}

function draw(page, view, anew) {
  const heading = html("h1", { tabindex: -1 }, view.title, view.mark && [" ", view.mark]);
  const focused = anew ? document.activeElement?.dataset?.key : null;
  at("view").replaceChildren(
    html("div", { class: "head" }, html("div", {}, view.upward && html("p", { class: "upward" }, view.upward), heading), page.who && readAt(page.who, view)),
    ...[view.body].flat(Infinity).filter(Boolean));
  at("content").removeAttribute("aria-busy");
  document.title = `${view.title} - Hilpoven`;
  const key = focused && at("view").querySelector(`[data-key="${CSS.escape(focused)}"]`);
  (key || (view.focus ?? heading)).focus({ preventScroll: true });
}

/** Whose view it is and when it was read, or couldn't be, which stands on paper too. */
function readAt({ owner }, { isUnread = false }) {
  const now = momentText(new Date());
  return html("p", { class: "read" }, isUnread ? t`${owner}, not read: tried on ${now}` : t`${owner}, read on ${now}`,
    html("span", { id: "newer", role: "status" }),
    html("button", { type: "button", class: "quiet", "data-key": "again", click: readAgain }, t`Read again`));
}

function readAgain() {
  companion.expire();
  tell("");
  return show({ anew: true });
}

function drawBar({ who, route }) {
  const shown = PARTS.filter(([,, views]) => !views.includes("release") || mayRelease(who));
  const parts = shown.map(([title, address, views]) => html("a", { href: address, "aria-current": views.includes(route.view) && "page" }, title));
  at("nav").replaceChildren(...(who ? parts : []));
  at("who").replaceChildren(...(who ? [html("span", { class: "owner" }, nameOf(who)), html("button", { type: "button", click: logOff }, t`Log off`)] : []));
}

// The companion, each minute while the window is seen

const EACH = 60_000;

/** Draws the view anew, but not under the hands of somebody. */
function drawAnew() {
  const isInUse = isActing() || document.querySelector("dialog[open]") || document.activeElement?.matches("input, select");
  if (current?.who && !isInUse) show({ anew: true });
}

async function readCompanion() {
  const who = whoAsks();
  if (document.hidden || !who || !await companion.read(who)) return;
  drawContact(at("plant"));
  if (current?.route.view === "home") drawAnew();
  else at("newer")?.replaceChildren(t`The plant has recorded more since.`);
}

setInterval(readCompanion, EACH);

// What the browser does with the page

addEventListener("hashchange", () => {
  leaving();
  show();
});

// A browser may keep the page as it stands, and bring it back when another owner has logged in in the window.
addEventListener("pagehide", () => {
  current?.leave();
  giveUp();
  tell("");
  for (const id of ["view", "nav", "who", "plant"]) at(id).replaceChildren();
  document.title = "Hilpoven";
});
addEventListener("pageshow", event => { if (event.persisted) show(); });

at("skip").addEventListener("click", event => {
  event.preventDefault();
  at("content").focus();
});

// What is folded is printed too, but for long tables, which are printed where somebody has unfolded them. These are taken out
// meanwhile: a browser takes minutes to print none of 2,000 rows.
let [opened, taken] = [[], []];
addEventListener("beforeprint", () => {
  const isLong = details => details.dataset.rows > MOST_PRINTED;
  const folded = [...document.querySelectorAll("details:not([open])")];
  opened = folded.filter(details => !isLong(details));
  opened.forEach(details => { details.open = true; });
  taken = folded.filter(isLong).map(details => [details.querySelector(".table"), document.createComment("a table")]);
  taken.forEach(([table, place]) => table.replaceWith(place));
});
addEventListener("afterprint", () => {
  opened.forEach(details => { details.open = false; });
  taken.forEach(([table, place]) => place.replaceWith(table));
  [opened, taken] = [[], []];
});

watch.begin();
if (watch.look()) show();
