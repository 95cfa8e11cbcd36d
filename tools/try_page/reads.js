/* What is read and done within the page, by name. */
const all = css => [...document.querySelectorAll(css)];
const one = css => document.querySelector(css);
const text = css => one(css)?.innerText ?? "";
const focused = () => document.activeElement;
const isShown = element => element.getClientRects().length > 0 && element.checkVisibility();
const seen = (css, begins) => all(css).find(element => isShown(element) && element.textContent.trim().startsWith(begins ?? "")) ?? null;
const cells = at => all("tbody tr").map(row => row.cells[at].textContent);
const amounts = () => cells(2).map(amount => parseInt(amount.replaceAll(",", "")));
const row = name => all("tbody tr").find(each => each.cells[0].textContent === name)?.textContent ?? "";
const fields = (...names) => names.map(name => one(`[name=${name}]`).value);
const wrongField = () => one("input:invalid")?.name;
const keys = () => sessionStorage.length;
const group = () => one(".genealogy .group")?.getAttribute("aria-label") ?? "";
const isWithin = (some, list) => some.length > 0 && some.length < list.length && some.every(each => list.includes(each));
const isSorted = list => list.length > 0 && list.every((each, at) => at === 0 || list[at - 1] <= each);

/** The cells of the table in the part of a lot with this heading. */
function rowsOf(title) {
  const part = all("section").find(each => each.querySelector("h2")?.textContent === title);
  return [...part.querySelectorAll("tbody tr")].map(each => [...each.cells].map(cell => cell.textContent));
}

/** The rows of a part of Home, or null if it has no such part. */
function needs(title) {
  const part = all(".need").find(each => each.querySelector("h2").textContent.startsWith(title));
  return part ? [...part.querySelectorAll("li, tbody tr")].map(each => each.innerText.replace(/\s+/g, " ")) : null;
}

/** The view's heading, empty while the view is one that leaveView() marked. */
const heading = () => one("h1")?.isLeft ? "" : (one("h1")?.firstChild?.textContent ?? "").trim();
const leaveView = () => { if (one("h1")) one("h1").isLeft = true; };

/** Marks the view as leaveView() does, if an element that is seen leads to another address. */
function leaveViewBy(css, text) {
  const target = seen(css, text)?.hash;
  if (target && target !== location.hash) leaveView();
}

function intoSight(css, whole) {
  const wanted = all(css).find(element => whole === null || element.textContent === whole);
  wanted?.scrollIntoView({ block: "center" });
  return wanted !== undefined;
}

/** From now on a click that comes to something else than this element is kept from it, as when rows have moved meanwhile. */
function aim(wanted) {
  const kinds = ["pointerdown", "mousedown", "pointerup", "mouseup", "click"];
  const aimed = window.aimed = { hasHit: false, end: () => kinds.forEach(kind => removeEventListener(kind, aimed, true)), handleEvent(event) {
    if (wanted.contains(event.target)) return void (aimed.hasHit ||= event.type === "click");
    event.preventDefault();
    event.stopImmediatePropagation();
  } };
  kinds.forEach(kind => addEventListener(kind, aimed, true));
}

/** Whether the click came to it; in a document that the click led to, it did. */
const hasHit = () => { window.aimed?.end(); return window.aimed?.hasHit ?? true; };

/** The document asks so many milliseconds later for what begins so. */
function delay(begins, rest) {
  const soon = window.withoutRest = window.fetch;
  window.fetch = async (path, ...given) => {
    if (path.startsWith(begins)) await new Promise(go => setTimeout(go, rest));
    return soon(path, ...given);
  };
}
