/* Looked at within the page: what is wrong with what is shown. Each gives a list of words, empty where all is well. */
const channel = level => (level /= 255) <= 0.04045 ? level / 12.92 : ((level + 0.055) / 1.055) ** 2.4;
const light = ([r, g, b]) => 0.2126 * channel(r) + 0.7152 * channel(g) + 0.0722 * channel(b);
const colour = text => { const [r, g, b, a = 1] = (text.match(/[\d.]+/g) ?? [0, 0, 0, 0]).map(Number); return [r, g, b, a]; };
const over = ([r, g, b, a], [R, G, B]) => [r * a + R * (1 - a), g * a + G * (1 - a), b * a + B * (1 - a)];
const ratio = (a, b) => { const [dark, bright] = [light(a), light(b)].sort((x, y) => x - y); return (bright + 0.05) / (dark + 0.05); };
const isSeen = element => { const box = element.getBoundingClientRect(); return box.width > 1 && box.height > 1 && getComputedStyle(element).visibility !== "hidden" && element.checkVisibility(); };
const words = element => element.textContent.trim().replace(/\s+/g, " ").slice(0, 40);

const grounds = new Map();

/** What is behind an element: all backgrounds from the outside in, the fill of a box of the picture among them. */
function behind(element) {
  if (element === null) return [255, 255, 255];
  if (grounds.has(element)) return grounds.get(element);
  const drawn = element.matches("g.flag, .genealogy .box") ? element.querySelector(":scope > rect, :scope > .outline") : null;
  const ground = over(colour(drawn ? getComputedStyle(drawn).fill : getComputedStyle(element).backgroundColor), behind(element.parentElement));
  grounds.set(element, ground);
  return ground;
}

/** Rows of long lists that are far out of sight: the browser lays them out when they are looked at, one by one. */
function farRows() {
  const long = [...document.querySelectorAll("table")].filter(table => table.rows.length > 300);
  return new Set(long.flatMap(table => [...table.tBodies]).flatMap(body => [...body.rows]).filter(row => {
    const { top, bottom } = row.getBoundingClientRect();
    return bottom < -innerHeight || top > 2 * innerHeight;
  }));
}

function contrasts() {
  const wrong = [];
  const far = farRows();
  const texts = document.createTreeWalker(document.body, NodeFilter.SHOW_TEXT);
  let least = 21;
  while (texts.nextNode()) {
    const element = texts.currentNode.parentElement;
    if (texts.currentNode.data.trim() === "" || far.has(element.closest("tr")) || !isSeen(element) || element.closest(":disabled")) continue;
    const style = getComputedStyle(element);
    const ground = behind(element);
    const contrast = ratio(over(colour(element.closest("svg") ? style.fill : style.color), ground), ground);
    least = Math.min(least, contrast);
    if (contrast < 4.5) wrong.push(`contrast ${contrast.toFixed(2)} of "${words(element)}"`);
  }
  // the shapes of chips and boxes, and the frames of fields, are to be told from what is behind them
  for (const shape of document.querySelectorAll(".shape .filled, input, select, .genealogy .way")) {
    if (far.has(shape.closest("tr")) || !isSeen(shape)) continue;
    const style = getComputedStyle(shape);
    const line = shape.matches("input, select") ? style.borderTopColor : shape.matches(".way") ? style.stroke : style.fill;
    const contrast = ratio(over(colour(line), behind(shape.parentElement)), behind(shape.parentElement));
    if (contrast < 3) wrong.push(`contrast ${contrast.toFixed(2)} of a ${shape.matches("input, select") ? `field ${shape.name}` : shape.getAttribute("class")}`);
  }
  for (const chip of document.querySelectorAll(".chip")) {
    if (far.has(chip.closest("tr")) || !isSeen(chip)) continue;
    const contrast = ratio(over(colour(getComputedStyle(chip, "::before").backgroundColor), behind(chip)), behind(chip));
    if (contrast < 3) wrong.push(`contrast ${contrast.toFixed(2)} of the shape of "${words(chip)}"`);
  }
  return { least, wrong };
}

/** Whatever is used has a name, each button its own, tables have captions and heads, and there is one heading of the first level. */
function names() {
  const wrong = [];
  for (const field of document.querySelectorAll("input, select")) if (!field.labels?.length || words(field.labels[0]) === "") wrong.push(`the field ${field.name} has no label`);
  for (const control of document.querySelectorAll("button, a, summary, [role=button]")) if (words(control) === "" && !control.getAttribute("aria-label")) wrong.push(`a ${control.tagName} has no name`);
  const named = new Map();
  for (const button of document.querySelectorAll("button:not(.sort)")) {
    const name = button.getAttribute("aria-label") ?? button.textContent.trim();
    named.set(name, (named.get(name) ?? 0) + 1);
  }
  for (const [name, buttons] of named) if (buttons > 1) wrong.push(`${buttons} buttons are called "${name}"`);
  for (const table of document.querySelectorAll("table")) if (!table.caption || !table.tHead) wrong.push("a table has no caption or no heads");
  for (const region of document.querySelectorAll("[role=img], [role=region], section[aria-label], nav")) if (!region.getAttribute("aria-label")) wrong.push(`a ${region.tagName} has no name`);
  for (const selector of ["h1", "main", "header", "nav"]) if (document.querySelectorAll(selector).length === 0) wrong.push(`there is no ${selector}`);
  if (document.querySelectorAll("h1").length > 1) wrong.push("there are several h1");
  const twice = [...document.querySelectorAll("[id]")].map(element => element.id).filter((id, i, all) => all.indexOf(id) !== i);
  if (twice.length > 0) wrong.push(`ids that are there twice: ${twice}`);
  if (!["en", "de"].includes(document.documentElement.lang)) wrong.push("the page has no language");
  return wrong;
}

/** Whatever is clicked that isn't a word of a text is at least 24 px wide and high, as WCAG 2.2 asks (2.5.8). */
function targets() {
  const far = farRows();
  const small = [...document.querySelectorAll("button, input, select, summary, nav a, .genealogy a, .genealogy [role=button]")].filter(control => !far.has(control.closest("tr")) && isSeen(control)).map(control => [control, control.getBoundingClientRect()])
    .filter(([control, box]) => box.width < 24 || box.height < (innerWidth <= 640 && !control.closest(".genealogy") ? 44 : 24));
  return small.map(([control, box]) => `"${words(control) || control.name}" is ${box.width.toFixed(0)} by ${box.height.toFixed(0)} px`);
}

/** Nothing is wider than the window but a picture, and no table or chip is cut. */
function widths() {
  const wide = document.documentElement.scrollWidth;
  const wrong = wide > innerWidth ? [`the page is ${wide} wide, the window ${innerWidth}`] : [];
  const far = farRows();
  for (const table of document.querySelectorAll(".table")) if (table.scrollWidth > table.clientWidth + 1) wrong.push(`a table is ${table.scrollWidth} wide, its place ${table.clientWidth}`);
  for (const control of document.querySelectorAll("td .chip, td button")) {
    if (far.has(control.closest("tr")) || !isSeen(control)) continue;
    const beyond = control.getBoundingClientRect().right - control.closest("td").getBoundingClientRect().right;
    if (beyond > 1) wrong.push(`"${words(control)}" is ${beyond.toFixed(0)} px wider than its cell`);
  }
  return wrong;
}

/** The heads of columns of numbers end where the numbers end. */
function heads() {
  const wrong = [];
  const rightOf = element => { const range = document.createRange(); range.selectNodeContents(element); return Math.max(...[...range.getClientRects()].map(box => box.right)); };
  for (const table of document.querySelectorAll("table")) {
    const row = table.tBodies[0]?.rows[0];
    if (!row || !isSeen(row) || getComputedStyle(row).gridAutoFlow === "row" && getComputedStyle(row).display === "grid") continue;
    for (const head of table.tHead.rows[0].cells) {
      if (!head.matches(".number") || row.cells[head.cellIndex].textContent === "") continue;
      const apart = rightOf(head.querySelector("button")?.firstChild ?? head) - rightOf(row.cells[head.cellIndex]);
      if (Math.abs(apart) > 1) wrong.push(`the head "${words(head)}" ends ${apart.toFixed(1)} px from its numbers`);
    }
  }
  return wrong;
}

/** The boxes of the picture that are wholly in sight, within its place and the window's width. */
function inSight() {
  const place = document.querySelector(".picture").getBoundingClientRect();
  const isWithin = box => box.left >= Math.max(0, place.left) - 1 && box.right <= Math.min(innerWidth, place.right) + 1 && box.top >= place.top - 1 && box.bottom <= place.bottom + 1;
  return [...document.querySelectorAll(".genealogy .box")].filter(box => isWithin(box.querySelector(".outline").getBoundingClientRect())).map(box => box.dataset.id);
}

/** How much of the picture's width is out of sight; how far from the left of its place a box begins; and whether it is scrolled as far as it can be. */
const placed = () => document.querySelector(".picture");
const rest = () => placed().scrollWidth - placed().clientWidth;
const begins = id => document.querySelector(`.genealogy [data-id="${id}"] .outline`).getBoundingClientRect().left - placed().getBoundingClientRect().left;
const scrolled = () => placed().scrollLeft >= rest() - 1;

/** Edges of the picture pass behind no box, boxes don't overlap, and texts stay within their boxes. */
function drawing() {
  const picture = document.querySelector("svg.genealogy");
  const boxes = [...picture.querySelectorAll(".box")].map(group => [group.dataset.id, group.querySelector(".outline").getBBox(), group]);
  const wrong = [];
  for (const way of picture.querySelectorAll(".way")) {
    const length = way.getTotalLength();
    for (let at = 0; at <= length; at += 3) {
      const { x, y } = way.getPointAtLength(at);
      const hit = boxes.find(([, bounds]) => x > bounds.x + 1 && x < bounds.x + bounds.width - 1 && y > bounds.y + 1 && y < bounds.y + bounds.height - 1);
      if (hit) { wrong.push(`the edge ${way.parentNode.dataset.from} to ${way.parentNode.dataset.to} passes behind ${hit[0]}`); break; }
    }
  }
  boxes.forEach(([a, p, box], i) => {
    for (const [b, q] of boxes.slice(i + 1)) if (p.x < q.x + q.width && q.x < p.x + p.width && p.y < q.y + q.height && q.y < p.y + p.height) wrong.push(`${a} and ${b} overlap`);
    for (const text of box.querySelectorAll(":scope > text")) if (text.getBBox().x + text.getBBox().width > p.x + p.width) wrong.push(`"${text.textContent}" is wider than its box`);
  });
  return wrong;
}

/** Within the picture: how many boxes and edges there are, and which lot is marked. */
const pictured = () => {
  const picture = document.querySelector("svg.genealogy");
  return picture && { boxes: picture.querySelectorAll(".box").length, edges: [...picture.querySelectorAll(".edge")].map(edge => `${edge.dataset.from}>${edge.dataset.to}`).sort(), asked: picture.querySelector(".asked")?.dataset.id };
};
