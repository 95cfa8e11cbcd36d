/** Elements, made of names, attributes and texts. Nothing that is given is ever read as HTML. */

const SVG = "http://www.w3.org/2000/svg";

/** An element of HTML: attributes, listeners (functions by the event's name), and what is in it. */
export const html = (name, given = {}, ...inner) => fill(document.createElement(name), given, inner);

/** An element of SVG, in the same way. */
export const svg = (name, given = {}, ...inner) => fill(document.createElementNS(SVG, name), given, inner);

/** A link to an address of the page. */
export const link = (address, ...inner) => html("a", { href: address }, ...inner);

/** A name with its value, for a list of facts. */
export const fact = (name, ...value) => html("div", {}, html("dt", {}, name), html("dd", {}, ...value));

/** Text that is read out and not seen. */
export const unseen = (...inner) => html("span", { class: "unseen" }, ...inner);

const isThere = child => child !== null && child !== undefined && child !== false;

/** Puts a child into an element, or each of a list. What is no element becomes a text node. */
export function put(element, child) {
  if (Array.isArray(child)) for (const each of child) put(element, each);
  else if (isThere(child)) element.appendChild(child instanceof Node ? child : document.createTextNode(child));
}

function fill(element, given, inner) {
  for (const name in given) {
    const value = given[name];
    if (typeof value === "function") element.addEventListener(name, value);
    else if (isThere(value)) element.setAttribute(name, value === true ? "" : value);
  }
  for (const child of inner) put(element, child);
  return element;
}
