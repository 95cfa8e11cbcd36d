/** Addresses of the page, behind #: each names a view, and may name what is looked at. */

import { isName } from "./values.js";

const NAMED = new Map([["orders", "order"], ["lots", "lot"], ["plant", "plant"]]);

/** What an address asks for: the view, the name that it is about, and what stands behind its ?. */
export function read(hash) {
  const [path, query = ""] = hash.replace(/^#/, "").split("?", 2);
  const route = { view: "nowhere", name: null, query: new URLSearchParams(query) };
  const [first = "", name, ...rest] = path.replace(/^\//, "").split("/");
  if (rest.length > 0) return route;
  if (name === undefined) {
    if (first === "") route.view = "home";
    else if (["home", "orders", "stock", "release"].includes(first)) route.view = first;
  } else if (NAMED.has(first) && isName(name)) {
    route.view = NAMED.get(first);
    route.name = name;
  }
  return route;
}

const behind = query => {
  const set = Object.entries(query).filter(([, value]) => value !== "" && value !== null && value !== undefined);
  return set.length > 0 ? `?${new URLSearchParams(set)}` : "";
};

/** The addresses of the views. */
export const toHome = (query = {}) => `#/home${behind(query)}`;
export const toOrders = (query = {}) => `#/orders${behind(query)}`;
export const toStock = (query = {}) => `#/stock${behind(query)}`;
export const toRelease = (query = {}) => `#/release${behind(query)}`;
export const toOrder = name => `#/orders/${name}`;
export const toLot = name => `#/lots/${name}`;
export const toPlantLot = name => `#/plant/${name}`;
