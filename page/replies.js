/**
 * What the office's replies hold, as docs/http.md has them. What comes in another form (of a proxy, or cut
 * off) is none of the office's, and no view is given it.
 */

import { has, isFlag, isList, isMeasure, isName, isNumber, isOneOf, isState, isUse } from "./forms.js";

const isDisposition = isOneOf("quarantined", "released", "rejected");
const isOrigin = origin => origin === "receipts" || (typeof origin === "string" && /^[A-Z0-9][A-Z0-9-]{0,15}\/[1-9][0-9]?$/.test(origin));

const order = has({ order: isName, recipe: isName, batches: isNumber, status: isOneOf("open", "cancelled") });
const requirement = has({ material: isName, owner: isName, segment: isNumber, use: isUse, required: isNumber, actual: isNumber });
const batch = has({ order: isName, batch: isNumber, unit: isName, state: isState, closed: isFlag, requirements: isList(requirement) });
const lot = has({
  lot: isName, material: isName, measure: isMeasure, disposition: isDisposition, origin: isOrigin,
  results: isList(has({ test: isName, value: isNumber, day: isNumber })),
  sublots: isList(has({ sublot: isName, amount: isNumber })),
});
const stock = has({ lots: isList(has({ lot: isName, material: isName, measure: isMeasure, amount: isNumber, disposition: isDisposition })) });
const trace = has({ lots: lots => isList(has({ lot: isName, owner: isName, steps: isNumber }))(lots) && lots.length > 0 });

const FORMS = [
  [/^GET \/orders$/, has({ orders: isList(order) })],
  [/^(POST|GET) \/orders(\/|$)/, order],
  [/^GET \/batches\//, batch],
  [/^GET \/stock$/, stock],
  [/^(POST|GET) \/lots\//, lot],
  [/^GET \/trace\//, trace],
];

/** Whether a value has the form of the reply 200 to what was asked. */
export const isReply = (method, path, value) => FORMS.find(([asked]) => asked.test(`${method} ${path}`))?.[1](value) === true;
