/** Forms of values that come from outside: whether a value is what docs/http.md says. */

import { isName } from "./values.js";

/** A whole number. Numbers of 16 digits and more come as texts: values.js. */
export const isNumber = value => Number.isSafeInteger(value) || (typeof value === "string" && /^\d{16,}$/.test(value));

export const isText = value => typeof value === "string";
export const isFlag = value => typeof value === "boolean";
export const isOneOf = (...words) => value => words.includes(value);
export const isList = form => value => Array.isArray(value) && value.every(form);

/** An object with these members. Members that aren't named are ignored. */
export function has(forms) {
  const members = Object.entries(forms);
  return value => typeof value === "object" && value !== null && members.every(([name, form]) => form(value[name]));
}

/** A member that may be left out. */
export const optional = form => value => value === undefined || form(value);

export const isMeasure = value => isText(value) && /^[A-Za-z]{1,8}$/.test(value);
export const isUse = isOneOf("consumed", "produced");
export const isState = isOneOf("idle", "running", "pausing", "paused", "holding", "held", "restarting", "stopping", "stopped", "aborting", "aborted", "complete");

export { isName };
