/** A new order that was begun: it is kept in memory when its view is drawn anew or left, until its session ends. */

import { untilEnd } from "../session.js";

const drafts = new WeakMap();

/** The draft of this session. */
export function drafted() {
  const session = untilEnd();
  if (!drafts.has(session)) drafts.set(session, new Map());
  const values = drafts.get(session);
  return {
    isBegun: values.size > 0,
    clear: () => values.clear(),
    /** Gives the fields of a form what was typed, and keeps what is typed from now on. */
    fill(form) {
      for (const [name, value] of values) form.elements[name].value = value;
      form.addEventListener("input", event => values.set(event.target.name, event.target.value));
    },
  };
}
