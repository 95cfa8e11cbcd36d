/** Cancelling an order. Its button is there while it can work: as long as no batch of the order was opened. */

import { Refused } from "../api.js";
import { html, unseen } from "../dom.js";
import { ask } from "../question.js";
import { untilEnd } from "../session.js";
import { t } from "../text.js";

const UNKNOWN_BATCH = 22;

/** How long a row is in sight before it is asked for, in milliseconds: a list that is scrolled through asks little. */
const DWELL = 200;

/** How far below and above the window a row counts as in sight. */
const NEAR = "150px 0px";

/** The batch, or null where it wasn't opened yet. */
export async function batchOf(page, name, n) {
  try {
    return await page.get(`/batches/${name}/${n}`);
  } catch (error) {
    if (error instanceof Refused && error.code === UNKNOWN_BATCH) return null;
    throw error;
  }
}

/** A button that cancels an order, after a question. */
export function cancelButton(page, name) {
  return html("button", {
    type: "button", class: "small", "data-key": `cancel-${name}`,
    click: async ({ currentTarget: button }) => {
      const text = t`A cancelled order stays cancelled. The plant opens no batch of it.`;
      if (!await ask(page.signal, { title: t`Cancel order ${name}?`, text, yes: t`Cancel the order` })) return;
      await page.act(button, `/orders/${name}/cancel`, {
        notice: () => ({ text: t`Order ${name} is cancelled.` }),
        stands: async get => (await get(`/orders/${name}`)).status === "cancelled",
      });
    },
  }, t`Cancel`, unseen(` ${name}`));
}

/** Of each session, whether orders were started, as far as it was told: that an order was started stays so. */
const toldIn = new WeakMap();

/**
 * The buttons of a list. The interface tells of an order in a list whether it is open, and not whether it was
 * started; so the first batch of an order is asked for when its row has come into sight.
 */
export class CancelButtons {
  #page;
  #isStarted;
  #places = new Map();
  #timers = new Map();
  #sight = new IntersectionObserver(entries => entries.forEach(entry => this.#seen(entry)), { rootMargin: NEAR });

  constructor(page) {
    this.#page = page;
    const session = untilEnd();
    if (!toldIn.has(session)) toldIn.set(session, new Map());
    this.#isStarted = toldIn.get(session);
    page.signal.addEventListener("abort", () => this.#sight.disconnect(), { once: true });
  }

  /** What stands in the row of an open order: what was told of it last, until it is told anew. */
  place(name) {
    if (!this.#places.has(name)) {
      const place = html("span", { class: "cancelling", "data-order": name }, this.#isStarted.has(name) && this.#shown(name));
      this.#places.set(name, place);
      if (this.#isStarted.get(name) !== true) this.#sight.observe(place);
    }
    return this.#places.get(name);
  }

  #shown(name) {
    return this.#isStarted.get(name) ? html("span", { class: "soft" }, t`started`) : cancelButton(this.#page, name);
  }

  #seen({ target, isIntersecting }) {
    clearTimeout(this.#timers.get(target));
    if (isIntersecting) this.#timers.set(target, setTimeout(() => this.#ask(target), DWELL));
  }

  #ask(place) {
    const name = place.dataset.order;
    this.#sight.unobserve(place);
    return this.#page.fill(place, async () => {
      const isStarted = await batchOf(this.#page, name, 1) !== null;
      // a button that somebody is about to press stays the same
      if (place.hasChildNodes() && isStarted === this.#isStarted.get(name)) return;
      this.#isStarted.set(name, isStarted);
      place.replaceChildren(this.#shown(name));
    });
  }
}
