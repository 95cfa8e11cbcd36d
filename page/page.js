/** What a view is given: its address, who asks, and what it may ask and do. */

import { Forbidden, Refused } from "./api.js";
import { failed, tell, wordsOf } from "./notices.js";
import { toHome } from "./router.js";
import { untilEnd, whoAsks } from "./session.js";
import { t } from "./text.js";

/** What was read before something was to be changed. Where that fails, nothing was changed, and the error says so. */
const asBefore = reading => reading?.catch(error => { throw Object.assign(error, { isBefore: true }); });

let acting = 0;

/** Whether something that changes rows wasn't answered yet. */
export const isActing = () => acting > 0;

/** A view's place in the page. `app` has the office, the companion, show(), isShown(page) and sendAway(). */
export class Page {
  #app;
  #leaving = new AbortController();
  #over = untilEnd();
  signal = this.#leaving.signal;
  who = whoAsks();

  constructor(route, app) {
    this.route = route;
    this.#app = app;
  }

  leave() {
    this.#leaving.abort();
  }

  /** The value of a GET. It ends where the view is left. */
  get(path) {
    return this.#app.office.ask(this.who, "GET", path, { signal: this.signal });
  }

  /** What the companion tells the owner, or null where there is none. */
  records() {
    return this.#app.companion.records(this.who);
  }

  /** Keeps what is searched and sorted in the address. */
  remember(query) {
    const set = Object.entries(query).filter(([, value]) => value);
    const path = location.hash.split("?")[0] || toHome();
    history.replaceState(history.state, "", set.length > 0 ? `${path}?${new URLSearchParams(set)}` : path);
  }

  /**
   * Does what a button asks for, and draws the view anew, refused or not: it may be that another window
   * changed it. `before` reads what stands before; `notice(reply, stood)` gives the text and the tone of what is
   * told, and a bad one is as good as a refusal. `stands` tells whether it is done already, where a reply was
   * lost. Once the owner has logged off, it is given up, and nothing is told of it.
   */
  async act(button, path, { body, before, stands, notice, refused }) {
    const get = target => this.#app.office.ask(this.who, "GET", target, { signal: this.#over });
    button.disabled = true;
    acting += 1;
    tell("");
    try {
      const stood = await asBefore(before?.(get));
      const reply = await this.#app.office.carry(this.who, path, { body, signal: this.#over, stands: stands && (() => stands(get)) });
      await this.#done(notice(reply, stood), refused);
    } catch (error) {
      await this.#notDone(error, refused);
    } finally {
      acting -= 1;
      button.disabled = false;
    }
  }

  /**
   * Asks for a change, of which nothing is told or drawn, and gives what came of it: `isDone`, or the `error`, of which
   * `isKnown` says whether it is known that nothing was done.
   */
  async change(path, { stands }) {
    const get = target => this.#app.office.ask(this.who, "GET", target, { signal: this.#over });
    acting += 1;
    try {
      await this.#app.office.carry(this.who, path, { signal: this.#over, stands: () => stands(get) });
      return { isDone: true };
    } catch (error) {
      if (error instanceof Forbidden && !this.#over.aborted) this.#app.sendAway();
      return { isDone: false, error, isKnown: error instanceof Refused };
    } finally {
      acting -= 1;
    }
  }

  /** Whether the session of who asks is over. */
  get isOver() { return this.#over.aborted; }

  /** Reads and draws the view anew, if it is still shown. */
  showAnew() {
    return this.#showAnew();
  }

  async #done({ text, tone = "good" }, refused) {
    const isRefused = tone === "bad" && refused;
    if (!isRefused) await this.#showAnew();
    this.#tell(text, tone);
    if (isRefused) refused({});
  }

  async #notDone(error, refused) {
    if (this.#over.aborted) return;
    if (error instanceof Forbidden) return this.#app.sendAway();
    if (error instanceof Refused && !refused) await this.#showAnew();
    const isKnown = error instanceof Refused || error.isBefore;
    this.#tell(isKnown ? wordsOf(error) : [wordsOf(error), " ", t`Whether this was done isn't known: look before you do it again.`], "bad");
    refused?.(error);
  }

  async #showAnew() {
    if (this.#app.isShown(this)) await this.#app.show({ anew: true });
  }

  /** Tells the owner who asked, and nobody who logged in after it. */
  #tell(text, tone) {
    if (!this.#over.aborted) tell(text, tone);
  }

  /** Draws a part of the view that comes later; what goes wrong stands in its place. */
  async fill(place, doing) {
    try {
      await doing();
    } catch (error) {
      if (this.signal.aborted) return;
      if (error instanceof Forbidden) this.#app.sendAway();
      else place.append(failed(error, () => { place.replaceChildren(); this.fill(place, doing); }));
    }
  }
}
