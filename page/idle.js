/** Logs an owner off who does nothing for some minutes, and says so a minute before. */

const INTERVAL = 1000;
const WARNING = 60_000;
const ACTIVITY = ["pointerdown", "keydown", "wheel", "touchmove"];

/** How it stands after so long without a key or a click: "active", "warned" or "over". A limit of 0 is none. */
export function stateOf(idle, limit) {
  if (limit === 0 || idle < limit - Math.min(WARNING, limit / 2)) return "active";
  return idle < limit ? "warned" : "over";
}

/**
 * Looks each second how long nobody did anything. `session` has isOn(), seenAt() and see(at): whether somebody
 * is logged in, and when something was done last, which a window that is brought back still knows.
 * `warn(isWarned)` and `end()` are called where it changes.
 */
export class IdleWatch {
  #limit;
  #session;
  #warn;
  #end;
  #now;
  #isWarned = false;

  constructor({ minutes, session, warn, end, now = Date.now }) {
    this.#limit = minutes * 60_000;
    this.#session = session;
    this.#warn = warn;
    this.#end = end;
    this.#now = now;
  }

  /** Looks whether the time is over; whether somebody is still logged in. */
  look() {
    const state = this.#session.isOn() ? stateOf(this.#now() - this.#session.seenAt(), this.#limit) : "active";
    if (state === "over") this.#end();
    this.#tell(state === "warned");
    return state !== "over";
  }

  /** Something was done. What comes after the end, as when a machine was asleep, doesn't count. */
  touch() {
    if (!this.look() || !this.#session.isOn()) return;
    this.#session.see(this.#now());
    this.#tell(false);
  }

  /** Watches the window. */
  begin() {
    for (const type of ACTIVITY) addEventListener(type, () => this.touch(), { passive: true, capture: true });
    for (const type of ["visibilitychange", "focus", "pageshow"]) addEventListener(type, () => { if (!document.hidden) this.look(); }, { capture: true });
    setInterval(() => this.look(), INTERVAL);
  }

  #tell(isWarned) {
    if (isWarned !== this.#isWarned) this.#warn(isWarned);
    this.#isWarned = isWarned;
  }
}
