/** What is asked of the office: a few requests at a time, and again where it is busy or away. */

import { wayOf } from "./person.js";
import { meaning } from "./refusals.js";
import { isReply } from "./replies.js";
import { parse } from "./values.js";

/** The office understood, and refuses: docs/commands.md. */
export class Refused extends Error {
  constructor(status, code, word, repeated) {
    super(meaning(code, word));
    Object.assign(this, { status, code, word, repeated });
  }
}

/** A person's role doesn't allow it; nothing was asked of the office. */
export class NotAllowed extends Refused {
  constructor() {
    super(403, 0, "NotAllowed", false);
    this.message = "Your role doesn't allow this. Ask who looks after your people's names at the plant.";
  }
}

/** The name or the key is wrong. */
export class Forbidden extends Error {}

/** Nobody answered, or the office was busy each time. */
export class Away extends Error {
  constructor(why) {
    super(why === "busy" ? "The office is busy." : "The office can't be reached.");
  }
}

/** An answer that the interface doesn't have. */
export class Strange extends Error {}

// the site lets an address ask four things at once
const AT_A_TIME = 3;
const LONGEST_REQUEST = 70_000;
const BUSY = new Set([429, 503]);
const AWAY = new Set([502, 504]);

/** How long is waited before each further try, in milliseconds: some 50 seconds in all. */
export const RESTS = [150, 300, 600, 1200, 2400, 4800, 8000, 8000, 8000, 8000, 8000];

/** Turns to ask: at most so many at a time, the others wait in a row. */
class Turns {
  #free;
  #row = [];

  constructor(most) {
    this.#free = most;
  }

  /** A turn, as soon as it comes; `isFirst` goes before all that wait. */
  async take(isFirst) {
    if (this.#free > 0) this.#free--;
    else await new Promise(go => (isFirst ? this.#row.unshift(go) : this.#row.push(go)));
  }

  give() {
    const next = this.#row.shift();
    if (next) next();
    else this.#free++;
  }
}

function restFor(milliseconds, signal) {
  return new Promise((done, failed) => {
    const end = () => {
      clearTimeout(timer);
      failed(signal.reason);
    };
    const timer = setTimeout(() => {
      signal?.removeEventListener("abort", end);
      done();
    }, milliseconds);
    signal?.addEventListener("abort", end, { once: true });
  });
}

/**
 * The office, asked by fetch. `waits(why)` is called where a request is about to be asked again, with
 * "busy" or "away", and anew where that changes; what it gives is called when it isn't so any more.
 */
export class Office {
  #turns = new Turns(AT_A_TIME);
  #fetch;
  #rest;
  #waits;

  constructor({ fetch = (...request) => globalThis.fetch(...request), rest = restFor, waits = () => () => {} } = {}) {
    this.#fetch = fetch;
    this.#rest = rest;
    this.#waits = waits;
  }

  /** The value of the reply. `who` asks; `signal` ends it. */
  async ask(who, method, path, { body, signal } = {}) {
    // what a person has clicked doesn't wait for a picture that is being read
    await this.#turns.take(method === "POST");
    try {
      return await this.#askUntilTold(who, method, path, body, signal);
    } finally {
      this.#turns.give();
    }
  }

  /**
   * The value of a reply to what changes something. It is asked again like all else: each change is made
   * once, however often it is asked. Where it was asked again and is refused, its reply may have been
   * lost: then `stands` tells whether what was asked for is there, and if so, that is no refusal.
   */
  async carry(who, path, { body, stands, signal } = {}) {
    try {
      return await this.ask(who, "POST", path, { body, signal });
    } catch (error) {
      if (error instanceof Refused && error.repeated && await stands?.()) return null;
      throw error;
    }
  }

  /**
   * A reply as it came to one request, or null where none came: for what the page can do without. Its `mark` is that of
   * the version that came (ETag).
   */
  async peek(who, path, { headers, signal } = {}) {
    await this.#turns.take(false);
    try {
      return await this.#send(who, "GET", path, undefined, signal, headers);
    } catch {
      return null;
    } finally {
      this.#turns.give();
    }
  }

  async #askUntilTold(who, method, path, body, signal) {
    let over = null;
    let shown = null;
    try {
      for (let tries = 0; ; tries++) {
        signal?.throwIfAborted();
        const reply = await this.#send(who, method, path, body, signal);
        const why = reply === null || AWAY.has(reply.status) ? "away" : BUSY.has(reply.status) ? "busy" : null;
        if (why === null) return valueOf(reply, tries > 0, parsed => isReply(method, path, parsed));
        if (tries === RESTS.length) throw new Away(why);
        if (why !== shown) {
          const before = over;
          [over, shown] = [this.#waits(why), why];
          before?.();
        }
        await this.#rest(restBefore(tries, reply), signal);
      }
    } finally {
      over?.();
    }
  }

  /** The reply, or null where there is none. */
  async #send(who, method, path, body, signal, headers = {}) {
    const limit = AbortSignal.timeout(LONGEST_REQUEST);
    const way = wayOf(who, path);
    try {
      const reply = await this.#fetch(way.path, {
        method,
        headers: { ...way.headers, ...headers },
        body: body && JSON.stringify(body),
        signal: signal ? AbortSignal.any([signal, limit]) : limit,
        cache: "no-store", credentials: way.credentials, redirect: "error", referrerPolicy: "no-referrer",
      });
      // a reply that breaks off is none
      const field = name => reply.headers.get(name);
      return { status: reply.status, type: field("content-type") ?? "", after: field("retry-after"), mark: field("etag"), text: await reply.text() };
    } catch {
      signal?.throwIfAborted();
      return null;
    }
  }
}

/** What is waited, a quarter more or less, so that windows don't ask in step; longer where the reply says so. */
function restBefore(tries, reply) {
  const delay = Number(reply?.after ?? 0) * 1000 || 0;
  return Math.max(RESTS[tries] * (0.75 + Math.random() / 2), Math.min(delay, 30_000));
}

/** The value of the office's reply. A proxy answers too, as it likes: what isn't as the office has it is strange. */
function valueOf(reply, repeated, isWanted) {
  const value = jsonOf(reply);
  if (reply.status === 200 && isWanted(value)) return value;
  if (reply.status === 403 && value?.error === "Forbidden") throw new Forbidden("The name or the key is wrong.");
  if (reply.status === 401 && value?.error === "LogIn") throw new Forbidden("The session is over.");
  if (reply.status === 403 && value?.error === "NotAllowed") throw new NotAllowed();
  const refuses = [404, 409].includes(reply.status) && Number.isInteger(value?.code) && typeof value.error === "string";
  if (refuses) throw new Refused(reply.status, value.code, value.error, repeated);
  throw new Strange(`What came isn't the office's answer (${reply.status}). It may be that something between here and the office is wrong.`);
}

/** The value of a reply in JSON, or null. */
function jsonOf({ type, text }) {
  try {
    return type.startsWith("application/json") ? parse(text) : null;
  } catch {
    return null;
  }
}
