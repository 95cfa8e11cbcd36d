/** Who asks. The name and the key, or a person's token, stay in the window's sessionStorage, until the owner logs off. */

import { isWho } from "./person.js";

const PLACE = "hilpoven";

let ends = new AbortController();

/** What is kept, or null where it isn't a session. */
function kept() {
  try {
    const session = JSON.parse(sessionStorage.getItem(PLACE));
    return isWho(session) ? session : null;
  } catch {
    return null;
  }
}

const put = session => sessionStorage.setItem(PLACE, JSON.stringify(session));

/** The owner with its key, or with its person; or null. */
export function whoAsks() {
  const { seen, ...who } = kept() ?? {};
  return seen === undefined ? null : who;
}

/** When this session did something last, in milliseconds; a browser that brings a window back brings this back too. */
export const seenAt = () => kept()?.seen ?? 0;

/** Something was done. */
export function see(now) {
  const session = kept();
  if (session) put({ ...session, seen: now });
}

/** A signal that comes when this session ends: nothing is asked or told in its owner's name any more. */
export const untilEnd = () => ends.signal;

/** Gives up what is asked in this session, while its key stays: the browser may bring the page back for another owner. */
export function giveUp() {
  ends.abort();
  ends = new AbortController();
}

export function keep(who, now = Date.now()) {
  giveUp();
  put({ ...who, seen: now });
}

export function forget() {
  giveUp();
  sessionStorage.removeItem(PLACE);
}
