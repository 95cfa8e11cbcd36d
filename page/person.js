/**
 * Persons of an owner, who log in by a name and a password where the site has them (docs/persons.md). Such a session is a
 * cookie that no script reads, with a token that this window alone has; the site puts the owner's key in, which nobody sees.
 */

import { t } from "./text.js";
import { isName, time } from "./values.js";

const PLACE = "/person";
const LONGEST_REQUEST = 20_000;
const ROLES = ["reads", "orders", "releases"];

/** Whether who asks is a person with a session, and no holder of the key. */
export const isPerson = who => typeof who?.person === "string";

/** Whether who asks may do what a role may: whoever has the key may do all. The site decides, whatever the page shows. */
const may = (who, role) => !isPerson(who) || ROLES.indexOf(who.role) >= ROLES.indexOf(role);

/** Whether who asks may place and cancel orders. */
export const mayOrder = who => may(who, "orders");

/** Whether who asks may release and reject lots. */
export const mayRelease = who => may(who, "releases");

/** Whether a value is who asks, as a session keeps it. */
export const isWho = who => typeof who?.owner === "string" && (typeof who.key === "string" || isPerson(who) && typeof who.token === "string");

/** What the bar says of who asks. */
export const nameOf = who => (isPerson(who) ? `${who.person}, ${who.owner}` : who.owner);

/** What is filled in when who asks logs in again. */
export const loginOf = who => who.person ?? who.owner;

/** How a request of who asks is sent: to which path, with which fields, and whether with cookies. */
export function wayOf(who, path) {
  if (!isPerson(who)) return { path, headers: { "toll-owner": who.owner, "toll-key": who.key }, credentials: "omit" };
  return { path: `${PLACE}${path}`, headers: { "toll-token": who.token }, credentials: "same-origin" };
}

const post = (body, signal) => ({
  method: "POST", body: body && JSON.stringify(body), signal, keepalive: true, cache: "no-store", credentials: "same-origin", redirect: "error",
});

/** Why a log-in isn't taken. */
function refusalOf(status, value) {
  if (value?.error === "Wait" && Number.isInteger(value.seconds)) return t`Too many wrong passwords. Try again in ${time(value.seconds / 60)}.`;
  if (status === 401 && value?.error === "Wrong") return t`The name or the password is wrong.`;
  return t`The site can't log anybody in now. Try again in a moment.`;
}

/** Logs a person in; who asks from now on. Fails with an error that says why. */
export async function logInBy({ name, password }, { fetch = (...request) => globalThis.fetch(...request), signal } = {}) {
  const limit = AbortSignal.timeout(LONGEST_REQUEST);
  const reply = await fetch(`${PLACE}/log-in`, post({ name, password }, signal ? AbortSignal.any([signal, limit]) : limit)).catch(() => null);
  const value = await reply?.json().catch(() => null);
  const isWhole = isName(value?.owner) && typeof value.name === "string" && typeof value.token === "string" && ROLES.includes(value.role);
  if (reply?.status !== 200 || !isWhole) throw new Error(refusalOf(reply?.status, value));
  return { owner: value.owner, person: value.name, role: value.role, token: value.token };
}

/** Ends a person's session at the site, whatever becomes of the window. */
export function logOut(who, fetch = (...request) => globalThis.fetch(...request)) {
  if (isPerson(who)) fetch(`${PLACE}/log-out`, post()).catch(() => {});
}
