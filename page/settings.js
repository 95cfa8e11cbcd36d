/** What the site sets for the page, in settings.json beside it. */

import { plantOf } from "./contact.js";

const LONGEST_REQUEST = 5000;

/** What holds where the site sets nothing. */
export const DEFAULTS = Object.freeze({ idleMinutes: 15 });

/** What a site may have besides: persons with names of their own, and papers to take. */
const PARTS = ["persons", "papers"];

/** What these settings say. Whatever is no setting is as in DEFAULTS. */
export function settingsOf(value) {
  const minutes = value?.idle_minutes;
  const plant = plantOf(value?.plant);
  return {
    idleMinutes: Number.isFinite(minutes) && minutes >= 0 ? minutes : DEFAULTS.idleMinutes,
    ...(Object.keys(plant).length > 0 && { plant }),
    ...Object.fromEntries(PARTS.filter(part => value?.[part] === true).map(part => [part, true])),
  };
}

/** The settings of the site. */
export async function readSettings(fetch = (...request) => globalThis.fetch(...request)) {
  try {
    const reply = await fetch("settings.json", { cache: "no-cache", credentials: "omit", signal: AbortSignal.timeout(LONGEST_REQUEST) });
    return settingsOf(reply.ok ? await reply.json() : null);
  } catch {
    return DEFAULTS;
  }
}
