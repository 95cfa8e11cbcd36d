/** The plant's name and how it is reached: as the companion of this session says, else as the site's settings say. */

import { html } from "./dom.js";
import { t } from "./text.js";

const MEMBERS = ["name", "address", "contact"];

let fromSite = {};
let companion = null;

/** The members that are texts. */
export const plantOf = value => Object.fromEntries(MEMBERS.filter(name => typeof value?.[name] === "string" && value[name] !== "").map(name => [name, value[name]]));

/** Sets where the plant's name comes from. */
export function introduce(settings, companionOfSession) {
  [fromSite, companion] = [settings.plant ?? {}, companionOfSession];
}

/** What is known of the plant now. */
const plant = () => ({ ...fromSite, ...plantOf(companion?.last?.plant) });

/** What stands below each view: the plant's name, address and contact. */
export function drawContact(place) {
  const { name, address, contact } = plant();
  const parts = [name && html("strong", {}, name), address, contact && t`Contact: ${contact}`].filter(Boolean);
  place.replaceChildren(...parts.flatMap((part, i) => (i > 0 ? [" · ", part] : [part])));
}

/** Whom to ask where the office can't be reached, in a sentence; empty where nobody is known. */
export function whomToAsk() {
  const { name, contact } = plant();
  if (!contact) return "";
  return name ? t`If it stays so, ask ${name}: ${contact}.` : t`If it stays so, ask the plant: ${contact}.`;
}
