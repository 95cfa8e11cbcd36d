/** A field that finds a lot by its name: the owner's own, or one of the plant's that its batches consumed. */

import { Refused } from "../api.js";
import { html, link } from "../dom.js";
import { tell } from "../notices.js";
import { toLot, toPlantLot } from "../router.js";
import { inline, plural, t } from "../text.js";
import { isName, NAME_TYPED } from "../values.js";

const UNKNOWN_LOT = 27;

/** The value of a GET, or null where there is no lot of the name. */
async function orNull(page, path) {
  try {
    return await page.get(path);
  } catch (error) {
    if (error instanceof Refused && error.code === UNKNOWN_LOT) return null;
    throw error;
  }
}

/** What has this name: the owner's lot, and the trace of the plant's lot; null where there is none. */
export async function lotsNamed(page, name) {
  const [own, plants] = await Promise.all([orNull(page, `/lots/${name}`), orNull(page, `/trace/house/${name}`)]);
  return { name, own, plants };
}

/** What the plant's lot went into, in words. */
const wentInto = trace => plural(trace.lots.length - 1, "It went into {0} lot of yours.", "It went into {0} lots of yours.");

/** The plant's lot of this name as a sentence with a link, or null where the owner's batches consumed none. */
export async function plantsLotNamed(page, name) {
  const plants = await orNull(page, `/trace/house/${name}`);
  return plants && html("p", {}, inline`${link(toPlantLot(name), name)} is a lot of the plant.`, " ", wentInto(plants));
}

/** What is said where both, or neither, have the name. */
const choice = ({ name, own, plants }) => (own
  ? html("p", {}, inline`${link(toLot(name), t`Your lot ${name}`)} and ${link(toPlantLot(name), t`the plant's lot ${name}`)} have this name.`, " ", wentInto(plants))
  : html("p", {}, t`You have no lot ${name}, and none of your batches consumed a lot ${name} of the plant's.`));

/** The field with its button. A lot that is alone of its name is gone to; otherwise what there is stands below. */
export function traceField(page) {
  const name = html("input", {
    name: "trace", required: true, pattern: NAME_TYPED, title: t`1 to 16 letters, digits and -`, class: "name",
    autocomplete: "off", autocapitalize: "characters", spellcheck: "false", "data-key": "trace", invalid: () => tell(""),
  });
  const button = html("button", {}, t`Trace`);
  const answer = html("div", { role: "status" });

  async function submit(event) {
    event.preventDefault();
    const wanted = name.value.toUpperCase();
    if (!isName(wanted)) return;
    tell("");
    button.disabled = true;
    answer.replaceChildren();
    await page.fill(answer, async () => {
      const lots = await lotsNamed(page, wanted);
      if (Boolean(lots.own) === Boolean(lots.plants)) answer.replaceChildren(choice(lots));
      else location.hash = lots.own ? toLot(wanted) : toPlantLot(wanted);
    });
    button.disabled = false;
  }

  return html("div", { class: "tracing" },
    html("form", { class: "fields", "aria-label": t`Trace a lot`, submit },
      html("label", {}, t`Trace a lot: yours or the plant's`, name), button),
    answer);
}
