/** An address that is none. */

import { html, link } from "../dom.js";
import { toOrders, toStock } from "../router.js";
import { inline, t } from "../text.js";

export const nowhere = () => ({
  title: t`There is no such page`,
  body: html("section", { class: "card" }, html("p", {}, inline`Go on with your ${link(toOrders(), t`orders`)} or your ${link(toStock(), t`stock`)}.`)),
});
