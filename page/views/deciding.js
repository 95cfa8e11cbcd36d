/** Releasing and rejecting a lot. */

import { html } from "../dom.js";
import { mayRelease } from "../person.js";
import { ask } from "../question.js";
import { t } from "../text.js";

const decision = (page, name, way, done, text) => button => page.act(button, `/lots/${name}/${way}`, {
  notice: () => ({ text }),
  stands: async get => (await get(`/lots/${name}`)).disposition === done,
});

function rejectButton(page, name) {
  const reject = decision(page, name, "reject", "rejected", t`Lot ${name} is rejected.`);
  return html("button", {
    type: "button", class: "danger", "data-key": "reject",
    click: async ({ currentTarget: button }) => {
      const text = t`Nobody can undo a rejection. The lot can never be released again, and the plant ships and consumes nothing of it.`;
      if (await ask(page.signal, { title: t`Reject lot ${name}?`, text, yes: t`Reject the lot` })) await reject(button);
    },
  }, t`Reject…`);
}

/** The button is disabled where it would be refused; why stands beside it. */
function releaseButton(page, name, blocks) {
  const release = decision(page, name, "release", "released", t`Lot ${name} is released.`);
  const isBlocked = blocks.length > 0;
  return html("button", {
    type: "button", class: isBlocked ? "main blocked" : "main", "data-key": "release", disabled: isBlocked, "aria-describedby": isBlocked && "blocks",
    click: event => release(event.currentTarget),
  }, t`Release`);
}

/** The buttons of a lot, as its disposition and the role of who asks allow. `blocks` are the sentences that say why it can't be released. */
export function deciding(page, { lot, disposition }, blocks) {
  const isWaiting = disposition === "quarantined";
  return [
    isWaiting && blocks.length > 0 && html("div", { id: "blocks", class: "blocks" },
      html("p", {}, t`It can't be released:`), html("ul", {}, blocks.map(text => html("li", {}, text)))),
    mayRelease(page.who) && html("div", { class: "buttons" }, isWaiting && releaseButton(page, lot, blocks), disposition !== "rejected" && rejectButton(page, lot)),
  ];
}
