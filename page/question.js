/** A question before something that can't be taken back. */

import { html } from "./dom.js";
import { t } from "./text.js";

/** Asks in a window of the page. `text` may have several paragraphs, and elements; `isGood`: what is asked for needs no warning. True where the answer is `yes`; Escape, `no` and leaving the view (its signal) are false. */
export function ask(signal, { title, text, yes, no = t`No, keep it`, isGood = false }) {
  return new Promise(answered => {
    const close = answer => () => {
      dialog.returnValue = answer;
      dialog.close();
    };
    const dialog = html("dialog", { class: "question", "aria-labelledby": "question-title", "aria-describedby": "question-text" },
      html("h2", { id: "question-title" }, title),
      html("div", { id: "question-text" }, [text].flat().map(each => (each instanceof Node ? each : html("p", {}, each)))),
      html("div", { class: "buttons" },
        html("button", { type: "button", click: close("no"), autofocus: true }, no),
        html("button", { type: "button", class: isGood ? "main" : "danger", click: close("yes") }, yes)));
    signal.addEventListener("abort", close("no"), { once: true });
    dialog.addEventListener("close", () => {
      dialog.remove();
      answered(dialog.returnValue === "yes");
    });
    document.body.append(dialog);
    dialog.showModal();
  });
}
