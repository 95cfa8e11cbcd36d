/** Who asks, and by which key; or, where the site has persons, by which name and password. */

import { Forbidden } from "../api.js";
import { html } from "../dom.js";
import { logInBy } from "../person.js";
import { phrase, t } from "../text.js";
import { KEY_TYPED, NAME_TYPED, time } from "../values.js";

/** The fields of an owner with its key: who asks, once they are filled in. */
function keyFields({ login, tell }) {
  const name = html("input", {
    name: "owner", required: true, pattern: NAME_TYPED, title: t`1 to 16 letters, digits and -`, value: login,
    autocomplete: "off", autocapitalize: "characters", spellcheck: "false", invalid: () => tell(""),
  });
  const secret = html("input", {
    name: "key", type: "password", required: true, pattern: KEY_TYPED, title: t`8 to 32 letters or digits`, autocomplete: "one-time-code",
    "data-key": "key", invalid: () => tell(""),
  });
  const who = async () => ({ owner: name.value.toUpperCase(), key: secret.value });
  return { name, secret, who, titles: [t`Owner`, t`Key`], other: t`Log in with your name`, note: t`The key stays in this window until you log off. Log off before others use it` };
}

/** The fields of a person. */
function personFields({ login, tell, signal }) {
  const name = html("input", {
    name: "person", required: true, value: login, autocomplete: "username", autocapitalize: "none", spellcheck: "false", invalid: () => tell(""),
  });
  const secret = html("input", {
    name: "password", type: "password", required: true, autocomplete: "current-password", "data-key": "key", invalid: () => tell(""),
  });
  const who = () => logInBy({ name: name.value.trim().toLowerCase(), password: secret.value }, { signal });
  return { name, secret, who, titles: [t`Name`, t`Password`], other: t`Log in with the owner's key`, note: t`You are logged in in this window until you log off. Log off before others use it` };
}

/** The card with the fields of one way to log in, and what goes on to the other, where the site has both. */
function card(entry, fields, goOn) {
  const { logInAs, tell, settings: { idleMinutes, persons }, signal } = entry;
  const button = html("button", { class: "main" }, t`Log in`);

  async function submit(event) {
    event.preventDefault();
    button.disabled = true;
    tell("");
    try {
      await logInAs(await fields.who(), signal);
    } catch (error) {
      if (signal.aborted) return;
      tell(phrase(error.message), "bad");
      if (error instanceof Forbidden || persons) fields.secret.select();
    } finally {
      button.disabled = false;
    }
  }

  return html("section", { class: "card enter" },
    html("p", {}, t`Your orders, your stock, and where each of your lots comes from and went.`),
    html("form", { class: "fields upright", submit },
      html("label", {}, fields.titles[0], fields.name), html("label", {}, fields.titles[1], fields.secret), button),
    persons && html("p", {}, html("button", { type: "button", class: "quiet", click: goOn }, fields.other)),
    html("p", { class: "soft" }, fields.note, idleMinutes > 0 && t`; after ${time(idleMinutes)} without a key or a click you are logged off`, "."));
}

/** `login` is who was logged off: an owner, or a person, whose names have small letters. */
export function logIn(entry) {
  const { login, settings, tell } = entry;
  const ways = settings.persons ? [personFields, keyFields] : [keyFields];
  if (login && login === login.toUpperCase()) ways.sort(way => (way === keyFields ? -1 : 1));
  const filled = ways.map((way, place) => way({ ...entry, login: place === 0 ? login : "" }));
  const cards = filled.map((fields, place) => card(entry, fields, () => goTo(1 - place)));

  function goTo(place) {
    tell("");
    cards[1 - place].replaceWith(cards[place]);
    filled[place].name.focus();
  }

  return { title: t`Log in`, focus: login ? filled[0].secret : filled[0].name, body: cards[0] };
}
