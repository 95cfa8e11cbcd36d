"use strict";
// All pages work without this. It keeps what was typed until it is recorded, sends a form once, says what is missing while a
// form is filled in, has a scanner's letters go into the field for them, and leaves a page that nobody looks at.

const login = document.body.dataset.login ?? "";
const KEPT = "desk ";
const LEFT_OUT = new Set(["token", "slip", "seen", "key", "password", "day", "asked", "answer", "meant"]);
const SENDING = 5000; // milliseconds in which a form isn't sent again
const BESIDE = 5; // seconds after which a session is surely over

function nameOf(form) {
  return `${KEPT}${login} ${form.dataset.draft}`;
}

// Fields of one name are choices, or each says what it is of, such as of a lot and what was on hand of it.
const isChoice = (field) => field.type === "radio" || field.type === "checkbox";
const has = (field) => (isChoice(field) ? field.checked : field.value);
const fieldsOf = (form) => [...form.elements].filter((field) => field.name && field.type !== "hidden" && !LEFT_OUT.has(field.name));

function keep(form) {
  const typed = fieldsOf(form).filter(has);
  sessionStorage.setItem(nameOf(form), JSON.stringify(typed.map((field) => [field.name, field.dataset.of ?? "", field.value])));
}

function bringBack(form) {
  const kept = sessionStorage.getItem(nameOf(form));
  for (const [name, of, value] of kept ? JSON.parse(kept) : []) {
    const fields = fieldsOf(form).filter((field) => field.name === name && (field.dataset.of ?? "") === of);
    if (fields.some(has)) continue;
    for (const field of fields) {
      if (isChoice(field)) field.checked = field.value === value;
      else field.value = value;
    }
  }
}

// what was recorded needs no draft
if (document.querySelector(".notice[role=status]")) {
  for (const name of Object.keys(sessionStorage)) if (name.startsWith(KEPT)) sessionStorage.removeItem(name);
}
for (const form of document.querySelectorAll("form[data-draft]")) {
  bringBack(form);
  form.addEventListener("input", () => keep(form));
}

// One choice is touched, or another one is typed.

for (const either of document.querySelectorAll(".either")) {
  const other = either.querySelector(".other input");
  const demand = () => (other.required = !either.querySelector(":checked"));
  either.addEventListener("input", (event) => {
    if (event.target !== other) other.value = "";
    else if (other.value) for (const choice of either.querySelectorAll("[type=radio]")) choice.checked = false;
    demand();
  });
  demand();
}

// What is missing of a form, by the labels of its fields

function labelOf(field) {
  const holder = field.closest(".either") ?? (field.type === "radio" ? field.closest("fieldset") : field.closest("label"));
  return holder?.dataset.name ?? holder?.querySelector(".label")?.firstChild?.textContent.trim() ?? "";
}

function showMissing(form, line) {
  const missing = [...form.elements].filter((field) => field.willValidate && field.required && !field.validity.valid);
  const labels = new Set(missing.map(labelOf).filter((label) => label));
  line.textContent = labels.size ? `${line.dataset.text}: ${[...labels].join(", ")}` : "";
}

for (const line of document.querySelectorAll("[data-text]")) {
  const form = line.closest("form");
  form.addEventListener("input", () => showMissing(form, line));
  showMissing(form, line);
}

// A form is sent once

document.addEventListener("submit", (event) => {
  if (event.target.dataset.sent) event.preventDefault();
  event.target.dataset.sent = "yes";
  setTimeout(() => delete event.target.dataset.sent, SENDING);
});
addEventListener("pageshow", () => document.querySelectorAll("form[data-sent]").forEach((form) => delete form.dataset.sent));

// A scanner types quickly and ends with Enter: where the focus is on nothing, its letters go into the field for them.

document.addEventListener("keydown", (event) => {
  const field = document.querySelector("[data-scan]");
  const isLetter = event.key.length === 1 && !event.ctrlKey && !event.metaKey && !event.altKey;
  if (field && isLetter && document.activeElement === document.body) field.focus();
});
document.querySelector("[data-select]")?.select();

// A page that nobody looks at goes to the log-in, as the server ends its session. What was typed stays.

if (document.body.dataset.idle) {
  let last = Date.now();
  const idle = (Number(document.body.dataset.idle) + BESIDE) * 1000;
  for (const kind of ["keydown", "pointerdown"]) addEventListener(kind, () => (last = Date.now()), { passive: true });
  setInterval(() => {
    if (Date.now() - last > idle) location.replace(location.pathname + location.search);
  }, 5000);
}
