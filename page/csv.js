/**
 * Lists as files of CSV, as RFC 4180 has them, for spreadsheets: a number stands bare, and a text as ="TEXT",
 * so that no spreadsheet takes a name such as 1E5, 1-2 or MARCH1 for a number or a date.
 */

import { html, unseen } from "./dom.js";
import { t } from "./text.js";

// what a spreadsheet holds exactly
const MOST_DIGITS = 15;

/** A field of a record: in quotation marks where it has to be. */
const fieldOf = text => (/[",\r\n]/.test(text) ? `"${text.replaceAll('"', '""')}"` : text);

const isHeld = text => /^-?\d+$/.test(text) && text.replace("-", "").length <= MOST_DIGITS;

/** A value as a cell: whole numbers bare, texts and longer numbers as texts, and nothing where there is none. */
export function cellOf(value) {
  if (value === null || value === undefined || value === false) return "";
  if (typeof value !== "string" && isHeld(String(value))) return String(value);
  return fieldOf(`="${String(value).replaceAll('"', '""')}"`);
}

/** The text of a file. Each column has `values`: the titles in the file, each with what it is of a row. */
export function csvOf(columns, rows) {
  const fields = columns.flatMap(column => Object.entries(column.values ?? {}));
  const records = [fields.map(([title]) => fieldOf(title)), ...rows.map(row => fields.map(([, of]) => cellOf(of(row))))];
  return records.map(record => `${record.join(",")}\r\n`).join("");
}

/** The name of a file: whose it is, what, and the day on which it was made. */
export const nameOf = (owner, subject, day = new Date()) => `${owner}-${subject}-${day.toLocaleDateString("sv")}.csv`;

function save(name, text) {
  const address = URL.createObjectURL(new Blob([text], { type: "text/csv;charset=utf-8" }));
  html("a", { href: address, download: name }).click();
  // the browser has taken it by then
  setTimeout(() => URL.revokeObjectURL(address), 10_000);
}

/** A button that gives the rows as a file, which is called by `file`; `title` says what they are. `rows` is asked when it is clicked. */
export const downloadButton = (page, { file, title }, columns, rows) => html("button", {
  type: "button", class: "quiet", "data-key": `csv-${file}`, click: () => save(nameOf(page.who.owner, file), csvOf(columns, rows())),
}, t`Download CSV`, unseen(`: ${title}`));
