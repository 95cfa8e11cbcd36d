import assert from "node:assert/strict";
import test from "node:test";
import { cellOf, csvOf, nameOf } from "../csv.js";

/** The records of a file, as RFC 4180 has them. */
function recordsOf(text) {
  assert.ok(text.endsWith("\r\n"));
  const [records, fields] = [[], /(?:"((?:[^"]|"")*)"|([^",\r\n]*))(,|\r\n)/gy];
  let record = [];
  while (fields.lastIndex < text.length) {
    const match = fields.exec(text);
    assert.ok(match, text.slice(0, 80));
    record.push(match[1]?.replaceAll('""', '"') ?? match[2]);
    if (match[3] === "\r\n") {
      records.push(record);
      record = [];
    }
  }
  return records;
}

const COLUMNS = [
  { title: "Lot", values: { Lot: row => row.lot } },
  { title: "On hand", values: { "On hand": row => row.amount, Measure: row => row.measure } },
  { title: "What can be done" },
];

test("a file has a line of titles and a record for each row, as RFC 4180 has them", () => {
  const text = csvOf(COLUMNS, [{ lot: "B-1", amount: 980, measure: "kg" }, { lot: "S-1", amount: 0, measure: "pc" }]);
  assert.equal(text, 'Lot,On hand,Measure\r\n"=""B-1""",980,"=""kg"""\r\n"=""S-1""",0,"=""pc"""\r\n');
  assert.deepEqual(recordsOf(text), [["Lot", "On hand", "Measure"], ['="B-1"', "980", '="kg"'], ['="S-1"', "0", '="pc"']]);
  assert.equal(csvOf(COLUMNS, []), "Lot,On hand,Measure\r\n");
});

test("no name is a number, a date or a formula to a spreadsheet", () => {
  for (const name of ["1E5", "1-2", "MARCH1", "MAR-1", "00123", "TRUE", "2026-11-27", "O-1/1", "=1+1", "+1", "-1", "@A1", "A,B", 'A"B', "A\r\nB"]) {
    const [[cell]] = recordsOf(`${cellOf(name)}\r\n`);
    assert.equal(cell, `="${name.replaceAll('"', '""')}"`);
  }
});

test("numbers stand bare as far as a spreadsheet holds them", () => {
  assert.deepEqual([980, 0, -5, 10n, 999_999_999_999_999n].map(cellOf), ["980", "0", "-5", "10", "999999999999999"]);
  assert.deepEqual(["9007199254740993", 9007199254740993n, -9007199254740993n].map(cellOf),
    ['"=""9007199254740993"""', '"=""9007199254740993"""', '"=""-9007199254740993"""']);
  assert.deepEqual([null, undefined, false].map(cellOf), ["", "", ""]);
});

test("a file is called by its owner, what it has, and the day", () => {
  assert.equal(nameOf("ACME", "stock", new Date(2026, 10, 5, 23, 59)), "ACME-stock-2026-11-05.csv");
});
