// CSV files: where the rows of one stand, to show the row that the desk counted; and one that is
// made.

// The rows of a text, the header first, each with the number of its first line. Empty lines are
// no rows.
export function rowsOf(text, separator = ",") {
  const rows = [];
  let [line, begun, first, field, quoted] = [1, 0, 1, 0, false];
  const end = (at) => {
    if (at > begun) rows.push({ line: first, text: text.slice(begun, at) });
  };
  for (let at = 0; at < text.length; at += 1) {
    const letter = text[at];
    const ends = letter === "\n" || letter === "\r";
    if (ends && !(letter === "\n" && text[at - 1] === "\r")) line += 1;
    // a quote opens at the start of a field, and again behind one that seemed to close it
    const opens = at === field || (text[field] === '"' && text[at - 1] === '"');
    if (letter === '"') quoted = !quoted && opens;
    if (quoted) continue;
    if (letter === separator) field = at + 1;
    if (!ends) continue;
    end(at);
    [begun, first, field] = [at + 1, line, at + 1];
  }
  end(text.length);
  return rows;
}

// The fields of a row.
export function cellsOf(/** @type {string} */ row, separator = ",") {
  const cells = [""];
  let quoted = false;
  for (let at = 0; at < row.length; at += 1) {
    const [letter, last] = [row[at], cells.length - 1];
    if (quoted && letter === '"' && row[at + 1] === '"') {
      cells[last] += letter;
      at += 1;
    } else if (letter === '"' && (quoted || cells[last] === "")) quoted = !quoted;
    else if (letter === separator && !quoted) cells.push("");
    else cells[last] += letter;
  }
  return cells;
}

// Where a cell may begin with a formula, or with what a spreadsheet leaves out before one: at the
// beginning of a text, or behind a letter of it. Which letters part cells is each program's own
// choice: Excel's in German is the semicolon, and then quotes do not hold the text together.
const FORMULA = /(^|[\t\n\r,;|])(?=[ \u00a0"]*[-=+@\uff1d\uff0b\uff20\uff0d])/g;
// Some programs leave these out at the beginning of a cell.
const LEFT_OUT = /^(?=[\t\n\r])/;

// A text of strangers, which is no formula of a spreadsheet: an apostrophe stands before each that
// it might be (OWASP, "CSV Injection").
const harmless = (text) => text.replace(FORMULA, "$1'").replace(LEFT_OUT, "'");

// A field of a file that is made. What is to be imported again must stay as it is.
function field(value, isSafe) {
  const text = isSafe ? harmless(String(value)) : String(value);
  return `"${text.replaceAll('"', '""')}"`;
}

export const csvOf = (rows, isSafe = true) =>
  rows.map((row) => `${row.map((it) => field(it, isSafe)).join(",")}\r\n`).join("");
