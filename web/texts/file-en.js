// What is wrong with a file of rules, and what it adds and changes, in English.

export default {
  fileFaults: { one: "{count} fault is in the file.", other: "{count} faults are in the file." },
  fileFault: "Row {row}, line {line}, {column}{why}.",
  whyFields: {
    one: "it has {count} field, and not three", other: "it has {count} fields, and not three",
  },
  whyClass: "it is sender or recipient (from or to)",
  whyPattern: "it is an address, a domain, .domain, name@, or for senders <>",
  whyVerb: "it begins with one of {verbs}",
  whyAddress: "REDIRECT takes an address",
  whyLetter: "“{letter}” is no plain letter (ASCII)",
  whyLine: "a new line",
  whyTooLong: "its text has more than {most} letters",
  whyDouble: "row {other} has this pattern, too",
  nobodyTake: "matches nobody; {pattern} is meant perhaps",
  importAsk: { one: "Import {count} rule?", other: "Import {count} rules?" },
  importSum: "New: {added}. With another action than now: {changed}. There already: {same}.",
};
