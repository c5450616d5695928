// Was an einer Datei von Regeln falsch ist und was sie ändert, auf Deutsch.

export default {
  fileFaults: {
    one: "{count} Fehler ist in der Datei.", other: "{count} Fehler sind in der Datei.",
  },
  fileFault: "Eintrag {row}, Zeile {line}, {column}{why}.",
  whyFields: { one: "er hat {count} Feld statt drei", other: "er hat {count} Felder statt drei" },
  whyClass: "das ist sender oder recipient (von oder an)",
  whyPattern: "das ist eine Adresse, eine Domain, .domain, name@ oder für Absender <>",
  whyVerb: "das beginnt mit einem von {verbs}",
  whyAddress: "REDIRECT nimmt eine Adresse",
  whyLetter: "„{letter}“ ist kein einfaches Zeichen (ASCII)",
  whyLine: "ein Zeilenumbruch",
  whyTooLong: "der Text hat mehr als {most} Zeichen",
  whyDouble: "Eintrag {other} hat dieses Muster auch",
  nobodyTake: "passt auf niemanden; gemeint ist vielleicht {pattern}",
  importAsk: { one: "{count} Regel einlesen?", other: "{count} Regeln einlesen?" },
  importSum: "Neu: {added}. Mit anderer Aktion als jetzt: {changed}. Schon da: {same}.",
};
