// Warum Post wartet oder scheiterte, auf Deutsch. Die Namen sind die von causes-en.js.

export default {
  who_you: "Sie müssen handeln",
  who_recipient: "Der Empfänger muss handeln",
  who_other: "Die Gegenseite muss handeln",
  who_provider: "Ihr Anbieter muss handeln",
  who_nobody: "Niemand muss handeln",

  cause_greylisted: "Greylisting: Sie wird erst beim zweiten Versuch angenommen.",
  todo_greylisted: "Der Dienst versucht es von selbst wieder. Meist klappt es binnen einer Stunde.",
  todo_greylisted_failed: "Senden Sie sie noch einmal.",
  cause_blockList: "Die Adresse des Dienstes steht auf einer Sperrliste.",
  todo_blockList:
    "Senden Sie Ihrem Anbieter die Antwort darunter: Er muss die Adresse austragen lassen.",
  cause_tooMuch: "Zu viel Post auf einmal für die Gegenseite.",
  todo_tooMuch: "Senden Sie weniger auf einmal. Was wartet, wird von selbst wieder versucht.",
  todo_tooMuch_failed: "Senden Sie weniger auf einmal, und diese später noch einmal.",
  cause_spf: "Die Domain des Absenders erlaubt diesen Dienst nicht (SPF).",
  todo_spf:
    "Lassen Sie den Dienst in den SPF-Eintrag Ihrer Domain aufnehmen. Ihr Anbieter weiß, wie.",
  cause_dkim: "Die Signatur der Absender-Domain fehlt oder ist falsch (DKIM).",
  todo_dkim: "Lassen Sie den DKIM-Schlüssel Ihrer Domain prüfen. Ihr Anbieter weiß, wie.",
  cause_dmarc: "Die Domain des Absenders verbietet diese Post (DMARC).",
  todo_dmarc: "Lassen Sie SPF und DKIM Ihrer Domain prüfen. Ihr Anbieter weiß, wie.",
  cause_reverseName: "Die Adresse des Dienstes hat keinen richtigen Namen im DNS.",
  todo_reverseName: "Senden Sie Ihrem Anbieter die Antwort darunter: Er muss den Namen setzen.",
  cause_spam: "Für Spam oder Schadsoftware gehalten.",
  todo_spam:
    "Prüfen Sie Text, Links und Anhänge. Sind sie harmlos, bitten Sie den Empfänger um Freigabe.",
  cause_mailboxFull: "Das Postfach ist voll.",
  todo_mailboxFull:
    "Sagen Sie es dem Empfänger auf anderem Weg. Der Dienst versucht es fünf Tage lang.",
  todo_mailboxFull_failed:
    "Sagen Sie es dem Empfänger auf anderem Weg, und senden Sie neu, sobald Platz ist.",
  cause_disabled: "Das Postfach ist geschlossen.",
  todo_disabled: "Fragen Sie den Empfänger auf anderem Weg nach einer Adresse, die gilt.",
  cause_noMailbox: "Dieses Postfach gibt es nicht.",
  todo_noMailbox: "Berichtigen Sie die Adresse, oder fragen Sie den Empfänger nach der richtigen.",
  cause_moved: "Das Postfach ist umgezogen oder gehört jemand anderem.",
  todo_moved: "Fragen Sie den Empfänger nach der neuen Adresse.",
  cause_noMail: "Diese Domain nimmt keine Post.",
  todo_noMail:
    "Berichtigen Sie die Domain hinter dem @, oder fragen Sie nach einer anderen Adresse.",
  cause_domainLookup: "Die Domain lässt sich gerade nicht finden.",
  todo_domainLookup:
    "Der Dienst versucht es von selbst wieder. Dauert es an, prüfen Sie die Domain hinter dem @.",
  todo_domainLookup_failed: "Prüfen Sie die Domain hinter dem @, und senden Sie sie noch einmal.",
  cause_noDomain: "Diese Domain gibt es für Post nicht.",
  todo_noDomain: "Berichtigen Sie die Domain hinter dem @.",
  cause_badAddress: "Die Adresse des Empfängers ist fehlerhaft oder mehrdeutig.",
  todo_badAddress: "Berichtigen Sie die Adresse.",
  cause_badSender: "Dieser Absender wird von der Gegenseite nicht angenommen.",
  todo_badSender:
    "Prüfen Sie die Adresse, von der Sie senden: Ihre Domain muss es geben und Post nehmen.",
  cause_tooLarge: "Die Nachricht ist der Gegenseite zu groß.",
  todo_tooLarge: "Senden Sie sie kleiner, oder bieten Sie den Anhang als Link an.",
  cause_listClosed: "Die Mailingliste nimmt diese Post nicht.",
  todo_listClosed: "Bitten Sie den Betreiber der Liste, Sie senden zu lassen.",
  cause_loop: "Die Post läuft bei der Gegenseite im Kreis.",
  todo_loop:
    "Sagen Sie es dem Empfänger auf anderem Weg: Eine Weiterleitung führt dort zu sich zurück.",
  cause_encryption: "Die Verbindung lässt sich nicht wie verlangt verschlüsseln.",
  todo_encryption: "Senden Sie Ihrem Anbieter die Antwort darunter.",
  cause_login: "Der Dienst ist beim nächsten Server nicht angemeldet.",
  todo_login: "Senden Sie Ihrem Anbieter die Antwort darunter.",
  cause_noAnswer: "Keine Antwort vom Mailserver der Gegenseite.",
  todo_noAnswer:
    "Der Dienst versucht es fünf Tage lang. Eilt es, sagen Sie es dem Empfänger auf anderem Weg.",
  todo_noAnswer_failed:
    "Sagen Sie es dem Empfänger auf anderem Weg, und senden Sie später noch einmal.",
  cause_busy: "Überlastet oder gestört: der Mailserver der Gegenseite.",
  todo_busy: "Der Dienst versucht es von selbst wieder.",
  todo_busy_failed: "Senden Sie sie später noch einmal.",
  cause_misconfigured:
    "Falsch eingerichtet oder nicht erreichbar: der Mailserver der Gegenseite.",
  todo_misconfigured: "Sagen Sie es dem Empfänger auf anderem Weg, mit der Antwort darunter.",
  cause_givenUp: "Sie wurde nach fünf Tagen aufgegeben.",
  todo_givenUp: "Berichtigen Sie die Adresse, falls sie falsch ist, und senden Sie sie neu.",
  cause_form: "Die Form der Nachricht wird von der Gegenseite nicht angenommen.",
  todo_form: "Senden Sie sie als reinen Text, ohne besondere Anhänge oder Zeichen in Adressen.",
  cause_protocol: "Die Mailserver verstehen einander nicht.",
  todo_protocol: "Senden Sie Ihrem Anbieter die Antwort darunter.",
  cause_policy: "Nach eigenen Regeln der Gegenseite abgewiesen.",
  todo_policy:
    "Lesen Sie die Antwort darunter. Bitten Sie den Empfänger auf anderem Weg um Freigabe.",
  cause_later: "Jetzt nicht angenommen von der Gegenseite.",
  todo_later: "Der Dienst versucht es von selbst wieder.",
  todo_later_failed: "Senden Sie sie später noch einmal.",
  cause_never: "Endgültig abgewiesen von der Gegenseite.",
  todo_never:
    "Lesen Sie die Antwort darunter, und fragen Sie den Empfänger auf anderem Weg.",
};
