"""A worker's folder without a desk and without Postfix, in which each of three customers has something
everywhere: for the tests of what is erased.

Scripts stand for `postqueue` and `postsuper`.
"""
import contextlib
import json
import os
from pathlib import Path
from types import SimpleNamespace

from machine import PYTHON, WORKER, Running
from serving import KEYS, RELAY, expect, free_address, named

from hq_relay.outcome import Outcome, Result
from hq_relay.storage.book import Book, Report
from hq_relay.storage.attempts import Attempt, Attempts
from hq_relay.storage.spool import Envelope, Spool

HEADER = "name,key,messages,bytes,lines,notices,delay"
LIMITS = "1000,500000000,1000,1000,0"
SETTINGS = """\
[desk]
address = {desk}
key-file = relay.key
directory = names.csv
[spool]
folder = spool
[intake]
listen = {intake}
[domains]
{domains}
[delivery]
host = relay.example
postfix = delivering
postsuper = {postsuper}
pause = 1
[notices]
from = MAILER-DAEMON@relay.example
"""
# Two customers whose names begin alike, and one that is dropped.
ALL, LEFT = ("acme", "dale", "dale-2"), ("acme", "dale-2")
POSTQUEUE = "#!/bin/sh\ncat {folder}/queue\nexit $(cat {folder}/status)\n"
POSTSUPER = """\
#!/bin/sh
echo "$@" >>{folder}/asked
[ ! -e {folder}/closed ] || {{ echo "a password is required" >&2; exit 1; }}
echo "postsuper: Deleted: 1 message" >&2
"""
REPORT = """\
Content-Type: multipart/report; report-type=delivery-status; boundary="b"

--b
Content-Type: message/delivery-status

Original-Envelope-Id: {envelope}

Final-Recipient: rfc822; bob@far.example
Action: delivered
Status: 2.0.0

--b--
"""
TABLES = "names", "messages", "journal", "handed", "notices", "mailing", "waiting", "sums"
IDS = {"acme": "4jbPwk62v8z1bcMh", "dale": "4jbPwk62v8z1bcMk", "dale-2": "4jbPwk62v8z1bcMl"}


class Place:
    """A folder with settings and a spool, in which each customer has something everywhere."""

    def __init__(self, folder):
        self.folder, self.spool = folder, folder / "spool"
        self.shared = SimpleNamespace(intake=free_address(), policy=None)
        self.desk, self.begun = "127.0.0.1:1", []
        (folder / "relay.key").write_text(RELAY)
        for name, text in (("postqueue", POSTQUEUE), ("postsuper", POSTSUPER)):
            path = folder / "bin" / name
            path.parent.mkdir(exist_ok=True)
            path.write_text(text.format(folder=folder))
            path.chmod(0o755)
        self.queue()
        self.has(*ALL)

    def __enter__(self):
        return self

    def __exit__(self, *_):
        for it in self.begun:
            it.kill()

    def has(self, *customers):
        """The settings have these customers."""
        rows = [f"{it},{KEYS['acme'][::-1]},{LIMITS}" for it in customers]
        (self.folder / "names.csv").write_text("\n".join([HEADER, *rows, ""]))
        domains = "\n".join(f"{it}.example = {it}" for it in customers)
        (self.folder / "relay.ini").write_text(SETTINGS.format(
            desk=self.desk, intake=named(self.shared.intake), domains=domains, postsuper=self.folder / "bin/postsuper"))

    def queue(self, *rows, status=0):
        """What postqueue tells of the delivering instance: queue IDs, or senders with recipients."""
        told = [{"queue_name": "active", "queue_id": id, "arrival_time": 1, "sender": sender,
                 "recipients": [{"address": recipient}]} for id, sender, recipient in rows]
        (self.folder / "queue").write_text("".join(f"{json.dumps(it)}\n" for it in told))
        (self.folder / "status").write_text(str(status))

    def asked(self):
        """What postsuper was asked for."""
        with contextlib.suppress(FileNotFoundError):
            return (self.folder / "asked").read_text().splitlines()
        return []

    def fill(self, customer):
        spool, book = Spool(self.spool), Book(self.spool)
        kept, aside = f"{customer}-1", f"{customer}-2"
        for it in (kept, aside):
            draft = spool.draft(Envelope(customer, it, f"ann@{customer}.example", "bob@far.example"))
            draft.write(b"Subject: tried\r\n\r\nof " + customer.encode() + b"\r\n")
            spool.keep(draft, it)
        spool.put_aside(aside)
        half = spool.draft(Envelope(customer, "half", "ann@a.example", "bob@far.example"))
        half.file.close()
        os.rename(half.file.name, spool.new / f"1.{customer}")
        (spool.content / f"broken-{customer}").write_text(f'{{"customer": "{customer}"\n')
        book.taken(customer, kept, "0000000001", f"250 2.0.0 queued as {customer}")
        self.attempts(book, customer, kept)
        book.attempted(Report(customer, kept, "0000000001", 1, (Outcome(f"bob@{customer}.example", Result.FAILED),)))
        book.set_aside(customer, 3, f"ann@{customer}.example", b"a notice of " + customer.encode() * 3000)
        book.mailing(customer, 4)
        book.close()
        for folder in ("new", "cur", "tmp", ".aside/new"):
            path = self.spool / "reports" / folder
            path.mkdir(parents=True, exist_ok=True)
            if folder != "tmp":
                (path / f"1.{customer}").write_text(REPORT.format(envelope=f"{customer}.0000000001.1.abc"))

    @staticmethod
    def attempts(book, customer, kept):
        """One that is done, and one under way whose queue ID is known."""
        for number, spool in ((1, "gone"), (2, kept)):
            it = Attempt(f"{customer}.0000000001.{number}.abc", customer, spool, "0000000001", number,
                         [f"bob@{customer}.example"], f"ann@{customer}.example", 1.0)
            Attempts(book).about([it])
            Attempts(book).over({it.envelope: IDS[customer]}, [])
            if number == 1:
                Attempts(book).resolved(it, [])

    # ---- what is there

    def files(self, customer):
        """The files of which a customer is the one, with what they have."""
        names = [f"content/{customer}-1", f"content/broken-{customer}", f"aside/{customer}-2", f"new/1.{customer}",
                 *(f"reports/{it}/1.{customer}" for it in ("new", "cur", ".aside/new"))]
        return {it: (self.spool / it).read_bytes() for it in names if (self.spool / it).exists()}

    def rows(self, customer):
        book = Book(self.spool)
        try:
            found = {it: book.database().execute(f"SELECT * FROM {it} WHERE customer = ?", (customer,)).fetchall()
                     for it in TABLES}
            known = {it for it, in book.database().execute("SELECT name FROM sqlite_master WHERE type = 'table'")}
            expect(known == set(TABLES), "a table is not tried:", known)
            return found
        finally:
            book.close()

    def has_of(self, customer):
        return self.files(customer), self.rows(customer)

    def expect_erased(self, customer):
        # (it is removed where nobody has the book open)
        log = self.spool / "book.db-wal"
        expect(not log.exists() or log.stat().st_size == 0, "the log of the book is not empty")
        files, rows = self.has_of(customer)
        expect([*files] == [f"content/broken-{customer}"], "of", customer, "is left", files)
        expect(not any(rows.values()), "of", customer, "is left", rows)
        for it in (f"ann@{customer}.example", f"queued as {customer}\0", customer * 100):
            expect(it.encode() not in (self.spool / "book.db").read_bytes(), "the book has", it, "in what was deleted")

    # ---- the worker

    def run(self, *asked, killed=None):
        way = [str(WORKER), "relay.ini", *asked]
        if killed:
            way = [str(Path(__file__).parent / "killed.py"), str(WORKER), *killed, *way[1:]]
        self.begun.append(Running(["env", f"PATH={self.folder}/bin:{os.environ['PATH']}", PYTHON, "-B", *way],
                                  self.folder, self.folder / f"{asked[0]}.{len(self.begun)}.log"))
        return self.begun[-1]

    def erase(self, customer="dale", status=0, killed=None):
        begun = self.run("erase", customer, killed=killed)
        begun.ends(status)
        return begun.log.read_text()
