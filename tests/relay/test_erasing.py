"""The command `erase`: what goes, what stays to the byte, and what is under way meanwhile.

No Postfix is needed: scripts stand for `postqueue` and `postsuper`, and a stub for the desk.
"""
import contextlib
import os
import shutil
import signal
import time

import needs
import pytest
from filled import ALL, IDS, LEFT, REPORT, Place
from lmtp_client import TEXT, lmtp
from machine import PYTHON
from serving import expect, named, until
from stand_in import StandIn

from hq_relay.storage.book import Book, Report
from hq_relay.storage.attempts import Attempt, Attempts

STEPS = ("postfix.delivering_instance.take_back", "customers.erasure.Erasure.take_back",
         "customers.erasure.Erasure.drop_one", "customers.erasure.Erasure.drop_contents", "storage.book.Book.forget_customer",
         "storage.book.Book.overwrite", "customers.erasure.Erasure.drop_reports")


@pytest.fixture
def place(folder):
    with Place(folder) as it:
        for customer in ALL:
            it.fill(customer)
        yield it


# ---- what goes, and what stays

def test_erased(place):
    """What a customer had is gone, and nothing of it is in the freed room of the book. What others
    had is there to the byte. The second time there is nothing."""
    place.has(*LEFT)
    before = [place.has_of(it) for it in LEFT]
    expect(all(all(rows.values()) and len(files) == 7 for files, rows in before), "the others have", before)
    place.queue(*((IDS[it], f"ann@{it}.example", f"bob@{it}.example") for it in ALL))
    open_book = Book(place.spool)
    told = place.erase()
    expect(told == f"dale: 3 contents, 8 records, 3 reports\n"
           f"dale: 1 message taken back from the queue of {place.folder}/delivering\n", "it tells", told)
    expect(place.asked() == [f"-c {place.folder}/delivering -d {IDS['dale']}"], "taken back was", place.asked())
    place.expect_erased("dale")
    open_book.close()
    expect([place.has_of(it) for it in LEFT] == before, "others' mail is another")
    place.queue()
    told = place.erase()
    expect(told == "dale: 0 contents, 0 records, 0 reports\n" and len(place.asked()) == 1, "the second time tells", told)


def test_refused(place):
    """A customer of the settings, and what is no name of one, are refused, and nothing is done."""
    before = {it: place.has_of(it) for it in ALL}
    for name, why in (("dale", "dale is a customer of the settings: drop it first"), ("Dale", "no name of a customer"),
                      ("", "no name of a customer"), ("dale.1", "no name of a customer"), ("../x", "no name of a customer")):
        told = place.erase(name, status=1)
        expect(why in told, name, "is told", told)
    place.run("erase").ends(2)
    place.run("erase", "dale", "acme").ends(2)
    (place.folder / "names.csv").write_text("name\n")
    place.run("erase", "dale").ends(2)
    place.has(*ALL)
    expect({it: place.has_of(it) for it in ALL} == before and not place.asked(), "something was done")


def test_known(place):
    """`knows` tells whether there is anything of a customer, in each of the places where something may be, and changes nothing."""
    place.has(*LEFT)
    before = {it: place.has_of(it) for it in ALL}
    for name, status in (("dale", 0), ("acme", 0), ("nobody", 3), ("Dale", 1)):
        place.run("knows", name).ends(status)
    expect({it: place.has_of(it) for it in ALL} == before, "something was done")
    place.queue()
    place.erase()
    place.run("knows", "dale").ends(3)
    book = Book(place.spool)
    book.attempted(Report("dale", "s1", "1", 1, ()))
    book.close()
    place.run("knows", "dale").ends(0)
    shutil.rmtree(place.spool)
    place.run("knows", "dale").ends(3)


def test_no_spool(place):
    """Where no worker ever ran there is nothing to erase, and no spool is made."""
    shutil.rmtree(place.spool)
    expect("drop it first" in place.erase(status=1), "a customer of the settings")
    place.has(*LEFT)
    expect(place.erase() == f"dale: there is no {place.spool}\n" and not place.spool.exists(), "a spool is made")


def test_not_taken_back(place):
    """Where mail cannot be taken back, nothing is erased, and what the operator has to do is told."""
    place.has(*LEFT)
    before = place.has_of("dale")
    place.queue(status=69)
    expect("postqueue ended with 69" in place.erase(status=1), "the queue is told")
    place.queue((IDS["dale"], "ann@dale.example", "bob@dale.example"))
    (place.folder / "closed").touch()
    told = place.erase(status=1)
    expect(f"a password is required; take it back as root: postsuper -c {place.folder}/delivering -d {IDS['dale']}\n" in told,
           "of no right is told", told)
    expect(place.has_of("dale") == before, "something was erased")


def test_unknown_in_the_queue(place):
    """A message whose queue ID nobody wrote down is not taken back: it might be another's. That is told."""
    book = Book(place.spool)
    Attempts(book).about([Attempt("dale.2.1.abc", "dale", "dale-3", "2", 1, ["bob@x.example"], "ann@x.example", 1.0)])
    book.close()
    place.has(*LEFT)
    place.queue((IDS["acme"], "ann@acme.example", "bob@acme.example"), ("4jbPwk62v8z1bcMm", "ann@x.example", "bob@x.example"))
    told = place.erase()
    expect(f"dale: 1 message may lie in the queue of {place.folder}/delivering, for 5d at most\n" in told, "it tells", told)
    expect(not place.asked(), "taken back was", place.asked())
    place.expect_erased("dale")


@pytest.mark.parametrize("step", STEPS)
def test_killed(place, step):
    """It dies before and behind a step, and the next run does the rest."""
    place.has(*LEFT)
    others = [place.has_of(it) for it in LEFT]
    for when in ("before", "behind"):
        place.fill("dale") if when == "behind" else None
        place.queue((IDS["dale"], "ann@dale.example", "bob@dale.example"))
        place.erase(status=-signal.SIGKILL, killed=(step, when, "1"))
        place.erase()
        place.expect_erased("dale")
        expect(f"-d {IDS['dale']}" in place.asked()[-1], "nothing was taken back")
        (place.folder / "asked").unlink()
    expect([place.has_of(it) for it in LEFT] == others, "others' mail is another")


# ---- while the others run

def reloaded(running):
    for it in (running.process.pid, *running.others()):
        os.kill(it, signal.SIGHUP)


def expect_waiting(place):
    """It is begun, waits, and has done nothing."""
    begun = place.run("erase", "dale")
    time.sleep(1)
    expect(begun.process.poll() is None, "it does not wait", begun.log.read_text())
    files, rows = place.has_of("dale")
    expect({"content/dale-1", "aside/dale-2"} < {*files} and all(rows.values()), "it does not wait, but left", [*files])
    return begun


@contextlib.contextmanager
def intake_of(place, reply):
    """A running intake, whose desk replies so."""
    needs.module(PYTHON, "aiosmtpd")
    with StandIn(reply) as desk:
        place.desk = named(desk.server_address)
        place.has(*ALL)
        begun = place.run("intake")
        until(lambda: b"listening on " in begun.log.read_bytes(), "the intake does not listen")
        yield begun, desk


def test_cut_by_a_signal(place):
    """SIGTERM ends it while it waits, and nothing is erased."""
    with StandIn(lambda _: (200, '{"done":[],"stopped":null,"next":null}')) as desk:
        place.desk = named(desk.server_address)
        place.has(*ALL)
        place.run("deliver")
        until(lambda: desk.asked, "deliver does not work")
        place.has(*LEFT)
        begun = expect_waiting(place)
        begun.process.send_signal(signal.SIGTERM)
        begun.ends(-signal.SIGTERM)
        expect(place.files("dale").keys() >= {"content/dale-1", "aside/dale-2"}, "something was erased")


def test_waits_for_deliver(place):
    """It waits for a deliver that works by earlier settings, also where these are faulty meanwhile."""
    with StandIn(lambda _: (200, '{"done":[],"stopped":null,"next":null}')) as desk:
        place.desk = named(desk.server_address)
        place.has(*ALL)
        running = place.run("deliver")
        until(lambda: desk.asked, "deliver does not work")
        place.has(*LEFT)
        begun = expect_waiting(place)
        (place.folder / "relay.ini").rename(place.folder / "away")
        running.process.send_signal(signal.SIGHUP)
        until(lambda: "settings not taken" in running.log.read_text(), "it takes no settings")
        begun.ends(2)
        (place.folder / "away").rename(place.folder / "relay.ini")
        begun = expect_waiting(place)
        running.process.send_signal(signal.SIGHUP)
        begun.ends()
        place.expect_erased("dale")
        for it in ("new", "cur"):
            (place.spool / f"reports/{it}/late").write_text(REPORT.format(envelope="dale.0000000001.2.abc"))
            until(lambda it=it: not (place.spool / f"reports/{it}/late").exists(), "a late report stays")
        found = [it.name for it in (place.spool / "reports/.aside").glob("*/*")]
        expect("report of a dropped customer" in running.log.read_text() and not any("dale." in it or "late" in it for it in found),
               "a late report is kept:", found)
        running.process.send_signal(signal.SIGTERM)
        running.ends()


def test_half_a_message(place):
    """A message that is half there when its customer is erased is not taken, and leaves nothing."""
    with intake_of(place, lambda _: (200, '{"verdict":"queued","id":"0000000009"}')) as (running, desk):
        with lmtp(place, "4jZpsK03Zxz1c38d") as client:
            client.mail("ann@dale.example")
            client.rcpt("bob@far.example")
            expect(client.docmd("DATA")[0] == 354, "DATA is refused")
            client.send(TEXT + b"more\r\n" * 100_000)
            until(lambda: [*(place.spool / "new").iterdir()], "no draft is there")
            place.has(*LEFT)
            begun = expect_waiting(place)
            reloaded(running)
            begun.ends()
            expect("dale: 3 contents," in begun.log.read_text(), "it tells", begun.log.read_text())
            client.send(b"\r\n.\r\n")
            code, words = client.getreply()
            expect(code == 451, "the rest got", code, words)
        place.expect_erased("dale")
        expect(not [it for it, _, body in desk.asked if b"38d" in body], "it was submitted", desk.asked)
        expect("level=error" not in running.log.read_text(), "the intake tells", running.log.read_text())


def test_under_submission(place):
    """A message that the desk is just asked about is taken, and erased behind that."""
    go_on = place.folder / "go-on"

    def reply(body):
        if b"38d" in body:
            until(go_on.exists, "nobody lets the desk go on")
        return 200, '{"verdict":"queued","id":"0000000009","messages":[]}'

    with intake_of(place, reply) as (running, desk):
        with lmtp(place, "4jZpsK03Zxz1c38d") as client:
            client.mail("ann@dale.example")
            client.rcpt("bob@far.example")
            expect(client.docmd("DATA")[0] == 354, "DATA is refused")
            client.send(TEXT + b".\r\n")
            until(lambda: any(b"38d" in body for _, _, body in desk.asked), "the desk is not asked")
            place.has(*LEFT)
            reloaded(running)
            begun = place.run("erase", "dale")
            # (it removes the lock of earlier settings when nobody has it)
            until(lambda: len([*(place.spool / "locks").glob("customers-*")]) == 1, "it waits for the settings")
            time.sleep(1)
            expect(begun.process.poll() is None, "it does not wait", begun.log.read_text())
            go_on.touch()
            code, words = client.getreply()
            expect(code == 250, "it got", code, words)
        begun.ends()
        expect("dale: 3 contents, 10 records," in begun.log.read_text(), "it tells", begun.log.read_text())
        place.expect_erased("dale")
