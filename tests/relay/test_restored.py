"""What the command `restored` of the worker makes of a desk whose store came back from a backup: nothing is lost, nothing that is
known to have left is sent, and each that may come twice is told.

Each takes the program of the desk and what all share.
"""
import shutil
import time

from machine import REMEMBERED, Relay
from serving import KEYS, expect

FAR = "good.example"


def test_after_a_restore(program, shared):
    """The desk's store comes back from a backup. What it forgot is submitted again, what it has
    again and was delivered is not sent again, and notices are mailed though their numbers were
    used before."""
    with Relay(program, shared) as it:
        it.desk.line("acme", "recipient", f"held@{FAR}", "HOLD")
        intake = it.intake()
        round_of(it, "before@soft.example", "x1@hard.example", f"held@{FAR}")
        copy_store(it, "", "kept.")
        it.desk.own("acme", "POST", "/v1/release-all")
        round_of(it, "forgotten@soft.example", "x2@hard.example", "x3@hard.example")
        it.expect_delivered(f"held@{FAR}")
        expect(len(it.notices()) == 3, "notices were", it.notices())
        intake.kill()
        copy_store(it, "kept.", "")
        restored = it.run("restored")
        restored.ends()
        told = restored.log.read_text()
        expect("twice" in told and "notices numbered anew" in told, "a restore tells", told)
        it.senders.forget()
        it.intake()
        round_of(it, "x4@hard.example")
        expect(it.notices() == {"x4@hard.example": 1}, "notices were", it.notices(), told)
        shared.soft.answer = lambda _: "250 2.1.5 ok"
        it.again("acme")
        it.deliver()
        it.expect_delivered("before@soft.example", "forgotten@soft.example", f"held@{FAR}")
        expect(not it.desk.usage("acme")["pending"], "pending is", it.desk.messages("acme"))


def test_after_a_restore_of_one_desk(program, shared):
    """Of several desks one comes back. What customers of another one deleted stays deleted, and none is gone over unnamed."""
    with Relay(program, shared, settings={"desk": {"desks": "desks.csv"}}) as it:
        it.write("desks.csv", "customer,desk", *(f"{name},{'north' if name == 'acme' else 'south'}" for name in it.customers))
        copy_store(it, "", "kept.")
        intake = it.intake()
        for name in ("acme", "birch"):
            it.take(name, f"p@{FAR}")
        it.postfix.empty()
        for name in ("acme", "birch"):
            it.desk.own(name, "POST", "/v1/delete-all")
        intake.kill()
        copy_store(it, "kept.", "")
        for words, told in (((), "several desks"), (("west",), "no customer of this desk")):
            begun = it.run("restored", *words)
            begun.ends(1)
            expect(told in begun.log.read_text(), words, "tells", begun.log.read_text())
        restored = it.run("restored", "north")
        restored.ends()
        told = restored.log.read_text()
        expect("customer=acme" in told and "customer=birch" not in told, "a restore of north tells", told)
        pending = [it.desk.usage(name)["pending"] for name in ("acme", "birch")]
        expect(pending == [1, 0], "of acme and birch are pending", pending)


def test_deleted_before_the_backup(program, shared):
    """What left the queue before the backup stays away, by however many ends of the history. What was deleted later comes back."""
    early, late, lost = [f"early{number}@{FAR}" for number in range(105)], f"late@{FAR}", f"lost@{FAR}"
    with Relay(program, shared, limits=dict.fromkeys(KEYS, REMEMBERED)) as it:
        intake = it.intake()
        for recipient in early:
            it.take("acme", recipient)
        it.postfix.empty()
        it.desk.own("acme", "POST", "/v1/delete-all")
        it.take("acme", late)
        it.postfix.empty()
        copy_store(it, "", "kept.")
        it.take("acme", lost)
        it.postfix.empty()
        it.desk.own("acme", "POST", "/v1/delete-all")
        intake.kill()
        copy_store(it, "kept.", "")
        for _ in range(2):
            it.run("restored").ends()
            shown = [it.desk.own("acme", "GET", f"/v1/message/{entry['id']}") for entry in it.desk.messages("acme")]
            pending = sorted(recipient["address"] for message in shown for recipient in message["pending"])
            expect(pending == [late, lost], "pending are", pending)


def test_requeued_before_the_backup(program, shared):
    """What a customer requeued and deleted before the worker saw its new ID stays away; an equal mail that the desk lost comes back."""
    with Relay(program, shared, limits=dict.fromkeys(KEYS, REMEMBERED)) as it:
        intake = it.intake()
        for _ in range(3):
            it.take("acme", f"p@{FAR}")
        it.postfix.empty()
        first, second, _ = (entry["id"] for entry in it.desk.messages("acme"))
        requeued = [it.desk.own("acme", "POST", f"/v1/requeue/{id}")["id"] for id in (second, first)]
        it.desk.own("acme", "DELETE", f"/v1/message/{requeued[0]}")
        copy_store(it, "", "kept.")
        it.take("acme", f"p@{FAR}")
        it.postfix.empty()
        intake.kill()
        copy_store(it, "kept.", "")
        for _ in range(2):
            restored = it.run("restored")
            restored.ends()
            told = restored.log.read_text()
            expect(told.count("left before the backup") == 1, "one has left, and it tells", told)
            expect(len(it.desk.messages("acme")) == 3, "the queue has", it.desk.messages("acme"), told)


def test_redirected_before_the_backup(program, shared):
    """What a rule sent elsewhere, and its customer deleted before the backup, stays away, also where it was requeued before."""
    with Relay(program, shared, limits=dict.fromkeys(KEYS, REMEMBERED)) as it:
        it.desk.line("acme", "recipient", f"p@{FAR}", f"REDIRECT other@{FAR}")
        intake = it.intake()
        for _ in range(2):
            it.take("acme", f"p@{FAR}")
        it.postfix.empty()
        first, second = (entry["id"] for entry in it.desk.messages("acme"))
        time.sleep(1)  # (an end counts from the second after the content on)
        requeued = it.desk.own("acme", "POST", f"/v1/requeue/{second}")["id"]
        for id in (first, requeued):
            it.desk.own("acme", "DELETE", f"/v1/message/{id}")
        copy_store(it, "", "kept.")
        it.take("acme", f"p@{FAR}")
        it.postfix.empty()
        intake.kill()
        copy_store(it, "kept.", "")
        for _ in range(2):
            restored = it.run("restored")
            restored.ends()
            told = restored.log.read_text()
            expect(told.count("left before the backup") == 2, "two have left, and it tells", told)
            expect(len(it.desk.messages("acme")) == 1, "the queue has", it.desk.messages("acme"), told)


def test_two_lines_of_time(program, shared):
    """A restore is taken back: in the copy of before it the IDs of new mail are those of other messages, which left. None is lost."""
    with Relay(program, shared, limits=dict.fromkeys(KEYS, REMEMBERED)) as it:
        copy_store(it, "", "first.")
        intake = it.intake()
        round_of(it, *(f"old{number}@{FAR}" for number in range(3)))
        it.expect_delivered(*(f"old{number}@{FAR}" for number in range(3)))
        intake.kill()
        copy_store(it, "", "aside.")
        copy_store(it, "first.", "")
        it.run("restored").ends()
        intake = it.intake()
        new = sorted(f"old{number}@soft.example" for number in range(3))
        round_of(it, *new)
        expect(it.desk.usage("acme")["pending"] == 3, "the new mail is not queued")
        intake.kill()
        copy_store(it, "aside.", "")
        told = it.run("restored")
        told.ends()
        shown = [it.desk.own("acme", "GET", f"/v1/message/{entry['id']}") for entry in it.desk.messages("acme")]
        pending = sorted(recipient["address"] for message in shown for recipient in message["pending"])
        expect(pending == new, "pending are", pending, told.log.read_text())


def copy_store(it, before, behind):
    """The desk is stopped, its store copied to files of other names, and the desk started."""
    it.desk.kill()
    for name in ("desk.db", "desk.db-wal"):
        shutil.copy(it.folder / f"{before}{name}", it.folder / f"{behind}{name}")
    it.desk.start()


def round_of(it, *recipients):
    """Mail to these comes in and is tried."""
    for one in recipients:
        it.take("acme", one)
    it.postfix.empty()
    it.deliver()


def test_gone_before_the_backup(program, shared):
    """What the worker found in no list before the copy stays away, though its customer has no history; without that time it comes back."""
    with Relay(program, shared) as it:
        intake = it.intake()
        for _ in range(3):
            it.take("acme", f"p@{FAR}")
        it.postfix.empty()
        first = it.desk.messages("acme")[0]["id"]
        it.desk.own("acme", "POST", "/v1/hold-all")
        it.desk.own("acme", "DELETE", f"/v1/message/{first}")
        it.deliver()
        time.sleep(1.1)
        copied = time.strftime("%Y-%m-%dT%H:%M:%SZ", time.gmtime())
        copy_store(it, "", "kept.")
        intake.kill()
        copy_store(it, "kept.", "")
        for words, queued in ((("--copied", copied), 2), ((), 3)):
            restored = it.run("restored", *words)
            restored.ends()
            expect(len(it.desk.messages("acme")) == queued, words, "the queue has", it.desk.messages("acme"), restored.log.read_text())
        it.run("restored", "--copied", "yesterday").ends(2)
