"""The worker's commands: how they end, and what they say of settings and of a desk that is away."""
import signal

from machine import Relay
from serving import RELAY, expect

BAD = """\
[desk]
address = 127.0.0.1
key-file = missing.key
directory = names.csv
[spool]
folder = spool
keep-days = soon
[intake]
listen = 127.0.0.1:0
[logins]
ann = nobody
[domains]
a.example = acme
[delivery]
host = relay.example
instance = 127.0.0.1
postsuper =
colour = blue
[notices]
from = relay.example
"""
TOLD = ["[desk] address", "[desk] key-file", "[spool] keep-days", "[logins] ann",
        "[delivery] instance", "[delivery] postsuper", "[delivery] colour", "[notices] from"]


def test_bad_settings(program, shared):
    """All faults of a file are told with section and name, and the status is 2."""
    with Relay(program, shared) as it:
        (it.folder / "relay.ini").write_text(BAD)
        begun = it.run("check")
        begun.ends(2)
        told = begun.log.read_text()
        missing = [one for one in TOLD if one not in told]
        expect(not missing and "[domains]" not in told, "of", missing, "is not told:", told)
        it.set()
        it.run("deliver", "--twice").ends(2)
        it.run("check").ends()
        it.desk.kill()
        begun = it.run("check")
        begun.ends(1)
        expect("refused" in begun.log.read_text(), "of no desk is told", begun.log.read_text())
        (it.folder / "relay.key").write_text(RELAY[::-1])
        it.desk.start()
        begun = it.run("check")
        begun.ends(1)
        expect("NoKey" in begun.log.read_text(), "of a wrong key is told", begun.log.read_text())


def test_ended_by_a_signal(program, shared):
    """SIGTERM ends a command with 0 as soon as what is under way is done; what was handed over is
    told at the next start."""
    with Relay(program, shared, settings={"delivery": {"sessions": "1"}}) as it:
        intake = it.intake()
        it.take("acme", "p@good.example", "q@good.example", "r@good.example")
        it.postfix.empty()
        shared.good.gate.clear()
        running = it.run("deliver")
        shared.good.until_waiting()
        running.process.send_signal(signal.SIGTERM)
        intake.process.send_signal(signal.SIGTERM)
        intake.ends()
        running.ends()
        it.desk.expect_usage("acme", pending=3)
        shared.good.gate.set()
        it.deliver()
        it.expect_delivered("p@good.example", "q@good.example", "r@good.example")
        it.desk.expect_usage("acme", delivered=3)


def test_other_processes(program, shared):
    """What must not run beside another command says so, and ends with 1."""
    with Relay(program, shared) as it:
        it.intake()
        for words in (["intake"], ["unknown", "--remove"], ["restored"]):
            begun = it.run(*words)
            begun.ends(1)
            expect("lock" in begun.log.read_text(), words, "tells", begun.log.read_text())
        it.run("unknown").ends()
