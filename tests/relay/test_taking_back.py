"""Root's helper, which takes a message back for the worker; and that the units of the worker let it do
what it does.

A script stands for `postsuper`, but for the last test, which needs Postfix.
"""
import contextlib
import os
import re
import signal
import socket
import subprocess
import threading
from types import SimpleNamespace

import needs
import pytest
from deploying import DEPLOY, all_settings_of
from filled import Place
from machine import FAR, PYTHON, WORKER, Relay
from serving import expect, until
from test_deploy import let_through

from hq_relay.delivery.attempt_supervision import AttemptSupervision
from hq_relay.postfix import delivering_instance as instance
from hq_relay.settings import BadSettings, load

HELPER = WORKER.parent / "take-back"
POSTSUPER = """\
#!/bin/sh
echo "$@" >>{folder}/asked
[ "$4" != {broken} ] || {{ echo "postsuper: fatal: no queue" >&2; exit 1; }}
[ "$4" = {there} ] && echo "postsuper: Deleted: 1 message" >&2 || echo "postsuper: Deleted: 0 messages" >&2
"""
THERE, GONE, BROKEN = "4jbPwk62v8z1bcMh", "4jbPwk62v8z1bcMk", "4jbPwk62v8z1bcMl"
NO_IDS = (b"ALL\n", b"all\n", b"\n", b"", b"-\n", b"-d\n", f"{THERE} {GONE}\n".encode(), f"{THERE}".encode(), b"4jb\xff\n",
          f"{THERE}\r\n".encode(), f" {THERE}\n".encode(), b"4" * 65 + b"\n", b"4" * 10_000_000, b"\0" * 100 + b"\n",
          b"../x\n", b"deferred\n")
BAD_SETTINGS = ("unix:", "unix:run/x.sock", "unix:/run/x.sock more")


@pytest.fixture
def helper(folder):
    """The words that run the helper over a folder, with a script for postsuper."""
    bin = folder / "bin"
    bin.mkdir()
    (bin / "postsuper").write_text(POSTSUPER.format(folder=folder, there=THERE, broken=BROKEN))
    (bin / "postsuper").chmod(0o755)
    return ["env", f"PATH={bin}:{os.environ['PATH']}", PYTHON, "-B", str(HELPER), "/etc/queue"]


def told(helper, line):
    """What the helper answers to a line; what it does not read is left."""
    with subprocess.Popen(helper, stdin=subprocess.PIPE, stdout=subprocess.PIPE) as begun:
        with contextlib.suppress(BrokenPipeError):
            begun.stdin.write(line)
            begun.stdin.close()
        with contextlib.suppress(BrokenPipeError):
            found = begun.stdout.read().decode()
    expect(begun.returncode == 0, line[:50], "ended with", begun.returncode)
    return found


def test_one_message(helper, folder):
    """One line with a queue ID has one message taken back. All else is refused, and asks postsuper nothing."""
    for line in NO_IDS:
        expect(told(helper, line) == "fault no queue ID\n", line[:50], "is told", told(helper, line))
    expect(not (folder / "asked").exists(), "postsuper was asked")
    expect(told(helper, f"{THERE}\n".encode()) == "deleted\n", "a message that is there")
    expect(told(helper, f"{GONE}\nALL\n".encode()) == "not there\n", "one that is not")
    expect(told(helper, f"{BROKEN}\n".encode()) == "fault postsuper ended with 1: postsuper: fatal: no queue\n", "a fault")
    wanted = [f"-c /etc/queue -d {it}" for it in (THERE, GONE, BROKEN)]
    expect((folder / "asked").read_text().splitlines() == wanted, "asked was", (folder / "asked").read_text())


@contextlib.contextmanager
def listening(folder, serve):
    """Settings whose socket takes connections, and has each served so, as its unit does."""
    path = folder / "helper.sock"
    with socket.socket(socket.AF_UNIX) as listener:
        listener.bind(str(path))
        listener.listen()

        def take():
            with contextlib.suppress(OSError):
                while True:
                    with listener.accept()[0] as client:
                        serve(client)

        threading.Thread(target=take, daemon=True).start()
        try:
            yield SimpleNamespace(socket=path, timeout=1.0)
        finally:
            listener.shutdown(socket.SHUT_RDWR)


def test_over_a_socket(helper, folder):
    """The worker hears whether a message was there. Else it raises, and knows nothing."""
    serve = {"helper": lambda client: subprocess.run(helper, stdin=client, stdout=client, check=True)}
    with listening(folder, lambda client: serve["helper"](client)) as settings:
        expect(instance.take_back(settings, THERE) is True, "a message that is there")
        expect(instance.take_back(settings, GONE) is False, "one that is not")
        for why in (BROKEN, "ALL"):
            with pytest.raises(OSError, match="fault"):
                instance.take_back(settings, why)
        for answers in (b"", b"deleted it\n", b"x" * 100_000):
            serve["helper"] = lambda client, it=answers: (client.recv(100), client.sendall(it))
            with pytest.raises(OSError):
                instance.take_back(settings, THERE)
        gate = threading.Event()
        serve["helper"] = lambda client: gate.wait(30)
        with pytest.raises(OSError, match="timed out"):
            instance.take_back(settings, THERE)
        gate.set()
    with pytest.raises(OSError, match="refused"):
        instance.take_back(settings, THERE)


@pytest.mark.parametrize("fault, is_error", [(OSError("postsuper ended with 1"), True), (ConnectionRefusedError(), True),
                                             (TimeoutError(), True), (ConnectionResetError(), False)])
def test_not_taken_back(logged, monkeypatch, fault, is_error):
    """What cannot be taken back is sent all the same: that is an error, unless the helper has no place just now."""
    def fails(_settings, _id):
        raise fault
    monkeypatch.setattr(instance, "take_back", fails)
    attempt = SimpleNamespace(queue_id=THERE, customer="acme", id="0000000001")
    AttemptSupervision.take_one_back(SimpleNamespace(settings=None), attempt)
    expect(logged == ["not taken back"] * is_error, "errors are", logged)


def test_settings(folder):
    """A socket is named by its whole path."""
    with Place(folder) as place:
        text = (place.folder / "relay.ini").read_text()
        for it in BAD_SETTINGS:
            (place.folder / "relay.ini").write_text(re.sub(r"(?m)^postsuper = .*", f"postsuper = {it}", text))
            with pytest.raises(BadSettings, match="unix: and the path of a socket"):
                load(str(place.folder / "relay.ini"))
        (place.folder / "relay.ini").write_text(re.sub(r"(?m)^postsuper = .*", "postsuper = unix:/run/x.sock", text))
        expect(str(load(str(place.folder / "relay.ini")).socket) == "/run/x.sock", "the socket is another one")


# ---- what the units let them do

def refused(calls, unit):
    """What of the calls that strace saw a unit refuses: system calls, and families of addresses."""
    text, settings, allowed = calls.read_text(), all_settings_of(DEPLOY / unit), set()
    for it in settings["SystemCallFilter"]:
        names = {name for a_set in it.lstrip("~").split() for name in let_through(a_set)}
        allowed = allowed - names if it.startswith("~") else allowed | names
    made = set(re.findall(r"(?m)^\d+ +(\w+)\(", text))
    # (SQLite gives its files their owner where it is root's, as the worker is here alone)
    made -= {"fchown"} if "User" in settings else set()
    families = set(re.findall(r"\bsocket\((AF_\w+)", text))
    expect("execve" in made and families, "strace saw nothing in", calls)
    return (made - allowed) | (families - set(settings["RestrictAddressFamilies"][0].split()))


def test_system_calls(program, shared):
    """The worker, its postqueue, and the helper with its postsuper need nothing that their units refuse,
    as mail goes, fails, and is taken back."""
    needs.command("strace", "systemd-analyze")

    def traced(name):
        return ("strace", "-f", "-qq", "-o", str(it.folder / name))

    with Relay(program, shared, settings={"delivery": {"pause": "0.3"}}) as it:
        words = [*traced("helper.calls"), str(HELPER), str(shared.delivering.conf)]
        with listening(it.folder, lambda client: subprocess.run(words, stdin=client, stdout=client, check=True)) as settings:
            it.set(delivery={"postsuper": f"unix:{settings.socket}"})
            intake = it.intake(under=traced("intake.calls"))
            it.take("acme", f"p@{FAR}", "x@hard.example")
            it.take("acme", "late@slow.example")
            it.postfix.empty()
            shared.slow.gate.clear()
            deliver = it.run("deliver", under=traced("deliver.calls"))
            shared.slow.until_waiting()
            until(lambda: it.desk.usage("acme")["failed"] == 1 and len(it.desk.messages("acme")) == 1, "nothing fails")
            it.desk.own("acme", "DELETE", f"/v1/message/{it.desk.only('acme')}")
            until(lambda: "taken back" in deliver.log.read_text(), "nothing is taken back")
            until(it.notices, "nobody is told")
            # (strace hands no signal on)
            for running in (intake, deliver):
                for number in running.others():
                    os.kill(number, signal.SIGTERM)
                running.ends()
            shared.slow.gate.set()
        for unit, name in (("hq-relay-intake.service", "intake"), ("hq-relay-deliver.service", "deliver"),
                           ("hq-relay-postsuper@.service", "helper")):
            found = refused(it.folder / f"{name}.calls", unit)
            expect(not found, unit, "refuses", found)
        expect("postqueue" in (it.folder / "deliver.calls").read_text(), "postqueue was not run")
