"""What the parts of tests/relay work on: two instances of Postfix and sinks that they share, and a
desk and a worker for each of them."""
import contextlib
import re
import shutil
import signal
import subprocess
import tempfile
from pathlib import Path

from postfix import Delivering, Postfix
from serving import (HEADER, KEYS, LONGEST, RELAY, Server, Wrong, asked, expect, free_address, named,
                     until, words)
from sinks import ACCEPTS, DEFERS, REFUSES, Sink

HERE = Path(__file__).resolve().parent
WORKER = HERE.parents[1] / "relay/worker"
# The Python that has Debian's packages, as the worker's first line names it.
PYTHON = "/usr/bin/python3"
FAR = "good.example"
# the limits of a customer: messages, bytes, lines, notices and delay
WIDE = "1000,500000000,1000,1000,0"
# the same, and how many ends are kept
REMEMBERED = f"{WIDE},1000"
DOMAINS = {"acme": "a.example", "birch": "b.example", "cedar": "c.example"}
SETTINGS = {
    "desk": {"key-file": "relay.key", "directory": "names.csv"},
    "spool": {"folder": "spool", "keep-days": "7"},
    "logins": {"ann": "acme", "bea": "birch", "cay": "cedar"},
    "domains": {domain: name for name, domain in DOMAINS.items()},
    "delivery": {"host": "relay.example", "postsuper": "postsuper", "sessions": "4",
                 "timeout": "30", "pause": "1", "rest": "1", "settle-after": "2",
                 "lost-after": "60", "sweep-every": "300", "clean-every": "300"},
    "notices": {"from": "MAILER-DAEMON@relay.example"},
}
BOUNCED = re.compile(r"(?s)\nFinal-Recipient: rfc822; (\S+)\n.*?\nDiagnostic-Code: smtp; (.*?)\n\n")


class Shared:
    """Both instances of Postfix, and the sinks: of mail that is accepted, refused, deferred and slow,
    and of what senders are told."""

    def __init__(self, folder, has_policy=False):
        self.intake, self.policy = free_address(), free_address() if has_policy else None
        self.good, self.hard, self.soft = Sink(ACCEPTS), Sink(REFUSES), Sink(DEFERS)
        self.slow, self.senders = Sink(ACCEPTS), Sink(ACCEPTS)
        self.sinks = {"good": self.good, "hard": self.hard, "soft": self.soft, "slow": self.slow}
        # (the processes of Postfix are of other users)
        folder.chmod(0o755)
        (folder / "front").mkdir()
        (folder / "delivering").mkdir()
        self.postfix = Postfix(folder / "front", self.intake, self.senders.address, self.policy)
        self.delivering = Delivering(folder / "delivering", self.hops())

    def __enter__(self):
        with contextlib.ExitStack() as entered:
            for it in (*self.sinks.values(), self.senders, self.postfix, self.delivering):
                entered.enter_context(it)
            self.entered = entered.pop_all()
        return self

    def __exit__(self, *_):
        self.entered.close()

    def hops(self):
        """The domain of each sink, and its address."""
        return {f"{name}.example": it.address for name, it in self.sinks.items()}

    def fresh(self):
        """Nothing is in the queues, and all sinks are as they were at first."""
        self.postfix.drop()
        self.delivering.drop()
        for it in self.delivering.reports.glob("*/*"):
            if it.is_file():
                it.unlink()
        for it in (*self.sinks.values(), self.senders):
            it.forget()
            it.hangs = False
            it.gate.set()
        for it in (self.good, self.slow, self.senders):
            it.answer = lambda _: ACCEPTS
        self.soft.answer = lambda _: DEFERS


class Desk:
    """A desk over a file, which can be killed and started again at its address."""

    def __init__(self, program, folder, **environment):
        self.program, self.folder, self.environment = program, folder, environment
        self.server, self.address = None, free_address()

    def start(self):
        serve = words(self.program, "serve", "desk.db")
        self.server = Server(serve, self.folder, 1_000_000, named(self.address), **self.environment)

    def kill(self):
        if self.server:
            self.server.stop()
            self.server = None

    def ask(self, method, path, key, body=None):
        """The status and the body that a call is answered with."""
        return asked(named(self.address), method, path, key, body)

    def own(self, customer, method, path, body=None):
        """The body that a call of a customer is answered with by 200."""
        status, told = self.ask(method, path, KEYS[customer], body)
        expect(status == 200, customer, method, path, body, "got", status, told)
        return told

    def usage(self, customer):
        return self.own(customer, "GET", "/v1/usage")

    def expect_usage(self, customer, **wanted):
        """The counts of recipients are these, the others 0, and they add up."""
        told = self.usage(customer)
        names = ("pending", "delivered", "failed", "deleted", "expired")
        found = {it: told[it] for it in names if told[it]}
        expect(found == wanted and told["accepted"] == sum(wanted.values()), customer, "has", told,
               "and not", wanted)

    def messages(self, customer):
        """All messages of a customer, page by page."""
        found, path = [], "/v1/messages"
        while True:
            page = self.own(customer, "GET", path)
            found += page["messages"]
            if not page["more"]:
                return found
            path = f"/v1/messages-after/{found[-1]['id']}"

    def only(self, customer):
        """The queue ID of the one message of a customer."""
        found = self.messages(customer)
        expect(len(found) == 1, customer, "has not one message, but", found)
        return found[0]["id"]

    def line(self, customer, kind, pattern, action):
        self.own(customer, "POST", "/v1/line-put",
                 {"class": kind, "pattern": pattern, "action": action})

    def drop_line(self, customer, kind, pattern):
        self.own(customer, "POST", "/v1/line-drop", {"class": kind, "pattern": pattern})


class Running:
    """A process of the worker, which ends by itself, is killed, or kills itself."""

    def __init__(self, words_of, folder, log, errors=None):
        self.asked, self.log = words_of[1:], log
        with open(log, "ab") as output:
            self.process = subprocess.Popen(words_of, stdin=subprocess.DEVNULL, stdout=output,
                                            stderr=output if errors is None else errors, cwd=folder)

    def ends(self, status=0, longest=LONGEST):
        """Waits until it has ended, with this status."""
        try:
            found = self.process.wait(longest)
        except subprocess.TimeoutExpired:
            self.kill()
            raise Wrong(self.asked, "does not end", self.log.read_text()[-600:]) from None
        expect(found == status, self.asked, "ended with", found, self.log.read_text()[-900:])

    def others(self):
        """The numbers of the processes that it has begun."""
        number = self.process.pid
        return [int(it) for it in Path(f"/proc/{number}/task/{number}/children").read_text().split()]

    def has_heard(self):
        """Whether no signal that was sent to it waits for it."""
        status = Path(f"/proc/{self.process.pid}/status").read_text()
        return re.search(r"(?m)^ShdPnd:\s+0+$", status)

    def dies(self):
        """Waits until it has killed itself."""
        self.ends(-signal.SIGKILL)

    def kill(self):
        if self.process.poll() is None:
            self.process.kill()
            self.process.wait(LONGEST)


class Relay:
    """A desk and a worker in a folder of their own. The worker gets no key but the relay's."""

    def __init__(self, program, shared, limits=None, settings=None):
        self.shared, self.postfix, self.senders = shared, shared.postfix, shared.senders
        self.folder = Path(tempfile.mkdtemp(prefix="relay-", dir=self.postfix.folder))
        limits = limits or {name: WIDE for name in KEYS}
        header = HEADER.rstrip() + (",history" if REMEMBERED in limits.values() else "")
        self.write("customers.csv", header,
                   *(f"{name},{KEYS[name]},{of}" for name, of in limits.items()))
        # (it has the form of the directory of the desk, and no key of a customer)
        self.write("names.csv", header,
                   *(f"{name},{KEYS[name][::-1]},{of}" for name, of in limits.items()))
        self.write("relay.key", RELAY)
        self.desk, self.customers = Desk(program, self.folder), [*limits]
        self.settings, self.begun, self.count = settings or {}, [], 0

    def write(self, name, *lines):
        (self.folder / name).write_text("".join(f"{it}\n" for it in lines))

    def __enter__(self):
        self.shared.fresh()
        self.desk.start()
        self.set()
        return self

    def __exit__(self, kind, *_):
        for it in self.begun:
            it.kill()
        self.desk.kill()
        told = self.told()
        shutil.rmtree(self.folder)
        if not kind:
            expect(RELAY not in told, "the worker tells the relay's key:", told)

    def set(self, **more):
        """Writes the settings: those of all, the addresses, those of this one, and these."""
        found = {section: dict(values) for section, values in SETTINGS.items()}
        for section in ("logins", "domains"):
            found[section] = {it: of for it, of in found[section].items() if of in self.customers}
        found["desk"]["address"] = named(self.desk.address)
        found["intake"] = {"listen": named(self.shared.intake)}
        if self.shared.policy:
            found["intake"]["policy"] = named(self.shared.policy)
        delivering = self.shared.delivering
        found["delivery"].update({"instance": named(delivering.address),
                                  "postfix": delivering.conf, "reports": delivering.reports, "log": delivering.log})
        found["notices"]["next-hop"] = named(self.senders.address)
        for section, values in (*self.settings.items(), *more.items()):
            found.setdefault(section.replace("_", "-"), {}).update(values)
        lines = []
        for section, values in found.items():
            lines += [f"[{section}]", *(f"{name} = {value}" for name, value in values.items())]
        self.write("relay.ini", *lines)

    # ---- the worker

    def run(self, *asked, killed=None, errors=None, under=()):
        """Begins a command of the worker; `killed` names the step, when and the count at which it
        kills itself, `errors` a file for its standard error, and `under` the program that runs it."""
        way = [str(WORKER), "relay.ini", *asked]
        if killed:
            way = [str(HERE / "killed.py"), str(WORKER), *(str(it) for it in killed),
                   "relay.ini", *asked]
        self.count += 1
        begun = Running([*under, PYTHON, "-B", *way], self.folder,
                        self.folder / f"{asked[0]}.{self.count}.log", errors)
        self.begun.append(begun)
        return begun

    def python(self, script, *words):
        """Runs a script that knows the worker's modules, whose folder is its first argument."""
        subprocess.run([PYTHON, "-B", "-c", script, str(WORKER.parent), *words], cwd=self.folder,
                       check=True, timeout=LONGEST)

    def intake(self, killed=None, under=()):
        """Begins the intake, and waits until it listens."""
        begun = self.run("intake", killed=killed, under=under)

        def listens():
            expect(begun.process.poll() is None, "the intake has ended", begun.log.read_text())
            return b"listening on " in begun.log.read_bytes()

        until(listens, "the intake does not listen")
        return begun

    def deliver(self, killed=None, longest=LONGEST):
        """One round of the delivery, to its end."""
        begun = self.run("deliver", "--once", killed=killed)
        begun.dies() if killed else begun.ends(longest=longest)
        return begun.log.read_text()

    def told(self):
        """All that the worker told."""
        return "".join(it.log.read_text() for it in self.begun)

    # ---- what came of it

    def take(self, customer, *recipients, subject="tried", login=None):
        """A message of a customer comes to Postfix."""
        self.postfix.take(f"ann@{DOMAINS[customer]}", list(recipients), subject, login)

    def delivered(self):
        """How often each recipient got a message."""
        found = {}
        for it in self.shared.sinks.values():
            found.update(it.counts())
        return found

    def expect_delivered(self, *recipients):
        """Just these got a message, and each got one."""
        found = self.delivered()
        expect(found == {it: 1 for it in recipients}, "delivered was", found, "and not once to",
               recipients)

    def notices(self):
        """How many notices tell of each recipient. (Each message has but one.)"""
        found = {}
        for _, _, text in list(self.senders.mail):
            if b"X-Desk-Queue-Id: " in text:
                recipient = text.split(b"Final-Recipient: rfc822; ")[1].split(b"\r\n")[0].decode()
                found[recipient] = found.get(recipient, 0) + 1
        return found

    def bounces(self):
        """What Postfix itself bounced, in a list: each recipient with the answer that is told."""
        texts = [text.decode() for _, _, text in list(self.senders.mail)]
        texts = [it.replace("\r\n", "\n") for it in texts if "X-Postfix-Queue-ID: " in it]
        return [found for it in texts for found in BOUNCED.findall(it)]

    def expect_bounced(self, wanted):
        """Postfix bounced to these recipients alone, each once, with an answer that begins so."""
        found = self.bounces()
        is_so = sorted(it for it, _ in found) == sorted(wanted)
        expect(is_so and all(text.startswith(wanted[it]) for it, text in found), "bounced was",
               found, "and not", wanted)

    def again(self, customer):
        """Has all that is deferred due at once."""
        self.desk.own(customer, "POST", "/v1/hold-all")
        self.desk.own(customer, "POST", "/v1/release-all")


def contents(it):
    """The files of the spool that have a message's text."""
    return [one for one in it.folder.glob("spool/**/*") if one.is_file()
            and b"\nHello.\r\n" in one.read_bytes()]
