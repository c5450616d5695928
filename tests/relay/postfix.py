"""Instances of Postfix of a test's own: configuration, queue and log in a folder, on loopback,
without chroot.

They have the very lines that `relay/worker install` writes, and are begun and stopped as root.
`Postfix` takes mail in: what comes in at `address` goes to a worker over LMTP; what comes in at
`plain`, and what Postfix itself writes, goes to one sink. `Delivering` takes mail from the worker,
and delivers it to sinks.
"""
import contextlib
import json
import os
import signal
import smtplib
import subprocess
import time
from pathlib import Path
from types import SimpleNamespace

from serving import LONGEST, Wrong, expect, free_address, listens, until

from hq_relay.postfix import lines as postfix_lines

# How many seconds lie between two runs of the queue.
FLUSHED_EACH = 0.25
LARGEST = 11_000_000
MAILDIR = ("new", "cur", "tmp")
# The processes that take clients, route, and hand out work, as the system names them.
READERS = {"smtpd", "trivial-rewrite", "qmgr"}
# As the system's table of connections has it.
ESTABLISHED = "01"

# What only the instances of a test have.
MAIN_OF_A_TEST = """\
compatibility_level = 3.6
queue_directory = {folder}/queue
data_directory = {folder}/data
maillog_file = {folder}/mail.log
maillog_file_prefixes = {folder}
mydestination =
local_recipient_maps =
alias_maps =
alias_database =
append_dot_mydomain = no
smtpd_peername_lookup = no
smtpd_client_connection_count_limit = 0
smtpd_client_connection_rate_limit = 0
disable_dns_lookups = yes
minimal_backoff_time = 1s
maximal_backoff_time = 1s
queue_run_delay = 1s
"""
FRONT_OF_A_TEST = """\
inet_interfaces = 127.0.0.1
inet_protocols = ipv4
mynetworks = 127.0.0.0/8
myhostname = mta.relay.example
notify_classes =
smtpd_relay_restrictions = permit_mynetworks, reject
smtpd_authorized_xclient_hosts = 127.0.0.1
relayhost = [{sink_host}]:{sink_port}
"""
DELIVERING_OF_A_TEST = """\
transport_maps = texthash:{folder}/conf/transport
default_transport = smtp:[no-such-host.invalid]
smtp_connect_timeout = 5s
"""
MASTER_OF_A_TEST = """\
pickup unix n - n 60 1 pickup
cleanup unix n - n - 0 cleanup
qmgr unix n - n 300 1 qmgr
tlsmgr unix - - n 1000? 1 tlsmgr
rewrite unix - - n - - trivial-rewrite
bounce unix - - n - 0 bounce
defer unix - - n - 0 bounce
trace unix - - n - 0 bounce
verify unix - - n - 1 verify
flush unix n - n 1000? 0 flush
proxymap unix - - n - - proxymap
smtp unix - - n - - smtp
showq unix n - n - - showq
error unix - - n - - error
retry unix - - n - - error
discard unix - - n - - discard
virtual unix - n n - - virtual
lmtp unix - - n - - lmtp
anvil unix - - n - 1 anvil
scache unix - - n - 1 scache
postlog unix-dgram n - n - 1 postlogd
"""


def parameters_of(text):
    """The parameters of a text of main.cf."""
    return {name.strip(): value.strip() for name, _, value in
            (line.partition("=") for line in text.splitlines())}


def services_of(text):
    """The services of a text of master.cf, by the names that the worker's lines have."""
    return {"/".join(line.split()[:2]): line for line in text.splitlines()}


class Instance:
    """An instance with the lines that the worker's `install` writes, and those of a test."""

    def __init__(self, folder, address, lines, own):
        self.folder, self.address = folder, address
        self.conf, self.log = folder / "conf", folder / "mail.log"
        # (its processes are of another user)
        folder.chmod(0o755)
        for made in (self.conf, folder / "queue", folder / "data"):
            made.mkdir()
        subprocess.run(["chown", "postfix", folder / "data"], check=True)
        installed = {name: it.value for name, it in lines.parameters.items()}
        own = (MAIN_OF_A_TEST + own).replace("{folder}", str(folder))
        main = {**installed, **parameters_of(own)}
        master = {**services_of(MASTER_OF_A_TEST),
                  **{name: it.value for name, it in lines.services.items()}}
        self.write("main.cf", *(f"{name} = {value}" for name, value in main.items()))
        self.write("master.cf", *master.values())
        for name, text in lines.tables.items():
            self.write(name, text)

    def write(self, name, *lines):
        (self.conf / name).write_text("".join(f"{it}\n" for it in lines))

    def __enter__(self):
        self.start()
        return self

    def __exit__(self, *_):
        self.stop()

    def start(self):
        """Starts it, and waits until it listens."""
        self.run("postfix", "start")
        try:
            self.until(lambda: listens(self.address), "it listens")
        except BaseException:
            self.stop()
            raise

    def stop(self):
        """Stops it; none that runs does as well."""
        if self.master():
            self.run("postfix", "stop")

    def kill(self):
        """Kills all its processes by SIGKILL, as when the machine stops."""
        master = self.master()
        expect(master, "there is no process of Postfix to kill")
        os.kill(master, signal.SIGSTOP)
        for it in (*children_of(master), master):
            with contextlib.suppress(ProcessLookupError):
                os.kill(it, signal.SIGKILL)
        until(lambda: not self.master() and not listens(self.address), "Postfix lives when killed")

    def master(self):
        """The number of its master process; None where it does not run."""
        with contextlib.suppress(OSError, ValueError):
            number = int((self.folder / "queue/pid/master.pid").read_text())
            if str(self.conf).encode() in environment_of(number):
                return number
        return None

    def set(self, **main):
        """Sets parameters of main.cf, and has it read them."""
        self.run("postconf", "-e", *(f"{name}={value}" for name, value in main.items()))
        self.reload()

    def reload(self):
        """Has it read its configuration, if it runs, and waits until no process knows the one before:
        the command returns sooner, and one that waits for a client may take one more. One that has a
        client stays until that goes, and is not waited for."""
        master = self.master()
        if master:
            before = readers_of(master)
            self.run("postfix", "reload")
            self.until(lambda: not {it for it in before & readers_of(master) if not has_client(it)},
                       "a reload")

    def run(self, command, *words):
        """What one of its commands prints."""
        ended = subprocess.run(
            [command, "-c", self.conf, *words], stdin=subprocess.DEVNULL, stdout=subprocess.PIPE,
            stderr=subprocess.PIPE, timeout=LONGEST)
        expect(ended.returncode == 0, command, words, "ended with", ended.returncode, ended.stderr)
        return ended.stdout.decode()

    def until(self, holds, told, longest=LONGEST):
        """Waits until something holds."""
        end = time.monotonic() + longest
        while not holds():
            if time.monotonic() > end:
                raise Wrong("Postfix does not come to", told, self.queue(), self.told()[-600:])
            time.sleep(0.05)

    # ---- what is in it

    def queue(self):
        """The messages in its queue, each as `postqueue -j` tells it."""
        return [json.loads(line) for line in self.run("postqueue", "-j").splitlines()]

    def flush(self):
        self.run("postqueue", "-f")

    def run_until(self, holds, told):
        """Waits until something holds, and has the queue run again and again. (What Postfix is
        just trying is left out of a run.)"""
        flushed = 0

        def is_so():
            nonlocal flushed
            if holds():
                return True
            if time.monotonic() > flushed + FLUSHED_EACH:
                self.flush()
                flushed = time.monotonic()
            return False
        self.until(is_so, told)

    def empty(self):
        """Waits until its queue is empty."""
        self.run_until(lambda: not self.queue(), "an empty queue")

    def drop(self):
        """Drops all that is in its queue."""
        self.run("postsuper", "-d", "ALL")

    def deferred(self, reason):
        """Waits until all that is in its queue was deferred for a reason with this text."""
        self.run_until(lambda: self.is_deferred(reason), f"a deferral by {reason!r}")

    def is_deferred(self, reason):
        found = self.queue()
        reasons = [it.get("delay_reason", "") for one in found for it in one["recipients"]]
        return reasons and all(reason in it for it in reasons)

    def told(self):
        """Its log."""
        return self.log.read_text(errors="replace") if self.log.exists() else ""


class Postfix(Instance):
    """The instance that takes mail in. Its worker listens at one address, its sink at another."""

    def __init__(self, folder, worker, sink, policy=None):
        address, self.plain = free_address(), free_address()
        lines = postfix_lines.front(SimpleNamespace(
            listen=worker, customers_at=address, notices_hop=self.plain, connections=50, policy=policy))
        own = FRONT_OF_A_TEST.format(sink_host=sink[0], sink_port=sink[1])
        super().__init__(folder, address, lines, own)

    @contextlib.contextmanager
    def session(self, login=None):
        """A client's session; `login` is the name under which it stands for having logged in."""
        with smtplib.SMTP(*self.address, timeout=LONGEST) as client:
            if login:
                client.ehlo("client.example")
                code, told = client.docmd("XCLIENT", f"LOGIN={login}")
                expect(code == 220, "XCLIENT got", code, told)
                client.ehlo_resp = client.helo_resp = None
            client.ehlo("client.example")
            yield client

    def offer(self, sender, recipients, subject="tried", login=None):
        """A client brings one message; the recipients that are refused in its session, and how. A
        message that is refused after its content, as one is that another took the room of, is refused
        for each."""
        with self.session(login) as client:
            try:
                return client.sendmail(sender, recipients, text_of(sender, recipients, subject))
            except smtplib.SMTPRecipientsRefused as error:
                return error.recipients
            except smtplib.SMTPDataError as error:
                return dict.fromkeys(recipients, (error.smtp_code, error.smtp_error))

    def take(self, sender, recipients, subject="tried", login=None):
        """Takes one message in."""
        refused = self.offer(sender, recipients, subject, login)
        expect(not refused, "Postfix refused", refused)


class Delivering(Instance):
    """The instance that delivers. Mail for a domain goes to the sink of `hops`; its reports come
    into the Maildir `reports`, which is of the user with this number."""

    def __init__(self, folder, hops=None, uid=65534, largest=LARGEST):
        self.reports = folder / "outcomes/reports"
        lines = postfix_lines.delivering(SimpleNamespace(
            host="relay.example", user="hqrelay", instance=free_address(), largest=largest, reports=self.reports,
            log=folder / "mail.log"), uid, uid)
        at = next(it for it in lines.services if it.endswith("/inet"))
        host, port = at[:-len("/inet")].rsplit(":", 1)
        super().__init__(folder, (host, int(port)), lines, DELIVERING_OF_A_TEST)
        self.uid = uid
        for made in (self.reports.parent, self.reports, *(self.reports / it for it in MAILDIR)):
            made.mkdir()
        self.open_reports()
        self.route(hops or {})

    def open_reports(self):
        """Its user may write the folders of reports, again where that was taken away."""
        for it in (self.reports.parent, self.reports, *(self.reports / it for it in MAILDIR)):
            it.chmod(0o755)
            os.chown(it, self.uid, self.uid)

    def route(self, hops):
        """Sends the mail of these domains, and of no other, to these addresses."""
        lines = (f"{domain} smtp:[{host}]:{port}" for domain, (host, port, *_) in hops.items())
        self.write("transport", *lines)
        self.reload()


def environment_of(number):
    """The environment of a process, as bytes."""
    return Path(f"/proc/{number}/environ").read_bytes()


def children_of(number):
    """The processes that a process began."""
    found = Path(f"/proc/{number}/task/{number}/children").read_text()
    return [int(it) for it in found.split()]


def readers_of(master):
    """Those of its processes that hold what they once read of the configuration."""
    return {it for it in children_of(master) if name_of(it) in READERS}


def has_client(number):
    """Whether a process has a connection of TCP."""
    with contextlib.suppress(OSError):
        inodes = {os.readlink(it)[len("socket:["):-1] for it in Path(f"/proc/{number}/fd").iterdir()
                  if os.readlink(it).startswith("socket:[")}
        rows = (it.split() for it in Path(f"/proc/{number}/net/tcp").read_text().splitlines()[1:])
        return any(row[3] == ESTABLISHED and row[9] in inodes for row in rows)
    return False


def name_of(number):
    """The name of a process; none where it has ended."""
    with contextlib.suppress(OSError):
        return Path(f"/proc/{number}/comm").read_text().strip()
    return ""


def text_of(sender, recipients, subject):
    """A message of a client."""
    head = f"From: <{sender}>\r\nTo: <{recipients[0]}>\r\nSubject: {subject}\r\n"
    head += f"Message-ID: <{subject}.{len(recipients)}@client.example>\r\n"
    return f"{head}\r\nHello.\r\n.dot\r\n"
