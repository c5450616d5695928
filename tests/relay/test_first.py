"""Runs the first mail of docs/RELAY.md, line by line, in a machine of its own (tests/support/private.py);
and holds the page's tables of Postfix's lines to those that `relay/worker install` writes.

As a script it is what runs in such a machine: test_first.py PROGRAM.
"""
import os
import re
import shlex
import shutil
import subprocess
import sys
import time
from itertools import groupby
from pathlib import Path
from types import SimpleNamespace

from private import LOG, REPOSITORY, enter, inside, want
from serving import LONGEST, Wrong, expect, until

ROOT = Path(__file__).resolve().parents[2]
PAGE = ROOT / "docs/RELAY.md"
PROGRAM = "/srv/hq_main"
# The log of the Postfix that delivers.
OWN_LOG = Path("/var/log/postfix-desk/mail.log")
OF_THE_PAGE = "REPOSITORY/crates/hq_main/out/hq_main"
# What asks, and may be asked again until it tells what the page shows.
ASKS = ("cat ", "grep ", "curl -H ")
# What is not shown, and has to be there.
SHOWN = {"cat taken/new/*": "hello",
         "grep ": "TLS connection established to 127.0.0.1[127.0.0.1]:2525",
         "/v1/report": "bob@far.example", "worker relay.ini install": "/etc/postfix-desk: started"}
ENDED = "has ended with"


# ---- the page

def commands_of(section):
    """The commands of a section, each with the lines that are shown below it."""
    text = PAGE.read_text(encoding="utf-8").partition(f"\n## {section}\n")[2].partition("\n## ")[0]
    found = []
    for block in re.findall(r"(?ms)^```\n(.*?)^```$", text):
        for part in re.split(r"(?m)^\$ ", block)[1:]:
            found.append(parted(part))
    return found


def parted(part):
    """A command, which may have several lines, and what is shown below it."""
    lines = part.splitlines()
    for count in range(1, len(lines) + 1):
        command = "\n".join(lines[:count])
        if is_whole(command):
            return command, lines[count:]
    raise Wrong(PAGE.name, "has half a command", part)


def is_whole(command):
    if "<<END" in command:
        return command.endswith("\nEND")
    try:
        return not command.endswith("\\") and bool(shlex.split(command))
    except ValueError:
        return False


def rows(instance, is_proposal):
    """The rows of the page for the lines of an instance; those with one reason share a row."""
    named = [(f"{name} = {it.value}".strip(), it) for name, it in instance.parameters.items()]
    named += [(it.value, it) for it in instance.services.values()]
    named = [(text, it.why) for text, it in named if it.is_proposal == is_proposal]
    if not is_proposal:
        named += [(line, f"in the file `{name}`") for name, text in instance.tables.items()
                  for line in text.splitlines()]
    return ["| {} | {} |".format(", ".join(f"`{text}`" for text, _ in group), why)
            for why, group in groupby(named, lambda it: it[1])]


def page_faults():
    """The rows that the page does not have."""
    sys.path.append(str(ROOT / "relay"))
    from hq_relay.postfix import lines as postfix_lines
    settings = SimpleNamespace(
        listen=("127.0.0.1", 823), customers_at=("127.0.0.1", 819), connections=50, policy=None,
        notices_hop=("127.0.0.1", 821), instance=("127.0.0.1", 822), host="relay.example", user="hqrelay",
        largest=11_000_000, reports=Path("/srv/mail/spool/reports"), log=OWN_LOG)
    text = PAGE.read_text(encoding="utf-8").splitlines()
    instances = (postfix_lines.front(settings), postfix_lines.delivering(settings, 999, 999))
    return [row for it in instances for kind in (False, True) for row in rows(it, kind)
            if row not in text]


# ---- in the machine

class Shell:
    """A shell that takes one command after the other, as somebody types them."""

    def __init__(self):
        self.log = Path("/run/shown")
        with open(self.log, "wb") as shown:
            self.process = subprocess.Popen(["bash"], stdin=subprocess.PIPE, stdout=shown,
                                            stderr=shown)

    def shown(self):
        return self.log.read_text(errors="replace")

    def say(self, command):
        """What is shown from a command on, when it has ended or goes on behind."""
        before, number = len(self.shown()), self.shown().count(ENDED)
        self.process.stdin.write(f"{command}\necho {ENDED} $?\n".encode())
        self.process.stdin.flush()
        until(lambda: self.shown().count(ENDED) > number, f"{command} does not end")
        return lambda: self.shown()[before:]

    def follow(self, command, wanted):
        """Says a command, and sees what the page shows."""
        end = time.monotonic() + LONGEST
        shown = self.say(command)
        while not all(it in shown() for it in wanted):
            expect(time.monotonic() < end, command, "shows", shown(), "and not", wanted,
                   log_of_all())
            time.sleep(0.2)
            if command.startswith(ASKS):
                shown = self.say(command)
        is_asked = command.startswith(ASKS)
        expect(is_asked or f"{ENDED} 0\n" in shown(), command, "shows", shown())
        return shown()


def log_of_all():
    logs = [LOG, OWN_LOG, *Path("/srv/mail").glob("*.log")]
    return "".join(f"\n{it}:\n{it.read_text(errors='replace')[-3000:]}" for it in logs
                   if it.exists())


def first_mail():
    """Follows the page to its end; the mail is held for a while, and comes when it is released."""
    shell = Shell()
    for command, below in commands_of("A first mail"):
        said = command.replace(OF_THE_PAGE, PROGRAM).replace("REPOSITORY", str(REPOSITORY))
        wanted = [*below, *(it for part, it in SHOWN.items() if part in command)]
        if "/v1/release/" in command:
            # (some rounds of `deliver`)
            time.sleep(3)
            taken = [*Path("/srv/mail/taken").glob("new/*")]
            expect(not taken, "mail on hold was delivered", taken)
        shell.follow(said, wanted)
    told = OWN_LOG.read_text(errors="replace")
    expect("postfix-desk/smtp" in told and "status=sent" in told, "the log is", told)
    # (it has queue IDs, which nobody else is to know)
    modes = [(it.stat().st_mode & 0o777, it.stat().st_uid, it.group()) for it in (OWN_LOG, OWN_LOG.parent)]
    expect(modes == [(0o640, 0, "hqrelay"), (0o750, 0, "hqrelay")], "the log is open to", modes)
    if shutil.which("logrotate"):
        rotated = subprocess.run(["logrotate", "--force", "--state", "/run/rotated", "/etc/logrotate.d/postfix-desk"],
                                 stdout=subprocess.PIPE, stderr=subprocess.STDOUT, check=False)
        of, before = OWN_LOG.stat(), OWN_LOG.with_name("mail.log.1")
        expect(not rotated.returncode and before.exists() and not of.st_size, "it is rotated so:", rotated.stdout)
        expect(of.st_mode & 0o777 == 0o640 and OWN_LOG.group() == "hqrelay", "the new one is open to others, or to nobody")
    print(f"{len(commands_of('A first mail'))} commands")


# ---- outside of it

def test_tables_of_lines():
    """The page has each line that `install` writes."""
    missing = page_faults()
    expect(not missing, PAGE.name, "has not the rows", *(f"\n{it}" for it in missing))


def test_first_mail(program):
    """The commands of the page as they stand, over TLS."""
    want()
    inside(os.path.realpath(__file__), program)


if __name__ == "__main__":
    os.environ["PATH"] = "/usr/sbin:/usr/bin:/sbin:/bin"
    # (whoever may run the program may not read its folder)
    given = sys.argv[1]
    enter()
    os.symlink(given, PROGRAM)
    first_mail()
