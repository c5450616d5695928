"""The command `install`: both instances of Postfix get their lines, and the worker what it needs.

That is its user, its spool, and its right to take deleted mail back. It changes nothing unless it
may change all: a value that is in no record of its own is somebody else's. A run that was cut can
be run again, since each record is written first.
"""
import grp
import os
import pwd
import re
import shutil
import signal
import socket
import stat
import sys
import tempfile
from collections.abc import Callable, Iterator
from pathlib import Path
from typing import NamedTuple

from hq_relay.postfix import instance_unit, lines, listeners
from hq_relay.postfix.configuration import (ConfigurationFiles, ConfigurationPart, MainParameters,
                                            MasterServices, NotInstalled, Record, run)
from hq_relay.postfix.installation_plan import LISTENER, InstancePlan, Target
from hq_relay.postfix.lines import Instance, Line
from hq_relay.settings import Settings
from hq_relay.settings_values import Address, address

SUDOERS, LOGROTATE = Path("/etc/sudoers.d"), Path("/etc/logrotate.d")
# Since this version a rule may have a regular expression.
OLDEST_SUDO = (1, 9, 10)
SUDO = re.compile(r"Sudo version ([0-9]+)\.([0-9]+)\.([0-9]+)")
# (an ID has no vowel: the word ALL of postsuper is none)
QUEUE_ID = "[0-9B-DF-HJ-NP-TV-Zb-df-hj-np-tv-z]+"
# Postfix delivers to users from this number on (virtual_minimum_uid).
LEAST_UID = 100
MAILDIR = ("new", "cur", "tmp")
HELP = "apt-get install postfix"
# The mark that mail waits since the package was removed, in the folder of the front, and its
# parameter.
DEFERRED, DEFERS = "desk-deferred", "defer_transports"
# The unit of the package that listens at the socket of root's helper.
HELPER = "hq-relay-postsuper.socket"


class WantedFiles(NamedTuple):
    """Files of a folder by name, with their mode. `check` raises NotInstalled for a faulty text."""

    folder: Path
    wanted: dict[str, Line]
    mode: int = 0o644
    check: Callable[[str], None] | None = None


# ---- the worker's right to take mail back

def rule_of(settings: Settings, postsuper: str) -> str:
    """The rule of sudo: one message of this queue may be deleted, and nothing else."""
    folder = re.sub(r"[^A-Za-z0-9/_-]", lambda found: "\\" + found[0], str(settings.delivering))
    return ("# The worker takes back mail that is deleted. (Written by relay/worker install.)\n"
            f"{settings.user} ALL=(root) NOPASSWD: {postsuper} ^-c {folder} -d {QUEUE_ID}$\n")


def check_rule(text: str) -> None:
    if shutil.which("visudo"):
        with tempfile.NamedTemporaryFile("w", suffix=".sudoers") as file:
            file.write(text)
            file.flush()
            run("visudo", "-c", "-q", "-f", file.name)


def owner_above(path: Path) -> int:
    """The number of the user that has the nearest folder above a path that is there."""
    return next(folder for folder in path.parents if folder.exists()).stat().st_uid


def lacks_sudo() -> str:
    """Why sudo gives the worker no right; nothing if it does."""
    if not shutil.which("sudo"):
        return "sudo is not installed"
    found = SUDO.search(run("sudo", "-V").stdout)
    if not found or tuple(map(int, found.groups())) < OLDEST_SUDO:
        return "sudo is older than 1.9.10"
    return ""


# ---- the log by which the worker knows what was delivered

def rotation_of(settings: Settings) -> str:
    """The rule of logrotate.

    (postlogd opens its log anew after a hundred lines at most, so that no reload is wanted.)
    """
    user = user_of(settings)
    group = grp.getgrgid(user.pw_gid).gr_name if user else settings.user
    return ("# The worker reads there what was delivered. (Written by relay/worker install.)\n"
            f"{settings.log} {{\n"
            "\tdaily\n\tmaxsize 500M\n\trotate 14\n\tmissingok\n\tnotifempty\n"
            f"\tcreate 0640 root {group}\n\tcompress\n\tdelaycompress\n}}\n")


# ---- what is there

def user_of(settings: Settings) -> "pwd.struct_passwd | None":
    try:
        return pwd.getpwnam(settings.user)
    except KeyError:
        return None


def made_user(settings: Settings) -> "pwd.struct_passwd":
    """The worker's user, once it is made."""
    return pwd.getpwnam(settings.user)


def listed() -> list[Path]:
    """The folders of the instances that Postfix knows beside its first one."""
    printed = run("postconf", "-h", "multi_instance_directories", needs=HELP).stdout
    return [Path(word) for word in re.split(r"[\s,]+", printed.strip()) if word]


def occupied(at: Address) -> str:
    """Why nobody can listen at an address; nothing if one can."""
    host, port = at
    family = socket.AF_INET6 if ":" in host else socket.AF_INET
    with socket.socket(family, socket.SOCK_STREAM) as tried:
        tried.setsockopt(socket.SOL_SOCKET, socket.SO_REUSEADDR, 1)
        try:
            tried.bind((host, port))
            tried.listen(1)
        except OSError as error:
            return error.strerror
    return ""


class Installation:
    """Both instances as the settings want them, and the faults of that."""

    def __init__(self, settings: Settings):
        self.settings = settings
        self.folders = listed()
        self.is_by_sudo = settings.postsuper[0] == "sudo"
        self.why_no_rule = lacks_sudo() if self.is_by_sudo else ""
        self.front = self.plan_of(settings.front, lines.front(settings), [])
        self.is_made = settings.delivering in self.folders and not self.front.record.making
        self.delivering = self.plan_of_delivery()

    def plan_of_delivery(self) -> InstancePlan:
        user = user_of(self.settings)
        numbers = (user.pw_uid, user.pw_gid) if user else (0, 0)
        more: list[WantedFiles] = []
        if not self.why_no_rule:
            more = [WantedFiles(SUDOERS, self.rules(), 0o440, check_rule)]
        if LOGROTATE.is_dir():
            rule = Line(rotation_of(self.settings), "bounds the log")
            more.append(WantedFiles(LOGROTATE, {self.settings.delivering.name: rule}))
        plan = self.plan_of(self.settings.delivering, lines.delivering(self.settings, *numbers),
                            more, self.is_made)
        plan.unit = instance_unit.unit_of(plan.folder)
        return plan

    def rules(self) -> dict[str, Line]:
        """The rules of sudo: none if the worker has another way, and an earlier one goes then."""
        if not self.is_by_sudo:
            return {}
        folder = run("postconf", "-h", "command_directory").stdout.strip()
        rule = rule_of(self.settings, f"{folder}/postsuper")
        return {self.settings.user: Line(rule, "takes deleted mail back")}

    def plan_of(self, folder: Path, wanted: Instance, more: list[WantedFiles],
                is_there: bool = True) -> InstancePlan:
        record = Record.load(folder) or Record(str(self.settings.folder))
        tables = {name: Line(text, "") for name, text in wanted.tables.items()}
        targets = []
        for files in (WantedFiles(folder, tables), *more):
            names = [*files.wanted, *record.wrote.get(str(files.folder), {})]
            part = ConfigurationFiles(files.folder, names, files.mode, files.check)
            targets.append(Target(part, files.wanted))
        targets += [Target(MasterServices(folder), wanted.services),
                    Target(MainParameters(folder), wanted.parameters)]
        plan = InstancePlan(folder, targets, record, is_there)
        plan.compare()
        return plan

    # ---- faults

    def faults(self) -> Iterator[str]:
        user = user_of(self.settings)
        if user and user.pw_uid < LEAST_UID:
            yield f"[spool] user: {user.pw_name} has a number below {LEAST_UID}; Postfix wants none"
        for path in (self.settings.folder, self.settings.reports):
            if path.exists() and (not user or path.stat().st_uid != user.pw_uid):
                yield f"{path} is not of the user {self.settings.user}"
        folder = self.settings.log.parent
        if folder.exists() and folder.stat().st_uid != 0:
            yield f"[delivery] log: {folder} is not of root, who writes there"
        if not (self.settings.front / "main.cf").is_file():
            yield f"[intake] postfix: {self.settings.front} has no main.cf"
        yield from self.faults_of_addresses()
        yield from self.faults_of_records()
        yield from self.front.faults()
        yield from self.delivering.faults()

    def faults_of_addresses(self) -> Iterator[str]:
        optional = [self.settings.listen, self.settings.instance, self.settings.customers_at,
                    self.settings.policy, self.settings.notices_hop]
        wanted = [at for at in optional if at]
        for at in sorted({at for at in wanted if wanted.count(at) > 1}):
            yield f"{lines.named(at)} stands twice in the settings"
        for plan in (self.front, self.delivering):
            for change in plan.new_listeners():
                at = address(change.name[:-len(LISTENER)])
                why = occupied(at)
                if why:
                    yield f"{plan.folder}: cannot listen at {lines.named(at)}: {why}"

    def faults_of_records(self) -> Iterator[str]:
        for plan in (self.front, self.delivering):
            if plan.record.spool != str(self.settings.folder):
                yield (f"{plan.folder}: install wrote it for the worker with the spool "
                       f"{plan.record.spool} ({Record.path(plan.folder)})")
        folder = self.settings.delivering
        is_own = Record.path(folder).exists() or self.front.record.making == str(folder)
        if folder.exists() and not is_own:
            yield f"[delivery] postfix: {folder} is there, and install did not make it"

    # ---- what it does

    def lines(self) -> list[str]:
        """The changes, as far as they are known before the delivering instance is there."""
        made = [] if user_of(self.settings) else [f"user {self.settings.user}: is made"]
        made += [] if self.settings.reports.exists() else [f"{self.settings.reports}: is made"]
        made += [] if self.settings.log.exists() else [f"{self.settings.log}: is made"]
        made += [] if self.is_made else [f"{self.settings.delivering}: is made by postmulti"]
        made += [self.line_of_waiting()] if self.waits() else []
        made += [f"{self.delivering.unit}: is enabled"] if self.delivering.lacks_unit() else []
        return [*made, *self.delivering.lines(), *self.front.lines()]

    def waits(self) -> bool:
        """Whether mail waits in the front since the package was removed (hq-desk.prerm)."""
        return (self.settings.front / DEFERRED).exists()

    def line_of_waiting(self) -> str:
        return (f"{self.settings.front}/main.cf: {DEFERS} = unset, was desk: mail waited for the "
                "worker")

    def end_waiting(self) -> None:
        front = self.settings.front
        # (mail that the administrator holds stays held)
        if run("postconf", "-c", front, "-h", DEFERS).stdout.strip() == "desk":
            run("postconf", "-c", front, "-X", DEFERS)
            run("postfix", "-c", front, "reload")
            print(self.line_of_waiting(), flush=True)
        else:
            print(f"take desk out of {DEFERS} of {front}/main.cf where it stands there: mail "
                  "waited for the worker")
        (front / DEFERRED).unlink()

    def apply(self) -> None:
        self.make_user()
        self.make_folders()
        self.make_log()
        if not self.is_made:
            self.make_instance()
            self.is_made = True
        # (the number of the user, and the lines of postmulti, are known by now)
        self.delivering = self.plan_of_delivery()
        for plan in (self.delivering, self.front):
            for line in plan.lines():
                print(line, flush=True)
            plan.apply()
            plan.runs()
        if self.waits():
            self.end_waiting()

    def make_user(self) -> None:
        if not user_of(self.settings):
            run("useradd", "--system", "--user-group", "--no-create-home", "--home-dir",
                self.settings.folder, "--shell", "/usr/sbin/nologin", self.settings.user)
            print(f"user {self.settings.user}: is made", flush=True)

    def make_folders(self) -> None:
        """The spool, and the Maildir of reports, for the worker alone.

        The worker makes what lies in a folder of its own: it may have put a link there that leads
        root elsewhere.
        """
        user, reports = made_user(self.settings), self.settings.reports
        for made in (self.settings.folder, reports, *(reports / name for name in MAILDIR)):
            is_there, is_of_worker = made.exists(), owner_above(made) == user.pw_uid
            if is_of_worker:
                run("env", "-i", "--chdir=/", f"PATH={os.environ.get('PATH', os.defpath)}",
                    "setsid", "--wait", "runuser", "-u", user.pw_name, "--",
                    "mkdir", "-p", "-m", "700", made)
            elif not is_there:
                made.parent.mkdir(parents=True, exist_ok=True)
                made.mkdir(0o700)
            # (a run that was cut may have left it root's)
            if not is_of_worker and made.lstat().st_uid == 0:
                os.chown(made, user.pw_uid, user.pw_gid, follow_symlinks=False)
            if not is_there:
                print(f"{made}: is made", flush=True)

    def make_log(self) -> None:
        """The log of the delivering instance: root's postlogd writes it, and the worker reads it.

        Nobody else is to know the queue IDs in it.
        """
        gid, path = made_user(self.settings).pw_gid, self.settings.log
        if not path.parent.exists():
            path.parent.mkdir(0o750, parents=True)
            os.chown(path.parent, 0, gid)
        if not path.exists():
            path.touch(0o640)
            print(f"{path}: is made", flush=True)
        status = path.stat()
        if status.st_gid != gid or not status.st_mode & stat.S_IRGRP:
            os.chown(path, 0, gid)
            path.chmod(0o640)

    def make_instance(self) -> None:
        """Has postmulti make the delivering instance, without chroot and without a listener.

        The front's record has meanwhile that it is being made.
        """
        folder = self.settings.delivering
        self.front.record.making = str(folder)
        self.front.record.save(self.front.folder)
        if not run("postconf", "-h", "multi_instance_wrapper").stdout.strip():
            run("postmulti", "-e", "init")
            print("multi_instance_wrapper, multi_instance_enable: are set by postmulti -e init")
        if folder not in self.folders:
            name = folder.name if folder.name.startswith("postfix-") else f"postfix-{folder.name}"
            run("postmulti", "-I", name, "-e", "create", f"config_directory={folder}")
        print(f"{folder}: is made by postmulti", flush=True)
        run("postconf", "-c", folder, "-F", "*/*/chroot=n")
        run("postconf", "-c", folder, "-MX", "smtp/inet")
        run("postconf", "-c", folder, "-X", "master_service_disable")
        parts: tuple[ConfigurationPart, ...] = (MainParameters(folder), MasterServices(folder))
        record = Record(str(self.settings.folder), made={
            part.name: part.present() for part in parts})
        record.save(folder)
        self.front.record.making = ""
        self.front.record.save(self.front.folder)

    def hints(self) -> Iterator[str]:
        """The steps that are left to do by hand."""
        yield from listeners.hints(self.settings)
        if not lines.is_loopback(self.settings.notices_hop):
            yield "[notices] next-hop is another machine's: its Postfix must not lead to the desk"
        yield from filter(None, [instance_unit.hint(self.settings.delivering)])
        helper = self.settings.socket
        if helper and not helper.is_socket():
            yield f"there is no {helper}: systemctl enable --now {HELPER}"
        if not LOGROTATE.is_dir():
            yield f"logrotate is not installed: {self.settings.log} grows"
        if self.why_no_rule:
            yield (f"{self.why_no_rule}: mail that is deleted while it is being delivered is not"
                   " taken back")


def install(settings: Settings, is_dry: bool = False) -> int:
    """The status of `install`: 0 if it was done, or nothing was to do, and else 1.

    A dry run prints the changes, and makes none.
    """
    # (a signal may cut it; and others read what it makes)
    signal.pthread_sigmask(signal.SIG_SETMASK, [])
    os.umask(0o022)
    # (the path of cron, and of `su` without a login, names no programs of root's)
    os.environ["PATH"] = f"{os.environ.get('PATH', os.defpath)}:/usr/sbin:/sbin"
    try:
        if os.geteuid() != 0:
            raise NotInstalled("install has to be run as root")
        work = Installation(settings)
        faults, changes = [*work.faults()], work.lines()
        for fault in faults:
            print(f"relay: {fault}", file=sys.stderr)
        if faults:
            raise NotInstalled("nothing was changed")
        if not changes:
            print("nothing to change")
        if is_dry:
            print("\n".join(changes))
        else:
            work.apply()
        for hint in work.hints():
            print(hint)
    except (NotInstalled, OSError) as error:
        print(f"relay: {error}", file=sys.stderr)
        return 1
    return 0
