"""Links that a service has put into its own folder lead root nowhere: at each step of each procedure, of a rotation and of `hq-ask`.

The user of the desks is `nobody` here, and its folder one of the test. Before each line it puts links into it, to a file that root
alone may read, and to one that others may not write.
"""
import contextlib
import fcntl
import grp
import os
import pty
import pwd
import re
import subprocess
import termios
import time

import needs
import pytest
from deploying import DEPLOY, HEADER, OTHERS, ROWS, all_settings_of
from serving import LONGEST, RELAY, batch_line, expect, submission
from steps import RESTORES, SCRIPTS, lines_of, scripts_in

USER, GROUP = "nobody", "nogroup"
SECRET, KEPT = "a secret of root's", "a file of root's"
# Names that a procedure, SQLite or logrotate opens in the folder, or may be led to open.
NAMES = [*(f"{desk}.db{end}" for desk in ("north", "south", "gone") for end in ("", "-wal", "-shm", "-journal")),
         *(f"north.log{end}" for end in ("", ".1", ".2.gz", ".1.gz")), "north.tar", "north.db.tar"]


class Service:
    """The folder of the desks, and what is beside it; a program of the test's own stands in for what lines of root's call."""

    def __init__(self, folder, program):
        needs.root()
        needs.command("runuser", "tar")
        self.folder, self.own, self.etc, self.backup = folder, folder / "hqdesk", folder / "etc", folder / "backup"
        self.path = f"{folder}/bin:/usr/sbin:/usr/bin:/sbin:/bin"
        for it in (self.own, self.etc, folder / "bin"):
            it.mkdir()
            it.chmod(0o755)
        (folder / "bin/hq").symlink_to(program)
        for name, text, mode in (("secret", SECRET, 0o600), ("kept", KEPT, 0o644)):
            (folder / name).write_text(text)
            (folder / name).chmod(mode)
        for name, rows in (("north", ROWS), ("south", OTHERS)):
            for end, text in (("csv", HEADER + "".join(f"{it}\n" for it in rows)), ("key", f"{RELAY}\n"),
                              ("env", f"HOST=relay.example\nLISTEN=unix:{folder}/none/{name}.sock\n")):
                (self.etc / f"{name}.{end}").write_text(text)
        self.as_service("chown", f"{USER}:{GROUP}", self.own, as_root=True)
        self.scripts = scripts_in(folder / "scripts", {"/etc/hq": self.etc, "/var/lib/hqdesk": self.own, "hq-as hqdesk ": f"{DEPLOY}/hq-as {USER} "})
        for name, customer in (("north", "acme"), ("south", "birch")):
            line = batch_line(int(time.time()), "POST", f"/relay/submit/{customer}", RELAY, submission("s1"))
            told = self.as_service("hq", "batch", "--directory", self.etc / f"{name}.csv", "--host", "relay.example", "--relay-key", RELAY,
                                   "--store", self.own / f"{name}.db", input=f"{line}\n")
            expect('"verdict":"queued"' in told.stdout, "a submission got", told)

    def as_service(self, *words, as_root=False, **more):
        asked = [*words] if as_root else ["runuser", "-u", USER, "--", *words]
        return subprocess.run(asked, capture_output=True, text=True, timeout=LONGEST, env={"PATH": self.path}, **more)

    def plant(self, names=NAMES):
        """Puts a link in the place of each of these names, where there is nothing."""
        for number, name in enumerate(names):
            target = self.folder / ("secret", "kept")[number % 2]
            self.as_service("sh", "-c", f'[ -e "$0" ] || [ -L "$0" ] || ln -s {target} "$0"', self.own / name)

    def swap(self, name):
        """Puts a link to the secret in the place of a file of its own."""
        self.as_service("sh", "-c", f'mv "$0" "$0.mine" && ln -s {self.folder}/secret "$0"', self.own / name)

    def back(self):
        """Takes its links away, and has its own files again."""
        self.as_service("sh", "-c", 'cd "$0" && find . -type l -delete; for it in *.mine; do [ ! -e "$it" ] || mv "$it" "${it%.mine}"; done',
                        self.own)

    def step(self, line, **names):
        """The status of a line of a page; what calls systemctl or apt is left out."""
        if "desk-stop" in line or "desk-start" in line:
            return 0
        line = line.replace(f"{SCRIPTS}/desk-backup", str(self.scripts / "desk-backup"))
        if RESTORES.match(line):
            line = f"{self.scripts}/{line}"
        for it, here in (("hq-as --input hqdesk", f"{DEPLOY}/hq-as --input {USER}"), ("hq-as hqdesk", f"{DEPLOY}/hq-as {USER}"),
                         ("-init /dev/null ", ""), ("-g hqdesk", f"-g {GROUP}"), ("/etc/hq", self.etc),
                         ("/var/lib/hqdesk", self.own), ("/usr/libexec/hq-desk", DEPLOY)):
            line = line.replace(it, str(here))
        if re.match(r"systemctl|apt-get|nginx", line):
            return 0
        return subprocess.run(["sh", "-c", line], stdin=subprocess.DEVNULL, capture_output=True, timeout=LONGEST,
                              env={"PATH": self.path, "EDITOR": "true", **names}).returncode

    def unharmed(self, *what):
        """The files of root's are as they were, and nothing that was copied has the secret."""
        for name, text, mode in (("secret", SECRET, 0o600), ("kept", KEPT, 0o644)):
            path = self.folder / name
            found = path.read_text(), path.stat().st_mode & 0o777, path.stat().st_uid
            expect(found == (text, mode, 0), *what, "root was led to", name, "which is", found)
        copies = [it for it in self.folder.rglob("*") if it.is_file() and not it.is_symlink() and it != self.folder / "secret"]
        expect(not [it for it in copies if SECRET.encode() in it.read_bytes()], *what, "the secret was copied")


@pytest.fixture
def service(folder, program):
    return Service(folder, program)


@pytest.mark.parametrize("title", ["Backup", "Restore", "Moving a customer", "Erasing labels of imports", "An upgrade"])
def test_procedures(service, title):
    """Before each line all names are links; and before each in turn the store itself is one."""
    names = {"BACKUP": str(service.backup), "ASIDE": str(service.folder / "aside")}
    lines = lines_of(title)
    expect(any("hqdesk" in it or "desk-backup" in it or RESTORES.match(it) for it in lines), "no line is for the folder of the desks:", lines)
    if title == "Restore":
        for it in lines_of("Backup"):
            service.step(it, **names)
    for swapped in (None, *range(len(lines))):
        for number, line in enumerate(lines):
            service.swap("north.db") if number == swapped else service.plant()
            status = service.step(line, **{**names, "BACKUP": f"{service.backup}{'' if title == 'Restore' else swapped}",
                                           "ASIDE": f"{names['ASIDE']}{swapped}"})
            expect(status == 0 or title != "Restore" or number == swapped, line, "ended with", status)
            service.unharmed(title, line)
            service.back()


def test_backup_is_whole(service):
    """What the lines of a backup copy, those of a restore put back, as the service's own."""
    for it in lines_of("Backup"):
        service.step(it, BACKUP=str(service.backup))
    wanted = {it.name: it.read_bytes() for it in service.own.iterdir()}
    service.as_service("sh", "-c", f"echo other >{service.own}/north.db")
    for it in lines_of("Restore"):
        service.step(it, BACKUP=str(service.backup), ASIDE=str(service.folder / "aside"))
    found = {it.name: it.read_bytes() for it in service.own.iterdir()}
    expect(found == wanted and len(wanted) >= 2, "behind a restore there are", found.keys(), "and not", wanted.keys())
    owners = {(it.owner(), it.stat().st_mode & 0o777) for it in service.own.iterdir()}
    expect(owners == {(USER, 0o600)}, "they are of", owners)


def test_restored_elsewhere(service):
    """The line that puts a copy back also does so where there is no store, as on another machine."""
    for it in lines_of("Backup"):
        service.step(it, BACKUP=str(service.backup))
    wanted = {it.name: it.read_bytes() for it in service.own.iterdir()}
    service.as_service("sh", "-c", f"rm {service.own}/north.db*")
    line, = lines_of("Restore")
    expect(service.step(line, BACKUP=str(service.backup), ASIDE=str(service.folder / "aside")) == 0, "it fails:", line)
    expect({it.name: it.read_bytes() for it in service.own.iterdir()} == wanted, "it is another store")


def test_keys_in_part(folder):
    """A copy of the keys that is not whole fails, whatever became of the program behind the pipe."""
    line, = lines_of("Backup of the keys")
    (folder / "bin").mkdir()
    for name, does in (("tar", "echo half; [ ! -e bad ]"), ("openssl", "exec cat")):
        (folder / "bin" / name).write_text(f"#!/bin/sh\n{does}\n")
        (folder / "bin" / name).chmod(0o755)
    for status in (0, 1):
        ended = subprocess.run(["sh", "-c", line], cwd=folder, capture_output=True, timeout=LONGEST,
                               env={"PATH": f"{folder}/bin:{os.environ['PATH']}", "BACKUP": str(folder), "OF_BACKUPS": "backup.crt"})
        expect(ended.returncode == status, "a copy ends with", ended)
        (folder / "bad").touch()


@pytest.mark.parametrize("name, log", [("hq-desk.logrotate", "/var/log/hq-nginx"), ("logs.conf", "/var/log/hqdesk")])
def test_quiet_days(folder, name, log):
    """Ninety files are ninety days at most: a log is moved away on a day without a line too."""
    needs.command("logrotate")
    text = (DEPLOY / name).read_text().replace(log, str(folder)).replace("/run/nginx.pid", str(folder / "none"))
    (folder / "rules").write_text(text.replace("hqproxy adm", f"{pwd.getpwuid(os.geteuid()).pw_name} {grp.getgrgid(os.getegid()).gr_name}"))
    (folder / "rules").chmod(0o644)
    (folder / "it.log").touch()
    for day in range(3):
        (folder / "it.log").touch()
        (folder / "state").write_text(f'logrotate state -- version 2\n"{folder}/it.log" 2026-1-{day + 1}-0:0:0\n')
        ended = subprocess.run(["logrotate", "--state", folder / "state", folder / "rules"], capture_output=True, text=True, timeout=LONGEST)
        expect(ended.returncode == 0, "logrotate ends with", ended)
    found = sorted(it.name for it in folder.glob("it.log.*"))
    expect(len(found) == 3, "moved away are", found)


def test_rotation(service):
    """The user of the desks moves its logs away by a unit of its own, which has an end: root's logrotate opens none of them."""
    needs.command("logrotate")
    unit = all_settings_of(DEPLOY / "hq-desk-logs.service")
    expect(unit["User"] == ["hqdesk"] and int(unit["TimeoutStartSec"][0]) <= 600, "logs are moved by", unit)
    expect("hqdesk" not in re.sub("(?m)^#.*", "", (DEPLOY / "hq-desk.logrotate").read_text()), "root moves the logs of desks")
    rules = service.folder / "rules"
    rules.write_text((DEPLOY / "logs.conf").read_text().replace("/var/log/hqdesk", str(service.own)))
    rules.chmod(0o644)
    for swapped in (False, True):
        service.as_service("sh", "-c", f"echo a line >{service.own}/north.log")
        service.swap("north.log") if swapped else service.plant([it for it in NAMES if ".log" in it])
        for _ in range(3):
            service.as_service("logrotate", "--force", "--state", service.own / ".moved", rules)
            service.unharmed("a rotation")
        service.back()


def test_asked(service):
    """hq-ask opens a store as the user of the desks, whoever its file seems to belong to."""
    words = [DEPLOY / "hq-ask", "--folder", service.etc, "--store", service.own, "--user", USER, "usage", "acme"]
    told = subprocess.run(words, capture_output=True, text=True, timeout=LONGEST, env={"PATH": service.path})
    expect(told.stdout.startswith("acme: messages 1,"), "of its store it is told", told)
    os.chown(service.folder / "secret", 0, 0)
    for name in ("north.db", "north.db-wal"):
        service.plant()
        service.swap(name)
        subprocess.run(words, capture_output=True, timeout=LONGEST, env={"PATH": service.path})
        service.unharmed("hq-ask")
        service.back()


PRINTS_AND_LOOKS = "echo printed; echo told >&2; ls -l /proc/self/fd; ps -o tty= -p $$; exit 7"


def at_terminal(*words):
    """The status of a command that has a terminal, and what comes there."""
    number, terminal = pty.openpty()
    command = subprocess.Popen(words, stdin=terminal, stdout=terminal, stderr=terminal, start_new_session=True,
                               preexec_fn=lambda: fcntl.ioctl(0, termios.TIOCSCTTY, 0))
    os.close(terminal)
    told = b""
    with contextlib.suppress(OSError):
        for piece in iter(lambda: os.read(number, 4096), b""):
            told += piece
    os.close(number)
    return command.wait(LONGEST), told


def test_no_terminal(folder):
    """What hq-as runs has no way to the terminal of root, who sees what it prints, and its status."""
    status, told = at_terminal(DEPLOY / "hq-as", USER, "sh", "-c", PRINTS_AND_LOOKS)
    expect(status == 7, "the status is", status)
    expect(b"printed" in told and b"told" in told and b"/dev/pts" not in told and b"\n?" in told.replace(b"\r", b""), "it has", told)
    for words, given, wanted in ((("--input", USER, "cat"), b"handed on", b"handed on"), ((USER, "sh", "-c", "exit 3"), b"", b"")):
        ended = subprocess.run([DEPLOY / "hq-as", *words], input=given, capture_output=True, timeout=LONGEST)
        expect(ended.stdout == wanted and ended.returncode == (3 if "sh" in words else 0), words, "got", ended)


def test_asked_without_terminal():
    """hq-ask runs a batch as the user of the desks in a session of its own, and by pipes alone."""
    found = re.search(r"run_apart\((words.*)\)", (DEPLOY / "hq-ask").read_text())
    expect(found and "start_new_session=True" in found[1] and "preexec_fn=self.become_user" in found[1], "it runs", found)
    piped = re.search(r"subprocess\.Popen\((.*?)\)", (DEPLOY / "desk_apart.py").read_text())
    expect(piped and "stdin=given, stdout=subprocess.PIPE, stderr=subprocess.PIPE, cwd=\"/\"" in piped[1], "it is run with", piped)


def shown(folder, *more):
    words = [DEPLOY / "desk-metrics-shown", folder / "from", folder / "to", *more]
    return subprocess.run(words, capture_output=True, text=True, timeout=LONGEST)


def test_counts_planted(folder):
    """What the worker's user plants among the counts holds up nothing, and is not shown: links, pipes, what is no count or too much."""
    for it in ("from", "to"):
        (folder / it).mkdir()
    good = 'desk_up{desk="north"} 1\n# HELP desk_up Whether a desk tells its counts.\n'
    (folder / "from/hq-desk-good.prom").write_text(good)
    os.utime(folder / "from/hq-desk-good.prom", (1000, 1000))
    (folder / "from/hq-desk-later.prom").write_text(good)
    os.utime(folder / "from/hq-desk-later.prom", (time.time() + 9000, time.time() + 9000))
    (folder / "secret").write_text(SECRET)
    (folder / "from/hq-desk-link.prom").symlink_to(folder / "secret")
    os.mkfifo(folder / "from/hq-desk-pipe.prom")
    (folder / "from/hq-desk-dir.prom").mkdir()
    (folder / "from/hq-desk-forged.prom").write_text(good + "node_filesystem_avail_bytes 1\n")
    (folder / "from/hq-desk-bytes.prom").write_bytes(b'desk_up{desk="\xff\n"} 1\n')
    with open(folder / "from/hq-desk-large.prom", "wb") as file:
        file.truncate(3_000_000)
    (folder / "from/other.prom").write_text(good)
    (folder / "from/hq-desk-the_second.prom").write_text(good)
    (folder / "to/hq-desk-gone.prom").write_text(good)
    (folder / "to/others.prom").write_text("node_mine 1\n")
    told = shown(folder)
    expect(told.returncode == 1 and told.stderr.count("is not shown") == 6, "it tells", told)
    found = {it.name: it.read_text() for it in (folder / "to").iterdir()}
    wanted = {f"hq-desk-{it}.prom": good for it in ("good", "later", "the_second")}
    expect(found == {**wanted, "others.prom": "node_mine 1\n"}, "shown is", found)
    ages = [(folder / f"to/hq-desk-{it}.prom").stat() for it in ("good", "later")]
    expect(ages[0].st_mtime == 1000 and ages[1].st_mtime <= time.time() and ages[0].st_mode & 0o777 == 0o644, "they are of", ages)
    (folder / "to").rename(folder / "none")
    expect(shown(folder).returncode == 0, "where there is no node_exporter it fails")
    # (the folder above is that of the user who runs node_exporter)
    (folder / "elsewhere").mkdir()
    (folder / "to").symlink_to(folder / "elsewhere")
    told = shown(folder)
    expect(told.returncode == 1 and not [*(folder / "elsewhere").iterdir()], "by a link it writes elsewhere:", told)
    (folder / "to").unlink()
    (folder / "to").mkdir()
    os.chown(folder / "to", 65534, 65534)
    told = shown(folder)
    expect("is not root's" in told.stderr and not [*(folder / "to").iterdir()], "into a folder of another user's it writes", told)


def test_counts_of_no_desk(folder):
    """No count is left out in silence: what is called as a desk's, and cannot be one's, is told, and whatever is beyond the number."""
    for it in ("from", "to"):
        (folder / it).mkdir()
    for it in ("north", "n.orth"):
        (folder / f"from/hq-desk-{it}.prom").write_text('desk_up{desk="north"} 1\n')
    told = shown(folder)
    expect(told.returncode == 1 and "1 files of" in told.stderr and "'hq-desk-n.orth.prom'" in told.stderr, "it tells", told)
    expect([it.name for it in (folder / "to").iterdir()] == ["hq-desk-north.prom"], "shown is", [*(folder / "to").iterdir()])


def test_counts_have_a_bound(folder):
    """node_exporter has all that is shown in memory: it is no more than all customers need, whatever was shown before."""
    for it in ("from", "to"):
        (folder / it).mkdir()
    line = 'desk_messages{customer="acme"} 1\n'
    def plant(names):
        for number in names:
            (folder / f"from/hq-desk-{number:02}.prom").write_text(line * (1_900_000 // len(line)))
    plant(range(15))
    expect(shown(folder).returncode == 0 and len([*(folder / "to").iterdir()]) == 15, "fifteen desks of 1.9 MB are not shown")
    for it in (folder / "from").iterdir():
        it.unlink()
        it.symlink_to("/dev/null")
    plant(range(15, 40))
    told = shown(folder)
    found = sum(it.stat().st_size for it in (folder / "to").iterdir())
    expect(told.returncode == 1 and 30_000_000 < found <= 40_000_000, "shown are", found, "bytes")


def test_events_counted(folder):
    """Root reads the journal, and the worker's user counts what of it is the worker's; what that one prints is looked at."""
    needs.root()
    text = (DEPLOY / "desk-metrics-shown").read_text()
    for it in ("bin", "from", "to"):
        (folder / it).mkdir()
        (folder / it).chmod(0o755)
    metrics = folder / "bin/metrics"
    (folder / "bin/shown").write_text(text.replace("/usr/libexec/hq-desk/relay/metrics", str(metrics)))
    (folder / "bin/journalctl").write_text('#!/bin/sh\necho "$(id -u) $*"\n')
    (folder / "from/hq-desk-events.prom").write_text("desk_forged 1\n")
    for prints, status, wanted in (('desk_up{desk="$(id -un) $(id -Gn) $(cat)"} 1', 0, f'desk_up{{desk="{USER} {GROUP} 0 --quiet --output=cat '
                                    '--since=-1h --unit=hq-relay-*"} 1\n'), ("node_forged 1", 1, None)):
        metrics.write_text(f"#!/bin/sh\ncat <<END\n{prints}\nEND\n")
        for it in (folder / "bin").iterdir():
            it.chmod(0o755)
        words = [folder / "bin/shown", folder / "from", folder / "to", USER]
        # (the user that the test takes has a group of another name)
        (folder / "bin/setpriv").write_text(f'#!/bin/sh\nshift 2\nexec /usr/bin/setpriv --reuid={USER} --regid={GROUP} "$@"\n')
        (folder / "bin/setpriv").chmod(0o755)
        told = subprocess.run(words, capture_output=True, text=True, timeout=LONGEST, env={"PATH": f"{folder}/bin:/usr/bin:/bin"})
        place = folder / "to/hq-desk-events.prom"
        found = place.read_text() if place.exists() else None
        expect(told.returncode == status and found == wanted, "shown is", found, told)


def test_counted():
    """What writes the counts is the worker's user, into a folder of its own; root shows them, also where a desk does not tell."""
    unit = all_settings_of(DEPLOY / "hq-desk-metrics.service")
    expect(unit["User"] == ["hqrelay"] and unit["CapabilityBoundingSet"] == [""] and "ReadWritePaths" not in unit, "counts are written by", unit)
    # (a process of the worker's may have another one of its user do what it likes, as by /proc/PID/mem)
    expect("SupplementaryGroups" not in unit, "it may read more than the worker:", unit.get("SupplementaryGroups"))
    place = f"/var/lib/{unit['StateDirectory'][0]}"
    expect(unit["ExecStart"][0].endswith(f"/desk-metrics {place}"), "they are written to", unit["ExecStart"])
    expect(re.fullmatch(rf"\+\S+/desk-metrics-shown {place} \S+ hqrelay", unit["ExecStopPost"][0]), "they are shown by", unit["ExecStopPost"])
