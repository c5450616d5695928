"""Lines of pages that have a value of the operator's, typed where that is empty; and that a copy is on the disk when it is named."""
import os
import re
import subprocess

import pytest
from deploying import DEPLOY, all_settings_of
from serving import LONGEST, expect
from steps import scripts_in


def lines_of_nginx(folder):
    """The lines of "nginx" that write what they are given, in a folder that stands for /etc/hq."""
    page = (DEPLOY.parent / "docs/PRODUCTION.md").read_text()
    block = re.search(r"(?ms)^### nginx$.*?^```\n(.*?)^```$", page).group(1)
    return [it.replace("/etc/hq", str(folder / "etc")) for it in block.split("\n") if it.startswith("test -e /etc/hq/")]


def test_empty_values(folder):
    """Where the name of the host and the folder of the pair are empty, each line ends and writes nothing; typed again with both, the
    lines do what they are to do."""
    (folder / "etc").mkdir()
    (folder / "pair").mkdir()
    for it in ("tls.key", "tls.crt"):
        (folder / "pair" / it).write_text(it)
    lines = lines_of_nginx(folder)
    expect(len(lines) == 3, "the page has other lines:", lines)
    for name, pair in (("", ""), ("desk.example", str(folder / "pair"))):
        for line in lines:
            ended = subprocess.run(["bash", "-c", line], env={**os.environ, "NAME": name, "TLS": pair}, capture_output=True, text=True,
                                   timeout=LONGEST)
            expect((ended.returncode == 0) == bool(name), line, "with", name, "ended with", ended)
        made = {it.name: it.read_text() for it in (folder / "etc").iterdir()}
        wanted = {"nginx-name.conf": "server_name desk.example;\n", "tls.key": "tls.key", "tls.crt": "tls.crt"} if name else {}
        expect(made == wanted, "with", name, "there is", made)


@pytest.mark.parametrize("is_synced", [True, False])
def test_copies_are_on_the_disk(folder, is_synced):
    """desk-backup syncs the copy, its folder and the one above before it prints a name, and fails where that fails."""
    (folder / "etc").mkdir()
    for it in ("etc/north.env", "north.db", "north.db-wal"):
        (folder / it).write_text(it)
    scripts = scripts_in(folder / "scripts", {"/etc/hq": folder / "etc", "/var/lib/hqdesk": folder, "hq-as hqdesk ": ""})
    (scripts / "sync").write_text(f'#!/bin/sh\necho "$@" >>{folder}/synced\nexit {int(not is_synced)}\n')
    (scripts / "sync").chmod(0o755)
    ended = subprocess.run([scripts / "desk-backup", folder / "copies", "north"], capture_output=True, text=True, timeout=LONGEST)
    synced = (folder / "synced").read_text().split()
    copies = [f"{folder}/copies/north.{it}" for it in ("desks.csv", "erased.csv", "tar")]
    expect(synced == ["--", *copies, f"{folder}/copies", str(folder)], "it syncs", synced)
    if is_synced:
        expect((ended.returncode, ended.stdout) == (0, "north.db\nnorth.db-wal\n"), "it ended with", ended)
    else:
        expect(ended.returncode == 1 and not ended.stdout and "not whole" in ended.stderr, "it ended with", ended)


def test_a_new_release_of_debian(folder):
    """The worker is stopped before, also over the boot; what the administrator has changed stays, and nothing is asked. Behind the boot
    it starts once both instances are as the new Postfix wants them. A line that fails ends each block."""
    page = (DEPLOY.parent / "docs/PROCEDURES.md").read_text()
    blocks = re.findall(r"(?ms)^```\n(.*?)^```$", page.partition("\n## A new release of Debian\n")[2])
    names = "desk-stop", "apt-get", "systemctl", "hq-relay", "desk-start"
    for name in names:
        (folder / name).write_text(f'#!/bin/sh\necho "{name} $@" >>{folder}/done\n[ "$FAILS" != {name} ]\n')
        (folder / name).chmod(0o755)
    upgrade = "apt-get --option Dpkg::Options::=--force-confold --yes full-upgrade"
    wanted = [["desk-stop relay", upgrade, "systemctl reboot"], ["hq-relay /etc/hq/relay.ini install", "desk-start relay"]]
    for block, lines in zip(blocks, wanted, strict=True):
        for number, line in enumerate([*lines, ""], 1):
            (folder / "done").unlink(missing_ok=True)
            ended = subprocess.run(["bash", "-euc", block.replace("/usr/libexec/hq-desk/", "")], capture_output=True, text=True, timeout=LONGEST,
                                   env={"PATH": f"{folder}:/usr/bin:/bin", "FAILS": line.partition(" ")[0]})
            expect((folder / "done").read_text().splitlines() == lines[:number], line, "fails, and done is", (folder / "done").read_text())
            expect((ended.returncode == 0) == (not line), line, "fails, and the block ends with", ended)


def test_a_restore_is_on_the_disk():
    """hq-restore writes a store behind its lock, and syncs before it lets anybody else open it."""
    script = (DEPLOY / "hq-restore").read_text()
    expect(re.search(r'(?ms)^PUTS_BACK = .{,60}set -e; cd .*rm -f -- "\$0\.db".*tar -x -p -- "\$@"; sync -- "\$@"; fi; sync \.', script), "it puts back by another line")
    expect('do(HERE / "desk-restart", desk, "--stopped", "--input", "sh", "-c", PUTS_BACK,' in script, "it has no lock")


def test_postfix_waits_for_the_clock(folder):
    """The lines of "Units" have both units of Postfix wait for the clock, as the intake does."""
    page = (DEPLOY.parent / "docs/RELAY.md").read_text()
    block = re.search(r"(?ms)^### Units$.*?^```\n(.*?)^```$", page).group(1)
    lines = re.search(r"(?ms)^for it in .*?^done$", block)[0]
    script = lines.replace("/usr/share/doc/hq-desk/examples", str(DEPLOY)).replace("/etc/systemd/system", str(folder))
    for _ in range(2):
        subprocess.run(["bash", "-euc", script], check=True, timeout=LONGEST)
    for unit in ("postfix.service", "postfix@.service"):
        found, own = all_settings_of(folder / f"{unit}.d/hq-desk.conf"), all_settings_of(DEPLOY / "hq-relay-intake.service")
        expect((found["After"], found["Wants"]) == (["time-sync.target"],) * 2, unit, "waits for", found)
        expect("time-sync.target" in own["After"][0] and "time-sync.target" in own["Wants"][0], "the intake waits for", own)
    expect(block.index("done\nsystemctl daemon-reload\n") < block.index("hq-relay /etc/hq/relay.ini install"), "systemd reads it too late")
    listed = (DEPLOY.parent / "packaging/debian/hq-desk.examples").read_text()
    expect("deploy/postfix-clock.conf\n" in listed, "the package has no such example")
