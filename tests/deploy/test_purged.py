"""What a purge leaves of the worker's Postfix and of certbot: it is told, or gone. The script of the package runs in a folder here."""
import re
import subprocess

import pytest
from deploying import DEPLOY
from serving import LONGEST, expect

SCRIPT = DEPLOY.parent / "packaging/debian/hq-desk.postrm"
OURS = "#!/bin/sh\nexec /usr/libexec/hq-desk/desk-certificate key crt\n"
HOOKS, UNIT, STAMP = ("etc/letsencrypt/renewal-hooks/deploy", "etc/systemd/system/multi-user.target.wants/postfix@desk.service",
                      "var/lib/systemd/timers/stamp-hq-desk-logs.timer")


@pytest.fixture
def purged(folder):
    """Runs the purge over files that are given by their paths, with a text each; what it tells."""
    def purge(files):
        for name, text in {"etc/systemd/system/x": "", **files}.items():
            (folder / name).parent.mkdir(parents=True, exist_ok=True)
            (folder / name).write_text(text)
        script = re.sub(r"(?<![\w/])/(etc|var|run)/", rf"{folder}/\1/", SCRIPT.read_text())
        ended = subprocess.run(["sh", "-c", script, "postrm", "purge"], capture_output=True, text=True, timeout=LONGEST,
                               env={"PATH": "/usr/bin:/bin"})
        expect((ended.returncode, ended.stderr) == (0, ""), "it ended with", ended)
        return ended.stdout.replace(f"{folder}/", "/")
    return purge


def test_hooks(purged, folder):
    """The hook of the page goes; one of the administrator's own that calls what is gone is told, and any other stays."""
    told = purged({f"{HOOKS}/hq-desk": OURS, f"{HOOKS}/mine": OURS, f"{HOOKS}/other": "#!/bin/sh\n"})
    expect({it.name for it in (folder / HOOKS).iterdir()} == {"mine", "other"}, "there are", [*(folder / HOOKS).iterdir()])
    expect(f"/{HOOKS}/mine calls what is gone" in told and "other" not in told, "it tells", told)


def test_postfix(purged, folder):
    """The log of the delivering Postfix and whatever else of it stays is told; a stamp of systemd goes."""
    (folder / UNIT).parent.mkdir(parents=True)
    (folder / UNIT).symlink_to("/usr/lib/systemd/system/postfix@.service")
    there = ["etc/logrotate.d/postfix-desk", "etc/postfix-desk/desk-install.json", "var/log/postfix-desk/mail.log",
             "var/lib/postfix-desk/master.lock", "var/spool/postfix-desk/pid/master.pid"]
    told = purged(dict.fromkeys([*there, STAMP], ""))
    for it in (*there, UNIT):
        expect((folder / it).exists() or (folder / it).is_symlink(), it, "is gone")
        expect(f"/{it}" in told or f"/{'/'.join(it.split('/')[:3])}" in told, it, "is not told of:", told)
    expect(not (folder / STAMP).exists() and "senders and recipients" in told, "it tells", told)


def test_waiting_mail(purged):
    """Mail that waits for the worker goes on by the settings of before alone: a purge says which backup it needs, and when."""
    told = purged({"etc/postfix/desk-deferred": ""})
    expect("put /etc/hq back from its backup before that, else it bounces" in told, "it tells", told)


@pytest.mark.parametrize("mark, stays", [("north", False), (".restore", True), ("north.restoring", True), ("north.fitting", True), ("north.moving", True)])
def test_half_a_store(purged, folder, mark, stays):
    """The mark of a store that is half put back, or of a half move, stays with the store; one of desk-stop goes."""
    told = purged({f"var/lib/hq-desk-stopped/{mark}": ""})
    expect((folder / "var/lib/hq-desk-stopped").exists() == stays == ("/var/lib/hq-desk-stopped stays" in told), "it tells", told)


def test_drop_ins(purged, folder):
    """What the lines of the pages have put beside units of others goes, and an empty folder with it; a file of somebody else's stays."""
    units = "nginx.service", "logrotate.timer", "nftables.service", "postfix.service", "postfix@.service"
    purged({f"etc/systemd/system/{it}.d/{name}": "" for it in units for name in (["hq-desk.conf", "mine.conf"] if it == "nginx.service" else
                                                                                 ["hq-desk.conf"])})
    left = sorted(str(it.relative_to(folder)) for it in (folder / "etc/systemd/system").glob("*.d/*"))
    expect(left == ["etc/systemd/system/nginx.service.d/mine.conf"], "left are", left)
    expect(len([*(folder / "etc/systemd/system").glob("*.d")]) == 1, "empty folders stay")


def test_nginx_starts(purged, folder):
    """An nginx.conf of ours that stays names no log in a folder that is gone."""
    told = purged({"etc/nginx/nginx.conf": (DEPLOY / "nginx-main.conf").read_text()})
    text = (folder / "etc/nginx/nginx.conf").read_text()
    expect("stays, since there is no copy" in told and "/hq-nginx/error" not in text and "error_log /var/log/nginx/" in text, "it has", text)


def test_nothing(purged):
    """Where none of it was set up, none of it is told."""
    told = purged({})
    expect("postfix-desk" not in told and "renewal-hooks" not in told and "postfix@" not in told, "it tells", told)
