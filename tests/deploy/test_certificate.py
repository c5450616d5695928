"""The hook for renewed certificates of docs/PROCEDURES.md, by the lines that the page shows."""
import contextlib
import os
import re
import shutil
import signal
import subprocess
import time

import needs
import pytest
from deploying import DEPLOY
from serving import LONGEST, expect

PAGE = DEPLOY.parent / "docs/PROCEDURES.md"
PAIR = {"privkey.pem": "tls.key", "fullchain.pem": "tls.crt"}
# What changes a folder; each may be the last that is done.
STEPS = "mktemp", "install", "rm", "ln", "mv", "cp", "sync", "nginx", "systemctl"


@pytest.fixture
def hook(folder):
    """The program that the lines write, beside stand-ins for nginx and systemctl. Any command may be the last one."""
    needs.command("openssl")
    lines = re.search(r"(?ms)^## A new certificate\n.*?^```\n(cat .*?)^```$", PAGE.read_text())[1]
    for name in ("bin", "etc", "hooks", "steps", "live"):
        (folder / name).mkdir()
    for name in ("nginx", "systemctl"):
        (folder / "bin" / name).write_text(f'#!/bin/sh\necho "{name} $*" >>{folder}/called\n[ ! -e {folder}/bad ] || exit 1\n')
    for name in STEPS:
        there = folder / "bin" / name if (folder / "bin" / name).exists() else shutil.which(name)
        (folder / "steps" / name).write_text(f'#!/bin/sh\necho step >>{folder}/done\n[ "$(wc -l <{folder}/done)" -ne "$LAST" ] || kill -9 $PPID\n'
                                             f'exec {there} "$@"\n')
    script = (DEPLOY / "desk-certificate").read_text()
    expect("cd /etc/hq\n" in script, "the script works elsewhere")
    (folder / "bin/desk-certificate").write_text(script.replace("/etc/hq", str(folder / "etc")).replace("/run/hq-desk", str(folder / "run")))
    for it in [*(folder / "bin").iterdir(), *(folder / "steps").iterdir()]:
        it.chmod(0o755)
    for old, new in (("/etc/letsencrypt/renewal-hooks/deploy", "hooks"), ("/usr/libexec/hq-desk", "bin"), ("/etc/hq", "etc")):
        lines = lines.replace(old, str(folder / new))
    ended = subprocess.run(["bash", "-euc", lines], capture_output=True, text=True, timeout=LONGEST)
    expect(ended.returncode == 0, "the lines end with", ended)
    for name in ("first", "second"):
        subprocess.run(["openssl", "req", "-x509", "-newkey", "ec", "-pkeyopt", "ec_paramgen_curve:P-256", "-nodes", "-days", "2", "-subj",
                        f"/CN={name}", "-keyout", folder / f"{name}.privkey.pem", "-out", folder / f"{name}.fullchain.pem"],
                       check=True, capture_output=True, timeout=LONGEST)
    return folder


def renewed(folder, name, key="first", certificate=None, last=0):
    """Runs the hook as certbot does, behind a renewal of this certificate; its `last` step is the last that is done."""
    lineage = folder / "live" / name
    lineage.mkdir(exist_ok=True)
    for it, pair in (("privkey.pem", key), ("fullchain.pem", certificate or key)):
        shutil.copy(folder / f"{pair}.{it}", lineage / it)
    (folder / "done").write_text("")
    env = {"PATH": f"{folder}/steps:/usr/bin:/bin", "RENEWED_LINEAGE": str(lineage), "LAST": str(last)}
    return subprocess.run([folder / "hooks/hq-desk"], capture_output=True, text=True, timeout=LONGEST, env=env).returncode


def called(folder):
    path = folder / "called"
    return path.read_text().splitlines() if path.exists() else []


def there(folder):
    """Which pair is there; None where the two do not fit, or one is missing."""
    texts = [(folder / "etc" / it).read_text() if (folder / "etc" / it).exists() else "" for it in PAIR.values()]
    return next((name for name in ("first", "second") if texts == [(folder / f"{name}.{it}").read_text() for it in PAIR]), None)


def test_way_of_certbot():
    """The line for certbot has the folder that nginx serves at the port without TLS."""
    line = re.search(r"(?m)^certbot certonly --webroot --webroot-path (\S+) ", PAGE.read_text())
    served = re.search(r"location \^~ /\.well-known/acme-challenge/ \{\n    root (\S+);", (DEPLOY / "nginx.conf").read_text())
    expect(line and served and line[1] == served[1], "certbot writes to", line, "and nginx serves", served)


def test_renewed(hook):
    """The desk's certificate is put in its place, with its modes, and nginx goes by it; another site's is none of its business."""
    expect(renewed(hook, "blog.example") == 0 and not called(hook) and not [*(hook / "etc").iterdir()], "another site's is taken")
    for name in ("first", "second", "first"):
        (hook / "called").unlink(missing_ok=True)
        expect(renewed(hook, "desk.example", name) == 0 and called(hook) == ["nginx -t", "systemctl reload nginx"], "called was", called(hook))
        expect(there(hook) == name, "there is", there(hook))
        for it, mode in (("tls.key", 0o600), ("tls.crt", 0o644)):
            expect((hook / "etc" / it).stat().st_mode & 0o777 == mode, it, "has another mode")
    left = sorted(it.name for it in (hook / "etc").iterdir() if not it.is_symlink())
    expect(len(left) == 1 and (hook / "etc" / left[0]).stat().st_mode & 0o777 == 0o700, "left are", left)


def test_bad_files(hook):
    """A key of another certificate changes nothing, and certbot is told; so is it where nginx does not take its files."""
    expect(renewed(hook, "desk.example", "first") == 0, "no pair is taken")
    before = sorted(os.listdir(hook / "etc"))
    (hook / "called").unlink()
    expect(renewed(hook, "desk.example", "second", "first") != 0 and not called(hook), "called was", called(hook))
    expect(there(hook) == "first" and sorted(os.listdir(hook / "etc")) == before, "there is", there(hook), os.listdir(hook / "etc"))
    (hook / "bad").touch()
    expect(renewed(hook, "desk.example", "second") != 0 and called(hook) == ["nginx -t"], "called was", called(hook))
    expect(there(hook) == "second", "there is", there(hook))


def test_at_once(hook):
    """Several at once, as certbot and an administrator, leave a pair that fits, and nothing else; each does its work."""
    for _ in range(4):
        begun = [subprocess.Popen([hook / "bin/desk-certificate", hook / f"{name}.privkey.pem", hook / f"{name}.fullchain.pem"],
                                  stdout=subprocess.PIPE, stderr=subprocess.STDOUT, env={"PATH": f"{hook}/bin:/usr/bin:/bin"})
                 for name in ("first", "second") * 3]
        told = [(it.communicate(timeout=LONGEST)[0], it.returncode) for it in begun]
        expect(all(it == (b"", 0) for it in told), "of six at once it is told", told)
        expect(there(hook) and len([it for it in (hook / "etc").iterdir() if not it.is_symlink()]) == 1, "there is", os.listdir(hook / "etc"))


def test_locked_by_others(hook):
    """Another user of the machine, who may open the folder, keeps nobody from renewing."""
    needs.root()
    expect(renewed(hook, "desk.example", "first") == 0, "no pair is taken")
    for held in (hook / "etc", *hook.glob("run*")):
        with subprocess.Popen(["setpriv", "--reuid=65534", "--regid=65534", "--clear-groups", "flock", held, "sleep", "60"],
                              stderr=subprocess.DEVNULL, start_new_session=True) as other:
            time.sleep(0.5)
            words = [hook / "bin/desk-certificate", hook / "second.privkey.pem", hook / "second.fullchain.pem"]
            ended = subprocess.run(["timeout", "10", *words], env={"PATH": f"{hook}/bin:/usr/bin:/bin"}, timeout=LONGEST, capture_output=True)
            expect(ended.returncode == 0, "while another user has", held, "it ended with", ended)
            with contextlib.suppress(ProcessLookupError):
                os.killpg(other.pid, signal.SIGKILL)


@pytest.mark.parametrize("are_files", [True, False])
def test_stopped(hook, are_files):
    """Killed at each of its steps it leaves a pair that fits, also the first time, where both stand there as files; the next run ends it."""
    etc, left = hook / "etc", set()
    for last in range(1, 100):
        for it in etc.iterdir():
            shutil.rmtree(it) if it.is_dir() and not it.is_symlink() else it.unlink()
        if are_files:
            for it, to in PAIR.items():
                shutil.copy(hook / f"first.{it}", etc / to)
        else:
            expect(renewed(hook, "desk.example", "first") == 0, "no pair is taken")
        ended = renewed(hook, "desk.example", "second", last=last)
        expect(there(hook), "behind the step", last, "the two do not fit:", os.listdir(etc))
        left.add(there(hook))
        if ended == 0:
            break
        expect(renewed(hook, "desk.example", "second") == 0 and there(hook) == "second", "behind the step", last, "it is not ended")
        expect(len([it for it in etc.iterdir() if not it.is_symlink()]) == 1, "left are", os.listdir(etc))
    expect(10 < last < 100 and left == {"first", "second"}, "it was stopped", last, "times, and left", left)


SETTING_UP = DEPLOY.parent / "docs/PRODUCTION.md"


def typed(folder, tls, name):
    """The lines by which nginx is set up, but for those that nginx, systemd and dpkg do."""
    lines = re.search(r"(?ms)^### nginx\n.*?^```\n(.*?)^```$", SETTING_UP.read_text())[1]
    for old, new in (("/usr/share/doc/hq-desk/examples", DEPLOY), ("/etc/", f"{folder}/")):
        lines = lines.replace(old, str(new))
    ended = subprocess.run(["bash", "-euc", re.sub(r"(?m)^(systemctl|nginx|dpkg-divert) .*\n", "", lines)], capture_output=True, text=True,
                           timeout=LONGEST, env={**os.environ, "TLS": str(tls), "NAME": name})
    expect((ended.returncode, ended.stderr) == (0, ""), "the lines end with", ended)


def test_set_up_again(folder):
    """Typed again, as behind a restore, the lines leave the certificate that was renewed since, the name, and an nginx.conf that
    somebody has changed; and they put back what is missing."""
    for it in ("hq/tls", "nginx/conf.d", "first", "later"):
        (folder / it).mkdir(parents=True)
    for at in ("first", "later"):
        for it in ("tls.key", "tls.crt"):
            (folder / at / it).write_text(f"{it} of {at}")
    for it in (DEPLOY / "nginx-main.conf", DEPLOY / "nginx.conf"):
        shutil.copy(it, folder / "hq")
    (folder / "nginx/nginx.conf").write_text("of Debian\n")
    typed(folder, folder / "first", "desk.example")
    own, kept = folder / "nginx/nginx.conf", folder / "nginx/nginx.conf.before-hq-desk"
    wanted = {"hq/tls.key": "tls.key of first", "hq/tls.crt": "tls.crt of first",
              "hq/nginx-name.conf": "server_name desk.example;\n"}

    def found():
        return {it: (folder / it).read_text() for it in wanted}

    expect(found() == wanted and kept.read_text() == "of Debian\n", "it has", found())
    expect(own.read_bytes() == (DEPLOY / "nginx-main.conf").read_bytes(), "nginx.conf is not ours")
    for it in ("tls.key", "tls.crt"):
        (folder / "hq" / it).rename(folder / "hq/tls" / it)
        (folder / "hq" / it).symlink_to(f"tls/{it}")
    with open(own, "a") as file:
        file.write("# mine\n")
    typed(folder, folder / "later", "other.example")
    expect(found() == wanted and (folder / "hq/tls.key").is_symlink(), "the pair or the name is another")
    expect(own.read_text().endswith("# mine\n") and kept.read_text() == "of Debian\n", "nginx.conf is another")
    (folder / "hq/tls.crt").unlink()
    typed(folder, folder / "later", "other.example")
    expect((folder / "hq/tls.crt").read_text() == "tls.crt of later", "what was missing is not there")
