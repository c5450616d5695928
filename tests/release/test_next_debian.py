"""The Debian behind this one. Its nginx has other lines for HTTP/2, which are taken without a warning; and its postsuper, which
opens the log of its Postfix as it begins, takes mail back within the unit of the package.
"""
import json
import shutil
import subprocess
from pathlib import Path

import needs
import pytest
from booted import Booted
from releasing import ROOT
from rooted import TO_MAKE, fetched, mirror, place
from serving import ACME, HEADER, LONGEST, expect, until

NEXT = {"bookworm": "trixie"}
DEPLOY = ROOT / "deploy"
PROGRAMS = "nginx", "postfix", "python3-aiosmtpd", "systemd-sysv", "dbus", "iproute2"
HELPER = "hq-relay-postsuper.socket", "hq-relay-postsuper@.service"
# Of the package: the worker with its user and its settings. (apt asks nothing of Postfix here, so its settings are none yet.)
WORKER = """\
useradd --system --home-dir /var/lib/hqrelay --shell /usr/sbin/nologin hqrelay
install -d -o hqrelay -g hqrelay -m 700 /var/lib/hqrelay
echo relaykey00000001 >/etc/hq/relay.key
echo name,key,messages,bytes,lines,notices,delay >/etc/hq/relay.csv
echo kind,name,customer >/etc/hq/senders.csv
echo customer,desk >/etc/hq/desks.csv
test -e /etc/postfix/main.cf || cp /usr/share/postfix/main.cf.debian /etc/postfix/main.cf
/usr/libexec/hq-desk/relay/worker /etc/hq/relay.ini install
systemctl enable --now hq-relay-postsuper.socket
"""
SEND = """python3 -c '
import smtplib
smtplib.SMTP("127.0.0.1", 822).sendmail("ann@a.example", ["bob@far.example"], "Subject: x")'"""
# What the worker does to have a message taken back.
ASK = """runuser -u hqrelay -- python3 -c '
import socket
with socket.socket(socket.AF_UNIX) as it:
    it.connect("/run/hq-relay-postsuper.sock")
    it.sendall(b"{}\\n")
    print(it.makefile().read(), end="")'"""


@pytest.fixture(scope="module")
def debian():
    """The folder of the next Debian, with what of it is tried."""
    address, name = mirror()
    needs.that(name in NEXT, f"Debian behind {name} that is known")
    with place() as made:
        folder = Path(made) / "debian"
        try:
            words = ["debootstrap", "--variant=minbase", f"--include={','.join(PROGRAMS)}", NEXT[name], folder, address]
            fetched(lambda: subprocess.run(words, capture_output=True, text=True, check=True, timeout=2 * TO_MAKE))
        finally:
            # (one that was cut leaves it mounted, and its folder could not be removed)
            subprocess.run(["umount", "--recursive", folder / "proc"], stderr=subprocess.DEVNULL)
        # (the package makes this user)
        for name, line in (("passwd", "hqproxy:x:990:990::/nonexistent:/usr/sbin/nologin\n"), ("group", "hqproxy:x:990:\n")):
            with open(folder / "etc" / name, "a") as file:
                file.write(line)
        yield folder


def tried(debian, kind):
    """What nginx says of the files, with the lines for some release of it."""
    own = debian / "etc/hq"
    for it in (own, debian / "var/log/hq-nginx", debian / "var/cache/hq-desk-workers"):
        it.mkdir(parents=True, exist_ok=True)
    for it in DEPLOY.glob("nginx*.conf"):
        shutil.copy(it, own)
    shutil.copy(DEPLOY / f"nginx-listen-{kind}.conf", own / "nginx-listen.conf")
    shutil.copy(DEPLOY / "nginx-listen-80.conf", own / "nginx-plain.conf")
    for name, text in (("nginx-name.conf", "server_name desk.example;\n"), ("north.csv", f"{HEADER}acme,{ACME},1,1,1,1,0\n"), ("sessions.map", "")):
        (own / name).write_text(text)
    subprocess.run([DEPLOY / "desk-maps", own, f"127.0.0.1:825={own}/north.csv"], check=True, timeout=LONGEST)
    subprocess.run(["openssl", "req", "-x509", "-newkey", "ec", "-pkeyopt", "ec_paramgen_curve:P-256", "-nodes", "-days", "2", "-keyout",
                    own / "tls.key", "-out", own / "tls.crt", "-subj", "/CN=desk.example"], check=True, stderr=subprocess.DEVNULL)
    shutil.copy(own / "nginx-main.conf", debian / "etc/nginx/nginx.conf")
    link = debian / "etc/nginx/conf.d/hq-desk.conf"
    link.unlink(missing_ok=True)
    link.symlink_to("/etc/hq/nginx.conf")
    told = []
    for words in ([], ["-c", "/etc/hq/nginx-workers.conf"]):
        ended = subprocess.run(["chroot", debian, "nginx", "-t", "-e", "stderr", *words], capture_output=True, text=True, timeout=LONGEST)
        expect(ended.returncode == 0, "nginx", *words, "says", ended.stderr)
        told.append(ended.stderr)
    return "".join(told)


def test_later_lines(debian):
    """Those for later releases are taken without a warning, and those for earlier ones with one, which is why there are two."""
    expect("[warn]" not in tried(debian, "1.25"), "it warns:", tried(debian, "1.25"))
    expect('the "listen ... http2" directive is deprecated' in tried(debian, "1.22"), "both are taken:", tried(debian, "1.22"))


@pytest.fixture(scope="module")
def machine(debian):
    """That Debian with the worker of the package, whose own systemd runs."""
    shutil.copytree(ROOT / "relay", debian / "usr/libexec/hq-desk/relay", ignore=shutil.ignore_patterns("__pycache__"))
    (debian / "etc/hq").mkdir(exist_ok=True)
    shutil.copy(ROOT / "packaging/settings/relay.ini.example", debian / "etc/hq/relay.ini")
    for it in HELPER:
        shutil.copy(DEPLOY / it, debian / "usr/lib/systemd/system")
    with Booted(debian) as it:
        it.run(WORKER, longest=120)
        yield it


def test_taken_back(machine):
    """Root's helper takes a message back for the worker, within its unit."""
    machine.run(f"postconf -c /etc/postfix-desk -e defer_transports=smtp; postfix -c /etc/postfix-desk reload; {SEND}")
    lies = json.loads(machine.run("postqueue -c /etc/postfix-desk -j"))["queue_id"]
    told = machine.run(ASK.format(lies))
    expect(told == "deleted\n", "the helper tells", told)
    expect(machine.run("postqueue -c /etc/postfix-desk -j") == "", "it is queued")
    expect(machine.run(ASK.format(lies)) == "not there\n", "behind that the helper tells another")


def test_booted_again(machine):
    """The delivering instance listens behind a boot, by a unit of its own, which an upgrade of Postfix starts again."""
    machine.boot_again()
    machine.until_active("postfix@desk")
    until(lambda: machine.run("ss -ltnH 'sport = :822'"), "nobody listens at 822")
    before = machine.run("systemctl show -p ActiveEnterTimestampMonotonic --value postfix@desk")
    machine.run("systemctl restart postfix")
    machine.until_active("postfix@desk")
    expect(machine.run("systemctl show -p ActiveEnterTimestampMonotonic --value postfix@desk") != before, "it goes on as it was")
    until(lambda: machine.run("ss -ltnH 'sport = :822'"), "nobody listens at 822")
    told = machine.run("/usr/libexec/hq-desk/relay/worker /etc/hq/relay.ini install")
    expect("nothing to change" in told and "started" not in told, "install does", told)
