"""The package in a clean Debian: installed by apt, set up by the lines of the pages, upgraded, removed and purged.

The tests of this file go on from one another's machine, in their order. Nothing of systemd runs there: the stand-in of this
folder starts the lines of the units.
"""
import json
import re
import shutil
import subprocess
import time
from pathlib import Path

import needs
import pytest
from releasing import ROOT, blocks, package_in
from rooted import SINK, Root, fetched, place
from serving import expect, until

DIVERTED = "dpkg-divert --truename /etc/nginx/nginx.conf"
PRODUCTION, PROCEDURES, RELAY, README = "docs/PRODUCTION.md", "docs/PROCEDURES.md", "docs/RELAY.md", "README.md"
NAMES = {"TLS": "/root/tls", "NAME": "desk.example", "RELAY": "mx.firm.example"}
OURS = ("/etc/hq", "/var/lib/hqdesk", "/var/lib/hqrelay", "/var/log/hqdesk", "/usr/share/hq-desk", "/usr/libexec/hq-desk")
HERE = Path(__file__).resolve().parent
BESIDE = "fail2ban python3-systemd logrotate prometheus-node-exporter"
OLD_STORES = ROOT / "tests/examples/migration"


@pytest.fixture(scope="module")
def debian(begun):
    with place() as folder, Root(Path(folder) / "debian") as it:
        fetched(lambda: it.run("apt-get -qq update", longest=120))
        yield it


@pytest.fixture(scope="module")
def root(debian, releases):
    """A Debian into which the release before was installed, as a stranger does it."""
    it = debian
    package = it.take(package_in(releases.before))
    # (there is all that it wants, by their lists; a mirror may fail as it gives them)
    it.run(f"apt-get -qq install --simulate {package} curl")
    fetched(lambda: it.run(f"apt-get -qq install -y --download-only {package} curl {BESIDE}", longest=240))
    it.run(blocks(PRODUCTION, "The package")[-1], longest=240, PACKAGE=package)
    it.run(f"apt-get -qq install -y --no-install-recommends curl {BESIDE}", longest=240)
    it.alone()
    return it


def key_of(root, name):
    rows = root.path("/etc/hq/north.csv").read_text().splitlines()
    return next(it.split(",")[1] for it in rows if it.startswith(f"{name},"))


def usage(root, name):
    """What nginx hands on of a customer's usage, over TLS."""
    told = root.run(f"curl -sS --cacert tls/tls.crt -H 'X-Desk-Key: {key_of(root, name)}' https://desk.example/v1/usage")
    return json.loads(told)


def send(root, sender, text):
    root.put("/root/send.py", f"import smtplib\nsmtplib.SMTP('127.0.0.1', 10025).sendmail("
             f"{sender!r}, 'bob@far.example', 'Subject: a mail\\r\\n\\r\\n{text}\\r\\n')\n")
    root.run("python3 send.py")


def taken(root, text):
    """How many messages with this text the host of recipients has."""
    return sum(text.encode() in it.read_bytes() for it in root.path("/tmp/taken").iterdir())


def pid_of(root, unit):
    return root.run(f"cat /run/units/{unit}.service.pid")


# ---- as it comes

def test_nothing_runs(root):
    """Its users and folders are there with their modes, and nothing was started or is to be."""
    found = root.run("stat -c '%n %U:%G %a' /etc/hq /etc/hq/*.map /var/lib/hqdesk /var/log/hqdesk /var/lib/hqrelay")
    for it in ("/etc/hq root:hqdesk 755", "/etc/hq/keys.map root:root 600", "/etc/hq/names.map root:hqdesk 640",
               "/var/lib/hqdesk hqdesk:hqdesk 700", "/var/log/hqdesk hqdesk:hqdesk 700", "/var/lib/hqrelay hqrelay:hqrelay 700"):
        expect(it in found.splitlines(), "not", it, "but", found)
    enabled = [str(it) for it in root.path("/etc/systemd/system").rglob("hq-*")]
    expect(not enabled and "units" not in root.run("ls /run").split(), "something is to start:", enabled)
    expect(not re.search("hq|nginx", root.run("cat /proc/[0-9]*/comm")), "something runs")
    expect(not [*root.path("/etc/hq").glob("*.csv")] and not [*root.path("/etc/hq").glob("*.key")], "it brings a key")


def test_first_session(root):
    """The session of README, as a stranger types it."""
    shown = next(it for it in re.findall(r"(?ms)^```\n(.*?)^```$", (ROOT / README).read_text()) if "hq serve" in it)
    asked = [it for it in re.findall(r"(?ms)^```\n(.*?)^```$", (ROOT / README).read_text()) if it.startswith("$ curl")]
    begin = re.search(r"(?s)cat > customers.csv.*?\nEND\n", shown)[0]
    serve = re.search(r"(?ms)^\$ (hq serve .*?) &$", shown)[1]
    with root.begin(f"mkdir -p first; cd first; {begin} exec {serve}", "/tmp/first.log"):
        try:
            until(lambda: "listening on unix:desk.sock\n" in root.path("/tmp/first.log").read_text(), "hq does not listen")
            count = 0
            for part in re.split(r"(?m)^\$ ", asked[0])[1:]:
                lines = part.replace("\\\n", " ").rstrip("\n").split("\n")
                if lines[0].startswith("curl"):
                    told = root.run(f"cd first; {lines[0].replace('curl ', 'curl -sS ', 1)}")
                    expect(told == lines[1], lines[0], "is told", told, "and shown with", lines[1])
                    count += 1
            expect(count == 3, "README shows", count, "calls")
        finally:
            root.run("kill $(pidof hq)")


# ---- set up

def test_set_up(root, folder):
    """Each line of PRODUCTION's "Setting up" behind the first, in their order; a customer is answered through nginx."""
    made = ["openssl", "req", "-x509", "-newkey", "rsa:2048", "-nodes", "-days", "2", "-subj", "/CN=desk.example", "-addext",
            "subjectAltName=DNS:desk.example", "-keyout", folder / "tls.key", "-out", folder / "tls.crt"]
    subprocess.run(made, check=True, capture_output=True)
    shutil.copytree(folder, root.path("/root/tls"))
    root.put("/etc/hosts", "127.0.0.1 localhost desk.example\n")
    for title in ("A desk", "nginx"):
        for it in blocks(PRODUCTION, title):
            root.run(it, **NAMES)
    until(lambda: usage(root, "acme").get("messages") == 0, "acme is not answered")
    for it in ("hq-desk.log", "error.log"):
        expect(root.run(f"stat -c %a /var/log/hq-nginx/{it}") == "640\n", it, "may be read by others")
    modes = root.run("stat -c '%n %U:%G %a' /etc/hq/north.csv /etc/hq/north.key /etc/hq/tls.key /etc/hq/keys.map "
                     "/var/lib/hqdesk/north.db /var/log/hqdesk/north.log")
    for it in ("north.csv root:hqdesk 640", "north.key root:hqdesk 640", "tls.key root:root 600", "keys.map root:root 600",
               "north.db hqdesk:hqdesk 600", "north.log hqdesk:hqdesk 600"):
        expect(f"/{it}\n" in modes, "not", it, "but", modes)
    root.run("/usr/libexec/hq-desk/desk-check 127.0.0.1:825 /etc/hq/north.csv")
    page = root.run("curl -sS --cacert tls/tls.crt https://desk.example/firm.js")
    expect(page == (ROOT / "web/firm.js").read_text(), "the page's firm.js is", page)
    shown = root.run("cat /proc/[0-9]*/cmdline | tr '\\0' ' '")
    for it in (key_of(root, "acme"), root.path("/etc/hq/north.key").read_text().strip()):
        expect(it not in shown, "the list of processes shows a key")


def test_the_nginx_conf_of_debian(root):
    """An upgrade of nginx writes Debian's nginx.conf beside ours; where that one is in its place all the same, the package says so."""
    expect(root.run(DIVERTED) == "/etc/nginx/nginx.conf.before-hq-desk\n", "dpkg writes the nginx.conf of nginx to", root.run(DIVERTED))
    triggered = "sh /var/lib/dpkg/info/hq-desk.postinst triggered /usr/sbin/nginx"
    expect(root.run(triggered) == "", "without a fault it tells", root.run(triggered))
    own = "/etc/nginx/nginx.conf"
    told = root.run(f"cp -p {own} /root/own; cp {own}.before-hq-desk {own}; {triggered}; cp -p /root/own {own}")
    expect("has no line 'user hqproxy;'" in told and "PRODUCTION.md.gz" in told, "it tells", told)


def test_first_mail(root):
    """The lines of RELAY's "Units", and a mail that goes from a customer to a host of its recipient."""
    for it in blocks(RELAY, "Units"):
        root.run(it, **NAMES)
    named = root.run("postconf -c /etc/postfix-desk -h myhostname; grep -h '^HOST=' /etc/hq/north.env").split()
    expect(named == [NAMES["RELAY"], f"HOST={NAMES['RELAY']}"], "the relay calls itself", named)
    root.run("sed -i 's/^listen = .*/&\\ncustomers = 127.0.0.1:10025/; "
             "s/^\\[delivery\\]$/[delivery]\\npause = 1/' /etc/hq/relay.ini")
    root.run("hq-relay /etc/hq/relay.ini install")
    root.run("systemctl restart hq-relay-intake hq-relay-deliver")
    # (a first try that meets no host, or a process that knows no way to it, is followed by the next one minutes later)
    root.begin(SINK, "/tmp/sink.log")
    until(lambda: root.path("/tmp/listens").exists(), "no host listens")
    root.run("postconf -c /etc/postfix-desk -e 'transport_maps = inline:{far.example=smtp:[127.0.0.1]:2525}' && "
             "postfix -c /etc/postfix-desk stop && postfix -c /etc/postfix-desk start")
    send(root, "ann@a.example", "hello")
    until(lambda: usage(root, "acme").get("delivered") == 1, "the mail is not delivered", 60)
    expect(taken(root, "hello") == 1, "the mail is another one")


def test_taken_back(root):
    """Mail that its customer deletes while Postfix has it is taken back by root's helper, under the worker's units."""
    key = key_of(root, "acme")
    root.run("postconf -c /etc/postfix-desk -e defer_transports=smtp; postfix -c /etc/postfix-desk reload")
    send(root, "ann@a.example", "never sent")
    until(lambda: "bob@far.example" in root.run("postqueue -c /etc/postfix-desk -j"), "the mail is not handed over", 60)
    root.run(f"curl -sS --cacert tls/tls.crt -H 'X-Desk-Key: {key}' -X POST https://desk.example/v1/delete-all")
    until(lambda: root.run("postqueue -c /etc/postfix-desk -j") == "", "the mail is not taken back", 60)
    root.run("postconf -c /etc/postfix-desk -X defer_transports; postfix -c /etc/postfix-desk reload")
    expect(root.run("cat /etc/sudoers.d/hqrelay 2>&1 || true").endswith("No such file or directory\n"), "sudo lets the worker do more")
    expect(taken(root, "never sent") == 0, "the mail was sent")


# ---- customers

def test_no_call_refused(root):
    """While limits change, for which the desk is started again, no call of a worker or a customer gets anything but 200."""
    root.take(HERE / "load.py")
    load = root.begin(f"exec python3 load.py /etc/hq/north.key acme {key_of(root, 'acme')} >load.json", "/tmp/load.log")
    until(lambda: root.path("/root/begun").exists(), "the load does not begin")
    pids = {pid_of(root, "hq-desk@north")}
    while len(pids) < 5 or not root.path("/root/enough").exists():
        root.run(f"hq-customers set acme --messages {900 + len(pids)}")
        pids.add(pid_of(root, "hq-desk@north"))
        expect(len(pids) < 60, "a thousand calls take too long")
        time.sleep(1)
    root.run("touch stop")
    expect(load.wait(60) == 0, "the load ended", root.run("cat /tmp/load.log"))
    found = json.loads(root.run("cat load.json"))
    expect(found["good"] > 1000 and not found["others"] and found["longest"] < 10, "of the calls", found)


def test_mail_under_way(root):
    """Mail of a new customer is taken at once. A message that is half handed over meanwhile, and one that a host has half taken,
    are neither lost nor doubled."""
    root.take(HERE / "half.py")
    half = root.begin("python3 half.py >half.told", "/tmp/half.log")
    until(lambda: root.path("/root/half").exists(), "half a message is not taken")
    root.run("touch /tmp/waits")
    send(root, "ann@a.example", "waiting")
    until(lambda: root.path("/tmp/waiting").exists(), "the host is not asked", 60)
    root.run("hq-customers add birch --domain b.example")
    send(root, "ann@b.example", "of birch")
    until(lambda: usage(root, "birch").get("accepted") == 1, "birch's mail is not taken", 60)
    root.run("rm /tmp/waits; touch go")
    expect(half.wait(60) == 0 and root.run("cat half.told") == "250\n", "the rest got", root.run("cat half.told /tmp/half.log"))
    until(lambda: usage(root, "acme").get("delivered") == 3 and usage(root, "birch").get("delivered") == 1, "mail is lost", 90)
    for it in ("hello", "waiting", "of birch", "second half"):
        expect(taken(root, it) == 1, it, "came", taken(root, it), "times")
    root.run("rm /tmp/waiting; touch /tmp/waits")
    send(root, "ann@b.example", "waiting too")
    until(lambda: root.path("/tmp/waiting").exists(), "the host is not asked", 60)
    ended = root.run("hq-customers drop birch", status=1)
    expect("takes no mail any more, and 1 of its messages are queued" in ended, "drop tells", ended)
    expect("birch" in root.path("/etc/hq/north.csv").read_text() and "b.example" not in root.run("cat /etc/hq/senders.csv"), "half")
    root.run("rm /tmp/waits")
    until(lambda: usage(root, "birch").get("delivered") == 2, "birch's last mail is not delivered", 60)
    expect(root.run("hq-customers drop birch") == "" and "birch north: dropped on" in root.run("hq-customers list"), "birch stays")
    told = root.run("hq-customers erase birch")
    expect("the store of north: " in told and "the worker: birch: " in told and "birch" not in root.run("cat $(ls /etc/hq/*.csv | grep -v erased)"), "erased is", told)
    for it in ("intake", "deliver"):
        log = root.run(f"cat /run/units/hq-relay-{it}.service.log")
        # (a new start sweeps at once, and leaves out who has an outcome to be told)
        errors = [line for line in log.splitlines() if "level=error" in line and "not swept" not in line]
        expect("settings taken" in log and not errors, it, "tells", errors, log[-500:])


def test_customers_of_the_page(root):
    """The lines of PROCEDURES's "Customers", one after another."""
    for it in blocks(PROCEDURES, "Customers"):
        told = root.run(it)
    keys = re.findall(r"(?m)^[0-9a-f]{40}$", told)
    expect(len(set(keys)) == 4 and "birch north: messages 200," in told and "login birch@b.example" in told, "they tell", told)
    expect("key panel all, key auditor read\n" in told, "of keys they tell", told)
    expect("birch" not in root.run("cat $(ls /etc/hq/*.csv /etc/hq/*.map /etc/hq/*.env | grep -v erased)"), "birch is left")
    for it in ("the store of north: ", "the worker: "):
        expect(it in told, "of what is erased they tell", told)
    expect(root.run("grep -c birch /var/lib/hqdesk/north.db || true") == "0\n", "the store has birch")


def test_a_name_again(root):
    """A name that was dropped is refused while the desk serves others, and is free when it is erased; no call gets anything but 200."""
    root.run("hq-customers add fir --domain f.example")
    send(root, "ann@f.example", "of fir")
    until(lambda: usage(root, "fir").get("delivered") == 1, "fir's mail is not delivered", 60)
    root.run("hq-customers drop fir")
    root.run("rm -f stop begun enough")
    load = root.begin(f"exec python3 load.py /etc/hq/north.key acme {key_of(root, 'acme')} >load.json", "/tmp/load.log")
    until(lambda: root.path("/root/begun").exists(), "the load does not begin")
    expect("fir was dropped on" in root.run("hq-customers add fir", status=1), "its name is given again")
    root.run("sed -i /^fir,/d /etc/hq/dropped.csv")
    expect("has records of an earlier fir" in root.run("hq-customers add fir", status=1), "the store is not asked")
    told = root.run("hq-customers erase fir; hq-customers retain 30; hq-customers add fir")
    expect("0 rows" not in told and "north: " in told and "backups from before now" in told, "erased is told as", told)
    until(lambda: root.path("/root/enough").exists(), "a thousand calls take too long", 60)
    root.run("touch stop")
    expect(load.wait(60) == 0, "the load ended", root.run("cat /tmp/load.log"))
    found = json.loads(root.run("cat load.json"))
    expect(found["good"] > 1000 and not found["others"], "of the calls", found)
    expect(usage(root, "fir").get("accepted") == 0, "the new fir has", usage(root, "fir"))
    expect(taken(root, "of fir") == 1 and usage(root, "acme").get("delivered") == 3, "something else is lost")
    root.run("hq-customers drop fir; hq-customers erase fir; rm stop begun enough")


def test_alerts_of_the_page(root):
    """The lines of PRODUCTION's "Firewall and alerts", and what desk-metrics writes."""
    expect(f"apt-get install {BESIDE}" in (ROOT / PRODUCTION).read_text(), "the page installs other packages than", BESIDE)
    root.put("/usr/local/bin/journalctl", "#!/bin/sh\necho 'level=error event=\"lost notices\" customer=acme numbers=1'\n", 0o755)
    for it in blocks(PRODUCTION, "Firewall and alerts"):
        root.run(it)
    expect("hq_desk" in root.run("nft list tables"), "the firewall has no rules")
    until(lambda: "hq-desk-strangers" in root.run("fail2ban-client status 2>&1 || true"), "fail2ban does not run")
    expect("hq-desk-metrics.timer" in root.run("cat /run/units/done"), "no timer runs")
    root.run("systemctl start hq-desk-metrics")
    told = root.run("cat /var/lib/prometheus/node-exporter/*.prom")
    for it in ('desk_messages_limit{customer="acme"} ', 'desk_recipients_delivered_total{customer="acme"} 3\n',
               'desk_worker_errors{event="lost notices"} 1\n'):
        expect(it in told, "nothing tells", it, "but", told)
    expect(root.run("stat -c '%U %a %F' /var/lib/prometheus/node-exporter/hq-desk-north.prom") == "root 644 regular file\n", "shown is no copy")
    root.run("systemctl stop hq-desk@north; systemctl start hq-desk-metrics && exit 9 || true")
    shown = root.run("cat /var/lib/prometheus/node-exporter/hq-desk-north.prom /var/lib/prometheus/node-exporter/hq-desk-up.prom")
    expect(shown.partition("# HELP desk_up")[0] in told and 'desk_up{desk="north"} 0\n' in shown, "of a desk that is away is told", shown)
    root.run("systemctl start hq-desk@north")
    until(lambda: "acme" in root.run("cat /etc/hq/keys.map") and usage(root, "acme").get("delivered") == 3, "acme is not answered")


# ---- later releases

def installed(root, package, *words):
    return root.run(f"apt-get install -y {' '.join(words)} \"$NEW\"", longest=240, NEW=package)


def test_upgrade(root, releases):
    """It keeps settings and stores, and starts again what runs."""
    before, first = usage(root, "acme"), pid_of(root, "hq-desk@north")
    root.run("echo '// ours' >>/etc/hq/firm.js")
    told = installed(root, root.take(package_in(releases.now)))
    expect("migrate" not in told, "apt tells", told)
    expect(root.run("dpkg-query -W -f '${Version}' hq-desk") == releases.version, "another release is there")
    expect(pid_of(root, "hq-desk@north") != first, "the desk was not started again")
    until(lambda: usage(root, "acme") == before, "what acme has is another thing")
    expect(root.path("/etc/hq/firm.js").read_text().endswith("// ours\n"), "a changed setting is lost")


def test_migrated(root, releases):
    """Behind a release of another schema no desk is started again, and the lines that are told make its store one of now."""
    root.run("systemctl stop hq-desk@north; cp -p /var/lib/hqdesk/north.db* /root; rm -rf backup")
    old, to = root.take(OLD_STORES / "version-2.db"), "/var/lib/hqdesk/north.db"
    root.run(f"rm {to}*; install -m 600 -o hqdesk -g hqdesk {old} {to}; sed -i s/3/2/ /usr/share/hq-desk/schema")
    done = root.run("systemctl start hq-desk@north; wc -l </run/units/done")
    told = installed(root, f"/root/{package_in(releases.now).name}", "--reinstall")
    expect("the desk north was not started again: its store has schema 2." in told, "apt tells", told)
    since = root.run(f"tail -n +$(({done} + 1)) /run/units/done | grep -v '^show ' || true")
    expect("hq-desk@north" not in since, "the desk was started again", since)
    lines = re.findall(r"(?m)^  (.*north.*)$", told)
    expect(len(lines) == 4, "the lines are", lines)
    root.run("\n".join(it.replace("BACKUP", "backup") for it in lines))
    until(lambda: "listening" in root.run("tail -n 1 /run/units/hq-desk@north.service.log"), "the migrated desk does not start")
    expect("north.db\n" in root.run("tar -t -f backup/north.tar"), "nothing was copied")
    root.run("systemctl stop hq-desk@north; rm /var/lib/hqdesk/north.db*; cp -p north.db* /var/lib/hqdesk; systemctl start hq-desk@north")
    until(lambda: usage(root, "acme").get("delivered") == 3, "acme is not answered")


def test_cut(root, releases):
    """An upgrade that was cut while it was unpacked is ended by the lines of the page."""
    before = usage(root, "acme")
    root.run("sed -i '/^Package: hq-desk$/,/^$/s/^Status: .*/Status: install reinstreq half-installed/' /var/lib/dpkg/status")
    root.run(blocks(PROCEDURES, "An upgrade")[1], longest=240, NEW=f"/root/{package_in(releases.now).name}")
    expect(root.run("dpkg-query -W -f '${Status}' hq-desk") == "install ok installed", "it is not installed")
    until(lambda: usage(root, "acme") == before, "what acme has is another thing")


def test_removed(root):
    """What runs ends; settings, keys, stores, logs and the spool stay."""
    kept = [it for it in ("/etc/hq/north.csv", "/etc/hq/north.key", "/var/lib/hqdesk/north.db", "/var/log/hqdesk/north.log",
                          "/var/lib/hqrelay/spool/book.db", "/etc/hq/nginx.conf") if not root.path(it).exists()]
    expect(not kept, "there was no", kept)
    # (what the page has enabled, and what an administrator has changed)
    root.run("mkdir -p /etc/systemd/system/multi-user.target.wants; for it in hq-desk@north hq-desk-workers hq-relay-intake; do "
             "ln -sf /lib/systemd/system/${it%north}.service /etc/systemd/system/multi-user.target.wants/$it.service; done")
    root.run("apt-get remove -y hq-desk", longest=120)
    for user in ("hqdesk", "hqrelay"):
        expect(root.run(f"ps -o args= -u {user} || true") == "", "of", user, "there runs", root.run(f"ps -o args= -u {user} || true"))
    expect("hq_desk" in root.run("nft list tables") and root.run("postconf -h defer_transports") == "desk\n", "mail is open to others")
    root.run("nginx -t")
    expect(not root.path("/usr/bin/hq").exists(), "the program is there")
    for it in ("/etc/hq/north.csv", "/etc/hq/north.key", "/var/lib/hqdesk/north.db", "/var/log/hqdesk/north.log",
               "/var/lib/hqrelay/spool/book.db", "/etc/hq/nginx.conf"):
        expect(root.path(it).exists(), "a removal took", it)


def test_purged(root):
    """Keys, settings and logs go, and what was put elsewhere; mail of customers stays, and is named; nothing else is left unsaid."""
    before = root.path("/etc/nginx/nginx.conf.before-hq-desk").read_text()
    told = root.run("apt-get purge -y hq-desk", longest=120)
    expect(root.path("/etc/nginx/nginx.conf").read_text() == before, "nginx has not its own nginx.conf again")
    expect(root.run(DIVERTED) == "/etc/nginx/nginx.conf\n", "dpkg writes the nginx.conf of nginx to", root.run(DIVERTED))
    for it in ("/etc/postfix has the lines", "/etc/postfix-desk has the lines", "the users hqdesk, hqproxy and hqrelay stay"):
        expect(it in told, "it does not tell that", it, "but", told[-800:])
    dangling = root.run("find /etc/systemd/system -xtype l -name 'hq-*'; ls /etc/sudoers.d | grep -v README || true")
    expect(dangling == "", "a purge left", dangling)
    for it in ("/etc/hq", "/var/log/hqdesk", "/var/log/hq-nginx", "/usr/share/hq-desk", "/usr/libexec/hq-desk"):
        expect(not root.path(it).exists(), "a purge left", it)
    for it in ("/var/lib/hqdesk", "/var/lib/hqrelay"):
        expect(any(root.path(it).iterdir()) and f"{it} has mail of customers, and stays" in told, it, "is told as", told[-800:])
    left = root.run("find / -xdev -path /proc -prune -o -path /root -prune -o -path /tmp -prune -o -path /run -prune -o "
                    "-name '*hq-*' -print -o -name 'hq' -print | grep -v '^/var/lib/hq\\|^/var/log/apt\\|^/usr/local' || true")
    expect(left == "", "a purge left", left)
    root.run("nginx -t")


def test_container(root, releases, folder):
    """The image of packaging/Containerfile, over this Debian, runs the program."""
    needs.command("podman")
    limits = ["--ulimit=nofile=1024:1024", "--ulimit=nproc=2048:2048"]
    tar = subprocess.run(f"tar -C {root.folder} -c --exclude=./proc/* --exclude=./dev/* . | podman import - localhost/hq-base:test",
                         shell=True, capture_output=True, timeout=120)
    needs.that(not tar.returncode, "podman that imports an image")
    try:
        run = ["podman", "run", "--rm", "--network=none", *limits]
        tried = subprocess.run([*run, "localhost/hq-base:test", "/bin/true"], capture_output=True, text=True, timeout=120)
        needs.that(not tried.returncode, f"podman that runs here: {tried.stderr[-200:]}")
        shutil.copy(package_in(releases.now), folder)
        made = subprocess.run(["podman", "build", *limits, "--network=host", "--build-arg=BASE=localhost/hq-base:test", "--tag=hq-desk:test",
                               f"--file={ROOT}/packaging/Containerfile", folder], capture_output=True, text=True, timeout=240)
        expect(made.returncode == 0, "podman build:", made.stdout[-500:], made.stderr[-500:])
        told = subprocess.run([*run, "hq-desk:test", "--version"], capture_output=True, text=True, timeout=60)
        expect(told.stdout.startswith(f"hq {releases.version} "), "the container tells", told)
    finally:
        subprocess.run(["podman", "rmi", "--force", "hq-desk:test", "localhost/hq-base:test"], capture_output=True)
