"""The units of the package under a systemd that runs, set up by the lines of the pages: who is started again, who waits, and who ends.

The tests of this file go on from one another's machine, in their order.
"""
import re
import subprocess
import time
from pathlib import Path

import needs
import pytest
from booted import Booted
from releasing import ROOT, package_in
from rooted import Root, fetched, place
from serving import LONGEST, expect, until
from test_installed import BESIDE, NAMES, PROCEDURES, PRODUCTION, RELAY, blocks

OURS = ("hq-desk@north", "hq-desk-workers", "nginx", "hq-desk-firewall", "fail2ban", "hq-relay-intake", "hq-relay-deliver", "hq-relay-postsuper.socket")
MORE = f"systemd systemd-sysv dbus curl iproute2 {BESIDE}"
# Prints at which of these ports it may listen, or might where nobody else did.
BINDS = """\
import errno, socket
def may(port):
    with socket.socket() as it:
        try:
            it.bind(("127.0.0.1", port))
        except OSError as fault:
            return fault.errno == errno.EADDRINUSE
    return True
print("may listen at", *filter(may, (820, 821, 822, 823, 824, 825, 826, 849, 850, 1025)))
"""
STRANGER = "runuser -u stranger -- curl -sS http://127.0.0.1:{}/v1/usage 2>&1 || true"

# The line of the page after a removal that was killed.
PUT_BACK = re.compile(r"`(dpkg --configure -a; apt-get install -f -y)`")


@pytest.fixture(scope="module")
def machine(begun, releases):
    with place() as folder:
        with Root(Path(folder) / "debian") as root:
            fetched(lambda: root.run("apt-get -qq update", longest=120))
            package = root.take(package_in(releases.now))
            fetched(lambda: root.run(f"apt-get -qq install -y {package} {MORE}", longest=400))
            made = ["openssl", "req", "-x509", "-newkey", "ec", "-pkeyopt", "ec_paramgen_curve:P-256", "-nodes", "-days", "2", "-subj",
                    "/CN=desk.example", "-addext", "subjectAltName=DNS:desk.example", "-keyout", root.path("/root/tls.key"), "-out",
                    root.path("/root/tls.crt")]
            subprocess.run(made, check=True, capture_output=True)
            root.run("mkdir tls; mv tls.key tls.crt tls; useradd stranger")
            root.put("/etc/hosts", "127.0.0.1 localhost desk.example\n")
            (root.path("/usr/sbin/policy-rc.d")).unlink()
        with Booted(Path(folder) / "debian") as it:
            yield it


def usage(machine):
    """What nginx hands on of acme's usage."""
    key = machine.run("sed -n 's/^acme,\\([^,]*\\),.*/\\1/p' /etc/hq/north.csv").strip()
    return machine.run(f"curl -sS --cacert tls/tls.crt -H 'X-Desk-Key: {key}' https://desk.example/v1/usage || true")


def pid_of(machine, unit):
    return machine.run(f"systemctl show -p MainPID --value {unit}").strip()


def test_set_up(machine):
    """All lines of the pages work, and what they start runs, within its restrictions."""
    for page, title in ((PRODUCTION, "A desk"), (PRODUCTION, "nginx"), (RELAY, "Units"), (PRODUCTION, "Firewall and alerts")):
        for it in blocks(page, title):
            # (many administrators have a mask by which others read nothing of what they make)
            machine.run(f"umask 077; {it}", longest=120, **NAMES)
    machine.until_active(*OURS)
    until(lambda: '"messages":0' in usage(machine), "acme is not answered")
    failed = machine.run("systemctl list-units --failed --no-legend --plain --no-pager 'hq-*' 'nginx*' 'fail2ban*'")
    expect(failed == "", "failed are", failed)


def test_counts(machine):
    """node_exporter shows what the unit has counted."""
    machine.run("systemctl start hq-desk-metrics")
    until(lambda: 'desk_messages{customer="acme"}' in machine.run("curl -sS http://127.0.0.1:9100/metrics || true"), "no counts are shown")


def test_postfix_again(machine):
    """What starts Postfix again, as an upgrade of it does, reaches both instances; of one that has ended it is told, whatever its unit says."""
    def masters():
        return {*machine.run("cat /var/spool/postfix/pid/master.pid /var/spool/postfix-desk/pid/master.pid").split()}

    before = masters()
    machine.run("systemctl restart postfix; sleep 1")
    expect(len(before) == 2 and len(masters() - before) == 2, "of", before, "go on", masters() & before)
    for stop, is_up in (("postfix -c /etc/postfix stop", 0), ("systemctl restart postfix", 1)):
        machine.run(f"{stop} && sleep 1; systemctl start hq-desk-metrics")
        told = machine.run("cat /var/lib/prometheus/node-exporter/hq-desk-of.machine.prom")
        for folder, wanted in (("/etc/postfix", is_up), ("/etc/postfix-desk", 1)):
            expect(f'desk_postfix_up{{folder="{folder}"}} {wanted}\n' in told, "behind", stop, "it tells", told)


def test_refused_start(machine):
    """A start that its files refuse fails at once, says why each two seconds, and comes up once they are good."""
    machine.run("cp -p /etc/hq/north.csv good.csv; echo 'bad row' >>/etc/hq/north.csv")
    told = machine.run("systemctl restart hq-desk@north && exit 9 || true; systemctl is-active hq-desk@north || true")
    expect("failed" in told and told.split()[-1] != "active", "a start by bad files is told as", told)
    since = machine.run("date '+%F %T'").strip()
    time.sleep(7)
    lines = machine.run(f"journalctl -u hq-desk@north --since='{since}' -o cat --no-pager").count("BadDirectory")
    expect(1 <= lines <= 5, "in seven seconds it is told", lines, "times")
    machine.run("cat good.csv >/etc/hq/north.csv")
    machine.until_active("hq-desk@north")


def test_killed(machine):
    """Whatever is killed comes back."""
    for unit in ("hq-desk@north", "hq-desk-workers", "nginx", "hq-relay-intake", "hq-relay-deliver"):
        before = pid_of(machine, unit)
        # (with its own processes: a systemd in a container may be unable to end what is left of them)
        machine.run(f"kill -9 {before} $(cat /proc/{before}/task/{before}/children)")
        end = time.monotonic() + LONGEST / 2
        while pid_of(machine, unit) in (before, "0"):
            expect(time.monotonic() < end, unit, "does not come back:", machine.run(f"journalctl -u {unit} -n 20 -o cat --no-pager"))
            time.sleep(0.3)
        machine.until_active(unit)
    until(lambda: '"messages":0' in usage(machine), "acme is not answered")


def test_a_process_of_nginx(machine):
    """A worker process of nginx dies: the timer that desks want has nginx restarted, since what that process had stays counted."""
    expect(machine.active("hq-desk-nginx.timer") == ["active"], "no timer looks for it")
    machine.run("systemctl is-enabled hq-desk-nginx.timer")
    before, drop_in = pid_of(machine, "nginx"), "/run/systemd/system/hq-desk-nginx.service.d"
    # (it leaves an nginx alone that was started within the last five minutes)
    machine.run(f"mkdir -p {drop_in}; printf '[Service]\\nExecCondition=\\nExecCondition=/usr/libexec/hq-desk/nginx-check "
                f"/var/log/hq-nginx/error.log 0\\n' >{drop_in}/soon.conf; systemctl daemon-reload")
    machine.run(f"kill -9 $(cut -d' ' -f1 /proc/{before}/task/{before}/children)")
    until(lambda: pid_of(machine, "nginx") not in (before, "0"),
          f"nginx goes on: {machine.run('journalctl -u hq-desk-nginx -n 20 -o cat --no-pager; cat /var/log/hq-nginx/error.log')}", 60)
    machine.run(f"rm -r {drop_in}; systemctl daemon-reload")
    until(lambda: '"messages":0' in usage(machine), "acme is not answered")


def test_hung_up(machine):
    """A desk that was stopped for its store is started again, also where the terminal is closed meanwhile."""
    machine.run("/usr/libexec/hq-desk/desk-restart north --stopped sleep 3 & p=$!; sleep 1; systemctl is-active hq-desk@north && exit 9; "
                "kill -HUP $p; kill -INT $p; kill -TERM $p; wait $p")
    machine.until_active("hq-desk@north")


def test_strangers(machine):
    """Another user of the machine reaches no desk, also after the firewall of the machine was started again."""
    for change in ("true", "systemctl enable --now nftables", "systemctl restart nftables", "systemctl stop nftables; systemctl start nftables",
                   "mkdir -p /etc/hq/firewall.d; echo 'add element inet hq_desk monitors { 2001:db8::7 }' >/etc/hq/firewall.d/bad.nft; "
                   "systemctl restart hq-desk-firewall", "systemctl reload hq-desk-firewall"):
        machine.run(f"{change}; sleep 1")
        for port in (824, 825):
            told = machine.run(STRANGER.format(port))
            expect("Failed to connect" in told or "refused" in told, "a stranger at", port, "gets", told)
        expect("NoKey" in machine.run("runuser -u hqrelay -- curl -sS http://127.0.0.1:825/v1/usage"), "the worker does not reach its desk")
    machine.run("rm /etc/hq/firewall.d/bad.nft; systemctl reload nftables; sleep 1")
    expect("hq_desk" in machine.run("nft list tables"), "the rules are gone")


def test_stopped(machine):
    """The lines of PROCEDURES stop a customer: its key is another one, and new mail of it is refused for now."""
    before = usage(machine)
    shown = machine.run("sed -n 's/^acme,\\([^,]*\\),.*/\\1/p' /etc/hq/north.csv").strip()
    for it in blocks(PROCEDURES, "Stopping a customer"):
        machine.run(it)
    machine.until_active("hq-desk@north")
    old = machine.run(f"curl -sS --cacert tls/tls.crt -H 'X-Desk-Key: {shown}' https://desk.example/v1/usage")
    expect("NoKey" in old and '"messages":0' in before, "its old key gets", old)
    refused = machine.run("curl -sS -H \"X-Desk-Key: $(cat /etc/hq/north.key)\" -d '{\"spool\":\"s1\",\"sender\":\"a@a.example\",\"recipients\":"
                          "[\"b@far.example\"],\"size\":900}' http://127.0.0.1:824/relay/submit/acme")
    expect("QuotaBytes" in refused, "its new mail gets", refused)
    machine.run("hq-customers set acme --bytes 500000000")


def tries(machine, unit, *lines):
    """At which ports something within the restrictions of a unit may listen."""
    text = (ROOT / "deploy" / unit).read_text().replace("\\\n", " ").split("[Install]")[0]
    others = r"Exec|Environment|Restart|StateDirectory|LogsDirectory|CacheDirectory|Condition|Wants|After"
    kept = [it for it in text.replace("%i", "north").splitlines() if not re.match(others, it)]
    (machine.folder / "etc/systemd/system/thief.service").write_text(
        "\n".join([*kept, "Type=oneshot", "ExecStart=/usr/bin/python3 /usr/local/bin/binds", *lines, ""]))
    (machine.folder / "usr/local/bin/binds").write_text(BINDS)
    told = machine.run("chmod 755 /usr/local/bin/binds; systemctl daemon-reload; systemctl start thief; journalctl --sync; "
                       "journalctl -u thief -o cat --no-pager | grep '^may listen at' | tail -n 1")
    return {*map(int, re.findall(r"[0-9]+", told))}


def test_other_ports(machine):
    """A service that was taken over listens at no port of another one."""
    needs.that(not tries(machine, "hq-relay-intake.service", "SocketBindAllow="), "systemd that keeps a unit from ports")
    for unit, ports in (("hq-desk@.service", {825, 826, 849, 1025}), ("hq-desk-workers.service", {824}), ("hq-relay-intake.service", {820, 823, 1025})):
        found = tries(machine, unit)
        expect(found == ports, unit, "may listen at", found)


def test_names(machine):
    """A name that was dropped is refused until it is erased, with worker and desk under their restrictions."""
    machine.run("hq-customers add birch --domain b.example; hq-customers drop birch")
    expect("birch was dropped on" in machine.run("hq-customers add birch", status=1), "its name is given again")
    told = machine.run("hq-customers erase birch; hq-customers retain 30; hq-customers add birch; hq-customers drop birch", longest=120)
    expect("the store of north: " in told and "the worker: birch: " in told, "erased is told as", told)
    machine.until_active(*OURS)


def test_retention(machine):
    """The desk is back behind its retention; one that was stopped stays so, and its timer with it."""
    machine.run("systemctl enable --now hq-desk-retain@north.timer; systemctl start hq-desk-retain@north")
    machine.until_active("hq-desk@north", "hq-desk-retain@north.timer", "hq-desk-check@north.timer")
    expect("notices" in machine.run("journalctl -u hq-desk-retain@north -o cat --no-pager"), "nothing was retained")
    machine.run("systemctl stop hq-desk@north")
    expect(machine.active("hq-desk@north", "hq-desk-retain@north.timer") == ["inactive"] * 2, "a stopped desk has a timer")
    machine.run("systemctl start hq-desk@north")
    machine.until_active("hq-desk@north", "hq-desk-retain@north.timer")


def test_order(machine):
    """Each waits for the network and the clock."""
    for unit in ("hq-desk@north", "hq-desk-workers", "hq-relay-intake", "hq-relay-deliver"):
        told = machine.run(f"systemctl show -p After --value {unit}")
        expect({"network-online.target", "time-sync.target"} <= set(told.split()), unit, "waits for", told)
    for unit in ("postfix", "postfix@-", "postfix@postfix-desk"):
        told = machine.run(f"systemctl show -p After -p Wants --value {unit}")
        expect(told.split().count("time-sync.target") == 2, unit, "waits for", told)


def test_stopped_over_a_boot(machine):
    """A desk and a worker that were stopped are started neither by a boot nor by systemctl, which tells that; all else comes up, the
    delivering Postfix too. They come up once they are started."""
    machine.run("/usr/libexec/hq-desk/desk-stop relay north")
    machine.boot_again()
    for unit in ("hq-desk@north", "hq-relay-intake", "hq-relay-deliver"):
        told = machine.run(f"systemctl start {unit}", status=1)
        expect(machine.active(unit) == ["inactive"] and "Assertion failed" in told, "it was started, or told is", told)
    until(lambda: machine.run("ss -ltnH 'sport = :822'"), "nobody listens at 822")
    machine.run("/usr/libexec/hq-desk/desk-backup /root/stopped north; hq-customers retain 90", longest=120)
    expect(machine.active("hq-desk@north") == ["inactive"], "a backup has started it")
    machine.run("/usr/libexec/hq-desk/desk-start north relay", longest=120)
    machine.until_active(*OURS)


def test_put_back(machine):
    """The line of the page puts a store back. Killed at each of its steps, it goes on behind a boot, which has started nothing by half."""
    key = machine.run("sed -n 's/^acme,\\([^,]*\\),.*/\\1/p' /etc/hq/north.csv").strip()
    machine.run("/usr/libexec/hq-desk/desk-backup /root/before north")
    line = blocks(PROCEDURES, "Restore")[0].strip()
    for number, (name, when) in enumerate(((None, None), ("runuser", "-u hqdesk -- hq migrate"), ("systemctl", "start hq-desk@north"),
                                          ("runuser", "-u hqrelay -- hq-relay /etc/hq/relay.ini restored"))):
        machine.run(f"curl -sSf -H 'X-Desk-Key: {key}' -d '{{\"class\":\"sender\",\"pattern\":\"new.example\",\"action\":\"HOLD\"}}' "
                    "http://127.0.0.1:825/v1/line-put")
        if name:
            stands_in(machine, name, when, "pkill -9 -f bin/hq-restore; sleep 1; exit 9")
            machine.run(f"{line} || test $? = 137", BACKUP="/root/before", ASIDE=f"/root/aside{number}", longest=120)
            expect(not (machine.folder / "usr/local/sbin" / name).exists(), when, "is no step")
            machine.boot_again()
            expect(machine.active("hq-relay-intake", "hq-relay-deliver") == ["inactive"] * 2, when, "was cut, and the worker runs")
            expect("hq-restore" in machine.run("/usr/libexec/hq-desk/desk-start relay 2>&1", status=1), when, "the worker was started")
            told = machine.run("hq-restore", longest=120)
        else:
            told = machine.run(line, BACKUP="/root/before", ASIDE=f"/root/aside{number}", longest=120)
        machine.until_active(*OURS)
        found = machine.run(f"curl -sSf -H 'X-Desk-Key: {key}' http://127.0.0.1:825/v1/lines; ls /var/lib/hq-desk-stopped")
        expect("new.example" not in found and found.strip().endswith("}"), when, "there is", found, told)


def test_killed_copy(machine):
    """While its store is copied nothing starts a desk; the mark of a copy that was killed keeps it from no start."""
    machine.run("mkdir -p /run/hq-desk.copied; exec 9>/run/hq-desk.locks/north; flock 9; touch /run/hq-desk.copied/north; "
                "systemctl stop hq-desk@north; systemctl start hq-desk@north")
    told = machine.run("journalctl -u hq-desk@north -n 20 -o cat --no-pager")
    expect(machine.active("hq-desk@north") == ["inactive"], "it was started while it is copied")
    expect("its store is being copied" in told, "told is", told)
    machine.run("systemctl start hq-desk@north; test ! -e /run/hq-desk.copied/north", longest=120)
    machine.until_active("hq-desk@north")


def test_installed_again(machine, releases):
    """Installed behind a removal, all that was set up runs again, and mail waits no more."""
    package = f"/root/{package_in(releases.now).name}"
    machine.run("systemctl disable --now hq-desk-retain@north.timer; apt-get remove -y hq-desk", longest=120)
    expect(machine.run("postconf -h defer_transports") == "desk\n", "mail does not wait")
    machine.run(f"apt-get install -y {package}", longest=120)
    until_as_before(machine)
    until(lambda: '"messages":' in usage(machine), "acme is not answered")


def stands_in(machine, name, when, does):
    """A command of the machine does something else first where its words begin so, once."""
    (machine.folder / "usr/local/sbin" / name).write_text(f'#!/bin/sh\ncase "$*" in "{when}"*) rm "$0"; {does} ;; esac\n'
                                                          f'exec /usr/bin/env PATH=/usr/sbin:/usr/bin {name} "$@"\n')
    machine.run(f"chmod 755 /usr/local/sbin/{name}")


def until_as_before(machine):
    """All of it runs, and no mail waits."""
    expect(machine.run("postconf -h defer_transports; ls /run/hq-desk.again /etc/postfix/desk-deferred 2>/dev/null || true") == "\n", "mail waits")
    machine.until_active(*OURS, "hq-desk-metrics.timer")


@pytest.mark.parametrize("name, when", [("postconf", "-e defer_transports"), ("postfix", "reload"), ("systemctl", "stop hq-desk-workers")])
def test_cut_removal(machine, name, when):
    """A removal that is cut, as by Ctrl-C, leaves all of it running, and no mail waits."""
    stands_in(machine, name, when, "kill -INT $PPID")
    # (apt gives what it runs a path of its own)
    told = machine.run("dpkg --remove hq-desk", status=1, longest=120)
    expect("interrupted" in told, "the removal was not cut:", told)
    until_as_before(machine)


def test_killed_removal(machine):
    """Where dpkg is killed, as by a power loss, mail goes on once the worker starts, and the package is put back by the line of the page."""
    stands_in(machine, "systemctl", "stop hq-desk-workers", "kill -9 $PPID $(ps -o ppid= $PPID)")
    # (the shell stays beside it, and tells by which signal it ended)
    machine.run("dpkg --remove hq-desk || exit $?", status=137, longest=120)
    expect(machine.run("postconf -h defer_transports") == "desk\n", "it was killed too early")
    machine.run("systemctl start hq-relay-intake")
    until(lambda: machine.run("postconf -h defer_transports; ls /etc/postfix/desk-deferred 2>/dev/null || true") == "\n", "mail waits for ever")
    machine.run(PUT_BACK.search((ROOT / PRODUCTION).read_text())[1], longest=120)
    until_as_before(machine)


def test_second_try(machine, releases):
    """Where an installation fails as mail is to go on, as on a full disk, the next call has it go on."""
    machine.run("apt-get remove -y hq-desk", longest=120)
    stands_in(machine, "postconf", "-X", "exit 1")
    machine.run(f"dpkg -i /root/{package_in(releases.now).name}", status=1, longest=120)
    machine.run("dpkg --configure -a", longest=120)
    until_as_before(machine)


def test_second_upgrade(machine, releases):
    """A desk whose store is still to be migrated is not started again by a further upgrade either; once it was started anew it is."""
    package, before = f"/root/{package_in(releases.now).name}", pid_of(machine, "hq-desk@north")
    for schema, does in ((2, "hq migrate"), (4, "Restore")):
        machine.run(f"echo {schema} >/usr/share/hq-desk/schema")
        for _ in range(2):
            told = machine.run(f"dpkg -i {package}", longest=120)
            expect(f"its store has schema {schema}" in told and does in told and pid_of(machine, "hq-desk@north") == before, "told is", told)
        machine.run("systemctl restart hq-desk@north")
        before = pid_of(machine, "hq-desk@north")
    told = machine.run(f"dpkg -i {package}", longest=120)
    expect("schema" not in told and pid_of(machine, "hq-desk@north") != before, "the desk was not started again:", told)
    machine.until_active(*OURS)


def test_removed_meanwhile(machine, releases):
    """A retention that is under way as the package is removed starts no desk behind it."""
    machine.run("mkdir -p /run/systemd/system/hq-desk-retain@.service.d; systemctl daemon-reload; printf '[Service]\\nExecStartPre=/bin/sleep 30\\n' "
                ">/run/systemd/system/hq-desk-retain@.service.d/slow.conf; systemctl daemon-reload; systemctl start --no-block hq-desk-retain@north; sleep 2")
    expect(machine.active("hq-desk@north", "hq-desk-retain@north") == ["inactive", "activating"], "nothing is retained")
    machine.run("apt-get remove -y hq-desk; rm -r /run/systemd/system/hq-desk-retain@.service.d; sleep 1", longest=120)
    found = machine.run("systemctl list-units --no-legend --plain --no-pager 'hq-*'; ps -o args= -u hqdesk || true")
    expect(found == "", "there is", found)
    machine.run(f"dpkg -i /root/{package_in(releases.now).name}", longest=120)
    until_as_before(machine)


def test_removed(machine):
    """Nothing of it runs after a removal, and a purge leaves no unit and no rule."""
    machine.run("apt-get remove -y hq-desk", longest=120)
    running = machine.run("systemctl list-units --no-legend --plain --no-pager 'hq-*' | grep -v not-found || true")
    expect(running == "", "there runs", running)
    for user in ("hqdesk", "hqrelay"):
        expect(machine.run(f"ps -o args= -u {user} || true") == "", "of", user, "there runs a process")
    expect("hq_desk" in machine.run("nft list tables") and machine.run("postconf -h defer_transports") == "desk\n", "mail is open to others")
    expect("desk_" not in machine.run("curl -sS http://127.0.0.1:9100/metrics"), "counts are shown")
    machine.run("nginx -t; systemctl restart nginx")
    told = machine.run("apt-get purge -y hq-desk", longest=120)
    expect("stays" in told and "hq_desk" not in machine.run("nft list tables"), "a purge tells", told)
    expect("mail for the worker waits" in told and "systemctl restart nginx" in told, "a purge tells", told)
    left = machine.run("find /etc/systemd/system -name 'hq-*' -o -path '*/nginx.service.d/*' -o -path '*/logrotate.timer.d/*'")
    expect(left == "", "left are", left)
    # (whatever has our name, and stays, is told, or lies in what is)
    found = machine.run("find / -xdev \\( -path /usr -o -path /root -o -path /var/cache/apt -o -path /var/spool/postfix -o -name '*freedesktop*' \\) "
                        "-prune -o \\( -name '*desk*' -o -name 'hq*' \\) -print || true")
    named = {Path(it.rstrip(".")) for it in re.findall("/[^ ,;']+", told)}
    untold = [it for it in map(Path, found.split()) if not {it, *it.parents} & named]
    expect(not untold and Path("/var/log/postfix-desk") in named, "nothing tells of", untold, told)
    machine.run("systemctl daemon-reload; nginx -t; systemctl restart nginx fail2ban logrotate.timer")
    expect(re.fullmatch("(active\n?){3}", machine.run("systemctl is-active nginx fail2ban logrotate.timer")), "what was beside it does not run")


def test_set_up_again(machine, releases):
    """Behind a purge the package is set up again by the lines of the pages: the firewall has its rules, and mail that waited for the
    worker goes on."""
    machine.run(f"apt-get install -y /root/{package_in(releases.now).name}; rm -r /var/lib/hqdesk/* /var/lib/hqrelay/*", longest=120)
    expect(machine.run("postconf -h defer_transports") == "desk\n", "mail goes to nobody")
    for page, title in ((PRODUCTION, "A desk"), (PRODUCTION, "nginx"), (PRODUCTION, "Firewall and alerts"), (RELAY, "Units")):
        for it in blocks(page, title):
            machine.run(it, longest=120, **NAMES)
        expect(title != "Firewall and alerts" or "hq_desk" in machine.run("nft list tables"), "there is no firewall")
    expect(machine.run("postconf -h defer_transports; ls /etc/postfix/desk-deferred 2>/dev/null || true") == "\n", "mail waits for ever")
    machine.until_active("hq-desk@north", "hq-relay-intake", "hq-relay-deliver")
