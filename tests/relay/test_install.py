"""Tries `relay/worker SETTINGS install` in machines of their own (tests/support/private.py), with the
addresses and folders that docs/RELAY.md has.

As a script it is what runs in such a machine: test_install.py PART.
"""
import hashlib
import json
import os
import shutil
import signal
import socket
import subprocess
import sys
from pathlib import Path

from private import REPOSITORY, enter, inside, want
from serving import LONGEST, expect, listens, until

HERE = Path("/srv/mail")
WORKER = REPOSITORY / "relay/worker"
FRONT, DESK, SUDOERS = Path("/etc/postfix"), Path("/etc/postfix-desk"), Path("/etc/sudoers.d")
PATH = "/usr/sbin:/usr/bin:/sbin:/bin"
SETTINGS = {
    "desk": {"address": "127.0.0.1:8025", "key-file": "relay.key", "directory": "customers.csv"},
    "spool": {"folder": "state/spool"},
    "intake": {"listen": "127.0.0.1:10024", "customers": "127.0.0.1:10025"},
    "domains": {"a.example": "acme"},
    "delivery": {"host": "relay.example"},
    "notices": {"from": "MAILER-DAEMON@relay.example"},
}
CUSTOMERS = "name,key,messages,bytes,lines,notices,delay\nacme,acmekey000000001,9,9,9,9,9\n"
MOVED = {"intake": {"listen": "127.0.0.1:10030", "customers": "127.0.0.1:10031",
                    "largest": "20000000"},
         "delivery": {"instance": "127.0.0.1:10032"}, "notices": {"next-hop": "127.0.0.1:10033"}}
QUEUED = "4jbPwk62v8z1bcMh"
NOTHING = "nothing to change\n"


# ---- in the machine

def settings(**more):
    """Writes the settings, with these beside those of all or in place of them."""
    HERE.mkdir(exist_ok=True)
    (HERE / "customers.csv").write_text(CUSTOMERS)
    (HERE / "relay.key").write_text("relaykey00000001\n")
    lines = []
    for section, values in SETTINGS.items():
        named = {**values, **more.get(section, {})}
        lines += [f"[{section}]", *(f"{name} = {value}" for name, value in named.items())]
    (HERE / "relay.ini").write_text("\n".join([*lines, ""]))


def run(*words, status=0, **more):
    """What a command prints, both ways; it ends with this status."""
    ended = subprocess.run([str(it) for it in words], stdin=subprocess.DEVNULL, cwd=HERE,
                           stdout=subprocess.PIPE, stderr=subprocess.STDOUT, timeout=2 * LONGEST,
                           env={**os.environ, **more})
    told = ended.stdout.decode(errors="replace")
    expect(ended.returncode == status, *words, "ended with", ended.returncode, told)
    return told


def install(status=0, *words, **more):
    return run(WORKER, "relay.ini", "install", *words, status=status, **more)


def kept():
    """All that install may write to, but what Postfix keeps of itself, as it stands."""
    found = {}
    for folder in ("/etc", HERE):
        for name in sorted(Path(folder).rglob("*")):
            if name.is_symlink() or not (name.is_file() or name.is_dir()):
                continue
            of = name.stat()
            text = hashlib.sha256(name.read_bytes()).hexdigest() if name.is_file() else ""
            found[str(name)] = (of.st_mode, of.st_uid, of.st_gid, text)
    return found


def refused(*wanted):
    """Install refuses, tells all of this, and changes nothing."""
    before, told = kept(), install(1)
    expect(all(it in told for it in wanted), "of", wanted, "not all is told:", told)
    expect(kept() == before, "a refused install changed", set(kept().items()) ^ set(before.items()))


def unchanged():
    """Install finds nothing to do, and does nothing."""
    before = kept()
    told = install()
    expect(told == NOTHING and kept() == before, "the second install told", told)


def main_of(folder, *names):
    return run("postconf", "-c", folder, "-h", *names).splitlines()


def set_main(folder, **values):
    run("postconf", "-c", folder, "-e", *(f"{name}={value}" for name, value in values.items()))


def drop_main(folder, *names):
    run("postconf", "-c", folder, "-X", *names)


def state():
    """What both instances have, with the table files and the rule of sudo."""
    found = {f"{folder} {kind}": run("postconf", "-c", folder, kind)
             for folder in (FRONT, DESK) for kind in ("-n", "-M")}
    for name in (DESK / "soft_failures", DESK / "reports", DESK / "own_addresses", SUDOERS / "hqrelay"):
        found[str(name)] = name.read_text()
    return found


def heard(*ports):
    """Just these ports of the worker's are listened at."""
    found = [port for port in range(10020, 10040) if listens(("127.0.0.1", port))]
    expect(found == [*ports], "the ports are", found, "and not", ports)


# ---- parts

def foreign():
    """What somebody else wrote is named with both values, and nothing is changed."""
    settings()
    set_main(FRONT, enable_long_queue_ids="no")
    refused("/etc/postfix/main.cf: enable_long_queue_ids = no,", "it would write yes")
    drop_main(FRONT, "enable_long_queue_ids")
    set_main(FRONT, desk_destination_recipient_limit="7")
    refused("desk_destination_recipient_limit = 7,", "it would write 1")
    drop_main(FRONT, "desk_destination_recipient_limit")
    run("postconf", "-M", "desk/unix=desk unix - - n - 3 smtp")
    refused("/etc/postfix/master.cf: desk/unix = desk unix - - n - 3 smtp,", " n - 10 lmtp ")
    run("postconf", "-MX", "desk/unix")
    (SUDOERS / "hqrelay").write_text("hqrelay ALL=(ALL) ALL\n")
    refused("/etc/sudoers.d: hqrelay = ", "ALL=(ALL) ALL", "/usr/sbin/postsuper ^-c ")
    (SUDOERS / "hqrelay").unlink()
    DESK.mkdir()
    refused("/etc/postfix-desk is there, and install did not make it")
    DESK.rmdir()
    settings(delivery={"instance": "127.0.0.1:10027"})
    refused("127.0.0.1:10027 stands twice")
    settings(spool={"user": "root"})
    refused("[spool] user: root has a number below 100")
    settings()
    (HERE / "state/spool").mkdir(parents=True)
    refused("/srv/mail/state/spool is not of the user hqrelay")
    shutil.rmtree(HERE / "state")
    taken = subprocess.Popen(["smtp-sink", "-u", "nobody", "127.0.0.1:10026", "10"])
    until(lambda: listens(("127.0.0.1", 10026)), "smtp-sink does not listen")
    refused("cannot listen at 127.0.0.1:10026: Address already in use")
    taken.kill()
    taken.wait(LONGEST)
    told = run("runuser", "-u", "nobody", "--", WORKER, "relay.ini", "install", status=1)
    expect("has to be run as root" in told, "nobody is told", told)


def fresh():
    """Install makes all, tells each change, and finds nothing to do then."""
    before = kept()
    told = install(0, "--dry-run")
    expect(kept() == before and "/etc/postfix-desk: is made" in told, "a dry run told", told)
    told = install()
    for it in ("user hqrelay: is made", "main.cf: enable_long_queue_ids = yes, was unset",
               "/etc/postfix-desk: is made", "/etc/postfix-desk: started", "/etc/postfix: started"):
        expect(it in told, it, "is not told in", told)
    heard(10025, 10026, 10027)
    folder = (HERE / "state/spool").stat()
    expect(folder.st_mode & 0o777 == 0o700 and folder.st_uid >= 100, "the spool is", folder)
    run("runuser", "-u", "hqrelay", "--", "test", "-w", "state/spool/reports/new")
    rule = (SUDOERS / "hqrelay").stat()
    expect(rule.st_mode & 0o777 == 0o440, "the rule of sudo is", rule)
    run("runuser", "-u", "hqrelay", "--", "postqueue", "-c", DESK, "-j")
    unchanged()


def taken_back():
    """The worker's user may delete one message of the delivering instance, and nothing else."""
    as_user = ("runuser", "-u", "hqrelay", "--", "sudo", "-n", "postsuper")
    told = run(*as_user, "-c", DESK, "-d", QUEUED)
    expect("Deleted: 0 messages" in told, "of no message is told", told)
    for words in (("-c", DESK, "-d", "ALL"), ("-c", DESK, "-d", "-"), ("-d", QUEUED),
                  ("-c", DESK, "-h", QUEUED), ("-c", FRONT, "-d", QUEUED),
                  ("-c", DESK, "-d", QUEUED, "-d", QUEUED), ("-c", DESK, "-d", f"{QUEUED} x")):
        told = run(*as_user, *words, status=1)
        expect("password is required" in told, words, "got", told)


def firm():
    """Lines of the firm's own stay, also where they stand in place of a proposal."""
    own = {"transport_maps": "inline:{far.example=smtp:[127.0.0.1]:2525}",
           "smtp_tls_security_level": "dane", "smtp_dns_support_level": "dnssec",
           "smtpd_milters": "inet:127.0.0.1:8891", "milter_default_action": "tempfail"}
    set_main(DESK, **own)
    set_main(FRONT, smtpd_sasl_auth_enable="no")
    unchanged()
    expect(main_of(DESK, *own) == [*own.values()], "of the firm is left", main_of(DESK, *own))
    drop_main(DESK, *own)
    told = install()
    expect("smtp_tls_security_level = may, was unset" in told, "a line that is gone:", told)


def ours_changed():
    """A line of ours that somebody changed is somebody else's from then on."""
    set_main(DESK, notify_classes="bounce")
    refused("/etc/postfix-desk/main.cf: notify_classes = bounce,", "it would write 2bounce")
    set_main(DESK, notify_classes="2bounce", mynetworks="127.0.0.0/8")
    # (it had that value when it was made)
    refused("/etc/postfix-desk/main.cf: mynetworks = 127.0.0.0/8,")
    set_main(DESK, mynetworks="127.0.0.0/8 [::1]/128")
    run("postconf", "-F", "desk/unix/process_limit=20")
    refused("desk/unix = desk unix - - n - 20 lmtp")
    run("postconf", "-F", "desk/unix/process_limit=10")
    filter_of = DESK / "soft_failures"
    text = filter_of.read_text()
    filter_of.write_text(f"# mine\n{text}")
    refused("/etc/postfix-desk: soft_failures = ", "# mine")
    filter_of.write_text(text)
    unchanged()


def moved():
    """Other settings move what install wrote; a second worker's are refused."""
    settings(**MOVED)
    told = install()
    for it in ("127.0.0.1:10025/inet = unset, was 127.0.0.1:10025 inet",
               "content_filter=desk:[127.0.0.1]:10030", "message_size_limit = 20004096, was 110040",
               "/etc/postfix: reloaded", "/etc/postfix-desk: reloaded"):
        expect(it in told, it, "is not told in", told)
    until(lambda: not listens(("127.0.0.1", 10025)), "the old port is listened at")
    heard(10031, 10032, 10033)
    unchanged()
    settings(spool={"folder": "other"})
    refused("/etc/postfix: install wrote it for the worker with the spool /srv/mail/state/spool")
    settings()
    install()
    until(lambda: not listens(("127.0.0.1", 10033)), "the old port is listened at")
    heard(10025, 10026, 10027)


def no_listener():
    """Without a listener of its own, install tells which line the firm's has to have."""
    way = "content_filter=desk:[127.0.0.1]:10024"
    text = (HERE / "relay.ini").read_text()
    (HERE / "relay.ini").write_text(text.replace("customers = 127.0.0.1:10025\n", ""))
    told = install()
    expect(f"master.cf: -o {way}" in told, "the line is not told in", told)
    run("postconf", "-M", f"submission/inet=submission inet n - n - - smtpd -o {way}")
    unchanged()
    run("postconf", "-MX", "submission/inet")
    settings()
    install()


def silent():
    """Where Postfix does not listen after all, install says so; and does its work when it can."""
    set_main(DESK, master_service_disable="inet")
    run("postfix", "-c", DESK, "stop")
    told = install(1)
    expect("/etc/postfix-desk: nobody listens at 127.0.0.1:10026" in told, "of no one:", told)
    drop_main(DESK, "master_service_disable")
    run("postfix", "-c", DESK, "stop")
    told = install()
    expect("/etc/postfix-desk: started" in told, "of a start is told", told)
    heard(10025, 10026, 10027)


def no_sudo():
    """Without sudo, or with one that knows no regular expression, the worker is told what it
    cannot do."""
    folder = Path("/srv/bin")
    folder.mkdir()
    (folder / "sudo").write_text("#!/bin/sh\necho Sudo version 1.9.5p2\n")
    (folder / "sudo").chmod(0o755)
    told = install(PATH=f"{folder}:{PATH}")
    expect("sudo is older than 1.9.10: mail that is deleted" in told, "an old sudo:", told)
    shutil.rmtree(folder)
    # (the link is of this machine alone)
    subprocess.run(["mount", "--bind", "/dev/null", "/usr/bin/sudo"], check=True)
    told = install()
    expect("sudo is not installed: mail that is deleted" in told, "without sudo:", told)
    subprocess.run(["umount", "/usr/bin/sudo"], check=True)
    unchanged()


def by_socket():
    """Where root's helper takes mail back, the rule of sudo goes, and the socket is to be enabled."""
    settings(delivery={"postsuper": "unix:/run/helper.sock"})
    told = install()
    for it in ("/etc/sudoers.d: hqrelay = unset, was ", "there is no /run/helper.sock: systemctl enable --now hq-relay-postsuper.socket\n"):
        expect(it in told and not (SUDOERS / "hqrelay").exists(), it, "is not told in", told)
    with socket.socket(socket.AF_UNIX) as made:
        made.bind("/run/helper.sock")
        unchanged()
    (SUDOERS / "hqrelay").write_text("hqrelay ALL=(ALL) ALL\n")
    expect("sudoers" not in install() and (SUDOERS / "hqrelay").exists(), "somebody else's rule is gone")
    (SUDOERS / "hqrelay").unlink()
    settings()
    expect("/etc/sudoers.d: hqrelay = " in install() and (SUDOERS / "hqrelay").exists(), "the rule is not back")


def whole():
    foreign()
    fresh()
    found = state()
    for it in (taken_back, firm, ours_changed, moved, no_listener, silent, no_sudo, by_socket): it()
    print(json.dumps(found))


def cut():
    """Install is cut again and again, and at its end all is as if it had never been; so it is when
    it has to move what it wrote."""
    settings()
    count = cut_to_its_end()
    expect(count > 20, "install was cut only", count, "times")
    unchanged()
    heard(10025, 10026, 10027)
    found = state()
    settings(**MOVED)
    count += cut_to_its_end()
    unchanged()
    until(lambda: not listens(("127.0.0.1", 10025)), "the old port is listened at")
    heard(10031, 10032, 10033)
    print(count)
    print(json.dumps(found))


def cut_to_its_end():
    """Install kills itself behind its first write, its second one and so on, each time going on from
    what is there; returns how often. (Before a write is behind the one before it.)"""
    count, number, last = 0, 1, None
    while True:
        ended = subprocess.run([sys.executable, "-B", __file__, "cut-at", str(number)],
                               cwd=HERE, stdin=subprocess.DEVNULL, stdout=subprocess.PIPE,
                               stderr=subprocess.STDOUT, timeout=2 * LONGEST)
        if ended.returncode == 0:
            return count
        expect(ended.returncode == -signal.SIGKILL, "a cut install ended with", ended.returncode,
               ended.stdout.decode(errors="replace"))
        count += 1
        number = number + 1 if kept() == last else max(1, number - 1)
        last = kept()


def cut_at(number):
    """Runs install, which kills itself behind its write of a number."""
    sys.path.insert(0, str(REPOSITORY / "relay"))
    from hq_relay.postfix import configuration as places
    left = int(number)

    def cutting(real, writes):
        def called(*words, **more):
            nonlocal left
            if not writes(words):
                return real(*words, **more)
            left -= 1
            told = real(*words, **more)
            if left == 0:
                os.kill(os.getpid(), signal.SIGKILL)
            return told
        return called

    places.keep = cutting(places.keep, lambda _: True)
    places.run = cutting(places.run, is_write)
    from hq_relay.postfix import installation as installing
    from hq_relay.settings import load
    return installing.install(load("relay.ini"))


def is_write(words):
    """Whether a command changes anything."""
    texts = [str(it) for it in words]
    asks = {"postconf": not {"-e", "-X", "-F", "-MX"} & set(texts) and "=" not in texts[-1],
            "sudo": True, "visudo": True, "postfix": texts[-1] == "status"}
    return not asks.get(texts[0], False)


PARTS = {"whole": whole, "cut": cut}


# ---- outside of it

def test_install():
    """`install` gives both instances their lines, again and again, cut at each of its writes, and leaves
    alone what somebody else wrote."""
    want()
    script = os.path.realpath(__file__)
    wanted = json.loads(inside(script, "whole").splitlines()[-1])
    _, found = inside(script, "cut").splitlines()
    found = json.loads(found)
    wrong = [it for it in wanted if found[it] != wanted[it]]
    expect(not wrong, "an install that was cut leaves another", wrong, found)


if __name__ == "__main__":
    if sys.argv[1] == "cut-at":
        sys.exit(cut_at(*sys.argv[2:]))
    os.environ["PATH"] = PATH
    enter()
    PARTS[sys.argv[1]]()
