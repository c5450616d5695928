"""The files of deploy/ with the compiled program, each as it stands, but for addresses and the folders of a machine.

Every wait has a limit."""
import json
import os
import re
import signal
import socket
import stat
import subprocess
import textwrap
import time
from concurrent.futures import ThreadPoolExecutor
from itertools import product
from pathlib import Path

import needs
from check import bounded
from paths import at_a_path, lines_of_unit
from deploying import DEPLOY, OTHERS, ROWS, Desk, Proxy, all_settings_of, done, settings_of
from serving import ACME, BIRCH, HEADER, LONGEST, RELAY, Wrong, answered, expect, named, submission, until

USAGE = "GET", "/v1/usage"
CLOSED = 503, {"error": 93, "name": "Closed"}
UNITS = sorted(it.name for kind in ("service", "socket", "timer") for it in DEPLOY.glob(f"hq-*.{kind}"))
SERVICES = [it for it in UNITS if it.endswith(".service")]
# What takes a port below 1024; and what runs without an end.
AT_LOW_PORTS = "hq-desk@.service", "hq-desk-workers.service", "hq-relay-intake.service"
ENDLESS = *AT_LOW_PORTS, "hq-relay-deliver.service"
# The greatest exposure of a unit, in tenths.
EXPOSED = 20
LOW_PORT = "CAP_NET_BIND_SERVICE"


# ---- the units

def test_units(folder, program):
    """systemd takes the units, with the program in its place, also with the lines for a desk at a
    path, and rates each service below 2.0 of 10."""
    needs.command("systemd-analyze")
    for name in UNITS:
        text = (DEPLOY / name).read_text()
        for it, here in (("/usr/bin/hq ", f"{program} "), ("/usr/libexec/hq-desk/relay", DEPLOY.parent / "relay"),
                         ("/usr/libexec/hq-desk", DEPLOY)):
            text = text.replace(it, str(here))
        (folder / name).write_text(text)
    names = [it.replace("@", "@north") for it in UNITS]
    for lines in ("", lines_of_unit()):
        (folder / "hq-desk@north.service.d").mkdir(exist_ok=True)
        (folder / "hq-desk@north.service.d" / "path.conf").write_text(lines)
        found = run("systemd-analyze", "verify", "--man=no", *names, SYSTEMD_UNIT_PATH=f"{folder}:")
        expect(found.returncode == 0 and not found.stderr, "systemd-analyze verify:", found.stderr)
    for name in SERVICES:
        found = run("systemd-analyze", "security", "--offline=true", f"--threshold={EXPOSED}",
                    folder / name)
        expect(found.returncode == 0, "systemd-analyze security:", name, found.stdout[-200:],
               found.stderr)
        unit = all_settings_of(DEPLOY / name)
        wanted = [LOW_PORT] if name in AT_LOW_PORTS else []
        expect(unit.get("AmbientCapabilities", []) == wanted, name, "has other capabilities")
        expect(unit["LimitCORE"] == ["0"], name, "may leave a core, in which keys stand")
        expect(unit["UMask"] == ["0077"], name, "makes files for others")
        if name in ENDLESS:
            expect((unit["Restart"], unit["StartLimitIntervalSec"]) == (["always"], ["0"]), name, "is not started again for ever")
            for it in ("Wants", "After"):
                expect({"network-online.target", "time-sync.target"} <= set(" ".join(unit[it]).split()), name, "waits for no clock or network")
        else:
            expect(unit["Type"] == ["oneshot"] or "@" in name, name, "runs without an end, and is none of", ENDLESS)
    # (a variable that is a word of its own is none where it is empty; one that is not set at all is a warning at each start)
    unit = all_settings_of(DEPLOY / "hq-desk@.service")
    expect(unit["Environment"] == ["KEYS="] and unit["ExecStart"][0].endswith(" $KEYS"), "named keys are asked for without any")
    expect(float(unit["MemoryMax"][0].rstrip("G")) >= 2.5, "a store of a million messages cannot be opened in", unit["MemoryMax"])


def test_journal():
    """What a timer begins each minute or more often leaves no line in the journal but of faults, so that it pushes out nobody's."""
    often = {it.stem for it in DEPLOY.glob("*.timer") if "OnUnitInactiveSec" in settings_of(it)}
    expect(len(often) == 3, "these begin so often:", often)
    for it in often:
        unit = settings_of(DEPLOY / f"{it}.service")
        expect((unit.get("SyslogLevel"), unit.get("LogLevelMax")) == ("warning", "notice"), it, "writes that it began and ended")


def test_refused_start():
    """A start whose files are refused fails, by the very check of the program, and is tried again each two seconds, not ten times."""
    unit = all_settings_of(DEPLOY / "hq-desk@.service")
    check, = unit["ExecStartPre"]
    expect(check.startswith("/usr/bin/hq check --directory /etc/hq/%i.csv ") and check.endswith(" $KEYS"), "before a start there is", check)
    for word in ("--directory /etc/hq/%i.csv", "--host ${HOST}", "--relay-key-file /etc/hq/%i.key"):
        expect(word in check and word in unit["ExecStart"][0], "the check and the start differ by", word)
    behind = unit["ExecStopPost"][0]
    expect(all_settings_of(DEPLOY / "hq-desk-workers.service").get("ExecStopPost") == [behind], "a start of nginx is tried again at once")
    expect(behind.startswith("/bin/sh -c '") and behind.endswith("'"), "behind an end there is", behind)
    script = behind[len("/bin/sh -c '"):-1].replace("$$", "$")
    for result, least in (("exit-code", 2), ("success", 0), ("signal", 0), ("core-dump", 0)):
        begun = time.monotonic()
        expect(run("sh", "-c", script, SERVICE_RESULT=result).returncode == 0, "behind", result, "it fails")
        took = time.monotonic() - begun
        expect(least <= took < least + 1.5, "behind", result, "it takes", took)


def test_nginx_restarts():
    """systemd starts Debian's nginx again whenever it ends, by the file that the page has put beside its unit."""
    unit = all_settings_of(DEPLOY / "nginx-restart.conf")
    expect((unit["Restart"], unit["StartLimitIntervalSec"]) == (["always"], ["0"]), "nginx is not started again")
    page = (DEPLOY.parent / "docs/PRODUCTION.md").read_text()
    expect("examples/nginx-restart.conf /etc/systemd/system/nginx.service.d/hq-desk.conf\n" in page, "the page does not put it there")


def run(*words, **more):
    return subprocess.run(words, capture_output=True, text=True, timeout=LONGEST,
                          env={**os.environ, **more})


def let_through(name):
    """The system calls of a set of systemd's."""
    for line in run("systemd-analyze", "syscall-filter", name).stdout.split("\n")[1:]:
        it = line.strip()
        if it.startswith("@"):
            yield from let_through(it)
        elif it and not it.startswith("#"):
            yield it


def test_system_calls(folder, program):
    """The program makes no system call that its unit refuses."""
    needs.command("strace", "systemd-analyze")
    desk = Desk(folder, program, "traced", ROWS)
    desk.words = ["strace", "-f", "-qq", "-o", str(folder / "calls"), *desk.words]
    with desk:
        used(desk)
        # (strace hands no signal on)
        os.kill(int(Path(f"/proc/{desk.process.pid}/task/{desk.process.pid}/children").read_text()),
                signal.SIGTERM)
        desk.runs = False
    made = set(re.findall(r"(?m)^\d+ +(\w+)\(", (folder / "calls").read_text()))
    expect("pwrite64" in made, "strace saw no writing:", made)
    allowed = set()
    for it in all_settings_of(DEPLOY / "hq-desk@.service")["SystemCallFilter"]:
        names = {name for a_set in it.lstrip("~").split() for name in let_through(a_set)}
        allowed = allowed - names if it.startswith("~") else allowed | names
    expect(not made - allowed, "the unit refuses the system calls", made - allowed)


def used(desk):
    done(desk.ask("POST", "/relay/submit/acme", body=submission("s1")), "a submission")
    done(desk.ask("POST", "/v1/hold/0000000001", ACME), "a hold")
    done(desk.ask("GET", "/v1/report", ACME), "a report")
    done(desk.ask("DELETE", "/v1/message/0000000001", ACME), "a deletion")


# ---- one desk and its check

def test_killed_desk_comes_back(folder, program):
    """A desk that is killed is started again, with what it had, in files of its owner alone."""
    with Desk(folder, program, "kept", ROWS) as desk:
        done(desk.ask("POST", "/relay/submit/acme", body=submission("s1")), "a submission")
        for path in (desk.store, Path(f"{desk.store}-wal")):
            expect(stat.S_IMODE(path.stat().st_mode) == 0o600, path, "may be read by others")
        shown = Path(f"/proc/{desk.process.pid}/cmdline").read_text()
        expect(RELAY not in shown and ACME not in shown, "the list of processes shows a key:", shown)
        first = desk.process.pid
        desk.process.kill()
        until(lambda: desk.process.pid != first and desk.listens(), "the desk is not there again")
        expect(done(desk.ask(*USAGE, ACME))["messages"] == 1, "the message is lost")
        found = run(*desk.check("false"))
        expect((found.returncode, found.stderr) == (0, ""), "a check of a good desk:", found)
        desk.has(OTHERS)
        found = run(*desk.check("touch", folder / "touched"))
        expect(found.returncode == 1 and "401" in found.stderr, "a check by a wrong key:", found)
        expect(ACME not in found.stderr, "a check tells a key:", found)
    found = run(*desk.check("touch", folder / "touched"))
    expect(found.returncode == 1 and "ConnectionRefused" in found.stderr, "no desk:", found)
    expect(not (folder / "touched").exists(), "a desk that is away was started again")
    bounded(desk)


def test_rotated(folder, program):
    """logrotate moves a desk's log away while it runs."""
    needs.command("logrotate")
    rules, state = folder / "logs.conf", folder / "logrotate.state"
    rules.write_text((DEPLOY / rules.name).read_text().replace("/var/log/hqdesk", str(folder)))
    rules.chmod(0o644)
    with Desk(folder, program, "rotated", ROWS) as desk:
        used(desk)
        found = run("logrotate", "--force", "--state", state, rules)
        expect(found.returncode == 0, "logrotate:", found.stderr)
        done(desk.ask(*USAGE, ACME))
    for name, count in (("rotated.log.1", 4), ("rotated.log", 1)):
        lines = (folder / name).read_text().splitlines()
        expect(len(lines) == count, name, "has", lines)


def closes(desk, library):
    """Starts the desk with a disk that fails at some call; whether its store is closed then."""
    for number in range(1, 60):
        desk.more = {"LD_PRELOAD": library, "FAIL_AT": str(number)}
        try:
            desk.start()
        except Wrong:
            continue
        finally:
            desk.more = {}
        desk.ask("POST", "/relay/submit/acme", body=submission(f"s{number}"))
        if desk.ask(*USAGE, ACME) == CLOSED:
            return True
        desk.stop()
    return False


def test_closed(folder, program, library):
    """A desk whose store is closed says so until the check has it started again."""
    desk = Desk(folder, program, "closed", ROWS)
    with desk:
        used(desk)
    try:
        expect(closes(desk, library), "no failure of the disk closes the store")
        without_command = run(*desk.check())
        expect(without_command.returncode == 1, "a check without a command:", without_command)
        expect(desk.ask(*USAGE, ACME) == CLOSED, "the store is not closed any more")
        first = desk.process.pid
        found = run(*desk.check("kill", str(first)))
        expect(found.returncode == 0 and "Closed" in found.stderr, "a check of it:", found)
        until(lambda: desk.process.pid != first and desk.listens(), "it is not there again")
        done(desk.ask(*USAGE, ACME), "the usage after the check")
    finally:
        desk.stop()


# ---- behind nginx

def test_routed(north, south, proxy):
    """Each customer reaches its own desk, and a worker the desk of the customer that it names."""
    for desk, name, key in ((north, "acme", ACME), (south, "birch", BIRCH)):
        done(proxy.relay(f"/relay/submit/{name}", submission(f"of-{name}")), name)
        found = done(proxy.ask("GET", "/v1/message/0000000001", key), name)
        expect(found["spool"] == f"of-{name}", name, "is shown", found)
        expect(done(desk.ask(*USAGE, key))["messages"] == 1, name, "is at another desk")
    expect(proxy.ask(*USAGE) == (401, {"error": 2, "name": "NoKey"}), "without a key")
    found = proxy.ask(*USAGE, RELAY)
    expect(found == (401, {"error": 2, "name": "NoKey"}), "the relay's key can be told:", found)
    expect(proxy.relay("/relay/due/nobody", {"after": None})[0] == 404, "no customer")


def test_refused_by_nginx(proxy, south):
    """What nginx refuses itself can be told from what the desk refuses."""
    long = b" " * 262_145
    for status, name, found in (
            (404, "NoRoute", proxy.ask("POST", "/relay/submit/acme", RELAY, b"{}")),
            (404, "NoRoute", proxy.ask("GET", "/nothing", ACME)),
            (404, "NoRoute", proxy.relay("/relay/sweep")),
            (404, "NoRoute", proxy.relay("/relay/usage")),
            (404, "NoRoute", proxy.relay("/relay/due")),
            (404, "NoRoute", proxy.relay("/relay/sweep-from", {"from": None})),
            (404, "NoRoute", proxy.relay("/relay/usage-from", {"from": None})),
            (404, "NoRoute", proxy.relay("/relay/due-from", {"from": None})),
            (404, "NoRoute", proxy.relay("/v1/usage")),
            (413, "BodyTooLong", proxy.ask("POST", "/v1/check", ACME, long)),
            (400, "BadRequest", proxy.ask("GET", "/v1/usage", "k" * 40_000))):
        expect(found == (status, {"name": name, "proxy": status}), "nginx says", found)
    south.stop()
    found = proxy.ask(*USAGE, BIRCH)
    expect(found == (502, {"name": "DeskAway", "proxy": 502}), "of a desk that is away:", found)
    found = proxy.relay("/relay/due/birch", {"after": None})
    expect(found == (502, {"name": "DeskAway", "proxy": 502}), "to a worker:", found)
    south.start()
    for path, number in (("/v1/message/x", 8), ("/v1/message/0000000009", 10), ("/v1/usage?x", 4)):
        status, body = proxy.ask("GET", path, BIRCH)
        expect(body.get("error") == number and "proxy" not in body, path, "got", status, body)


def test_page(proxy):
    """The page is served, and a session of the site stands for a key, at the page alone."""
    pages = (DEPLOY.parent / "docs/OPERATIONS.md").read_text()
    lines = re.search(r"(?ms)^location / \{\n  root.*?^\}\n", pages)[0]
    expect(textwrap.indent(lines, "  ") in (DEPLOY / "nginx.conf").read_text(),
           "deploy/nginx.conf does not serve the page as docs/OPERATIONS.md says")
    text, response = answered(proxy.public, "GET", "/", context=proxy.context)
    expect(text == (DEPLOY.parent / "web/index.html").read_bytes(), "the page is", text[:200])
    expect(response.getheader("Content-Security-Policy"), "the page has no policy")
    for key, name in ((ACME, "acme"), (BIRCH, "birch"), ("k" * 16, None)):
        _, response = answered(proxy.public, "GET", "/v1/usage", key, context=proxy.context)
        expect(response.getheader("X-Desk-Customer") == name, name, "is told as", response.getheader("X-Desk-Customer"))
    cookie, of_page = {"Cookie": "session=s1"}, {"X-Desk-Page": "1"}
    for fields, key, status in (({**cookie, **of_page}, None, 200), (cookie, None, 401),
                                ({"Cookie": "session=s2", **of_page}, None, 401),
                                ({**cookie, **of_page}, "k" * 16, 401)):
        found = proxy.ask(*USAGE, key, **fields)
        expect(found[0] == status, "with", fields, key, "the usage got", found)


def test_limited(proxy):
    """A browser, with six calls at once, is slowed down; more are refused; others are answered."""
    begun = time.monotonic()
    with ThreadPoolExecutor(6) as them:
        for found in them.map(lambda _: proxy.ask(*USAGE, ACME), range(130)):
            done(found, "six calls at once")
    took = time.monotonic() - begun
    expect(took > 1.5, "130 calls, six at once, took only", took)
    for path, at_once in (("/v1/report", 8), ("/v1/usage", 60)):
        with ThreadPoolExecutor(at_once) as them:
            found = [*them.map(lambda _: proxy.ask("GET", path, ACME), range(4 * at_once))]
            done(proxy.ask("GET", path, BIRCH), path, "of another customer")
        often = [it for it in found if it[0] != 200]
        expect(often and all(it == (429, {"name": "TooOften", "proxy": 429}) for it in often),
               path, "has no limit, or says", often[:1])
        expect(len(often) < len(found), path, "is never answered")
    # (each spelling comes twice, which is less than any limit)
    spelt = ["".join(it) + ACME[7:] for it in product(*zip(ACME[:7], ACME[:7].upper()))] * 2
    with ThreadPoolExecutor(60) as them:
        found = {it[0] for it in them.map(lambda it: proxy.ask(*USAGE, it), spelt)}
    expect({401, 429} <= found <= {200, 401, 429}, "a key in any case gets", found)


def test_named_as_words(folder, program):
    """Customers whose names are words of nginx."""
    needs.command("nginx", "openssl")
    names = "default", "hostnames", "include", "volatile"
    rows = [f"{it},{it}key000000000,1000,500000000,1000,100,14400" for it in names]
    with Desk(folder, program, "named", rows) as desk, Proxy(folder / "named", [desk]) as proxy:
        for it in names:
            done(proxy.relay(f"/relay/submit/{it}", submission("s1")), it)
            found = done(proxy.ask(*USAGE, f"{it}key000000000"), it)
            expect(found["messages"] == 1, it, "has", found)


def test_named_keys(folder, program):
    """A named key reaches the desk of its customer through nginx, does what its right is, and is named in the desk's log."""
    needs.command("nginx", "openssl")
    named_keys = ["birch,panel,Birchpanel000001,all", "birch,report,birchreport00001,read"]
    with Desk(folder, program, "named", ROWS) as north, Desk(folder, program, "keys", OTHERS, keys=named_keys) as south, \
            Proxy(folder / "keyed", [north, south]) as proxy:
        done(proxy.relay("/relay/submit/birch", submission("s1")), "a submission")
        for key in ("Birchpanel000001", "birchreport00001", BIRCH):
            _, response = answered(proxy.public, *USAGE, key, context=proxy.context)
            expect((response.status, response.getheader("X-Desk-Customer")) == (200, "birch"), key, "got", response.status)
        hold = "POST", "/v1/hold/0000000001"
        expect(proxy.ask(*hold, "birchreport00001") == (403, {"error": 3, "name": "WrongRole"}), "a key that may only read")
        done(proxy.ask(*hold, "Birchpanel000001"), "a key that may do all")
        done(proxy.ask("POST", "/v1/find", "birchreport00001", {"class": "sender", "pattern": "a.example", "after": None}), "a find")
        found = run(*south.check("false"))
        expect((found.returncode, found.stderr) == (0, ""), "a check of a desk with named keys:", found)
    lines = [json.loads(it) for it in (folder / "keys.log").read_text().splitlines()]
    told = [(it["customer"], it["method"], it["status"], it.get("key")) for it in lines if it["path"].startswith("/v1/")]
    expect(told == [("birch", "GET", 200, "panel"), ("birch", "GET", 200, "report"), ("birch", "GET", 200, None),
                    ("birch", "POST", 403, "report"), ("birch", "POST", 200, "panel"), ("birch", "POST", 200, "report"),
                    ("birch", "GET", 200, None)], "the log tells", told)


def test_late(folder):
    """A desk that does not answer is 504, in JSON, and no more than a hundred calls wait for it."""
    needs.command("nginx", "openssl")
    silent = socket.create_server(("127.0.0.1", 0), backlog=200)
    names = [f"c{it:02d}" for it in range(20)]
    rows = [f"{it},{it}key0000000000001,100,1000000,100,10,0" for it in names]
    desk = Desk(folder, "none", "silent", ROWS + rows)
    desk.address = named(silent.getsockname())
    with silent, Proxy(folder / "late", [desk]) as proxy:
        proxy.with_text("proxy_read_timeout 180s", "proxy_read_timeout 3s")
        found = proxy.ask(*USAGE, ACME)
        expect(found == (504, {"name": "DeskLate", "proxy": 504}), "of a silent desk:", found)
        found = proxy.relay("/relay/due/acme", {"after": None})
        expect(found == (504, {"name": "DeskLate", "proxy": 504}), "to a worker:", found)
        proxy.with_text("proxy_read_timeout 3s", "proxy_read_timeout 180s")
        with ThreadPoolExecutor(8 * len(names)) as them:
            jobs = [them.submit(proxy.ask, *USAGE, f"{it}key0000000000001") for it in 8 * names]
            try:
                until(lambda: sum(it.done() for it in jobs) >= 60,
                      "of 160 at once not 60 are refused", LONGEST / 3)
            finally:
                # (which ends those that wait, by 502)
                silent.close()
            found = [it.result()[0] for it in jobs]
        expect(found.count(502) == 100 and found.count(429) == 60, "160 at once get", found)


def test_maps_refused(folder):
    """One name or one key in two directories is refused, and nothing is written."""
    changed = (("acme,", "a,"), ("key0", "keys0"), ("key0", "key;"), ("acme,", "Acme,"),
               ("acme,acme", "a,ACME"))
    for number, (old, new) in enumerate(changed):
        place = folder / f"maps{number}"
        place.mkdir()
        (place / "a").write_text(f"{HEADER}{ROWS[0]}\n")
        (place / "b").write_text(f"{HEADER}{ROWS[0].replace(old, new)}\n")
        found = run(DEPLOY / "desk-maps", place, f"127.0.0.1:1={place}/a", f"127.0.0.1:2={place}/b")
        expect(found.returncode == 1 and not list(place.glob("*.map")), "maps of", new, found)


def test_at_a_path(folder, program):
    """A desk listens at a path, for its owner and its group, behind nginx."""
    needs.command("nginx", "openssl")
    at_a_path(folder, program, ROWS)


def test_modes_of_maps(proxy):
    for name, mode in (("keys.map", 0o600), ("names.map", 0o640)):
        found = stat.S_IMODE((proxy.folder / name).stat().st_mode)
        expect(found == mode, name, "has the mode", oct(found))
