"""A worker process of nginx that dies: its customers are served again, and nginx is restarted for nothing else."""
import http.client
import os
import re
import shutil
import signal
import subprocess
import time
from concurrent.futures import ThreadPoolExecutor
from contextlib import suppress

import needs
import pytest
from deploying import DEPLOY, ROWS, Desk, Proxy, all_settings_of, done
from serving import ACME, LONGEST, expect, until

USAGE = "GET", "/v1/usage"
OFTEN = 429, {"name": "TooOften", "proxy": 429}
AT_ONCE = 8
UNIT = all_settings_of(DEPLOY / "hq-desk-nginx.service")
# The main process of the tests without an nginx, and what it writes.
MAIN, HOUR = 4242, 3600
LINE = "{} [alert] {}#{}: worker process 4300 exited on signal {}\n"
# What nginx writes for each connection for which it has no room; and the bytes that the check reads at once, and of a file.
ROOM = "2026/01/02 03:04:05 [alert] 4300#4300: *7 8192 worker_connections are not enough\n"
PART, MOST = 1 << 20, 1 << 26
# A systemctl that knows the units of a folder, and notes which of them a line enables and starts.
SYSTEMCTL = """\
#!/bin/sh
case "$*" in "enable --now hq-desk-nginx.timer") grep -q '^WantedBy=' {0}/units/hq-desk-nginx.timer && : >{0}/started ;; esac
"""


class Checked:
    """The condition of the unit, over a log of this folder, and a systemctl that tells of this process."""

    def __init__(self, folder, log):
        self.log, self.bin, self.seconds = log, folder / "bin", "0"
        self.bin.mkdir()

    def runs(self, process, started, told=None):
        """This process runs since a moment of the clock that nobody sets, at which the clock of the machine told another one."""
        path = self.bin / "systemctl"
        told = time.time() - time.monotonic() + started if told is None else told
        path.write_text(f"#!/bin/sh\necho MainPID={process}\necho ExecMainStartTimestampMonotonic={int(started * 1e6)}\n"
                        f'case "$*" in "show --timestamp=unix "*) echo ExecMainStartTimestamp={f"@{int(told)}" if process else ""} ;; esac\n')
        path.chmod(0o755)

    def ended(self):
        condition, = UNIT["ExecCondition"]
        name, log, seconds = condition.split()
        expect((name, log, seconds) == ("/usr/libexec/hq-desk/nginx-check", "/var/log/hq-nginx/error.log", "300"), "it asks by", condition)
        return subprocess.run([DEPLOY / "nginx-check", self.log, self.seconds], capture_output=True, text=True, timeout=LONGEST,
                              env={"PATH": f"{self.bin}:{os.environ['PATH']}"})


@pytest.fixture
def checked(folder):
    it = Checked(folder, folder / "error.log")
    it.runs(MAIN, time.monotonic() - HOUR)
    return it


def line(ago=60, main=MAIN, by="9", within=""):
    """A line of the main process, so many seconds old."""
    return LINE.format(time.strftime("%Y/%m/%d %H:%M:%S", time.localtime(time.time() - ago)), main, main, by) if not within else within


def waits(front):
    """What a call gets that waits; whoever it waits for may die."""
    with suppress(OSError, http.client.HTTPException):
        return front.ask(*USAGE, ACME)
    return None


def test_customers_are_served(program, place):
    """Where worker processes are killed while all calls of a customer wait, that is found; a restart serves it, and is found no more."""
    needs.command("nginx", "openssl")
    with Desk(place, program, "north", ROWS) as desk, Proxy(place / "proxy", [desk]) as front:
        check = Checked(place, front.folder / "alerts.log")
        check.runs(front.front.process.pid, time.monotonic())
        done(front.ask(*USAGE, ACME))
        expect(check.ended().returncode == 1, "before a process died it tells", check.ended())
        with ThreadPoolExecutor(AT_ONCE + 1) as them:
            desk.process.send_signal(signal.SIGSTOP)
            try:
                asking = [them.submit(waits, front) for _ in range(AT_ONCE + 1)]
                until(lambda: any(it.done() for it in asking), "the calls do not wait")
                before = front.front.workers()
                for it in before:
                    os.kill(int(it), signal.SIGKILL)
            finally:
                desk.process.send_signal(signal.SIGCONT)
        until(lambda: front.front.workers() - before, "there is no other process")
        expect(front.ask(*USAGE, ACME) == OFTEN, "its calls are not counted any more: nobody has to restart nginx")
        ended = check.ended()
        expect(ended.returncode == 0 and "has died" in ended.stderr, "behind it the check ends with", ended)
        front.restart()
        check.runs(front.front.process.pid, time.monotonic())
        done(front.ask(*USAGE, ACME), "behind a restart")
        expect(check.ended().returncode == 1, "it is restarted again:", check.ended())


def test_restarted():
    """The unit tries nginx's files by a reload, and then restarts nginx, if it runs; its timer comes with each desk."""
    expect(UNIT["ExecStart"] == ["systemctl reload nginx.service", "systemctl --no-block try-restart nginx.service"], "it does", UNIT["ExecStart"])
    expect(UNIT["SupplementaryGroups"] == ["adm"], "it cannot read the log")
    timer = all_settings_of(DEPLOY / "hq-desk-nginx.timer")
    expect((timer["OnActiveSec"], timer["OnUnitInactiveSec"]) == (["30s"], ["30s"]), "it is asked each", timer)
    wanted = [name for it in all_settings_of(DEPLOY / "hq-desk@.service")["Wants"] for name in it.split()]
    expect("hq-desk-nginx.timer" in wanted, "a desk wants", wanted)
    main = (DEPLOY / "nginx-main.conf").read_text()
    expect("\nerror_log /var/log/hq-nginx/error.log alert;\n" in main, "nginx does not write there")


def test_without_a_desk(folder):
    """On a machine that has nginx alone, since its desks are at others, the lines of the page start the timer, for each boot too."""
    page = (DEPLOY.parent / "docs/PRODUCTION.md").read_text()
    block = re.search(r"(?ms)^### nginx$.*?^```\n(.*?)^```$", page)[1]
    (folder / "units").mkdir()
    shutil.copy(DEPLOY / "hq-desk-nginx.timer", folder / "units")
    (folder / "systemctl").write_text(SYSTEMCTL.format(folder))
    (folder / "systemctl").chmod(0o755)
    for it in re.findall(r"(?m)^systemctl enable .*$", block):
        subprocess.run(["bash", "-euc", it], check=True, timeout=LONGEST, env={"PATH": f"{folder}:{os.environ['PATH']}"})
    expect((folder / "started").exists(), "it does not run until a boot, by", block)
    wanted = all_settings_of(folder / "units/hq-desk-nginx.timer").get("WantedBy")
    expect(wanted == ["timers.target"], "a boot does not start it:", wanted)


@pytest.mark.parametrize("text, found", [
    (line(), True), (line(by="11 (core dumped)"), True), (f"{line(main=1)}{line()}{line(main=1)}", True), ("x" * 100_000 + "\n" + line(), True),
    (line() + ROOM * 20_000, True), ("x" * PART + "\n" + line() + "x" * PART, True), (ROOM * (PART // len(ROOM)) + line(), True),
    ("", False), (line(ago=2 * HOUR), False), (line(main=MAIN + 1), False), (line()[:-1].replace("9", "9 now") + "\n", False),
    (f'{line(main=1)[:-1]}, request: "{line()[:-1]}"\n', False), ("x" * PART + line(), False), ("x" * (PART + 4096) + line(), False),
    (line().replace("alert", "error"), False), (line().replace("worker process", "cache manager process"), False),
    (line().replace("exited on signal 9", "exited with code 0"), False),
    ("9999/99/99 99:99:99 [alert] 4242#1: worker process 1 exited on signal 9\n", None)],
    ids=lambda it: "line" if isinstance(it, str) else str(it))
def test_lines(checked, text, found):
    """A line counts that is the main process's own from its first to its last letter, as new as that one, and among the last."""
    checked.log.write_text(text)
    ended = checked.ended()
    wanted = {True: 0, False: 1, None: 255}[found]
    expect(ended.returncode == wanted and bool(ended.stderr) == (wanted != 1), text[-200:], "gives", ended)
    # (a log that was moved away meanwhile counts as well)
    checked.log.rename(f"{checked.log}.1")
    expect(checked.ended().returncode == wanted, "moved away it gives", checked.ended())


def test_last_bytes(checked):
    """Of a large log the last 64 MB are read, and no line that they cut: it may be the end of one in which a stranger has written."""
    with open(checked.log, "w") as log:
        log.write(f"x{line()}")
        log.truncate(1 + MOST)
    expect(checked.ended().returncode == 1, "the end of a line counts")
    with open(checked.log, "a") as log:
        log.write(f"\n{line()}")
    expect(checked.ended().returncode == 0, "the last line is not found")


HALF, DAY = HOUR // 2, 24 * HOUR


@pytest.mark.parametrize("told, ago, found", [
    # (the clock was set forward by a day, or the machine stood still as long: the line seems to be of before the start)
    (HOUR + DAY, HALF + DAY, True), (HOUR + DAY, HOUR + DAY + 60, False),
    # (it was set back by a day: the line is of before that, or of behind it, or of the nginx before)
    (HOUR - DAY, HALF - DAY, True), (HOUR - DAY, HALF, True), (HOUR - DAY, HOUR + 60, False)])
def test_the_clock_is_set(checked, told, ago, found):
    """Whatever was done to the clock since nginx was started, a worker process that died since is found, and none of before."""
    checked.runs(MAIN, time.monotonic() - HOUR, time.time() - told)
    checked.log.write_text(line(ago))
    ended = checked.ended()
    expect((ended.returncode == 0) == found, "told", told, "ago", ago, "it ends with", ended)


def test_never_in_a_loop(checked):
    """nginx is not restarted that does not run, nor one that has just been restarted."""
    checked.log.write_text(line(0))
    expect(checked.ended().returncode == 0, "it is not found")
    for process, started, seconds in ((0, 0, "0"), (MAIN, time.monotonic() - 100, "300")):
        checked.runs(process, started)
        checked.seconds = seconds
        expect(checked.ended().returncode == 1, process, "is restarted:", checked.ended())


def test_links(checked, folder):
    """Root follows no link to a log, and waits for no pipe."""
    (folder / "other").write_text(line())
    checked.log.symlink_to(folder / "other")
    ended = checked.ended()
    expect(ended.returncode == 255 and "Too many levels" in ended.stderr, "at a link it ended with", ended)
    checked.log.unlink()
    os.mkfifo(checked.log)
    ended = checked.ended()
    expect(ended.returncode == 255 and "is no file" in ended.stderr, "at a pipe it ended with", ended)
