"""A desk that listens at a path, as docs/PRODUCTION.md has it, behind nginx: for tests/deploy."""
import grp
import os
import re
import signal
import stat
import subprocess
from pathlib import Path

from deploying import DEPLOY, Desk, Proxy, done
from serving import ACME, LONGEST, expect, submission, until

PAGE = DEPLOY.parent / "docs/PRODUCTION.md"
USAGE = "GET", "/v1/usage"


def lines_of_unit():
    """What the page has an instance of the unit changed by."""
    found = re.search(r"(?ms)^```\n(\[Service\]\n.*?)^```$", PAGE.read_text())
    # (what stands in a unit more than once is added up, but for what stands before an empty one)
    wanted = "RestrictAddressFamilies=\nRestrictAddressFamilies=AF_UNIX\n"
    expect(found and wanted in found[1], "the page has no lines for a path")
    return found[1]


def lent(path):
    """Gives a socket to the group of nginx, as the unit does by `Group`."""
    if not os.getuid():
        os.chown(path, -1, grp.getgrnam("www-data").gr_gid)


def at_a_path(folder, program, rows):
    """It is for its owner and its group, takes the place of one that was killed, and no other's."""
    path = folder / "desk.sock"
    desk = Desk(folder, program, "path", rows, address=f"unix:{path}")
    with desk:
        found = path.stat()
        expect(stat.S_ISSOCK(found.st_mode) and stat.S_IMODE(found.st_mode) == 0o660,
               "the socket has the mode", oct(found.st_mode))
        expect(Path(f"{folder}/path.out").read_text() == f"listening on unix:{path}\n", "it tells")
        second = [it.replace("path.db", "other.db") for it in desk.words]
        ended = subprocess.run(second, capture_output=True, text=True, timeout=LONGEST)
        expect((ended.returncode, ended.stderr) == (1, "hq: network\n"), "a second one:", ended)
        lent(path)
        with Proxy(folder / "paths", [desk]) as proxy:
            done(proxy.relay("/relay/submit/acme", submission("s1")), "over a path")
            first = desk.process.pid
            os.kill(first, signal.SIGKILL)
            until(lambda: desk.process.pid != first and desk.listens(), "it is not there again")
            lent(path)
            expect(done(proxy.ask(*USAGE, ACME), "behind a kill")["messages"] == 1, "what was kept")
        checked = subprocess.run(desk.check("false"), capture_output=True, text=True, timeout=LONGEST)
        expect((checked.returncode, checked.stderr) == (0, ""), "a check over a path:", checked)
    refused(folder, desk, path)


def refused(folder, desk, path):
    """What is no socket that was left behind stays as it is."""
    path.unlink()
    path.write_text("a file")
    none, long = folder / "none" / "desk.sock", folder / ("x" * 200)
    for it in (path, none, long):
        asked = [word.replace(f"unix:{path}", f"unix:{it}") for word in desk.words]
        ended = subprocess.run(asked, capture_output=True, text=True, timeout=LONGEST)
        expect((ended.returncode, ended.stderr) == (1, "hq: network\n"), it, "is taken:", ended)
    expect(path.read_text() == "a file", "a file was replaced by a socket")
