"""Where nginx listens: the lines that the package chooses, by its release and by whether the machine has IPv6."""
import os
import re
import subprocess

import needs
import pytest
from deploying import DEPLOY
from serving import LONGEST, expect

POSTINST = DEPLOY.parent / "packaging/debian/hq-desk.postinst"
KINDS = "1.22", "1.25", "80"


def chosen(folder, release, has_ipv6):
    """Where the links of a folder of settings lead, behind an installation on such a machine."""
    needs.command("dpkg")
    has = folder / "if_inet6"
    has.touch() if has_ipv6 else has.unlink(missing_ok=True)
    (folder / "nginx").write_text(f"#!/bin/sh\necho 'nginx version: nginx/{release}' >&2\n")
    (folder / "nginx").chmod(0o755)
    functions = re.search(r"(?ms)^# A file or a link of the administrator stays\.\n.*?^listen\(\) \{.*?^\}\n", POSTINST.read_text())[0]
    script = functions.replace("/etc/hq", str(folder)).replace("/proc/net/if_inet6", str(has))
    ended = subprocess.run(["sh", "-euc", f"{script}listen"], capture_output=True, text=True, timeout=LONGEST,
                           env={"PATH": f"{folder}:{os.environ['PATH']}"})
    expect((ended.returncode, ended.stderr) == (0, ""), "it ended with", ended)
    return [os.readlink(folder / it) if (folder / it).is_symlink() else None for it in ("nginx-listen.conf", "nginx-plain.conf")]


def test_chosen(folder):
    """Each machine has its lines, also behind a change of it; and there is a file of each name."""
    for release, kind in (("1.22.1", "1.22"), ("1.26.3", "1.25"), ("1.25.0", "1.22"), ("1.25.1", "1.25")):
        for has_ipv6, end in ((True, ""), (False, "-ipv4"), (True, "")):
            found = chosen(folder, release, has_ipv6)
            expect(found == [f"nginx-listen-{kind}{end}.conf", f"nginx-listen-80{end}.conf"], release, has_ipv6, "is", found)
            expect(all((DEPLOY / it).exists() for it in found), "there is none of", found)


@pytest.mark.parametrize("name", ["nginx-listen.conf", "nginx-plain.conf"])
def test_own(folder, name):
    """What the administrator has put there stays, a file or a link."""
    (folder / name).write_text("listen 8080;\n")
    expect(None in chosen(folder, "1.22.1", True) and (folder / name).read_text() == "listen 8080;\n", "a file went")
    (folder / name).unlink()
    (folder / name).symlink_to("mine.conf")
    expect("mine.conf" in chosen(folder, "1.22.1", True), "a link went")


def test_without_ipv6():
    """The files for a machine without IPv6 say the same but for it, and no other file of nginx says where it listens for customers."""
    for kind in KINDS:
        both, one = ([it for it in (DEPLOY / f"nginx-listen-{kind}{end}.conf").read_text().splitlines() if not it.startswith("#")]
                     for end in ("", "-ipv4"))
        expect([it for it in both if "[::]" not in it] == one and len(both) == len(one) + 1, kind, "has", one, "and not", both)
    expect(not re.search(r"(?m)^ *listen ", (DEPLOY / "nginx.conf").read_text()), "nginx.conf says where it listens")
