"""Mail that waits in Postfix since a removal of the package goes on: at the next call of the package, and as the worker starts, with a
stand-in for Postfix."""
import subprocess

import pytest
from deploying import DEPLOY, all_settings_of
from serving import LONGEST, expect

SCRIPT = "/usr/libexec/hq-desk/mail-goes-on"
# What Postfix has is in files; `fails` is there where it takes no change.
POSTCONF = """\
#!/bin/sh
cd {folder}
case $1 in
  -h) cat deferred ;;
  -X) [ ! -e fails ] && echo >deferred ;;
esac
"""
POSTFIX = "#!/bin/sh\necho \"$1\" >>{folder}/called\n"


@pytest.fixture
def place(folder):
    for it in ("bin", "postfix"):
        (folder / it).mkdir()
    text = (DEPLOY / "mail-goes-on").read_text()
    for it, here in (("/etc/postfix", folder / "postfix"), ("/etc/hq", folder)):
        expect(it in text, "it has no", it)
        text = text.replace(it, str(here))
    for name, script in (("postconf", POSTCONF.format(folder=folder)), ("postfix", POSTFIX.format(folder=folder)), ("mail-goes-on", text)):
        (folder / "bin" / name).write_text(script)
        (folder / "bin" / name).chmod(0o755)
    (folder / "deferred").write_text("desk\n")
    (folder / "postfix/desk-deferred").touch()
    (folder / "relay.ini").touch()
    return folder


def run(place):
    """The status, what Postfix defers, and whether the mark is there."""
    ended = subprocess.run([place / "bin/mail-goes-on"], env={"PATH": f"{place}/bin:/usr/bin:/bin"}, timeout=LONGEST)
    return ended.returncode, (place / "deferred").read_text().strip(), (place / "postfix/desk-deferred").exists()


def test_goes_on(place):
    """Postfix defers it no more, and reads that; a further call does nothing."""
    for _ in range(2):
        expect(run(place) == (0, "", False), "it ended with", run(place))
    expect((place / "called").read_text().splitlines().count("reload") == 1, "Postfix was called so:", (place / "called").read_text())


def test_not_yet(place):
    """Where the worker is not set up, or Postfix takes no change, the mark stays, and a later call does it."""
    (place / "relay.ini").rename(place / "away")
    expect(run(place) == (0, "desk", True), "without a worker it ended with", run(place))
    (place / "away").rename(place / "relay.ini")
    (place / "fails").touch()
    expect(run(place) == (1, "desk", True), "on a full disk it ended with", run(place))
    (place / "fails").unlink()
    expect(run(place) == (0, "", False), "behind that it ended with", run(place))


def test_of_others(place):
    """What the administrator defers stays so, with the mark and without it."""
    (place / "deferred").write_text("desk smtp\n")
    expect(run(place) == (0, "desk smtp", False), "with the mark it ended with", run(place))
    (place / "deferred").write_text("desk\n")
    expect(run(place) == (0, "desk", False), "without it it ended with", run(place))


def test_who_calls():
    """The package does at each installation and at a removal that ends early, and systemd as the intake starts, where dpkg was killed."""
    calls = (DEPLOY.parent / "packaging/debian/hq-desk.postinst").read_text().count(f"\n{SCRIPT}\n"), all_settings_of(
        DEPLOY / "hq-relay-intake.service").get("ExecStartPost")
    expect(calls == (1, [f"-+{SCRIPT}"]), "it is called so:", calls)
    expect(f"abort-remove ]; then\n  {SCRIPT}\n" in (DEPLOY.parent / "packaging/debian/hq-desk.postinst").read_text(), "a removal that ends early")
    expect(f"deploy/mail-goes-on {SCRIPT[1:].rpartition('/')[0]}\n" in (DEPLOY.parent / "packaging/debian/hq-desk.install").read_text(), "it is not there")
