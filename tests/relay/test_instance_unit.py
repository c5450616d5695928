"""The unit of the delivering instance, by which `install` has it run, with stand-ins for systemd and Postfix. From Debian 13 on somebody
has to enable it."""
from pathlib import Path

import pytest
from hq_relay.postfix import instance_unit
from hq_relay.postfix.configuration import Record
from hq_relay.postfix.installation_plan import InstancePlan
from serving import expect

DESK = Path("/etc/postfix-desk")
# What `systemctl cat` shows of the unit on Debian 12 and on 13.
OF_12, OF_13 = "ExecStart=/usr/sbin/postmulti -i %i -p start\n", "ExecStart=/usr/sbin/postfix -c /etc/postfix-%I start"
# What is enabled, active or running is a file of that name; what is changed is written down.
SYSTEMCTL = """\
#!/bin/sh
cd {folder}
case "$1 $2" in
  "cat postfix@.service") cat shown ;;
  "--quiet is-"*) [ -e "${{2#is-}}" ] ;;
  enable*) touch enabled; echo "$@" >>called ;;
  daemon-reload*) echo "$@" >>called ;;
  restart*) touch active running; echo "$@" >>called ;;
esac
"""
POSTFIX = """\
#!/bin/sh
cd {folder}
case $3 in
  status) [ -e running ]; exit ;;
  stop) rm -f running ;;
  start) touch running ;;
esac
echo "$@" >>called
"""
# (it knows the instance once that is made)
POSTCONF = "#!/bin/sh\nexec cat {folder}/name\n"
ESCAPE = "#!/bin/sh\nprintf 'postfix@%s.service\\n' \"$(echo \"$2\" | sed 's/-/\\\\x2d/g')\"\n"


@pytest.fixture
def machine(folder, monkeypatch):
    """A machine with systemd, on which the instance runs outside of its unit."""
    (folder / "bin").mkdir()
    for name, text in (("systemctl", SYSTEMCTL), ("postfix", POSTFIX), ("postconf", POSTCONF), ("systemd-escape", ESCAPE)):
        (folder / "bin" / name).write_text(text.format(folder=folder))
        (folder / "bin" / name).chmod(0o755)
    monkeypatch.setenv("PATH", f"{folder}/bin:/usr/bin:/bin")
    monkeypatch.setattr(instance_unit, "SYSTEMD", folder)
    monkeypatch.setattr(InstancePlan, "wait_for_listeners", lambda _: None)
    (folder / "shown").write_text(OF_13)
    (folder / "running").touch()
    return folder


def runs(machine):
    """What is called to have the instance run."""
    plan = InstancePlan(DESK, [], Record("/srv/spool"))
    plan.unit = instance_unit.unit_of(DESK)
    (machine / "called").write_text("")
    plan.runs()
    return plan, (machine / "called").read_text().splitlines()


def test_enabled(machine):
    """It ends outside of its unit, and goes on by it, now and at each boot; behind that there is nothing to do."""
    plan, called = runs(machine)
    expect(called == ["enable postfix@desk.service", f"-c {DESK} stop", "restart postfix@desk.service"], "called is", called)
    expect(not plan.lacks_unit() and runs(machine)[1] == [], "it is not in place")


@pytest.mark.parametrize("gone", ["enabled", "active", "running"])
def test_enabled_again(machine, gone):
    """What somebody has disabled or stopped is in place behind the next run."""
    runs(machine)
    (machine / gone).unlink()
    plan, called = runs(machine)
    expect(called[-1] == "restart postfix@desk.service" and not plan.lacks_unit() and (machine / "running").exists(), "called is", called)


def test_generated(machine):
    """On Debian 12, where Postfix's own service starts all instances, it goes on by the unit that this one starts, and none is enabled:
    else an upgrade of Postfix would leave it as it is."""
    (machine / "shown").write_text(OF_12)
    (machine / "name").write_text("postfix-desk\n")
    plan, called = runs(machine)
    expect(called == ["daemon-reload", f"-c {DESK} stop", "restart postfix@postfix-desk.service"], "called is", called)
    expect(not plan.lacks_unit() and runs(machine)[1] == [] and instance_unit.hint(DESK) == "", "it is not in place")
    (machine / "running").unlink()
    expect(runs(machine)[1][-1] == "restart postfix@postfix-desk.service", "it is not started")


def test_no_unit(machine):
    """Before the instance is made, and without systemd, no unit is called."""
    (machine / "shown").write_text(OF_12)
    expect((instance_unit.unit_of(DESK), instance_unit.hint(DESK)) == ("", ""), "there is a unit")
    (machine / "shown").write_text(OF_13)
    instance_unit.SYSTEMD = machine / "none"
    expect(runs(machine)[1] == [] and instance_unit.unit_of(DESK) == "", "a unit is called without systemd")
    (machine / "running").unlink()
    expect(runs(machine)[1] == [f"-c {DESK} start"], "it is not started")


def test_names(machine):
    """The unit is of the folder's name, as systemd writes it; a folder that is called otherwise is told, since no unit is for it."""
    expect(instance_unit.unit_of(Path("/etc/postfix-the-desk")) == "postfix@the\\x2ddesk.service", instance_unit.unit_of(Path("/etc/postfix-the-desk")))
    for it in ("/etc/desk", "/srv/postfix-desk", "/etc/postfix-"):
        expect(instance_unit.unit_of(Path(it)) == "" and f"{it} is not called" in instance_unit.hint(Path(it)), it, "has a unit")
    expect(instance_unit.hint(DESK) == "", "it is told of one that has a unit")
