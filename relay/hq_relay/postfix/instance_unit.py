"""The unit by which the delivering instance starts with the machine, and with Postfix.

On Debian 12 it is postfix@NAME.service, of the name of the instance, which a generator has
postfix.service start. From Debian 13 on that one starts the first instance alone: each other is
postfix@NAME.service, of the folder /etc/postfix-NAME, which somebody has to enable. What runs
outside of its unit, as in the session of an administrator, is not reached by an upgrade of Postfix.
"""
import subprocess
from pathlib import Path

from hq_relay.postfix.configuration import NotInstalled, run

# The folder that is there where systemd runs.
SYSTEMD = Path("/run/systemd/system")
TEMPLATE = "postfix@.service"
# How the unit of Debian 13 names the folder of its instance, and how that begins; and how that of
# Debian 12 names its instance.
FOLDER, BEGINS, BY_NAME = "/etc/postfix-%I", "/etc/postfix-", "postmulti -i %i "


def told(*words: str | Path) -> str:
    """What a program prints; nothing if it fails."""
    try:
        return run(*words).stdout.strip()
    except NotInstalled:
        return ""


def template() -> str:
    """The unit of which there is one for each instance; nothing without systemd."""
    return told("systemctl", "cat", TEMPLATE) if SYSTEMD.is_dir() else ""


def unit_of(folder: Path) -> str:
    """The unit of an instance; nothing if none is for such a folder, or it is not made yet."""
    if is_generated():
        name = told("postconf", "-c", folder, "-h", "multi_instance_name")
        return f"postfix@{name}.service" if name else ""
    name = str(folder).removeprefix(BEGINS)
    if "/" in name or not name or FOLDER not in template():
        return ""
    return run("systemd-escape", f"--template={TEMPLATE}", name).stdout.strip()


def hint(folder: Path) -> str:
    """What is left to do by hand where an instance needs a unit, and none is for its folder."""
    if unit_of(folder) or FOLDER not in template():
        return ""
    return f"{folder} is not called {BEGINS}NAME: a boot starts it by a unit of your own alone"


def is_(state: str, unit: str) -> bool:
    """Whether systemd says so of a unit: `enabled`, `active`."""
    return not subprocess.run(["systemctl", "--quiet", f"is-{state}", unit], check=False,
                              stdin=subprocess.DEVNULL, stderr=subprocess.DEVNULL).returncode


def is_generated() -> bool:
    """Whether a boot starts each instance, without a unit that is enabled."""
    return BY_NAME in template()


def is_in_place(unit: str) -> bool:
    """Whether a boot starts the unit, and it runs."""
    return (is_generated() or is_("enabled", unit)) and is_("active", unit)


def put_in_place(unit: str, folder: Path) -> None:
    """Has the unit start the instance, now and at a boot; what runs outside of it ends."""
    run("systemctl", *(["daemon-reload"] if is_generated() else ["enable", unit]))
    if not is_("active", unit):
        subprocess.run(["postfix", "-c", folder, "stop"], stdin=subprocess.DEVNULL, check=False,
                       stdout=subprocess.DEVNULL, stderr=subprocess.DEVNULL)
    run("systemctl", "restart", unit)
