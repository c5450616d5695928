"""Tries what ./test installs a machine by (tools/packages), with stand-ins for apt-get, dpkg and id.

1. Where something is missing, its packages are told before apt-get is called, and each is asked for by itself; one that
   cannot be had is told, and the others come.
2. While apt-get runs, policy-rc.d refuses every start of a service (101). Behind it the machine's own is there as it was,
   or none, also where it is ended by a signal, or an earlier run was killed.
3. Where nothing is missing, and where it is not root, nothing is told and nothing called.
"""
import signal
import subprocess
from pathlib import Path

from serving import LONGEST, expect, until

SCRIPT = Path(__file__).resolve().parents[2] / "tools/packages"
OWN = "#!/bin/sh\nexit 0\n"
NEEDED = "bash", "cat", "chmod", "mv", "rm", "sh", "sleep", "timeout"
# A stand-in writes what it is called with, what the policy is then, and what was told before; it fails for one package.
APT = """\
#!/bin/sh
echo "$*: $("$POLICY_RC_D"; echo $?): $(wc -c <told)" >>called
case "$*" in *" jq") exit 100;; esac
[ ! -e waits ] || sleep 60
"""


class Machine:
    """A machine with few commands, in a folder of its own."""

    def __init__(self, folder, user=0, has_all=False, policy=None):
        self.folder, self.policy = folder, folder / "policy-rc.d"
        self.commands = folder / "bin"
        self.commands.mkdir(parents=True)
        for it in NEEDED:
            (self.commands / it).symlink_to(f"/bin/{it}")
        (self.commands / "wc").symlink_to("/usr/bin/wc")
        self.put("apt-get", APT)
        self.put("id", f"#!/bin/sh\necho {user}\n")
        self.put("dpkg", f"#!/bin/sh\nexit {int(not has_all)}\n")
        for it in self.wanted() if has_all else ():
            self.put(it, OWN)
        if policy:
            self.policy.write_text(policy)
            self.policy.chmod(0o755)

    def put(self, name, text):
        (self.commands / name).write_text(text)
        (self.commands / name).chmod(0o755)

    def wanted(self):
        rows = SCRIPT.read_text().partition('<<<"')[2].partition('"\n')[0].split("\n")
        return [it.split()[0] for it in rows if not it.startswith("-")]

    def begun(self):
        told = open(self.folder / "told", "wb")
        with told:
            return subprocess.Popen([SCRIPT], cwd=self.folder, stdin=subprocess.DEVNULL, stdout=told, stderr=told,
                                    env={"PATH": str(self.commands), "POLICY_RC_D": str(self.policy)})

    def run(self):
        """What was told, and what apt-get was called with."""
        status = self.begun().wait(LONGEST)
        expect(status == 0, "it ended with", status, self.told())
        return self.told(), self.called()

    def told(self):
        return (self.folder / "told").read_text()

    def called(self):
        path = self.folder / "called"
        return path.read_text().splitlines() if path.exists() else []

    def expect_policy(self, wanted):
        found = self.policy.read_text() if self.policy.exists() else None
        expect(found == wanted, "policy-rc.d is", found, "and not", wanted)
        expect(not Path(f"{self.policy}.kept").exists(), "the machine's own is still aside")


def test_installed(folder):
    for number, policy in enumerate((None, OWN)):
        machine = Machine(folder / f"installed-{number}", policy=policy)
        told, called = machine.run()
        first, *rest = told.splitlines()
        expect(first.startswith("Installing by apt-get, with no service started: gcc curl jq ") and
               "python3-aiosmtpd" in first and "opendkim-tools" in first, "first is told", first)
        expect(rest == ["apt-get could not install jq"], "then is told", rest)
        packages = ["libc6-dev", *first.partition(": ")[2].split()]
        expect(len(called) == 1 + len(packages), "apt-get is called", called)
        for it, package in zip(called[1:], packages):
            expect(it.startswith(f"-qq install --yes --no-install-recommends {package}: 101: "), "apt-get is called", it)
        expect(all(int(it.rpartition(" ")[2]) > 0 for it in called), "apt-get is called before anything is told", called)
        machine.expect_policy(policy)


def test_ended(folder):
    """By a signal, and by one that nothing can catch."""
    for number, kind in enumerate((signal.SIGTERM, signal.SIGKILL)):
        machine = Machine(folder / f"ended-{number}", policy=OWN)
        (machine.folder / "waits").touch()
        process = machine.begun()
        until(machine.called, "apt-get is not called")
        process.send_signal(kind)
        if kind == signal.SIGTERM:
            subprocess.run(["pkill", "-P", str(process.pid)], check=False)
        process.wait(LONGEST)
        if kind == signal.SIGKILL:
            (machine.folder / "waits").unlink()
            machine.run()
        machine.expect_policy(OWN)


def test_nothing(folder):
    for name, more in (("whole", {"has_all": True}), ("user", {"user": 1000})):
        machine = Machine(folder / name, policy=OWN, **more)
        expect(machine.run() == ("", []), name, "told and called", machine.run())
        machine.expect_policy(OWN)
