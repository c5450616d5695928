"""A Debian of tests/release whose own systemd runs, in a container: what its units do is seen, and not believed."""
import os
import subprocess
import time

import needs
from rooted import ENVIRONMENT
from serving import LONGEST, Wrong, expect

# In seconds: how long it may take to boot, and to end.
TO_BOOT = 60
LACKING = "systemd that boots in a container"


class Booted:
    """The machine of a folder, booted. Its network is its own, and loopback alone."""

    def __init__(self, folder):
        needs.command("systemd-nspawn", "nsenter")
        self.folder, self.first, self.container = folder, None, None

    def begin(self):
        words = ["systemd-nspawn", f"--directory={self.folder}", "--boot", "--private-network", f"--machine=hq-{os.getpid()}", "--register=no",
                 "--keep-unit", "--capability=CAP_NET_ADMIN"]
        self.container = subprocess.Popen(words, stdin=subprocess.DEVNULL, stdout=subprocess.DEVNULL, stderr=subprocess.DEVNULL)
        end = time.monotonic() + TO_BOOT
        while not self.is_up():
            if self.container.poll() is not None or time.monotonic() > end:
                self.stop()
                needs.that(False, LACKING)
            time.sleep(0.3)

    def boot_again(self):
        """It ends, and is booted once more."""
        self.stop()
        self.begin()

    def __enter__(self):
        self.begin()
        return self

    def __exit__(self, *_):
        self.stop()

    def stop(self):
        self.container.terminate()
        try:
            self.container.wait(LONGEST)
        except subprocess.TimeoutExpired:
            self.container.kill()
            self.container.wait()

    def is_up(self):
        """Whether its systemd has begun all that it is to begin."""
        try:
            with open(f"/proc/{self.container.pid}/task/{self.container.pid}/children", encoding="ascii") as children:
                self.first = children.read().split()[0]
            told = subprocess.run(self.words("systemctl is-system-running || true"), capture_output=True, text=True, timeout=LONGEST)
        except (OSError, IndexError):
            return False
        return told.stdout.strip() in ("running", "degraded")

    def words(self, script):
        inside = [f"{name}={value}" for name, value in ENVIRONMENT.items()]
        return ["nsenter", f"--target={self.first}", "--mount", "--uts", "--ipc", "--net", "--pid", "--", "env", "-i", *inside,
                "/bin/bash", "-euc", f"cd /root; {script}"]

    def run(self, script, status=0, longest=LONGEST, **names):
        """What a script prints, both its output and its errors."""
        given = "".join(f"export {name}={value}; " for name, value in names.items())
        ended = subprocess.run(self.words(given + script), stdin=subprocess.DEVNULL, stdout=subprocess.PIPE, stderr=subprocess.STDOUT,
                               text=True, errors="replace", timeout=longest)
        if ended.returncode != status:
            raise Wrong(script, "ended with", ended.returncode, ended.stdout[-2000:])
        return ended.stdout

    def active(self, *units):
        """What systemd says of units, each by a word."""
        return self.run(f"systemctl is-active {' '.join(units)} || true").split()

    def until_active(self, *units, seconds=LONGEST):
        end = time.monotonic() + seconds
        while set(self.active(*units)) != {"active"}:
            expect(time.monotonic() < end, units, "are", self.active(*units), self.run("systemctl --failed --no-pager || true"))
            time.sleep(0.3)
