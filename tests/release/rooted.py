"""A clean Debian in a folder, in which packages are installed as on a machine of its own: for tests/release.

First it has the network of the machine around it, for apt; then, by `alone`, a network that is loopback alone, and its own
processes. Nothing of systemd runs: `systemctl` of this folder starts the lines of the units.
"""
import os
import shutil
import subprocess
import tempfile
import urllib.request
from pathlib import Path

import needs
from serving import LONGEST, Wrong, until

HERE = Path(__file__).resolve().parent
DEBIAN, KEYS = "debian", "/usr/share/keyrings/debian-archive-keyring.gpg"
ENVIRONMENT = {"PATH": "/usr/local/sbin:/usr/local/bin:/usr/sbin:/usr/bin:/sbin:/bin", "HOME": "/root", "LC_ALL": "C.UTF-8",
               "DEBIAN_FRONTEND": "noninteractive"}
# In seconds: what it takes to make one, and to install into it.
TO_MAKE = 240
POLICY = "#!/bin/sh\nexit 101\n"
QUICK = 'Acquire::Languages "none";\nAcquire::Retries "2";\nDpkg::Options:: "--force-unsafe-io";\n'
# A host of recipients: it keeps each message, and waits while the file `waits` is there.
SINK = """exec /usr/bin/python3 -c '
import asyncio, os, signal, time, uuid
from aiosmtpd.controller import Controller
class Kept:
    async def handle_DATA(self, server, session, envelope):
        while os.path.exists("/tmp/waits") and b"waiting" in envelope.content:
            open("/tmp/waiting", "w").close()
            await asyncio.sleep(0.05)
        with open(f"/tmp/taken/{uuid.uuid4()}", "wb") as file:
            file.write(envelope.content)
        return "250 kept"
os.makedirs("/tmp/taken", exist_ok=True)
Controller(Kept(), "127.0.0.1", 2525).start()
open("/tmp/listens", "w").close()
signal.pause()'"""


def mirror():
    """The mirror of Debian that apt uses here, and the release; the test is skipped where there is none that answers."""
    needs.root()
    needs.command("debootstrap", "unshare", "nsenter", "apt-get")
    asked = ["apt-get", "indextargets", "--format", "$(REPO_URI) $(CODENAME) $(ORIGIN) $(COMPONENT)", "Created-By: Packages"]
    rows = subprocess.run(asked, capture_output=True, text=True).stdout.splitlines()
    found = [it.split()[:2] for it in rows if it.endswith(" Debian main") and not it.split()[1].endswith(("updates", "security"))]
    needs.that(found, "mirror of Debian in the lists of apt")
    address, name = found[0]
    try:
        with urllib.request.urlopen(f"{address.rstrip('/')}/dists/{name}/InRelease", timeout=20) as reply:
            reply.read(100)
    except OSError as fault:
        needs.that(False, f"network to {address}: {fault}")
    return address, name


def place():
    """A folder for one, on a disk that takes devices and runs programs."""
    kept = os.statvfs(tempfile.gettempdir()).f_flag & (os.ST_NODEV | os.ST_NOEXEC)
    return tempfile.TemporaryDirectory(dir="/var/tmp" if kept else None)


def fetched(begin):
    """What comes from the mirror; the test is skipped where that fails, or takes too long."""
    try:
        begin()
    except (Wrong, subprocess.SubprocessError) as fault:
        needs.that(False, f"mirror of Debian that gives all in time: {str(fault)[-300:]}")


class Root:
    """A Debian of the smallest kind in this folder."""

    def __init__(self, folder):
        self.folder, self.holder = Path(folder), None
        address, name = mirror()
        fetched(lambda: subprocess.run(["debootstrap", "--variant=minbase", name, self.folder, address], capture_output=True,
                                       text=True, check=True, timeout=TO_MAKE))
        self.put("/usr/sbin/policy-rc.d", POLICY, 0o755)
        self.put("/etc/apt/apt.conf.d/99quick", QUICK)
        self.hold()

    def __enter__(self):
        return self

    def __exit__(self, *_):
        self.release()

    # ---- its processes

    def hold(self, *more):
        """Begins a process that keeps its processes, mounts and network."""
        words = ["unshare", "--mount", "--pid", "--fork", "--kill-child", *more, "sh", "-c",
                 'mount -t proc proc "$0/proc" && mount --bind /dev "$0/dev" && mount -t tmpfs tmpfs "$0/run" && '
                 'mkdir -p "$0/run/systemd/system" && { ip link set lo up 2>/dev/null || true; } && '
                 'echo held >"$0/tmp/held" && exec chroot "$0" /bin/sh -c "$1"', self.folder,
                 # (whose child waits for what others leave behind)
                 "while :; do sleep 1000 & wait $!; done"]
        held = self.folder / "tmp/held"
        held.unlink(missing_ok=True)
        self.holder = subprocess.Popen(words, stdin=subprocess.DEVNULL, stdout=subprocess.DEVNULL, stderr=subprocess.PIPE)
        until(lambda: held.exists() or self.holder.poll() is not None, "no machine of its own")
        if self.holder.poll() is not None:
            needs.that(False, f"right to unshare: {self.holder.stderr.read().decode()[:200]}")

    def release(self):
        if self.holder:
            self.holder.kill()
            self.holder.wait(LONGEST)
            self.holder.stderr.close()
            self.holder = None

    def alone(self):
        """From now on its network is loopback alone, and systemctl is that of this folder."""
        self.release()
        # (apt gives what it runs a path of its own)
        shutil.copy(HERE / "systemctl", self.folder / "usr/bin/systemctl")
        (self.folder / "usr/sbin/policy-rc.d").unlink()
        self.hold("--net")

    def inner(self):
        """The first process of the machine, as it is seen from outside."""
        path = Path(f"/proc/{self.holder.pid}/task/{self.holder.pid}/children")
        return path.read_text().split()[0]

    # ---- what is done in it

    def put(self, name, text, mode=0o644):
        path = self.folder / name.lstrip("/")
        path.parent.mkdir(parents=True, exist_ok=True)
        path.write_text(text)
        path.chmod(mode)

    def take(self, path, to="/root"):
        shutil.copy(path, self.folder / to.lstrip("/"))
        return f"{to}/{Path(path).name}"

    def path(self, name):
        return self.folder / name.lstrip("/")

    def words(self, script):
        return ["nsenter", f"--target={self.inner()}", "--mount", "--pid", "--net", "chroot", self.folder, "/bin/bash", "-euc",
                f"cd /root; {script}"]

    def run(self, script, status=0, longest=LONGEST, **names):
        """What a script prints, both its output and its errors."""
        ended = subprocess.run(self.words(script), stdin=subprocess.DEVNULL, stdout=subprocess.PIPE, stderr=subprocess.STDOUT,
                               text=True, errors="replace", timeout=longest, env={**ENVIRONMENT, **names})
        if ended.returncode != status:
            raise Wrong(script, "ended with", ended.returncode, ended.stdout[-2000:])
        return ended.stdout

    def begin(self, script, log):
        """Begins a script that goes on; what it prints comes into this file of the machine."""
        with open(self.path(log), "ab") as file:
            return subprocess.Popen(self.words(script), stdin=subprocess.DEVNULL, stdout=file, stderr=file,
                                    env={**os.environ, **ENVIRONMENT})
