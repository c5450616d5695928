"""A machine of a test's own, so that a command may write where it always does: what is written to
/etc, /var and the like is gone with the test, and its network is loopback alone.

`inside` runs a script in such a machine, as root; the script begins with `enter`.
"""
import ctypes
import fcntl
import os
import socket
import struct
import subprocess
import threading
from pathlib import Path

import needs
from serving import Wrong, until

UNSHARE = ["unshare", "--mount", "--net", "--pid", "--fork", "--kill-child", "--mount-proc"]
# The Python of the worker's first line.
PYTHON = "/usr/bin/python3"
# The folders of its own, with what it takes along of those of the machine around it.
COPIED = {"/etc": "*", "/var/lib": "postfix", "/var/spool": "postfix", "/var/log": "", "/run": "",
          "/srv": ""}
DEVICES = ("null", "zero", "full", "random", "urandom", "tty")
LINKS = {"fd": "/proc/self/fd", "stdin": "/proc/self/fd/0", "stdout": "/proc/self/fd/1",
         "stderr": "/proc/self/fd/2"}
REPOSITORY = Path("/srv/desk")
LOG = Path("/var/log/mail.log")
# of the system's header files: mount(2), netdevice(7)
MS_BIND, MS_REC, SIOCGIFFLAGS, SIOCSIFFLAGS, IFF_UP = 4096, 16384, 0x8913, 0x8914, 1
SECONDS = 900


def want():
    """Such a machine can be made; else the test is skipped."""
    needs.command("unshare", "postfix")
    needs.module(PYTHON, "aiosmtpd")
    tried = subprocess.run([*UNSHARE, "true"], stdin=subprocess.DEVNULL, stderr=subprocess.PIPE)
    needs.that(not tried.returncode, f"right to unshare: {tried.stderr.decode(errors='replace').strip()}")


def inside(script, *words):
    """What a script prints that is run in a machine of its own."""
    own = {**os.environ, "PYTHONPATH": str(Path(__file__).resolve().parent)}
    ended = subprocess.run([*UNSHARE, PYTHON, "-B", script, *words], timeout=SECONDS, env=own,
                           stdin=subprocess.DEVNULL, stdout=subprocess.PIPE, stderr=subprocess.PIPE)
    if ended.returncode:
        raise Wrong(*words, "ended with", ended.returncode, ended.stdout.decode(errors="replace"),
                    ended.stderr.decode(errors="replace"))
    return ended.stdout.decode()


def mount(source, target, kind=None, flags=0):
    libc = ctypes.CDLL(None, use_errno=True)
    words = [os.fsencode(it) if it else None for it in (source, target, kind)]
    if libc.mount(*words, ctypes.c_ulong(flags), None):
        number = ctypes.get_errno()
        raise OSError(number, os.strerror(number), str(target))


def enter():
    """Makes the machine that this process is in one of its own."""
    for name, taken in COPIED.items():
        kept = [it for it in Path(name).glob(taken)] if taken else []
        made = Path("/mnt")
        mount("tmpfs", made, "tmpfs")
        made.chmod(0o755)
        if kept:
            subprocess.run(["cp", "-a", *kept, made], check=True)
        mount(made, name, flags=MS_BIND)
        subprocess.run(["umount", made], check=True)
    devices()
    REPOSITORY.mkdir()
    mount(Path(__file__).resolve().parents[2], REPOSITORY, flags=MS_BIND)
    raise_loopback()
    threading.Thread(target=keep_log, daemon=True).start()
    until(lambda: os.path.exists("/dev/log"), "no log is kept")


def devices():
    """A /dev of its own, for its /dev/log."""
    made = Path("/mnt")
    mount("tmpfs", made, "tmpfs")
    made.chmod(0o755)
    for name in DEVICES:
        (made / name).touch()
        mount(f"/dev/{name}", made / name, flags=MS_BIND)
    for name, to in LINKS.items():
        (made / name).symlink_to(to)
    (made / "shm").mkdir(0o777)
    mount(made, "/dev", flags=MS_BIND | MS_REC)
    subprocess.run(["umount", "--recursive", made], check=True)


def raise_loopback():
    with socket.socket(socket.AF_INET, socket.SOCK_DGRAM) as any_of:
        asked = struct.pack("16sh14x", b"lo", 0)
        _, flags = struct.unpack("16sh14x", fcntl.ioctl(any_of, SIOCGIFFLAGS, asked))
        fcntl.ioctl(any_of, SIOCSIFFLAGS, struct.pack("16sh14x", b"lo", flags | IFF_UP))


def keep_log():
    """Writes what is logged into a file, as rsyslog does."""
    with socket.socket(socket.AF_UNIX, socket.SOCK_DGRAM) as log, open(LOG, "ab", 0) as file:
        log.bind("/dev/log")
        os.chmod("/dev/log", 0o666)
        while True:
            file.write(log.recv(65536).rstrip(b"\0\n") + b"\n")
