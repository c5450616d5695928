"""The desk as `rt try` compiles it, with checks of its own and without a proof, for ./try.

`rt try` runs what it compiles once, for some minutes at most, and removes it. Here the program is copied while it runs, and
kept in crates/hq_main/out/ with a sum of all sources, so that it runs by itself from then on.
"""
import ctypes
import hashlib
import os
import shutil
import signal
import subprocess
import tempfile
import time
from pathlib import Path

ROOT = Path(__file__).resolve().parent.parent
CRATE = ROOT / "crates/hq_main"
KEPT = CRATE / "out/tried"
LOADER = "ld-linux-x86-64.so.2"
# In seconds: the longest that the compiling may take, and how long lies between two lines of it.
LONGEST, BETWEEN_LINES = 1800, 20
# The first is Linux's number for: send me this signal when my parent ends.
PARENT_ENDED = 1, signal.SIGTERM
DIRECTORY = "name,key,messages,bytes,lines,notices,delay\nacme,acmekey000000001,1,1,1,1,0\n"


class NotMade(Exception):
    """The program could not be compiled; the text says why."""


def sum_of_sources():
    """A sum of all that the program is made from, and of the kit that makes it."""
    found = hashlib.sha256(subprocess.run(["rt", "version"], stdout=subprocess.PIPE, check=True).stdout)
    files = [ROOT / "crates.txt", *(it for end in ("rt", "antt") for it in ROOT.glob(f"crates/*/s*/**/*.{end}"))]
    for it in sorted(files):
        found.update(f"{it.relative_to(ROOT)}\0{it.stat().st_size}\0".encode() + it.read_bytes())
    return found.hexdigest()


def program(tell):
    """The words by which the program is run; it is compiled where that was not done since its sources changed."""
    stamp, made = KEPT / "sum", sum_of_sources()
    if not (stamp.exists() and stamp.read_text() == made):
        shutil.rmtree(KEPT, ignore_errors=True)
        KEPT.mkdir(parents=True)
        compile_to(KEPT, tell)
        stamp.write_text(made)
    loader = (KEPT / "loader").read_text()
    return [loader, "--inhibit-cache", "--library-path", os.path.dirname(loader), str(KEPT / "program")]


def compile_to(folder, tell):
    """Has `rt try` compile the program and run it as a server that nobody asks, and copies it meanwhile."""
    with tempfile.TemporaryDirectory() as made:
        (Path(made) / "directory").write_text(DIRECTORY)
        words = ["serve", "--directory", "directory", "--host", "h", "--relay-key", "relaykey00000001", "--listen", "127.0.0.1:0"]
        asked = ["rt", "try", "--seconds", "60", "--data", f"directory={made}/directory", "--", *words]
        how = {"start_new_session": True, "preexec_fn": lambda: ctypes.CDLL(None).prctl(*PARENT_ENDED)}
        said = tempfile.TemporaryFile()
        with subprocess.Popen(asked, cwd=CRATE, stdin=subprocess.DEVNULL, stdout=said, stderr=said,
                              env={**os.environ, "TMPDIR": made}, **how) as rt:
            try:
                copy_running(rt, Path(made), folder, tell)
            except NotMade as error:
                said.seek(0)
                raise NotMade(f"{error}\n{said.read()[-2000:].decode(errors='replace')}") from None
            finally:
                rt.terminate()
                kill_group(rt)


def copy_running(rt, made, folder, tell):
    """Copies the program as soon as it runs."""
    begun = told = time.monotonic()
    while True:
        found = next(made.glob("*/*/program"), None)
        loader = found and loader_of(found)
        if loader:
            shutil.copy2(found, folder / "program")
            (folder / "loader").write_text(loader)
            return
        if rt.poll() is not None or time.monotonic() > begun + LONGEST:
            raise NotMade("rt did not compile it:")
        if time.monotonic() > told + BETWEEN_LINES:
            told = time.monotonic()
            tell(f"compiling, {told - begun:.0f} seconds so far")
        time.sleep(0.2)


def loader_of(path):
    """The loader by which a process runs this program now; None where none does."""
    for it in Path("/proc").glob("[0-9]*/cmdline"):
        try:
            words = it.read_bytes().split(b"\0")
        except OSError:
            continue
        if str(path).encode() in words and words[0].decode().endswith(LOADER):
            return words[0].decode()
    return None


def kill_group(rt):
    try:
        os.killpg(rt.pid, signal.SIGKILL)
    except ProcessLookupError:
        pass
