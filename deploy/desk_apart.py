"""What keeps root apart from the user of a service: who has taken over that user may have written whatever a command prints, and
reads the environment of each process of its own. And a connection to a desk; a file of settings, as systemd reads it; the desks that
nginx knows; the lock of who works at a store; and the mark of who is moved."""
import contextlib
import fcntl
import http.client
import os
import re
import socket
import subprocess
import sys
import threading
from pathlib import Path
from typing import IO, Any, Dict, Iterator, List, NamedTuple, Optional, Tuple

# The folders of root's programs, which the path of cron, and of `su` without a login, does not name.
OF_ROOT = "/usr/sbin", "/sbin"

# Of root's environment, in which there may be secrets, a command of that user gets these alone.
KEPT = "PATH", "LANG", "LC_ALL", "TZ"
# So many bytes are read of what a command prints.
MOST = 1 << 20
# What a terminal obeys, and answers as if somebody had typed it; and what turns the direction of a line.
OBEYED = re.compile("[\x00-\x08\x0b-\x1f\x7f-\x9f\u200e\u200f\u2028-\u202e\u2066-\u2069\ud800-\udfff]")


def environment() -> Dict[str, str]:
    return {**{it: os.environ[it] for it in KEPT if it in os.environ}, "HOME": "/nonexistent"}


def run_apart(words: list, read: str = "", most: int = MOST, longest: Optional[float] = None,
              **more: Any) -> "subprocess.CompletedProcess[str]":
    """Runs a command of that user to its end, in the folder /: root's own may be closed to that user. One that prints more than so
    many bytes gets a broken pipe, and the call a ValueError, so that no such user fills root's memory."""
    found: Dict[str, bytes] = {}

    def keep(name: str, source: IO[bytes]) -> None:
        with source:
            found[name] = source.read(most + 1)

    # (it may have a key, which comes to no disk)
    with open(os.memfd_create("given"), "r+b") as given:
        given.write(read.encode())
        given.seek(0)
        with subprocess.Popen(words, stdin=given, stdout=subprocess.PIPE, stderr=subprocess.PIPE, cwd="/", **more) as command:
            printed: List[Any] = [("stdout", command.stdout), ("stderr", command.stderr)]
            threads = [threading.Thread(target=keep, args=it, daemon=True) for it in printed]
            for it in threads:
                it.start()
            try:
                command.wait(longest)
            except subprocess.TimeoutExpired:
                command.kill()
                raise
            for it in threads:
                it.join()
    if max(map(len, found.values())) > most:
        raise ValueError(f"{os.path.basename(words[0])} prints more than {most} bytes")
    told, faults = (found[name].decode(errors="replace") for name, _ in printed)
    return subprocess.CompletedProcess(words, command.returncode, told, faults)


# In seconds: what a command may take, and each wait for a desk.
LONGEST = 120


class OverPath(http.client.HTTPConnection):
    """A connection to a desk that listens at a path."""

    def __init__(self, path: str, longest: int):
        super().__init__("localhost", timeout=longest)
        self.path = path

    def connect(self) -> None:
        self.sock = socket.socket(socket.AF_UNIX)
        self.sock.settimeout(self.timeout)
        self.sock.connect(self.path)


def client_of(listen: str, longest: int = LONGEST) -> http.client.HTTPConnection:
    """A connection to the desk that listens at HOST:PORT or unix:PATH, each of whose waits takes so many seconds at most."""
    kind, _, path = listen.partition(":")
    if kind == "unix":
        return OverPath(path, longest)
    host, _, port = listen.rpartition(":")
    return http.client.HTTPConnection(host.strip("[]"), int(port), timeout=longest)


# A value of a file of settings, which may stand between quotes; and the settings that scripts read.
VALUE, READ = re.compile(r"""(["'])([^"'\\]*)\1|[^"'\\]*"""), ("HOST", "LISTEN")


def settings_of(path: Path) -> Dict[str, str]:
    """The settings of a desk, as its unit has them: systemd takes off quotes around a value, and what is blank beside it. Where it
    would take more off, a ValueError says where."""
    found = {}
    for number, line in enumerate(path.read_text(encoding="utf-8").splitlines(), 1):
        name, equals, value = line.strip().partition("=")
        if not equals or name.startswith(("#", ";")):
            continue
        whole = VALUE.fullmatch(value.strip())
        if not whole and name in READ:
            raise ValueError(f"{path}: line {number}: {name} has a quote or a backslash within; write its value as it is")
        found[name] = value.strip() if not whole else whole[0] if whole[2] is None else whole[2]
    return found


# A desk and its directory, as desk-maps writes them down in desks.conf.
RECORDED = re.compile(r"# ([^ =]+)=(/.+)")


def recorded_in(path: Path) -> List[Tuple[str, Path]]:
    """The desks that desk-maps was given last, each by its address and its directory."""
    lines = path.read_text().splitlines() if path.exists() else []
    return [(it[1], Path(it[2])) for it in map(RECORDED.fullmatch, lines) if it]


# The locks of who works at the store of a desk, and the marks of those that are being copied.
LOCKS, COPIED = Path("/run/hq-desk.locks"), Path("/run/hq-desk.copied")


# The marks of those that desk-stop has stopped, and in the same folder those of the desks of a move; those of desks whose stores are being
# put back (desk_restores.py), and of those that may start by such a store, to which the worker's book is still to be fitted. (No desk's
# name has a dot.)
STOPPED, OF_A_MOVE, OF_A_RESTORE, OF_A_FIT = Path("/var/lib/hq-desk-stopped"), "{}.moving", "{}.restoring", "{}.fitting"

# Who is moved from one desk to another, until that is done (desk-start reads it too); its steps: the first store has all rows, or
# both have them and the second counts, or the second counts since the customer was there before; and whether desks are
# stopped for it, or files alone are written.
MOVING, IS_ASKED, IS_COPIED, IS_OWN, OF_DESKS, OF_FILES = ".customers.moving", "asked", "copied", "own", "desks", "files"


# When each customer moved last, in a table of the folder of settings.
MOVED, MOVES = "moved.csv", ["name", "moment"]


class Move(NamedTuple):
    """A move that is under way, or that was stopped there."""

    customer: str
    source: str
    target: str
    step: str
    kind: str = OF_FILES

    def is_over(self) -> bool:
        """Whether no desk is stopped for it any more, as where a copy of /etc/hq has brought the mark back."""
        return self.kind == OF_DESKS and not any((STOPPED / OF_A_MOVE.format(it)).exists() for it in (self.source, self.target))

    def told(self) -> str:
        return (f"the move of {self.customer} from {self.source} to {self.target} was stopped on the way: "
                f"type `hq-customers move {self.customer} --desk {self.target}` again")


def marked(folder: Path) -> Optional[Move]:
    """The move whose mark is there."""
    path = folder / MOVING
    if not path.exists():
        return None
    words = path.read_text().split()
    if len(words) not in (len(Move._fields) - 1, len(Move._fields)):
        raise ValueError(f"{path} has no customer, two desks and a step")
    return Move(*words)


def restoring(desk: str, *more: str) -> str:
    """Why nobody works at the store of a desk: it is being put back; empty, where it is not. With OF_A_FIT also until the worker's book
    fits it."""
    told = f"the store of {desk} is being put back: `hq-restore` without words goes on with that"
    return told if any((STOPPED / it.format(desk)).exists() for it in (OF_A_RESTORE, *more)) else ""


def under_way(folder: Path) -> Optional[Move]:
    """The move that is under way, or that was stopped."""
    move = marked(folder)
    return None if move is None or move.is_over() else move


@contextlib.contextmanager
def alone(name: str, who: str) -> Iterator[int]:
    """Nobody else starts the desk meanwhile, copies its store, or works at it. `who` tells where it waits. For root. The file that it
    gives is handed to what goes on behind a kill of this process: it has the lock as long as that."""
    # (whoever may open a file may lock it: nobody else opens these)
    LOCKS.mkdir(mode=0o700, exist_ok=True)
    LOCKS.chmod(0o700)
    with open(LOCKS / name, "w") as file:
        try:
            fcntl.flock(file, fcntl.LOCK_EX | fcntl.LOCK_NB)
        except BlockingIOError:
            print(f"{who}: it waits for who works at the store of {name}", file=sys.stderr, flush=True)
            fcntl.flock(file, fcntl.LOCK_EX)
        # (of a copy that was killed)
        (COPIED / name).unlink(missing_ok=True)
        yield file.fileno()


def find_programs() -> None:
    """Root's programs are found whatever the path of whoever calls."""
    known = os.environ.get("PATH", os.defpath).split(os.pathsep)
    os.environ["PATH"] = os.pathsep.join([*known, *(it for it in OF_ROOT if it not in known)])


def take_streams() -> None:
    """No file gets the number of a stream that is closed: printing fails there, and messages of faults go nowhere."""
    for number, how in enumerate((os.O_WRONLY, os.O_RDONLY, os.O_WRONLY)):
        try:
            os.fstat(number)
        except OSError:
            os.open(os.devnull, how)
    sys.stdout, sys.stderr = sys.stdout or open(1, "w", closefd=False), sys.stderr or open(2, "w", closefd=False)


def plain(text: str) -> str:
    """A text as a terminal may be shown it: line ends and tabs stay, and a `?` stands for each other character that it obeys."""
    return OBEYED.sub("?", text)


class Shown:
    """A stream of text, into which nothing comes that a terminal obeys."""

    def __init__(self, stream: Any):
        self.stream = stream

    def write(self, text: str) -> int:
        self.stream.write(plain(text))
        return len(text)

    def __getattr__(self, name: str) -> Any:
        return getattr(self.stream, name)
