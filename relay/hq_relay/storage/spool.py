"""The spool: a file for each message, with its envelope and its content; and the worker's locks."""
import fcntl
import itertools
import json
import os
from collections.abc import Iterator
from contextlib import contextmanager, suppress
from dataclasses import dataclass
from pathlib import Path
from typing import BinaryIO

# How many bytes of a message are searched for the end of its header fields.
LARGEST_HEAD = 65536
# How many bytes the line of an envelope has at most.
LONGEST_ENVELOPE = 65536
# The begin of the locks of spool names.
LOCK_OF_A_NAME = "name-"


@dataclass(frozen=True)
class Envelope:
    """The customer, the sender and the recipient of a message, and what its client asked for.

    `notify`, `original`, `envelope_id` and `returned` are parameters of DSN (RFC 3461), as they
    came: empty if the client gave none.
    """

    customer: str
    spool: str
    sender: str
    recipient: str
    notify: str = ""
    original: str = ""
    envelope_id: str = ""
    returned: str = ""
    is_utf8: bool = False


@dataclass(frozen=True, slots=True)
class Kept:
    """A message of the spool, opened: its content begins at `start` and has `size` bytes.

    It was written in the second `written`.
    """

    envelope: Envelope
    file: BinaryIO
    start: int
    size: int
    written: int

    def head(self) -> bytes:
        """Its header fields, as far as they lie in the first 65,536 bytes."""
        self.file.seek(self.start)
        return head_of(self.file.read(LARGEST_HEAD))


def head_of(content: bytes) -> bytes:
    """The header fields of a message."""
    ends = [at for at in (content.find(b"\r\n\r\n"), content.find(b"\n\n")) if at >= 0]
    return content[:min(ends)] if ends else content


class Draft:
    """A message while it comes, in a file of its own. `size` counts the bytes of its content."""

    def __init__(self, path: Path, envelope: Envelope):
        self.path, self.size = path, 0
        self.file: BinaryIO = open(path, "xb")
        self.file.write(json.dumps(vars(envelope)).encode() + b"\n")

    def write(self, piece: bytes) -> None:
        """Adds a piece of the content. OSError is raised if the disk has no room."""
        self.file.write(piece)
        self.size += len(piece)

    def drop(self) -> None:
        """Removes the file, unless the spool kept it."""
        drop(self.path)
        # (on a full disk a file cannot be closed without a fault)
        with suppress(OSError):
            self.file.close()


def sync_folder(path: Path) -> None:
    """Syncs the names in a folder to the disk."""
    opened = os.open(path, os.O_RDONLY | os.O_DIRECTORY)
    try:
        os.fsync(opened)
    finally:
        os.close(opened)


def drop(path: Path) -> None:
    """Removes a file, if it is there."""
    try:
        path.unlink()
    except FileNotFoundError:
        pass


def is_file_at(file: BinaryIO, path: Path) -> bool:
    """Whether an open file is the one that a path names now."""
    try:
        return os.path.samestat(os.fstat(file.fileno()), os.stat(path))
    except FileNotFoundError:
        return False


class Spool:
    """The folder of the worker.

    `content` has a file for each spool name, `new` what is being written, `aside` what nobody takes
    back after a restore, and `locks` the locks.
    """

    def __init__(self, folder: Path):
        self.content, self.new = folder / "content", folder / "new"
        self.aside, self.locks = folder / "aside", folder / "locks"
        self.drafts = itertools.count(1)
        for path in (self.content, self.new, self.aside, self.locks):
            path.mkdir(parents=True, exist_ok=True)
        sync_folder(folder)

    def draft(self, envelope: Envelope) -> Draft:
        return Draft(self.new / f"{os.getpid()}.{next(self.drafts)}", envelope)

    def keep(self, draft: Draft, spool: str) -> None:
        """Gives a draft its name, so that it is there whole after any stop; or raises OSError."""
        draft.file.flush()
        os.fsync(draft.file.fileno())
        os.rename(draft.path, self.content / spool)
        sync_folder(self.content)

    def envelope(self, spool: str) -> Envelope | None:
        with self.opened(spool) as kept:
            return kept.envelope if kept else None

    @contextmanager
    def opened(self, spool: str) -> Iterator[Kept | None]:
        """The message of a name; None if there is no such file, or it has no envelope."""
        try:
            file = open(self.content / spool, "rb")
        except FileNotFoundError:
            yield None
            return
        with file:
            yield kept_in(file)

    def names(self) -> list[str]:
        return sorted(os.listdir(self.content))

    def has(self, spool: str) -> bool:
        return (self.content / spool).exists()

    def size(self, spool: str) -> int:
        """How many bytes the file of a name has; 0 if there is none."""
        try:
            return (self.content / spool).stat().st_size
        except FileNotFoundError:
            return 0

    def age(self, spool: str, now: float) -> float:
        """How many seconds ago the file of a name was written; 0 if there is none."""
        try:
            return now - (self.content / spool).stat().st_mtime
        except FileNotFoundError:
            return 0.0

    def remove(self, spool: str) -> None:
        drop(self.content / spool)

    def put_aside(self, spool: str) -> None:
        os.rename(self.content / spool, self.aside / spool)

    def drop_unfinished(self) -> None:
        """Removes the drafts and the locks of an intake that was stopped: none was submitted."""
        for path in (*self.new.iterdir(), *self.locks.glob(f"{LOCK_OF_A_NAME}*")):
            drop(path)

    @contextmanager
    def alone_with(self, spool: str) -> Iterator[None]:
        """No other thread or process works at this name meanwhile."""
        path = self.locks / f"{LOCK_OF_A_NAME}{spool}"
        file = locked_file(path, fcntl.LOCK_EX)
        try:
            yield
        finally:
            drop(path)
            file.close()

    def lock(self, name: str) -> BinaryIO | None:
        """The lock of this name, until it is closed or the process ends; None if another has it."""
        file = open(self.locks / name, "wb")
        try:
            fcntl.flock(file, fcntl.LOCK_EX | fcntl.LOCK_NB)
        except BlockingIOError:
            file.close()
            return None
        return file


def locked_file(path: Path, mode: int) -> BinaryIO:
    """A file with a lock of this mode (`fcntl.LOCK_EX` or `fcntl.LOCK_SH`)."""
    file = open(path, "wb")
    fcntl.flock(file, mode)
    # (the owner of the lock may have removed its file, and somebody else may have made another one)
    while not is_file_at(file, path):
        file.close()
        file = open(path, "wb")
        fcntl.flock(file, mode)
    return file


def kept_in(file: BinaryIO) -> Kept | None:
    """The message of a file; None if its first line is no envelope."""
    try:
        envelope = Envelope(**json.loads(file.readline(LONGEST_ENVELOPE)))
    except (TypeError, ValueError):
        return None
    start, found = file.tell(), os.fstat(file.fileno())
    return Kept(envelope, file, start, found.st_size - start, int(found.st_mtime))
