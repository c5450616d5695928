"""Follows a log that somebody else writes, and that is rotated by another name.

A file is known by its first line, and its position by an offset. So a new start goes on there, and
a file that was emptied begins anew.
"""
import hashlib
import json
import os
import time
from collections.abc import Iterator
from pathlib import Path
from typing import NamedTuple

# The bytes of one read. A rotated file is left if it gave nothing for so many seconds: its writer
# may still have it.
PIECE, KEPT_OPEN = 1_048_576, 150.0
# A file is known by its first line, as far as so many bytes.
FIRST_LINE = 512
# The ends of the names of rotated files that were packed.
PACKED = (".gz", ".bz2", ".xz", ".zst", ".lz4")
# A new start without a position reads no more files than these, the newest ones.
MOST_FILES = 2


class Position(NamedTuple):
    """How far a file was read, in bytes.

    `number` counts the files that this process has opened, the oldest first, and `mark` is the
    file.
    """

    number: int
    mark: str
    offset: int


class LogFile:
    """A log that is open. Only whole lines of it are read."""

    def __init__(self, path: Path, number: int):
        self.file, self.number = open(path, "rb", buffering=0), number
        self.inode, self.first = os.fstat(self.file.fileno()).st_ino, b""
        self.offset, self.is_in_a_line, self.read_at = 0, False, time.monotonic()

    def first_line(self) -> bytes:
        """Its first line as it is now; nothing as long as that is not whole."""
        line, end, _ = os.pread(self.file.fileno(), FIRST_LINE, 0).partition(b"\n")
        return line if end or len(line) == FIRST_LINE else b""

    def position(self) -> Position:
        digest = hashlib.sha256(self.first).hexdigest()[:32] if self.first else ""
        return Position(self.number, f"{self.inode}:{digest}", self.offset)

    def pieces(self) -> Iterator[tuple[Position, list[bytes]]]:
        """The whole lines that have come since, in pieces, each with the position before it."""
        while True:
            first = self.first_line()
            if first != self.first or os.fstat(self.file.fileno()).st_size < self.offset:
                # (it is new, or was emptied)
                self.first, self.offset, self.is_in_a_line = first, 0, False
            before = self.position()
            piece = os.pread(self.file.fileno(), PIECE, self.offset)
            end = piece.rfind(b"\n") + 1
            if not end and len(piece) < PIECE:
                return
            self.read_at = time.monotonic()
            # (no line of a log is as long as a piece)
            begin, self.is_in_a_line = int(self.is_in_a_line), not end
            self.offset += end or len(piece)
            yield before, piece[:end].split(b"\n")[begin:-1]


class LogFollower:
    """Follows the log at `path`, and keeps the position in the file `kept`.

    `why` has the reason that there is nothing to read, if so.
    """

    def __init__(self, path: Path, kept: Path):
        self.path, self.kept = path, kept
        self.files: list[LogFile] = []
        self.count, self.why = 0, "it was not read yet"
        self.last: tuple[str, int] | None = None  # the position that was kept last

    def read(self) -> Iterator[tuple[Position, list[bytes]]]:
        """The lines that have come since, in pieces, each with the position before it."""
        try:
            self.open_new()
            self.why = ""
        except OSError as error:
            self.why = str(error)
        for file in [*self.files]:
            yield from file.pieces()
        self.leave_old()

    def position(self) -> Position | None:
        """The position up to which all was read."""
        read = [file for file in self.files if file.first]
        return read[-1].position() if read else None

    def open_new(self) -> None:
        """Opens the file that has the name now, and at the first time those before it."""
        if not self.count:
            self.begin()
        inode = os.stat(self.path).st_ino
        if all(file.inode != inode for file in self.files):
            self.open(self.path)

    def open(self, path: Path) -> LogFile:
        self.count += 1
        self.files.append(LogFile(path, self.count))
        return self.files[-1]

    def begin(self) -> None:
        """Opens the file in which the last start ended, and those after it; or the newest ones."""
        rotated = [path for path in self.path.parent.glob(f"{self.path.name}?*")
                   if not path.name.endswith(PACKED) and path.is_file()]
        paths = sorted(rotated, key=lambda path: path.stat().st_mtime_ns)
        if self.path.is_file():
            paths.append(self.path)
        mark, offset = self.kept_position()
        opened = []
        for path in paths:
            opened.append(self.open(path))
            opened[-1].first = opened[-1].first_line()
        at = next((at for at, file in enumerate(opened) if mark and file.position().mark == mark),
                  None)
        if at is not None:
            opened[at].offset = offset
        self.files = opened[at:] if at is not None else opened[-MOST_FILES:]
        for file in opened:
            if file not in self.files:
                file.file.close()

    def leave_old(self) -> None:
        """Closes the files that were rotated, and that nobody writes to any more."""
        now = time.monotonic()
        for file in self.files[:-1]:
            if now - file.read_at > KEPT_OPEN:
                file.file.close()
                self.files.remove(file)

    # ---- the position after a new start

    def kept_position(self) -> tuple[str, int]:
        """The mark of a file, and an offset in it; an empty mark if none is kept."""
        try:
            mark, offset = json.loads(self.kept.read_text())
            return str(mark), int(offset)
        except (OSError, ValueError, TypeError):
            return "", 0

    def keep(self, position: Position) -> None:
        """A new start goes on here. (If that cannot be written, it reads some lines again.)"""
        made = self.kept.with_name(f".{self.kept.name}.new")
        if self.last == (position.mark, position.offset):
            return
        try:
            made.write_text(json.dumps([position.mark, position.offset]))
            os.replace(made, self.kept)
            self.last = position.mark, position.offset
        except OSError:
            pass

    def close(self) -> None:
        for file in self.files:
            file.file.close()
        self.files = []
