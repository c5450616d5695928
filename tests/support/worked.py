"""The worked examples of tests/examples/, for the tests that have calls of the store fail and requests for memory refused."""
from pathlib import Path

EXAMPLES = Path(__file__).resolve().parent.parent / "examples"
MOST_LINES, MOST_BYTES = 60, 8192
# calls of all customers, which may be done in part
PARTED = tuple(b" POST /relay/%s " % it for it in (b"sweep", b"usage", b"due", b"sweep-from", b"usage-from", b"due-from"))


def lines_of(place):
    """The lines of an example; one that is empty is not replied to."""
    return [line for line in (place / "lines").read_bytes().splitlines(keepends=True) if line.strip(b"\r\n")]


def replies_of(place):
    return (place / "replies").read_bytes().splitlines(keepends=True)


def directory_of(place):
    """The directory of an example, and whether it is its own."""
    own = place / "directory"
    return (own, True) if own.exists() else (EXAMPLES / "directory", False)


def is_fit(place):
    """Whether the example is short, each of its lines has a reply, none asks for all customers, and no key has a name."""
    lines = lines_of(place)
    if (place / "keys").exists():
        return False
    is_short = len(lines) <= MOST_LINES and sum(map(len, lines)) <= MOST_BYTES
    is_replied_to = lines and lines[-1].endswith(b"\n") and len(lines) == len(replies_of(place))
    return is_short and is_replied_to and not any(it in line for it in PARTED for line in lines)


def chosen(names):
    """The examples of these names, or without any all that are fit."""
    return [EXAMPLES / it for it in names] or [it.parent for it in sorted(EXAMPLES.glob("*/lines")) if is_fit(it.parent)]
