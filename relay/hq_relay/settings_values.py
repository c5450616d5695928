"""Values of the settings, each read from its text. A text is refused by ValueError."""
import re
import shlex
from datetime import datetime, timezone
from pathlib import Path

# A host, and a port.
Address = tuple[str, int]

KEY = re.compile(r"[A-Za-z0-9]{16,64}")
DOMAIN = re.compile(r"[A-Za-z0-9_-]+(\.[A-Za-z0-9_-]+)*")
# The local part of an address, as the desk takes it (docs/API.md).
LOCAL = re.compile(r'(?:(?!["\\<>(),;@])[!-~])+')
LOG_FILE = re.compile(r"(?:/[A-Za-z0-9._-]+){3,}")
USER = re.compile(r"[a-z_][a-z0-9_-]{0,30}")
MOMENT = "%Y-%m-%dT%H:%M:%SZ"
# A command of one word that begins so is the path of a socket.
SOCKET = "unix:"


def address(text: str) -> Address:
    host, colon, port = text.rpartition(":")
    if not (colon and host and port.isdecimal() and int(port) < 65536):
        raise ValueError("is not HOST:PORT")
    return host.strip("[]"), int(port)


def domain(text: str) -> str:
    if not DOMAIN.fullmatch(text):
        raise ValueError("is not a domain")
    return text.lower()


def sender(text: str) -> str:
    local, _, domain_of_sender = text.rpartition("@")
    if not LOCAL.fullmatch(local) or not DOMAIN.fullmatch(domain_of_sender):
        raise ValueError("is not an address")
    return text


def user(text: str) -> str:
    if not USER.fullmatch(text):
        raise ValueError("is not the name of a user")
    return text


def command(text: str) -> list[str]:
    """The words of a command, as a shell parts them; or `unix:` and the path of a socket."""
    words = shlex.split(text)
    if not words:
        raise ValueError("is not a command")
    if words[0].startswith(SOCKET) and (len(words) > 1 or not words[0].startswith(f"{SOCKET}/")):
        raise ValueError("is not unix: and the path of a socket, from / on")
    return words


def log_file(text: str) -> Path:
    if not LOG_FILE.fullmatch(text):
        raise ValueError("is not the path of a file in a folder below /, without spaces")
    return Path(text)


def log_of(delivering: Path) -> Path:
    """The default log of the instance that delivers: a file in a folder of its own."""
    return Path("/var/log") / delivering.name / "mail.log"


def seconds(text: str) -> float:
    """A number that is not below 0, of seconds or of days."""
    if not re.fullmatch(r"[0-9]+(\.[0-9]+)?", text):
        raise ValueError("is not a number")
    return float(text)


def moment(text: str) -> float:
    """A moment of UTC, in seconds since 1970."""
    return datetime.strptime(text, MOMENT).replace(tzinfo=timezone.utc).timestamp()


def wait(text: str) -> float:
    """A number above 0, of seconds."""
    if not seconds(text):
        raise ValueError("is 0")
    return seconds(text)


def count(text: str) -> int:
    if not text.isdecimal() or int(text) < 1:
        raise ValueError("is not a number of at least 1")
    return int(text)


def key_of(path: Path) -> str:
    """The key that a file has in its one line."""
    try:
        text = path.read_text(encoding="ascii", errors="replace").strip()
    except OSError as error:
        raise ValueError(f"cannot be read: {error.strerror}") from None
    if not KEY.fullmatch(text):
        raise ValueError("has no key: one line of 16 to 64 letters and digits")
    return text
