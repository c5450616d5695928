"""The settings of the worker: an INI file, read whole. All its faults are printed at once."""
import configparser
import sys
from collections.abc import Callable, Iterable
from dataclasses import dataclass
from enum import Enum
from pathlib import Path
from typing import TypeVar, cast

from hq_relay.settings_tables import Customer, Senders, customers_of, desks_of, senders_of
from hq_relay.settings_values import (SOCKET, Address, address, command, count, domain, key_of,
                                      log_file, log_of, seconds, sender, user, wait)

Value = TypeVar("Value")


class BadSettings(Exception):
    """The settings are refused; `faults` has a line for each reason."""

    def __init__(self, faults: Iterable[str]):
        self.faults = [*faults]
        super().__init__(*self.faults)

    def print(self) -> None:
        for fault in self.faults:
            print(f"relay: {fault}", file=sys.stderr)


@dataclass(frozen=True)
class DeskSettings:
    """The desk, and its customers. `desks` has the desk of each customer, if a table names it."""

    desk: Address
    desk_timeout: float
    key: str
    customers: dict[str, Customer]
    desks: dict[str, str]


@dataclass(frozen=True)
class SpoolSettings:
    """The spool, its user, and how many days records stay."""

    folder: Path
    keep_days: float
    user: str


@dataclass(frozen=True)
class IntakeSettings:
    """The intake. `logins` and `domains` have the customer of each, and `since` the begin of some.

    `largest` is the most bytes of a message, and `since` has seconds since 1970, by kind and name.
    """

    listen: Address
    largest: int
    connections: int
    processes: int
    front: Path
    policy: Address | None
    customers_at: Address | None
    logins: dict[str, str]
    domains: dict[str, str]
    since: dict[tuple[str, str], float]


@dataclass(frozen=True)
class DeliverySettings:
    """The delivery: the instance of Postfix, and timers in seconds."""

    host: str
    instance: Address
    delivering: Path
    reports: Path
    log: Path
    postsuper: list[str]
    sessions: int
    timeout: float
    pause: float
    rest: float
    settle_after: float
    lost_after: float
    sweep_every: float
    clean_every: float


@dataclass(frozen=True)
class NoticeSettings:
    """The Postfix that sends notices on, and their sender."""

    notices_hop: Address
    notices_from: str


@dataclass(frozen=True)
class Settings(NoticeSettings, DeliverySettings, IntakeSettings, SpoolSettings, DeskSettings):
    """The options of docs/RELAY.md; `file` is the file that has them."""

    file: Path

    @property
    def has_several_desks(self) -> bool:
        return len(set(self.desks.values())) > 1

    def of_desks(self) -> dict[str, list[str]]:
        """The customers of each desk. A customer that no table names has the desk without name."""
        customers: dict[str, list[str]] = {}
        for customer in self.customers:
            customers.setdefault(self.desks.get(customer, ""), []).append(customer)
        return customers

    @property
    def socket(self) -> Path | None:
        """The socket of root's helper that takes mail back; None if a command does."""
        named = self.postsuper[0]
        return Path(named[len(SOCKET):]) if named.startswith(SOCKET) else None


class Default(Enum):
    """The default of an option that has none."""

    REQUIRED = "required"


class Reader:
    """Reads the options of a file one after the other, and gathers its faults."""

    def __init__(self, path: Path):
        self.folder = path.resolve().parent
        self.faults: list[str] = []
        self.known: set[tuple[str, str]] = set()
        self.parser = configparser.ConfigParser(
            interpolation=None, delimiters=("=",), inline_comment_prefixes=(";",))
        # (mypy refuses the assignment of a function to a method, which configparser documents)
        setattr(self.parser, "optionxform", str)
        try:
            self.parser.read_string(path.read_text(encoding="utf-8"), str(path))
        except (OSError, ValueError, configparser.Error) as error:
            raise BadSettings([f"{path}: {error}"]) from None

    def read(self, section: str, name: str, kind: Callable[[str], Value],
             default: Value | Default = Default.REQUIRED) -> Value:
        """The value of an option. A faulty one is gathered, and `end` refuses the file."""
        self.known.add((section, name))
        text = self.parser.get(section, name, fallback=None)
        try:
            if text is not None:
                return kind(text)
            if not isinstance(default, Default):
                return default
            raise ValueError("is missing")
        except ValueError as error:
            self.faults.append(f"[{section}] {name}: {error}")
        # (nobody uses it: `end` raises)
        return cast(Value, None)

    def path(self, text: str) -> Path:
        return self.folder / text

    def table(self, section: str, kind: Callable[[str], str],
              name_of: Callable[[str], str] = str) -> dict[str, str]:
        """All options of a section, with their names as `name_of` makes them."""
        options = self.parser[section] if self.parser.has_section(section) else ()
        return {name_of(name): self.read(section, name, kind) for name in options}

    def joined(self, section: str, options: dict[str, str], more: dict[str, str]) -> dict[str, str]:
        """The options of a section, and the rows of a table. A name in both is a fault."""
        for name in options.keys() & more.keys():
            self.faults.append(f"[{section}] {name}: stands in the file of `senders` too")
        return {**options, **more}

    def end(self) -> None:
        """Raises BadSettings if the file has a fault, or an option that is not known."""
        for section in self.parser.sections():
            for name in self.parser[section]:
                if (section, name) not in self.known:
                    self.faults.append(f"[{section}] {name}: is not known")
        if self.faults:
            raise BadSettings(self.faults)


def desk_settings(reader: Reader, customers: dict[str, Customer]) -> DeskSettings:
    read, path = reader.read, reader.path
    return DeskSettings(
        desk=read("desk", "address", address),
        desk_timeout=read("desk", "timeout", wait, 60.0),
        key=read("desk", "key-file", lambda text: key_of(path(text))),
        customers=customers,
        desks=read("desk", "desks", lambda text: desks_of(path(text)), {}))


def spool_settings(reader: Reader, folder: Path) -> SpoolSettings:
    return SpoolSettings(
        folder=folder,
        keep_days=reader.read("spool", "keep-days", seconds, 7.0),
        user=reader.read("spool", "user", user, "hqrelay"))


def intake_settings(reader: Reader, senders: Senders,
                    customer: Callable[[str], str]) -> IntakeSettings:
    read = reader.read
    return IntakeSettings(
        listen=read("intake", "listen", address),
        largest=read("intake", "largest", count, 11_000_000),
        connections=read("intake", "connections", count, 50),
        processes=read("intake", "processes", count, 2),
        front=read("intake", "postfix", reader.path, Path("/etc/postfix")),
        policy=read("intake", "policy", address, None),
        customers_at=read("intake", "customers", address, None),
        logins=reader.joined("logins", reader.table("logins", customer), senders.logins),
        domains=reader.joined("domains", reader.table("domains", customer, str.lower),
                              senders.domains),
        since=senders.since)


def delivery_settings(reader: Reader, delivering: Path, reports: Path) -> DeliverySettings:
    read = reader.read
    return DeliverySettings(
        host=read("delivery", "host", domain),
        instance=read("delivery", "instance", address, ("127.0.0.1", 10026)),
        delivering=delivering,
        reports=read("delivery", "reports", reader.path, reports),
        log=read("delivery", "log", log_file, log_of(delivering)),
        postsuper=read("delivery", "postsuper", command, ["sudo", "-n", "postsuper"]),
        sessions=read("delivery", "sessions", count, 4),
        timeout=read("delivery", "timeout", wait, 60.0),
        pause=read("delivery", "pause", wait, 10.0),
        rest=read("delivery", "rest", wait, 60.0),
        settle_after=read("delivery", "settle-after", wait, 600.0),
        lost_after=read("delivery", "lost-after", wait, 900.0),
        sweep_every=read("delivery", "sweep-every", wait, 300.0),
        clean_every=read("delivery", "clean-every", wait, 300.0))


def notice_settings(reader: Reader) -> NoticeSettings:
    return NoticeSettings(
        notices_hop=reader.read("notices", "next-hop", address, ("127.0.0.1", 10027)),
        notices_from=reader.read("notices", "from", sender))


def load(name: str) -> Settings:
    """The settings of a file. Relative paths begin at its folder. Raises BadSettings."""
    reader = Reader(Path(name))
    read, path = reader.read, reader.path
    customers = read("desk", "directory", lambda text: customers_of(path(text))) or {}

    def customer(text: str) -> str:
        if text not in customers:
            raise ValueError(f"{text} is not in the directory")
        return text

    senders = read("intake", "senders", lambda text: senders_of(path(text), customer),
                   Senders()) or Senders()
    folder = read("spool", "folder", path)
    delivering = read("delivery", "postfix", path, Path("/etc/postfix-desk"))
    sections = (desk_settings(reader, customers), spool_settings(reader, folder),
                intake_settings(reader, senders, customer),
                delivery_settings(reader, delivering, folder and folder / "reports"),
                notice_settings(reader))
    reader.end()
    options = {option: value for section in sections for option, value in vars(section).items()}
    return Settings(file=Path(name).absolute(), **options)
