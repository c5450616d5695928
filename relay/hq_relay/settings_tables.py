"""Tables of the settings: files of comma-separated values, which `hq-customers` writes.

ValueError has the reason that a table is refused for.
"""
import csv
import re
from collections.abc import Callable
from dataclasses import dataclass, field
from pathlib import Path

from hq_relay.settings_values import count, moment

CUSTOMER = re.compile(r"[a-z0-9-]{1,32}")
# The header of the desk's directory, which may have one more column.
COLUMNS = ["name", "key", "messages", "bytes", "lines", "notices", "delay"]
HISTORY = "history"
# The header of the table of senders, which may have one more column: the begin of each row.
SENDERS = ["kind", "name", "customer"]
SINCE = "since"
# The header of the table of desks.
DESKS = ["customer", "desk"]
# The kinds of senders.
LOGIN, DOMAIN = "login", "domain"


@dataclass(frozen=True, slots=True)
class Customer:
    """A row of the desk's directory: the most messages, bytes and notices that the desk keeps."""

    name: str
    messages: int
    bytes: int
    notices: int


@dataclass(frozen=True, slots=True)
class Senders:
    """The customers of logins and of domains.

    `since` has the begin of some rows, in seconds since 1970, by kind and name: earlier mail of
    that login or domain was another customer's.
    """

    logins: dict[str, str] = field(default_factory=dict)
    domains: dict[str, str] = field(default_factory=dict)
    since: dict[tuple[str, str], float] = field(default_factory=dict)


def rows_of(path: Path, encoding: str = "utf-8") -> list[list[str]]:
    """The rows of a file, with its header."""
    try:
        with open(path, newline="", encoding=encoding) as file:
            return list(csv.reader(file))
    except (OSError, ValueError, csv.Error) as error:
        raise ValueError(f"cannot be read: {error}") from None


def table_of(path: Path, header: list[str], *further: str) -> list[list[str]]:
    """The rows of a table without its header, which may have further columns."""
    rows = rows_of(path)
    if not rows or rows[0] not in (header, [*header, *further]):
        raise ValueError(f"has not the header {','.join(header)}")
    return rows[1:]


def customers_of(path: Path) -> dict[str, Customer]:
    """The customers of the desk's directory, in its order."""
    rows = rows_of(path, "utf-8-sig")
    if not rows or rows[0] not in (COLUMNS, [*COLUMNS, HISTORY]):
        raise ValueError(f"has not the header {','.join(COLUMNS)}")
    customers: dict[str, Customer] = {}
    for number, row in enumerate(filter(None, rows[1:]), 1):
        if len(row) != len(rows[0]) or not CUSTOMER.fullmatch(row[0]) or row[0] in customers:
            raise ValueError(f"row {number} is not a customer")
        customers[row[0]] = Customer(row[0], count(row[2]), count(row[3]), count(row[5]))
    return customers


def desks_of(path: Path) -> dict[str, str]:
    """The desk of each customer."""
    rows = table_of(path, DESKS)
    if any(len(row) != len(DESKS) or not CUSTOMER.fullmatch(row[0]) for row in rows):
        raise ValueError("has a row that is not a customer and a desk")
    return {customer: desk for customer, desk in rows}


def senders_of(path: Path, customer: Callable[[str], str]) -> Senders:
    """The logins and domains of a table; `customer` refuses the name of nobody."""
    senders = Senders()
    owners = {LOGIN: senders.logins, DOMAIN: senders.domains}
    for number, row in enumerate(table_of(path, SENDERS, SINCE), 1):
        kind, name, owner, since = [*row, ""][:4] if len(row) in (3, 4) else ("", "", "", "")
        name = name.lower() if kind == DOMAIN else name
        if kind not in owners or not name or name in owners[kind]:
            raise ValueError(f"row {number} is not one of a login or a domain")
        owners[kind][name] = customer(owner)
        if since:
            senders.since[kind, name] = moment(since)
    return senders
