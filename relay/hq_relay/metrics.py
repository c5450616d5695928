"""Prints what every customer has on the desk, for Prometheus: relay/metrics SETTINGS [ADDRESS].

SETTINGS is the file of the worker, and ADDRESS the desk that is asked, where that is not the one of
the settings. `relay/metrics --events` reads the worker's lines from standard input, and prints how
many of the level `error` there are of each event. The status is 2 for bad settings or words, and 1
where the desk does not tell the usage of all its customers; then nothing is printed but the reason.
"""
import collections
import re
import sys
import time
from collections.abc import Iterable, Iterator
from dataclasses import replace
from typing import NamedTuple, TextIO

from hq_relay.desk.client import Away, Desk, Refused, desk_of
from hq_relay.desk.replies import Usage
from hq_relay.settings import BadSettings, Settings, load
from hq_relay.settings_values import address


class Metric(NamedTuple):
    """A metric of Prometheus: its name, its type and its help."""

    name: str
    kind: str
    help: str


# The metric of each count of a usage.
METRICS = {
    "messages": Metric("desk_messages", "gauge", "Queued messages."),
    "bytes": Metric("desk_bytes", "gauge", "Bytes of the queued messages."),
    "lines": Metric("desk_lines", "gauge", "Lines of the access tables."),
    "pending": Metric("desk_recipients_pending", "gauge", "Recipients that are pending."),
    "accepted": Metric("desk_recipients_accepted_total", "counter",
                       "Recipients that were accepted."),
    "delivered": Metric("desk_recipients_delivered_total", "counter",
                        "Recipients that were delivered."),
    "failed": Metric("desk_recipients_failed_total", "counter", "Recipients that failed."),
    "deleted": Metric("desk_recipients_deleted_total", "counter", "Recipients that were deleted."),
    "expired": Metric("desk_recipients_expired_total", "counter", "Recipients that expired."),
}
LIMITS = {
    "messages": Metric("desk_messages_limit", "gauge", "Messages that may be queued."),
    "bytes": Metric("desk_bytes_limit", "gauge", "Bytes that queued messages may have together."),
}
OLDEST = Metric("desk_oldest_message_seconds", "gauge",
                "Age of the first message of the queue that is not on hold.")
ERRORS = Metric("desk_worker_errors", "gauge",
                "Lines of the level error that the worker wrote, by event.")
# A line of the worker. Of its event no more than so many characters are read, and of all lines no
# more events.
EVENT = re.compile(r'level=error event=(?:"([^"\\]{1,60})"|([^\s"]{1,60}))(?: |$)')
LONGEST_LINE, MOST_EVENTS = 4096, 100
ESCAPES = str.maketrans({"\\": r"\\", '"': r"\"", "\n": r"\n"})


def rows(metric: Metric, label: str, values: Iterable[tuple[str, int]]) -> Iterator[str]:
    """The lines of a metric in Prometheus's text format."""
    yield from (f"# HELP {metric.name} {metric.help}", f"# TYPE {metric.name} {metric.kind}")
    for name, value in values:
        yield f'{metric.name}{{{label}="{name.translate(ESCAPES)}"}} {value}'


def ages(desk: Desk, settings: Settings, usages: Iterable[Usage]) -> Iterator[tuple[str, int]]:
    """The seconds since each customer's first message came that is not on hold; 0 if none is."""
    for usage in usages:
        arrivals = []
        if usage.messages and usage.customer in settings.customers:
            arrivals = [message.arrival for message in desk.first_messages(usage.customer)
                        if not message.is_held]
        yield usage.customer, max(0, int(time.time()) - arrivals[0]) if arrivals else 0


def events(lines: TextIO) -> list[tuple[str, int]]:
    """How many lines of the level error there are of each event."""
    counts: collections.Counter[str] = collections.Counter()
    is_begun = False
    while True:
        line = lines.readline(LONGEST_LINE)
        if not line:
            return sorted(counts.items())
        # (a stranger may have written what is within a line)
        event = None if is_begun else EVENT.match(line)
        is_begun = not line.endswith("\n")
        name = event and (event[1] or event[2])
        if name and (name in counts or len(counts) < MOST_EVENTS):
            counts[name] += 1


def exposition(desk: Desk, settings: Settings, usages: list[Usage]) -> Iterator[str]:
    """All lines of a desk."""
    for count, metric in METRICS.items():
        values = [(usage.customer, getattr(usage, count)) for usage in usages]
        yield from rows(metric, "customer", values)
    customers = [settings.customers[usage.customer] for usage in usages
                 if usage.customer in settings.customers]
    for limit, metric in LIMITS.items():
        values = [(customer.name, getattr(customer, limit)) for customer in customers]
        yield from rows(metric, "customer", values)
    yield from rows(OLDEST, "customer", ages(desk, settings, usages))


def main(words: list[str]) -> int:
    """Prints the counts; the status."""
    if words == ["--events"]:
        print(*rows(ERRORS, "event", events(sys.stdin)), sep="\n")
        return 0
    if len(words) not in (1, 2):
        print(__doc__, file=sys.stderr)
        return 2
    try:
        settings = load(words[0])
        if len(words) == 2:
            settings = replace(settings, desk=address(words[1]))
        desk = desk_of(settings)
        lines = list(exposition(desk, settings, desk.usages()))
    except BadSettings as error:
        error.print()
        return 2
    except ValueError as error:
        print(f"relay: {words[1]} {error}", file=sys.stderr)
        return 2
    except (Away, Refused) as error:
        print(f"relay: the desk does not tell: {error}", file=sys.stderr)
        return 1
    print(*lines, sep="\n")
    return 0
