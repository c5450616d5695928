"""The log of the worker: one event a line, on standard error, as words NAME=VALUE.

A line of the level `error` asks for somebody's attention. No line has a key.
"""
import json
import re
import sys
from collections.abc import Mapping

PLAIN = re.compile(r"[A-Za-z0-9@._:/+<>\[\]=-]+")


def word_of(value: object) -> str:
    """A value as one word, in quotes if it has other characters than PLAIN has."""
    text = str(value)
    return text if PLAIN.fullmatch(text) else json.dumps(text)


def write(level: str, event: str, words: Mapping[str, object]) -> None:
    """Writes one line. A standard error that nobody reads stops no work."""
    line: dict[str, object] = {"level": level, "event": event, **words}
    try:
        words_of_line = (f"{name}={word_of(value)}" for name, value in line.items())
        sys.stderr.write(" ".join(words_of_line) + "\n")
        sys.stderr.flush()
    except (OSError, ValueError):
        pass


def info(event: str, **words: object) -> None:
    """Logs what the worker did."""
    write("info", event, words)


def warning(event: str, **words: object) -> None:
    """Logs what the worker handles by itself, and somebody may want to know."""
    write("warning", event, words)


def error(event: str, **words: object) -> None:
    """Logs what somebody has to look at."""
    write("error", event, words)
