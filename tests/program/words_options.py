"""Of tests/program/test_words.py: what `clap` tells of the words, before any value of theirs is looked at."""
import json
import re
from pathlib import Path

from help_texts import (BATCH_HELP, CHECK_HELP, DELETE_HELP, HELP, HISTORY_HELP, HOLD_HELP, IMPORT_HELP, MIGRATE_HELP,
                        QUEUE_HELP, RELEASE_HELP, SERVE_HELP, SWEEP_HELP, USAGE_HELP)
from words_runs import (CHECK, HOST, IMPORT, MIGRATE, MOVE, QUEUE, SWEEP, SWEEP_ALL, USAGE, asked, batch, check, errors_are_full,
                        output_is_full, serve)

NEEDED = [("--directory", "<FILE>"), ("--host", "<HOST>")]
ALL_NEEDED = "--directory <FILE> --host <HOST>"
ANY_BATCH = f"batch [OPTIONS] {ALL_NEEDED}"
ANY_SERVE = f"serve [OPTIONS] {ALL_NEEDED}"
MISSING = "the following required arguments were not provided:"
ONE_KEY = b"""\
error: one of --relay-key and --relay-key-file is wanted, and not both

For more information, try '--help'.
"""


def help_is_shown(runs):
    for words in (["--help"], ["-h"], ["--help", "serve"], ["--help", "migrate"]):
        runs.expect(words, 0, HELP)
    for words in (["serve", "--help"], ["serve", "-h"], [*serve("none"), "--help"], ["serve", "--help", "--listen"]):
        runs.expect(words, 0, SERVE_HELP)
    for words in (["batch", "--help"], ["batch", "-h"], [*batch("none"), "--help"], ["batch", "--help", "--store"]):
        runs.expect(words, 0, BATCH_HELP)
    for word, help_text in (("check", CHECK_HELP), ("queue", QUEUE_HELP), ("history", HISTORY_HELP), ("hold", HOLD_HELP),
                            ("release", RELEASE_HELP), ("delete", DELETE_HELP), ("usage", USAGE_HELP),
                            ("import", IMPORT_HELP), ("sweep", SWEEP_HELP), ("migrate", MIGRATE_HELP)):
        runs.expect([word, "--help"], 0, help_text)


def version_is_shown(runs):
    """The release, and the version of the calls, which docs/openapi.json describes."""
    root = Path(__file__).resolve().parents[2]
    calls = json.loads((root / "docs/openapi.json").read_text())["info"]["version"]
    release = re.match(r"hq-desk \((.+?)\)", (root / "packaging/debian/changelog").read_text())[1]
    for words in (["--version"], ["-V"], ["-V", "serve"]):
        runs.expect(words, 0, f"hq {release} (calls {calls})\n".encode())


def refused(runs, words, fault, usage):
    told = f"error: {fault}\n\nUsage: hq {usage}\n\nFor more information, try '--help'.\n"
    runs.expect(words, 2, b"", told.encode())


def words_are_refused(runs):
    for word in ("help", "customers.csv", ""):
        refused(runs, [word], f"unrecognized subcommand '{word}'", "[COMMAND]")
    for word, meant in (("Batch", "batch"), ("Serve", "serve")):
        similar = f"unrecognized subcommand '{word}'\n\n  tip: a similar subcommand exists: '{meant}'"
        refused(runs, [word], similar, "[COMMAND]")
    for option in ("--store", "--directory", "-v", "-x"):
        refused(runs, [option], f"unexpected argument '{option}' found", "[COMMAND]")
    told = ("'hq' requires a subcommand but one was not provided\n  [subcommands: serve, batch, check, queue, history, "
            "hold, release, delete, usage, import, sweep, migrate]")
    refused(runs, ["--"], told, "[COMMAND]")


def options_are_refused(runs, word, usage, options):
    """Of a word that asks for a directory and a host: what is missing, doubled, without a value, unknown. And of the two
    options for the relay's key one is wanted."""
    for left_out in range(2):
        words = [word, "--directory", "customers.csv", "--host", HOST]
        del words[1 + 2 * left_out:3 + 2 * left_out]
        name, value = NEEDED[left_out]
        refused(runs, words, f"{MISSING}\n  {name} {value}", f"{word} {ALL_NEEDED}")
    none = [word, "--directory", "none.csv", "--host", ""]
    runs.expect(none, 2, b"", ONE_KEY)
    runs.expect([*none, "--relay-key", "short", "--relay-key-file", "none"], 2, b"", ONE_KEY)
    runs.expect([*none, "--relay-key-file=none", "--relay-key="], 2, b"", ONE_KEY)
    every = "".join(f"\n  {name} {value}" for name, value in NEEDED)
    refused(runs, [word], MISSING + every, f"{word} {ALL_NEEDED}")
    refused(runs, [word, "--store", "desk.db"], MISSING + every, f"{word} {ALL_NEEDED} --store <FILE>")
    keys = [("--relay-key", "<KEY>"), ("--relay-key-file", "<FILE>")]
    for name, value in [*NEEDED, *keys, *options]:
        given = [] if (name, value) in (*NEEDED, keys[0]) else [name, "7"]
        doubled = [*batch(word=word), *given, name, "7"]
        refused(runs, doubled, f"the argument '{name} {value}' cannot be used multiple times", usage)
        valueless(runs, [word, name], name, value)
    refused(runs, [*batch(word=word), "desk.db"], "unexpected argument 'desk.db' found", usage)


def valueless(runs, words, name, value):
    told = f"error: a value is required for '{name} {value}' but none was supplied\n\nFor more information, try '--help'.\n"
    runs.expect(words, 2, b"", told.encode())


def batch_words_are_refused(runs):
    options_are_refused(runs, "batch", ANY_BATCH, [("--store", "<FILE>"), ("--log", "<FILE>")])


def server_words_are_refused(runs):
    """A number is in its range; and what is wrong with the words is told before any value is looked at."""
    options = [("--store", "<FILE>"), ("--listen", "<ADDRESS>"), ("--count", "<N>"), ("--idle-timeout", "<SECONDS>"),
               ("--request-timeout", "<SECONDS>"), ("--log", "<FILE>")]
    options_are_refused(runs, "serve", ANY_SERVE, options)
    for option, shown, most in (("count", "N", 1000000), ("idle-timeout", "SECONDS", 3600), ("request-timeout", "SECONDS", 3600)):
        for value, why in (("0", f"0 is not in 1..={most}"), (f"{most + 1}", f"{most + 1} is not in 1..={most}"),
                           ("x", "invalid digit found in string"), ("1.5", "invalid digit found in string")):
            told = f"error: invalid value '{value}' for '--{option} <{shown}>': {why}\n\nFor more information, try '--help'.\n"
            runs.expect([*serve("none.csv", "", "short"), f"--{option}", value], 2, b"", told.encode())


def administrators_words_are_refused(runs):
    """Each option but the customer of a sweep is asked for, in the order of the help; a moment is a number in its range."""
    for word, given in (("check", CHECK), ("queue", QUEUE), ("history", QUEUE), ("hold", MOVE), ("release", MOVE),
                        ("delete", MOVE), ("usage", USAGE), ("import", IMPORT), ("sweep", SWEEP_ALL), ("migrate", MIGRATE)):
        options = [f"--{name} {shown}" for name, shown, _ in given]
        usage = f"{word} " + " ".join(options)
        refused(runs, [word], MISSING + "".join(f"\n  {option}" for option in options), usage)
        for left_out, option in enumerate(options):
            words = asked(word, given[:left_out] + given[left_out + 1:])
            refused(runs, words, f"{MISSING}\n  {option}", usage)
        any_usage = usage.replace(word, f"{word} [OPTIONS]", 1) if word not in ("usage", "import", "migrate") else usage
        refused(runs, [*asked(word, given), "x"], "unexpected argument 'x' found", any_usage)
    runs.expect(check("none.csv", "", "--relay-key", "short", "--relay-key-file", "none"), 2, b"", ONE_KEY)
    needed = [f"--{name} {shown}" for name, shown, _ in SWEEP_ALL]
    named = "--customer <NAME>"
    left_out = MISSING + "".join(f"\n  {option}" for option in needed)
    refused(runs, ["sweep", "--customer", "acme"], left_out, f"sweep {' '.join([*needed, named])}")
    twice = [*asked("sweep", SWEEP), "--customer", "birch"]
    refused(runs, twice, f"the argument '{named}' cannot be used multiple times", f"sweep [OPTIONS] {' '.join(needed)}")
    valueless(runs, [*asked("sweep", SWEEP_ALL), "--customer"], "--customer", "<NAME>")
    for at, why in (("4102444800", "4102444800 is not in 0..=4102444799"), ("1x", "invalid digit found in string")):
        told = f"error: invalid value '{at}' for '--at <AT>': {why}\n\nFor more information, try '--help'.\n"
        runs.expect(asked("sweep", SWEEP, at=at), 2, b"", told.encode())
        runs.expect(asked("sweep", SWEEP_ALL, at=at), 2, b"", told.encode())


def patterns_are_refused(runs):
    """One pattern is wanted by what moves messages, and one at most by what lists them; then come the directory, the customer,
    the pattern and the store."""
    both = ["--sender", "a.example", "--recipient", "b.example"]
    wanted = b"error: one of --sender and --recipient is wanted, and not both\n\nFor more information, try '--help'.\n"
    at_most = b"error: not both of --sender and --recipient are wanted\n\nFor more information, try '--help'.\n"
    for word, given in (("hold", MOVE), ("release", MOVE), ("delete", MOVE), ("queue", QUEUE), ("history", QUEUE)):
        told = wanted if given is MOVE else at_most
        for extra in (both, []) if given is MOVE else (both,):
            runs.expect([*asked(word, given, directory="none.csv"), *extra], 2, b"", told)
        bad = ["--recipient", "a pattern"]
        runs.expect([*asked(word, given, directory="none.csv"), *bad], 1, b"", b"hq: file\n")
        runs.expect([*asked(word, given, customer="ACME", store="."), *bad], 1, b"", b"hq: 13 NoCustomer\n")
        runs.expect([*asked(word, given, store="."), *bad], 1, b"", b"hq: 24 BadPattern\n")
        runs.expect([*asked(word, given, store="."), *both[:2]], 1, b"", b"hq: 91 Disk\n")
        valueless(runs, [*asked(word, given), "--sender"], "--sender", "<PATTERN>")


def what_cannot_be_told(runs):
    """A word that is no text; a text that cannot be shown; and where nothing can be told, the status tells it alone."""
    for words in ([b"batch\xff"], ["batch", "--store", b"\xff"]):
        runs.expect(words, 2, b"", b"hq: a word is not UTF-8\n")
        errors_are_full(runs, words, 2)
    for words in (["--help"], ["serve", "--help"], ["--version"]):
        output_is_full(runs, words, b"hq: output\n")
    errors_are_full(runs, ["customers"], 2)
    errors_are_full(runs, ["batch"], 2)
    errors_are_full(runs, batch("none.csv"), 1)


PARTS = [help_is_shown, version_is_shown, words_are_refused, batch_words_are_refused, server_words_are_refused,
         administrators_words_are_refused, patterns_are_refused, what_cannot_be_told]
