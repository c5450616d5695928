"""What the parts of tests/program/test_words.py share: the program in a folder, the words that it is given, and what is kept there."""
import subprocess

import pytest
from serving import HEADER, LONGEST, Wrong

sqlite3 = pytest.importorskip("sqlite3")

LINE = b"1767225600 GET /v1/messages acmekey000000001\n"
LISTED = b'200 {"messages":[],"more":false}\n'
NO_KEY = b'401 {"error":2,"name":"NoKey"}\n'

ACME = "acme,acmekey000000001,2,10000,10,5,3600\n"
BIRCH = "birch,birchkey00000001,100,1000000,100,10,0\n"
HOST, KEY = "relay.example", "relaykey00000001"

# A message that comes in, what is told of it, and the report that has it.
SUBMIT = ('{} POST /relay/submit/acme relaykey00000001 {{"spool":"{}","sender":"ann@a.example",'
          '"recipients":["bob@b.example"],"size":900}}\n')
QUEUED = '200 {{"id":"{}","recipients":["bob@b.example"],"refused":[],"state":"incoming","verdict":"queued"}}\n'
ONE_REPORT = b"""\
Queue ID          Size Arrival                         Sender/Recipient
0000000001         900 Thu, 01 Jan 2026 00:00:00 +0000 ann@a.example
    bob@b.example
-- 1 queued, 900 bytes, 0 on hold
"""


class Runs:
    """The program in a folder of its own, with a directory of two customers in `customers.csv`."""

    def __init__(self, program, folder):
        self.program, self.folder, self.count = program, folder, 0
        (folder / "customers.csv").write_text(HEADER + ACME + BIRCH)

    def expect(self, words, status, output=b"", errors=b"", lines=LINE):
        ended = subprocess.run(
            [self.program, *words], input=lines, stdout=subprocess.PIPE, stderr=subprocess.PIPE, cwd=self.folder, timeout=LONGEST
        )
        found = ended.returncode, ended.stdout, ended.stderr
        if found != (status, output, errors):
            raise Wrong(words, "gave", found, "and not", (status, output, errors))
        self.count += 1


# The options of an administrator's words, how their values are shown, and what they are here.
FILES = [("directory", "<FILE>", "customers.csv"), ("store", "<FILE>", "desk.db"), ("customer", "<NAME>", "acme")]
QUEUE = FILES
IMPORT = [*FILES, ("label", "<LABEL>", "january"), ("file", "<FILE>", "lines.csv")]
SWEEP = [FILES[0], ("host", "<HOST>", HOST), *FILES[1:], ("at", "<AT>", "1767225600")]
SWEEP_ALL = [it for it in SWEEP if it[0] != "customer"]
MIGRATE = [FILES[1]]
USAGE = FILES[:2]
MOVE = [*FILES, ("at", "<AT>", "1767225700")]
CHECK = [FILES[0], ("host", "<HOST>", HOST)]


def asked(word, given, **other):
    words = [word]
    for name, _, value in given:
        words += [f"--{name}", other.get(name, value)]
    return words


def batch(directory="customers.csv", host=HOST, key=KEY, store=None, word="batch", key_file=None):
    keys = ["--relay-key-file", key_file] if key_file else ["--relay-key", key]
    words = [word, "--directory", directory, "--host", host, *keys]
    return [*words, "--store", store] if store else words


def check(directory="customers.csv", host=HOST, *keys):
    return ["check", "--directory", directory, "--host", host, *keys]


def serve(directory="customers.csv", host=HOST, key=KEY, store=None, listen="127.0.0.1", key_file=None):
    """A server, whose address is none where no other is given: it never listens."""
    return [*batch(directory, host, key, store, "serve", key_file), "--listen", listen]


def output_is_full(runs, words, errors):
    """An output that takes nothing ends what is printed; the fault that ended the sweep is told all the same."""
    with open("/dev/full", "wb") as full:
        ended = subprocess.run(
            [runs.program, *words], stdin=subprocess.DEVNULL, stdout=full, stderr=subprocess.PIPE, cwd=runs.folder, timeout=LONGEST
        )
    if (ended.returncode, ended.stderr) != (1, errors):
        raise Wrong(words, "with a full output gave", ended.returncode, ended.stderr, "and not", (1, errors))
    runs.count += 1


def errors_are_full(runs, words, status):
    """Where standard error takes nothing, nothing is told, and the status is the same."""
    with open("/dev/full", "wb") as full:
        ended = subprocess.run(
            [runs.program, *words], stdin=subprocess.DEVNULL, stdout=subprocess.PIPE, stderr=full, cwd=runs.folder, timeout=LONGEST
        )
    if (ended.returncode, ended.stdout) != (status, b""):
        raise Wrong(words, "with full errors gave", ended.returncode, ended.stdout, "and not", (status, b""))
    runs.count += 1
