"""Of tests/program/test_words.py: what a batch, a server and a check refuse, each reason before those behind it, and batches that are served."""
import socket

from serving import HEADER
from words_runs import (ACME, BIRCH, HOST, KEY, LISTED, NO_KEY, ONE_REPORT, QUEUE, QUEUED, SUBMIT, asked, batch, check,
                        output_is_full, serve, sqlite3)

NO_HEADER = ": the header is not name,key,messages,bytes,lines,notices,delay"
NO_NAME = ", column name: not 1 to 32 lower-case letters, digits and hyphens"
NO_KEY_THERE = ", column key: not 16 to 64 letters and digits"


def no_number(column, least, most):
    return f", column {column}: no number from {least} to {most}"


NO_BYTES = no_number("bytes", 1, 2147483647000)

# What is wrong with a directory, what is told of it, and what a check tells of the row.
DIRECTORIES = [
    ("", "53 BadDirectory row 0", ": no row below the header"),
    ("\n", "53 BadDirectory row 0", ": no row below the header"),
    (HEADER, "53 BadDirectory row 0", ": no row below the header"),
    (ACME, "53 BadDirectory row 0", ": no row below the header"),
    (ACME + BIRCH, "53 BadDirectory row 0", NO_HEADER),
    (HEADER.replace("delay", "delay,note") + ACME, "53 BadDirectory row 0", NO_HEADER),
    (HEADER.replace("name,key", "key,name") + ACME, "53 BadDirectory row 0", NO_HEADER),
    ("\ufeff\ufeff" + HEADER + ACME, "53 BadDirectory row 0", NO_HEADER),
    (HEADER + ACME + "#" * 262_145, "53 BadDirectory row 0", ": more than 262144 bytes"),
    (HEADER + "Acme,acmekey000000001,2,10000,10,5,0\n", "53 BadDirectory row 1", NO_NAME),
    (HEADER + ACME + "acmekey-000000001,acme,2,10000,10,5,0\n", "53 BadDirectory row 2", NO_KEY_THERE),
    (HEADER + ACME + "ACMEKEY000000001,acme,2,10000,10,5,0\n", "53 BadDirectory row 2", NO_NAME),
    (HEADER + ACME + ",,,,,,\n", "53 BadDirectory row 2", NO_NAME),
    (HEADER + ACME + "birch,birchkey,100,1000000,100,10,0\n", "53 BadDirectory row 2", NO_KEY_THERE),
    (HEADER + ACME + BIRCH + "cedar,cedarkey00000001,0,1,1,1,0\n", "53 BadDirectory row 3", no_number("messages", 1, 1000)),
    (HEADER + ACME + "birch,birchkey00000001,1001,1,1,1,0\n", "53 BadDirectory row 2", no_number("messages", 1, 1000)),
    (HEADER + ACME + "birch,birchkey00000001,1,2147483647001,1,1,0\n", "53 BadDirectory row 2", NO_BYTES),
    (HEADER + ACME + "birch,birchkey00000001,1,12x,0,0,x\n", "53 BadDirectory row 2", NO_BYTES),
    (HEADER + ACME + "birch,birchkey00000001,1,,1,1,0\n", "53 BadDirectory row 2", NO_BYTES),
    (HEADER + ACME + "birch,birchkey00000001,1,1,5001,1,0\n", "53 BadDirectory row 2", no_number("lines", 1, 5000)),
    (HEADER + ACME + "birch,birchkey00000001,1,1,1,1001,0\n", "53 BadDirectory row 2", no_number("notices", 1, 1000)),
    (HEADER + ACME + "birch,birchkey00000001,1,1,1,1,432000\n", "53 BadDirectory row 2", no_number("delay", 0, 431999)),
    (HEADER + ACME + "birch,birchkey00000001,1,1,1,1\n", "53 BadDirectory row 2", ": not 7 fields"),
    (HEADER + ACME + "birch,birchkey00000001,1,1,1,1,0,\n", "53 BadDirectory row 2", ": not 7 fields"),
    (HEADER + ACME + "acme,birchkey00000001,1,1,1,1,0\n", "54 DoubledName row 2", ", column name: as in a row before"),
    (HEADER + ACME + "acme,acmekey000000001,1,1,1,1,0\n", "54 DoubledName row 2", ", column name: as in a row before"),
    (HEADER + ACME + BIRCH + "cedar,acmekey000000001,1,1,1,1,0\n", "55 DoubledKey row 3", ", column key: as in a row before"),
    (HEADER + ACME + "acme,acmekey000000001,1,1,1,1,x\n", "53 BadDirectory row 2", no_number("delay", 0, 431999)),
    (HEADER + "".join(f"c{it},customerkey{it:05},1,1,1,1,0\n" for it in range(1001)), "53 BadDirectory row 1001", ": more than 1000 rows"),
]

# The relay's name, its key, the rows of a directory, and what is told first.
FIRST = [
    ("", "", "", "56 BadHost"),
    ("a..b", "relaykey00000001", ACME, "56 BadHost"),
    (HOST, "", "", "57 BadRelayKey"),
    (HOST, "relaykey0000000", "x\n", "57 BadRelayKey"),
    (HOST, "relay-key-000001", ACME, "57 BadRelayKey"),
    (HOST, "acmekey000000001", "", "53 BadDirectory row 0"),
    (HOST, "acmekey000000001", "x\n", "53 BadDirectory row 1"),
    (HOST, "acmekey000000001", ACME + ACME, "54 DoubledName row 2"),
    (HOST, "acmekey000000001", ACME + "birch,acmekey000000001,2,10000,10,5,0\n", "55 DoubledKey row 2"),
    (HOST, "acmekey000000001", ACME, "57 BadRelayKey"),
    (HOST, "relaykey00000001", ACME, None),
]

# What stands in the file of a key that is none.
NO_KEYS = ["", "\n", "\r\n", "short\n", f"{KEY}\r", f"{KEY}\n\n", f"{KEY}\r\r\n", f"{KEY}\n\r", f"{KEY}\n{KEY}\n", f"{KEY}\n# the key\n",
           f"\n{KEY}", f"\n{KEY}\n", f" {KEY}", f" {KEY}\n", f"{KEY} \n", f"\ufeff{KEY}\n", "k" * 65, f"{KEY}\n" * 20000]


# ---- what is refused

def first_refusals(runs):
    """The relay's name, the form of its key, the directory, and the relay's key beside the customers'; by key and by file."""
    for host, key, rows, told in FIRST:
        (runs.folder / "refused.csv").write_text(HEADER + rows)
        (runs.folder / "relay.key").write_text(f"{key}\n")
        begun, listening = (0, LISTED), (1, b"", b"hq: network\n")
        refused = (1, b"", f"hq: {told}\n".encode())
        for given in ({"key": key}, {"key_file": "relay.key"}):
            runs.expect(batch("refused.csv", host, **given), *(refused if told else begun))
            runs.expect(serve("refused.csv", host, **given), *(refused if told else listening))
    for given in (["--relay-key", KEY], ["--relay-key-file", "relay.key"]):
        runs.expect(check("refused.csv", HOST, *given), 0, b"1 customer\n")


def checks_come_in_order(runs):
    """Relay's name, its key, directory, its key against it, store; and of a server then its address, which is none here."""
    (runs.folder / "bad.csv").write_text(HEADER + ACME + ACME)
    for words in (batch, serve):
        for host in ("", "relay..example", "relay example", "a" * 255, "relay.example."):
            runs.expect(words("none.csv", host, "short"), 1, b"", b"hq: 56 BadHost\n")
        for key in ("", "short", "relay-key-000001", "k" * 65):
            runs.expect(words("none.csv", HOST, key), 1, b"", b"hq: 57 BadRelayKey\n")
        for unread in ("none.csv", ".", "customers.csv/none", ""):
            runs.expect(words(unread, HOST, "acmekey000000001", "other.csv"), 1, b"", b"hq: file\n")
        runs.expect(words("bad.csv", HOST, "acmekey000000001", "."), 1, b"", b"hq: 54 DoubledName row 2\n")
        for key in ("acmekey000000001", "birchkey00000001"):
            runs.expect(words(key=key, store="."), 1, b"", b"hq: 57 BadRelayKey\n")
        runs.expect(words(store="."), 1, b"", b"hq: 91 Disk\n")


def directories_are_refused(runs):
    """A check tells what a start does, and then the column of the row; with a relay's key and without one."""
    keys = [], ["--relay-key", KEY], ["--relay-key-file", "relay.key"]
    (runs.folder / "relay.key").write_text(f"{KEY}\n")
    for file, told, why in DIRECTORIES:
        (runs.folder / "refused.csv").write_bytes(file.encode())
        runs.expect(batch("refused.csv", store="refused.db"), 1, b"", f"hq: {told}\n".encode())
        runs.expect(serve("refused.csv", store="refused.db"), 1, b"", f"hq: {told}\n".encode())
        for given in keys:
            row = told.partition(" row ")[2]
            runs.expect(check("refused.csv", HOST, *given), 1, b"", f"hq: {told}\nhq: row {row}{why}\n".encode())
    (runs.folder / "refused.csv").write_bytes(f"{HEADER}{ACME}".encode() + b"b\xff,birchkey00000001,1,1,1,1,0\n")
    runs.expect(batch("refused.csv", store="refused.db"), 1, b"", b"hq: 53 BadDirectory row 2\n")
    runs.expect(check("refused.csv"), 1, b"", f"hq: 53 BadDirectory row 2\nhq: row 2{NO_NAME}\n".encode())


def keys_stand_in_files(runs):
    """One line, whose end may be missing; the file is read behind the relay's name, and its key checked before the directory."""
    for words in (batch, serve):
        runs.expect(words("none.csv", "", key_file="none"), 1, b"", b"hq: 56 BadHost\n")
        for unread in ("none", ".", "customers.csv/none"):
            runs.expect(words("none.csv", key_file=unread), 1, b"", b"hq: file\n")
        for text in NO_KEYS:
            (runs.folder / "relay.key").write_bytes(text.encode())
            runs.expect(words("none.csv", key_file="relay.key"), 1, b"", b"hq: 57 BadRelayKey\n")
        (runs.folder / "relay.key").write_bytes(b"relaykey0000000\xff\n")
        runs.expect(words("none.csv", key_file="relay.key"), 1, b"", b"hq: 57 BadRelayKey\n")
        for text in (KEY, f"{KEY}\n", f"{KEY}\r\n"):
            (runs.folder / "relay.key").write_bytes(text.encode())
            runs.expect(words("none.csv", key_file="relay.key"), 1, b"", b"hq: file\n")
        (runs.folder / "relay.key").write_text("birchkey00000001\n")
        runs.expect(words(key_file="relay.key", store="."), 1, b"", b"hq: 57 BadRelayKey\n")
    (runs.folder / "relay.key").write_text(f"{KEY}\n")
    runs.expect(batch(key_file="relay.key"), 0, LISTED)
    runs.expect(serve(key_file="relay.key"), 1, b"", b"hq: network\n")


def checks_are_those_of_a_start(runs):
    """What a start would read is checked in its order, and nothing else is touched; a count is told where all is good."""
    for key in ([], ["--relay-key", "short"], ["--relay-key-file", "none"]):
        runs.expect(check("none.csv", "", *key), 1, b"", b"hq: 56 BadHost\n")
    runs.expect(check("none.csv", HOST, "--relay-key", "short"), 1, b"", b"hq: 57 BadRelayKey\n")
    runs.expect(check("none.csv", HOST, "--relay-key-file", "none"), 1, b"", b"hq: file\n")
    for unread in ("none.csv", ".", ""):
        runs.expect(check(unread), 1, b"", b"hq: file\n")
    two, one = b"2 customers\n", b"1 customer\n"
    (runs.folder / "bad.csv").write_text(HEADER + ACME + ACME)
    runs.expect(check("bad.csv"), 1, b"", b"hq: 54 DoubledName row 2\nhq: row 2, column name: as in a row before\n")
    runs.expect(check(), 0, two)
    runs.expect(check("customers.csv", HOST, "--relay-key", KEY), 0, two)
    runs.expect(check("customers.csv", HOST, "--relay-key-file", "relay.key"), 0, two)
    runs.expect(check("customers.csv", HOST, "--relay-key", "birchkey00000001"), 1, b"", b"hq: 57 BadRelayKey\n")
    (runs.folder / "refused.csv").write_text(HEADER + ACME)
    runs.expect(check("refused.csv"), 0, one)
    rows = "".join(f"c{it},customerkey{it:05},1,1,1,1,0\n" for it in range(1000))
    (runs.folder / "refused.csv").write_text(HEADER + rows)
    runs.expect(check("refused.csv"), 0, b"1000 customers\n")
    output_is_full(runs, check(), b"hq: output\n")


def addresses_are_refused(runs):
    """A text that is no address, an address that another socket has, and a path where no socket can be; it is looked at when a
    store is open."""
    with socket.create_server(("127.0.0.1", 0)) as taken:
        port = taken.getsockname()[1]
        for listen in ("localhost:8025", "127.0.0.1", "127.0.0.1:", ":8025", "8025", "127.0.0.1:70000", "127.0.0.1:-1",
                       "256.0.0.1:8025", "::1:8025", " 127.0.0.1:8025", "", f"127.0.0.1:{port}", "unix:", "Unix:desk.sock",
                       "unix:none/desk.sock", "unix:customers.csv", f"unix:{'x' * 108}"):
            runs.expect(serve(listen=listen), 1, b"", b"hq: network\n")


def stores_are_opened_before_the_address(runs):
    """A store that is none is told before the address; else it is there, and holds what it held."""
    (runs.folder / "text.db").write_text("This is a letter, and no database.\n" * 100)
    with sqlite3.connect(runs.folder / "other.db") as base:
        base.execute("CREATE TABLE lines (a)")
    base.close()
    runs.expect(serve(store="text.db"), 1, b"", b"hq: 91 Disk\n")
    runs.expect(serve(store="none/desk.db"), 1, b"", b"hq: 91 Disk\n")
    runs.expect(serve(store="other.db"), 1, b"", b"hq: 92 BadSchema\n")
    runs.expect(serve(store="listened.db"), 1, b"", b"hq: network\n")
    runs.expect(batch(store="listened.db"), 0, LISTED)
    runs.expect(batch(store="listened.db"), 0, QUEUED.format("0000000001").encode(), b"", SUBMIT.format(1767225600, "s1").encode())
    runs.expect(serve(store="listened.db"), 1, b"", b"hq: network\n")
    runs.expect(asked("queue", QUEUE, store="listened.db"), 0, ONE_REPORT)


# ---- a batch

def batches_are_served(runs):
    for file in (
        HEADER + ACME,
        "\ufeff" + HEADER + ACME,
        (HEADER + ACME).replace("\n", "\r\n"),
        (HEADER + ACME).replace("acme,", '"acme",').rstrip("\n"),
        HEADER + "\n" + ACME.replace(",2,", ",0000000000002,"),
        HEADER + "".join(f"c{it},customerkey{it:05},1,1,1,1,0\n" for it in range(999)) + ACME,
    ):
        (runs.folder / "good.csv").write_bytes(file.encode())
        runs.expect(batch("good.csv"), 0, LISTED)
    (runs.folder / "birch.csv").write_text(HEADER + BIRCH)
    runs.expect(batch("birch.csv"), 0, NO_KEY)
    runs.expect([], 0, LISTED)
    runs.expect(["batch", f"--relay-key={KEY}", "--store=desk.db", f"--host={HOST}", "--directory=customers.csv"], 0, LISTED)
    runs.expect(batch(store="desk.db"), 0, LISTED)
    runs.expect(batch(host="a", key="k" * 64), 0, b"", b"", b"")
    runs.expect(batch(store="customers.csv"), 1, b"", b"hq: 91 Disk\n")


# (nothing of these makes a store)
REFUSED = [checks_come_in_order, first_refusals, directories_are_refused, keys_stand_in_files, checks_are_those_of_a_start,
           addresses_are_refused]
SERVED = [stores_are_opened_before_the_address, batches_are_served]
