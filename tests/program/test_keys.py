"""Tries the file of `--keys`: the keys that customers have beside their own.

1. What is wrong with a file is told by its row and column, in the written order, by a batch, a server and a check; it is read
   behind the directory, and before the relay's key is compared with those of customers.
2. A good file is taken: with rows in any order, quoted, behind a byte order mark, with 1,000 rows.
3. Over HTTP a key is a key of its customer, and the log tells the key's name and no key.

What each key may ask for, and what it is told, is in tests/examples/named-keys.
"""
import json

import pytest
from serving import HEADER, RELAY, Server, expect, request, submission
from serving import words as words_of
from words_runs import ACME, BIRCH, HOST, KEY, LISTED, Runs, batch, check, serve

KEYS = "customer,name,key,right\n"
CI = "acme,ci,acmecikey0000001,all\n"
NO_NAME = "not 1 to 32 lower-case letters, digits and hyphens"
NO_KEY = "not 16 to 64 letters and digits"
TAKEN = ", column key: as that of a customer or of a row before"

QUEUED = '{"id":"0000000001","recipients":["bob@far.example"],"refused":[],"state":"incoming","verdict":"queued"}'

# What is wrong with a file, and what is told of it.
WRONG = [
    ("", "0: no row below the header"),
    ("\n", "0: no row below the header"),
    (KEYS, "0: no row below the header"),
    (CI, "0: no row below the header"),
    (CI + CI, "0: the header is not customer,name,key,right"),
    ("name,customer,key,right\n" + CI, "0: the header is not customer,name,key,right"),
    ("customer,name,key,right,note\n" + CI, "0: the header is not customer,name,key,right"),
    (KEYS + CI + "#" * 262_145, "0: more than 262144 bytes"),
    (KEYS + "acme,ci,acmecikey0000001\n", "1: not 4 fields"),
    (KEYS + CI + "acme,ci2,acmecikey0000002,all,\n", "2: not 4 fields"),
    (KEYS + "Acme,Ci,short,write\n", f"1, column customer: {NO_NAME}"),
    (KEYS + "acme,Ci,short,write\n", f"1, column name: {NO_NAME}"),
    (KEYS + "acme,,short,write\n", f"1, column name: {NO_NAME}"),
    (KEYS + "acme,ci,short,write\n", f"1, column key: {NO_KEY}"),
    (KEYS + "acme,ci,acme-ci-key-0001,write\n", f"1, column key: {NO_KEY}"),
    (KEYS + "acme,ci,acmecikey0000001,write\n", "1, column right: not all or read"),
    (KEYS + "acme,ci,acmecikey0000001,All\n", "1, column right: not all or read"),
    (KEYS + "cedar,ci,acmekey000000001,write\n", "1, column right: not all or read"),
    (KEYS + CI + "cedar,ci,acmekey000000001,read\n", "2, column customer: not in the directory"),
    (KEYS + CI + "acme,ci,acmecikey0000001,read\n", "2, column name: as in a row before"),
    (KEYS + CI + "acme,ci,acmecikey0000002,all\n", "2, column name: as in a row before"),
    (KEYS + CI + "acme,ci2,acmecikey0000001,all\n", "2" + TAKEN),
    (KEYS + CI + "birch,ci,acmecikey0000001,all\n", "2" + TAKEN),
    (KEYS + "acme,own,acmekey000000001,all\n", "1" + TAKEN),
    (KEYS + "acme,other,birchkey00000001,read\n", "1" + TAKEN),
    (KEYS + "".join(f"acme,k{it},acmekey1{it:09},all\n" for it in range(1001)), "1001: more than 1000 rows"),
]

# Files that are taken.
GOOD = [
    KEYS + CI,
    "\ufeff" + KEYS + CI,
    KEYS.replace("\n", "\r\n") + CI.replace("\n", "\r\n"),
    KEYS + '"acme","ci","acmecikey0000001","all"',
    KEYS + CI + "birch,ci,birchcikey000001,read\nacme,dashboard,acmedashkey00001,read\n",
    # a key is compared byte for byte, and a name with those of its own customer alone
    KEYS + CI + "acme,ci2,ACMECIKEY0000001,all\n",
    KEYS + "".join(f"acme,k{it},acmekey1{it:09},read\n" for it in range(1000)),
]


def with_keys(words, path="keys.csv"):
    return [*words, "--keys", path]


def test_wrong_files(program, folder):
    """Each is told in one line, and nothing is replied to, listened on or made."""
    runs = Runs(program, folder)
    for text, told in WRONG:
        (folder / "keys.csv").write_text(text, encoding="utf-8")
        for words in (batch(store="desk.db"), serve(store="desk.db"), check(), check("customers.csv", HOST, "--relay-key", KEY)):
            runs.expect(with_keys(words), 1, b"", f"hq: keys row {told}\n".encode())
    left = sorted(it.name for it in folder.iterdir())
    expect(left == ["customers.csv", "keys.csv"], "a refused run left", left)


def test_order(program, folder):
    """The directory comes first, then the file of keys, and then the relay's key beside those of customers."""
    runs = Runs(program, folder)
    (folder / "keys.csv").write_text(KEYS + CI)
    (folder / "bad-keys.csv").write_text(KEYS)
    (folder / "bad.csv").write_text(HEADER + ACME + ACME)
    bad = b"hq: keys row 0: no row below the header\n"
    for words in (batch, serve):
        runs.expect(with_keys(words("bad.csv", HOST, "acmecikey0000001", "."), "bad-keys.csv"), 1, b"",
                    b"hq: 54 DoubledName row 2\n")
        for unread in ("none.csv", ".", ""):
            runs.expect(with_keys(words(key="acmekey000000001", store="."), unread), 1, b"", b"hq: file\n")
        runs.expect(with_keys(words(key="acmekey000000001", store="."), "bad-keys.csv"), 1, b"", bad)
        for key in ("acmekey000000001", "acmecikey0000001"):
            runs.expect(with_keys(words(key=key, store=".")), 1, b"", b"hq: 57 BadRelayKey\n")
        runs.expect(with_keys(words(store=".")), 1, b"", b"hq: 91 Disk\n")
    given = check("customers.csv", HOST, "--relay-key", "acmecikey0000001")
    runs.expect(with_keys(given, "bad-keys.csv"), 1, b"", bad)
    runs.expect(with_keys(given), 1, b"", b"hq: 57 BadRelayKey\n")
    runs.expect(with_keys(check("bad.csv"), "bad-keys.csv"), 1, b"",
                b"hq: 54 DoubledName row 2\nhq: row 2, column name: as in a row before\n")


@pytest.mark.parametrize("text", GOOD, ids=range(len(GOOD)))
def test_good_files(program, folder, text):
    runs = Runs(program, folder)
    (folder / "keys.csv").write_text(text, encoding="utf-8")
    runs.expect(with_keys(check()), 0, b"2 customers\n")
    runs.expect(with_keys(check("customers.csv", HOST, "--relay-key", KEY)), 0, b"2 customers\n")
    runs.expect(with_keys(batch()), 0, LISTED)


def test_over_http(program, folder):
    """A key with a name is one of its customer, and the log has the name."""
    (folder / "customers.csv").write_text(HEADER + ACME + BIRCH)
    (folder / "keys.csv").write_text(KEYS + CI + "acme,dashboard,acmedashkey00001,read\n")
    wrong = '{"error":3,"name":"WrongRole"}'
    asked = [
        ("POST", "/relay/submit/acme", RELAY, submission("s1"), 200, QUEUED, None),
        ("POST", "/v1/hold/0000000001", "acmedashkey00001", None, 403, wrong, "dashboard"),
        ("POST", "/v1/hold/0000000001", "acmecikey0000001", None, 200, '{"changed":1}', "ci"),
        ("POST", "/relay/sweep", "acmedashkey00001", None, 403, wrong, "dashboard"),
        ("GET", "/v1/" + "x" * 300, "acmecikey0000001", None, 404, '{"error":4,"name":"NoRoute"}', "ci"),
        ("POST", "/v1/release/0000000001", "acmekey000000001", None, 200, '{"changed":1}', None),
        ("POST", "/relay/hold-matching/acme", RELAY, {"class": "sender", "pattern": "ann@"}, 200, '{"changed":1}', None),
    ]
    log = folder / "desk.log"
    served = [*with_keys(words_of(program, "serve")), "--log", "desk.log"]
    with Server(served, folder, len(asked)) as server:
        for method, path, key, body, status, reply, _ in asked:
            server.ask(request(method, path, key, *([body] if body else [])), status, reply)
    lines = log.read_text(encoding="utf-8").splitlines()
    expect([json.loads(it)["customer"] for it in lines] == ["acme"] * len(asked), "the log has", lines)
    expect([json.loads(it).get("key") for it in lines] == [it[-1] for it in asked], "the log has", lines)
    expect(lines[1].endswith(',"path":"/v1/hold/0000000001","status":403,"key":"dashboard"}'), "the log has", lines[1])
    expect(lines[4].endswith('x","status":404,"key":"ci","cut":true}'), "the log has", lines[4])
    expect(not any(key in it for it in lines for key in ("acmecikey0000001", "acmedashkey00001")), "a key is in", lines)
