"""Named keys by hq-customers: in which files they stand, what is refused, and what a stop at any moment leaves.

`hq check` is the real one, so that what a desk gets is what it starts by.
"""
import csv
import subprocess
import sys

import pytest
from customers_place import ACME, STOPPED, Place, mode
from deploying import DEPLOY
from serving import HEADER, LONGEST, RELAY, expect

BIRCH = "birch,birchkey00000001,100,1000000,100,10,0\n"
NAMED = "customer,name,key,right\n"
SETTINGS = "HOST=relay.example\nLISTEN=127.0.0.1:825"


@pytest.fixture
def place(folder, program):
    return Place(folder, program, ACME + BIRCH)


def keys_of(place, name="north"):
    """The rows of a file of named keys; none where there is no file."""
    path = place.folder / f"{name}.keys.csv"
    if not path.exists():
        return []
    with open(path, newline="") as file:
        header, *rows = csv.reader(file)
    expect(header == ["customer", "name", "key", "right"] and rows, "the file of keys is", header, rows)
    return rows


def settings_of(place, name="north"):
    return (place.folder / f"{name}.env").read_text()


def starts(place, name="north"):
    """A desk starts by its files as they stand, with the words that its settings have for named keys."""
    words = [place.bin / "hq", "check", "--directory", place.folder / f"{name}.csv", "--host", "relay.example",
             "--relay-key-file", place.folder / f"{name}.key"]
    words += [it[len("KEYS="):] for it in settings_of(place, name).splitlines() if it.startswith("KEYS=")]
    ended = subprocess.run(words, capture_output=True, text=True, timeout=LONGEST, stdin=subprocess.DEVNULL)
    expect((ended.returncode, ended.stderr) == (0, ""), "a start says", ended)


def test_added(place):
    """A named key stands in the file of keys and the map alone; the setting that has it read stands behind the others."""
    (place.folder / "north.env").write_text(f"# ours\n{SETTINGS}")
    panel = place.done("add-key", "acme", "panel").strip()
    report = place.done("add-key", "acme", "report-1", "--read").strip()
    birch = place.done("add-key", "birch", "panel").strip()
    expect(len({panel, report, birch}) == 3 and all(len(it) == 40 and it.isalnum() for it in (panel, report, birch)),
           "keys are", panel, report, birch)
    wanted = [["acme", "panel", panel, "all"], ["acme", "report-1", report, "read"], ["birch", "panel", birch, "all"]]
    expect(keys_of(place) == wanted, "the rows are", keys_of(place))
    expect(settings_of(place) == f"# ours\n{SETTINGS}\nKEYS=--keys={place.folder}/north.keys.csv\n", "settings are",
           settings_of(place))
    texts = {name: text.decode() for name, text in place.files().items()}
    for key, holder in ((panel, "acme/panel"), (report, "acme/report-1/read"), (birch, "birch/panel"), ("acmekey000000001", "acme")):
        expect(f"{key} {holder};\n" in texts["keys.map"], "the map lacks a key of", holder)
    expect(texts["names.map"] == "default 127.0.0.1:825;\nacme 127.0.0.1:825;\nbirch 127.0.0.1:825;\n", "the names are", texts["names.map"])
    expect([it for it, text in sorted(texts.items()) if report in text] == ["keys.map", "north.keys.csv"], "its key is told elsewhere")
    expect(texts["north.csv"] == HEADER + ACME + BIRCH, "the directory is", texts["north.csv"])
    expect(mode(place.folder / "north.keys.csv") == 0o640, "its mode is", oct(mode(place.folder / "north.keys.csv")))
    starts(place)


def test_listed(place):
    """Names and rights are listed, and no key."""
    expect("key" not in place.done("list"), "there is a key")
    keys = [place.done("add-key", "acme", it, *more).strip() for it, more in (("panel", []), ("report", ["--read"]))]
    acme, birch = place.done("list").splitlines()
    expect(acme.endswith(", delay 14400, key panel all, key report read") and birch.endswith(", delay 0"), "listed is",
           acme, birch)
    expect(not any(it in acme for it in (*keys, "acmekey000000001")), "a key is listed:", acme)


def test_dropped(place):
    """A key that is dropped goes alone; with the last one file and setting go, and all is as it was."""
    place.done("set", "acme", "--messages", "1000")
    before = place.files()
    first, second = (place.done("add-key", "acme", it).strip() for it in ("one", "two"))
    place.done("drop-key", "acme", "one")
    expect(keys_of(place) == [["acme", "two", second, "all"]], "the rows are", keys_of(place))
    expect(first not in (place.folder / "keys.map").read_text() and second in (place.folder / "keys.map").read_text(), "the map")
    starts(place)
    place.done("drop-key", "acme", "two")
    expect(place.files() == before, "left are", place.files().keys() ^ before.keys(), settings_of(place))
    starts(place)


def test_with_its_customer(place):
    """Another key of its own leaves a customer its named keys; where it is dropped they go, and no other's."""
    kept = place.done("add-key", "birch", "panel").strip()
    place.done("add-key", "acme", "panel")
    before = keys_of(place)
    place.done("key", "acme")
    place.done("set", "acme", "--history", "9")
    expect(keys_of(place) == before, "the rows are", keys_of(place))
    ended = place.run("drop", "acme")
    expect(ended.returncode == 1 and keys_of(place) == before, "a customer that stays has", keys_of(place), ended)
    place.done("drop", "acme", "--queued")
    expect(keys_of(place) == [["birch", "panel", kept, "all"]], "the rows are", keys_of(place))
    left = [name for name, text in place.files().items() if b"acme" in text]
    expect(left == ["dropped.csv"], "acme is left in", left)
    starts(place)


BAD = [
    (["add-key", "nobody", "panel"], "there is no customer nobody"),
    (["add-key", "acme", "panel"], "acme has a key panel already"),
    (["add-key", "acme", "Panel"], "'Panel' is no name of a key"), (["add-key", "acme", "p" * 33], "is no name of a key"),
    (["add-key", "acme", ""], "is no name of a key"), (["add-key", "acme", "a,b"], "is no name of a key"),
    (["drop-key", "nobody", "panel"], "there is no customer nobody"), (["drop-key", "acme", "none"], "acme has no key none"),
    (["drop-key", "birch", "panel"], "birch has no key panel"),
]


@pytest.mark.parametrize("words, told", BAD, ids=range(len(BAD)))
def test_refused(place, words, told):
    """Whatever is refused leaves each file as it was."""
    place.done("add-key", "acme", "panel")
    refused(place, words, told)


def refused(place, words, told):
    before = place.files()
    ended = place.run(*words)
    expect((ended.returncode, ended.stdout) == (1, "") and told in ended.stderr and ended.stderr.count("\n") == 1, words, "got", ended)
    expect("acmekey" not in ended.stderr and "namedkey" not in ended.stderr.lower(), "a key is told:", ended)
    expect(place.files() == before and not [*place.folder.glob(".customers-*")], words, "changed files")


def test_refused_files(place):
    """Files that an administrator wrote are refused as a start refuses them, and so is a key that two desks have in any case."""
    path = place.folder / "north.keys.csv"
    for text, told in (("customer,key\n", "is no file of named keys"), (f"{NAMED}acme,panel\n", "is no file of named keys"),
                       (f"{NAMED}cedar,panel,namedkey00000001,all\n", "keys row 1, column customer: not in the directory"),
                       (f"{NAMED}acme,a,namedkey00000001,all\nacme,b,birchkey00000001,all\n", "keys row 2, column key: "),
                       (f"{NAMED}acme,a,{RELAY},all\n", "57 BadRelayKey"),
                       (f"{NAMED}acme,a,namedkey00000001,write\n", "column right")):
        path.write_text(text)
        refused(place, ["add-key", "birch", "panel"], told)
        refused(place, ["set", "birch", "--lines", "7"], told)
    path.write_text(f"{NAMED}acme,a,namedkey00000001,all\n")
    place.desk("south", 826, "fir,NAMEDKEY00000001,100,1000000,100,10,0\n")
    refused(place, ["add-key", "birch", "panel"], "desk-maps refuses it, and nothing was changed")
    place.desk("south", 826, "fir,firkey0000000001,100,1000000,100,10,0\n")
    (place.folder / "north.env").write_text(f"{SETTINGS}\nKEYS=--keys=/etc/elsewhere.csv\n")
    refused(place, ["add-key", "birch", "panel"], "north.env has another line for KEYS than KEYS=--keys=")


def test_maps_by_hand(place):
    """`desk-maps` takes the file of keys that stands beside a directory, and no key of a customer that is not in it."""
    def mapped():
        words = [DEPLOY / "desk-maps", place.folder, f"127.0.0.1:825={place.folder}/north.csv"]
        return subprocess.run(words, capture_output=True, text=True, timeout=LONGEST)
    (place.folder / "north.keys.csv").write_text(f"{NAMED}birch,panel,NamedKey00000001,read\n")
    expect(mapped().returncode == 0, "the maps are refused:", mapped())
    wanted = "acmekey000000001 acme;\nbirchkey00000001 birch;\nnamedkey00000001 birch/panel/read;\n"
    expect((place.folder / "keys.map").read_text() == wanted, "the map is", (place.folder / "keys.map").read_text())
    for row, told in (("cedar,panel,namedkey00000001,all", "'cedar' is not in the directory"),
                      ("acme,panel,short,all", "a row of 'acme' has no key"),
                      ("acme,a b,namedkey00000001,all", "'a b' is no name of a key"),
                      ("acme,panel,BIRCHKEY00000001,all", "has a key of an earlier one")):
        (place.folder / "north.keys.csv").write_text(f"{NAMED}{row}\n")
        expect(mapped().returncode == 1 and told in mapped().stderr, row, "is told as", mapped())
    expect((place.folder / "keys.map").read_text() == wanted, "what is refused is in the map")


def stopped_at_each_step(place, words, back):
    """Stops a command at each of its steps. Each time a desk starts by what is left, and the next command leaves all or nothing
    of it; `back` undoes what was done."""
    left = set()
    for number in range(1, 200):
        ended = place.run(*words, script=[sys.executable, "-c", STOPPED, str(number)])
        expect(ended.returncode in (0, 9), words, "step", number, "ended with", ended)
        starts(place)
        place.done("list")
        starts(place)
        mapped = (place.folder / "keys.map").read_text().splitlines()
        has = [bool(keys_of(place)), "\nKEYS=" in settings_of(place), len(mapped) == 3]
        expect(len(set(has)) == 1, words, "step", number, "left half of it:", has)
        expect(not [it for it in place.files() if ".customers" in it], "step", number, "left", place.files().keys())
        left.add(has[0])
        if ended.returncode == 0:
            return number, left
        if has[0] == (words[0] == "add-key"):
            place.done(*back)
    return 200, left


def test_stopped(place):
    """Killed at each step of the first key that comes, and of the last that goes."""
    place.done("set", "acme", "--messages", "999")
    add, drop = ["add-key", "acme", "panel"], ["drop-key", "acme", "panel"]
    for words, back in ((add, drop), (drop, add)):
        steps, left = stopped_at_each_step(place, words, back)
        expect(20 < steps < 200 and left == {True, False}, words, "was stopped", steps, "times, and left", left)


def test_customer_gone_at_each_step(place):
    """Killed at each step of a customer that goes with its keys: a desk starts by what is left."""
    place.done("add-key", "birch", "panel")
    keep = place.files()
    for number in range(1, 200):
        place.done("add-key", "acme", "panel")
        ended = place.run("drop", "acme", "--queued", script=[sys.executable, "-c", STOPPED, str(number)])
        starts(place)
        place.done("list")
        expect(("acme" in place.rows()) == any(it[0] == "acme" for it in keys_of(place)), "step", number, "left", keys_of(place))
        if ended.returncode == 0:
            break
        for name, text in keep.items():
            (place.folder / name).write_bytes(text)
    expect(20 < number < 200 and "acme" not in place.rows(), "it was stopped", number, "times")


def test_keys_of_an_earlier_one(place):
    """Keys are left of a customer whose row is gone, as where a desk was dropped and is set up anew: nobody gets that name before they go,
    since the firm that has these keys would read what the new one has."""
    (place.folder / "north.keys.csv").write_text(f"{NAMED}oak,panel,oldkey0000000001,all\n")
    before = place.files()
    ended = place.run("--store", place.folder, "add", "oak")
    expect(ended.returncode == 1 and "north.keys.csv has keys of an earlier oak" in ended.stderr and place.files() == before, "that name", ended)
    (place.folder / "north.keys.csv").unlink()
    place.done("--store", place.folder, "add", "oak")
    starts(place)
    expect(not keys_of(place), "there is", keys_of(place))
