"""hq-customers over the files of a folder: what it writes, what it refuses, and what a stop at any moment leaves.

`hq`, the worker and `desk-maps` are the real ones. systemctl is a stand-in here; how the programs take up what was
written is tried in tests/release. `test_named_keys.py` has named keys.
"""
import fcntl
import http.server
import os
import re
import subprocess
import sys
import threading
import time

import pytest
from customers_place import ACME, RELAY_INI, STOPPED, Place, mode
from deploying import DEPLOY
from serving import HEADER, LONGEST, RELAY, expect
from small_disk import fill, small_disk

RELOADS = [f"reload {it}" for it in ("hq-desk-workers", "hq-relay-intake", "hq-relay-deliver", "nginx")]


@pytest.fixture
def place(folder, program):
    return Place(folder, program)


def test_added(place):
    """A customer stands in all files, with a key that is told once, and whose files are closed to others."""
    key = place.done("add", "birch", "--messages", "50", "--domain", "B.example", "--login", "birch@b.example").strip()
    expect(len(key) == 40 and key.isalnum(), "the key is", key)
    row = place.rows()["birch"]
    expect((row["key"], row["messages"], row["delay"]) == (key, "50", "14400"), "the row is", row)
    expect(place.rows("relay.csv")["birch"] == {**row, "key": ""}, "the worker's row is", place.rows("relay.csv"))
    texts = {name: text.decode() for name, text in place.files().items()}
    header, *rows = (it.rpartition(",") for it in texts["senders.csv"].splitlines())
    expect(header == ("kind,name,customer", ",", "since") and [it[0] for it in rows] == ["domain,b.example,birch", "login,birch@b.example,birch"]
           and all(it[2].startswith("20") for it in rows), texts["senders.csv"])
    expect(f"{key} birch;\n" in texts["keys.map"] and "birch 127.0.0.1:825;\n" in texts["names.map"], "the maps lack it")
    expect([it for it, text in texts.items() if key in text] == [it for it in texts if it in ("north.csv", "keys.map")], "its key")
    for name, wanted in (("north.csv", 0o640), ("relay.csv", 0o640), ("senders.csv", 0o640), ("keys.map", 0o600), ("names.map", 0o640)):
        expect(mode(place.folder / name) == wanted, name, "has the mode", oct(mode(place.folder / name)))
    listed = place.done("list")
    expect("birch north: messages 50, bytes 500000000" in listed and "domain b.example" in listed and key not in listed, listed)
    expect(ACME.strip() in texts["north.csv"], "acme's row is another one")
    expect(not (place.bin / "called").exists() or "reload" not in (place.bin / "called").read_text(), "something was reloaded")


def test_changed(place):
    """Limits, a key, logins and domains change, and nothing else; a history is a column more for all."""
    place.done("set", "acme", "--messages", "7", "--history", "9", "--domain", "a.example")
    row = place.rows()["acme"]
    expect((row["messages"], row["history"], row["key"]) == ("7", "9", "acmekey000000001"), "the row is", row)
    key = place.done("key", "acme").strip()
    expect(place.rows()["acme"]["key"] == key != "acmekey000000001", "the key is", key)
    place.done("set", "acme", "--no-domain", "a.example")
    expect(place.files()["senders.csv"] == b"kind,name,customer,since\n", "the domain is there")
    expect(place.rows()["acme"]["history"] == "9" and place.rows()["acme"]["key"] == key, "a later change loses something")


def test_since(place):
    """A domain is a customer's from the call on that gives it, and no longer when it has gone; what stood there before stays."""
    def since(domain):
        return [it.split(",")[3] for it in (place.folder / "senders.csv").read_text().splitlines() if it.startswith(f"domain,{domain},")]
    (place.folder / "senders.csv").write_text("kind,name,customer\ndomain,a.example,acme\n")
    place.done("set", "acme", "--domain", "c.example", "--domain", "a.example")
    first, = since("c.example")
    expect(since("a.example") == [""] and first.endswith("Z"), "it is its since", since("a.example"), first)
    time.sleep(1.1)
    place.done("set", "acme", "--messages", "9", "--domain", "c.example")
    expect(since("c.example") == [first], "it is its since", since("c.example"), "and not", first)
    place.done("set", "acme", "--no-domain", "c.example")
    place.done("set", "acme", "--domain", "c.example")
    expect(since("c.example")[0] > first and since("a.example") == [""], "again it is its since", since("c.example"))


class Empty(http.server.BaseHTTPRequestHandler):
    """A desk of which nothing is queued."""

    def do_GET(self):
        self.send_response(200)
        self.end_headers()
        self.wfile.write(b'{"messages":0}')

    def log_message(self, *_):
        """It tells nothing."""


@pytest.fixture
def empty():
    """The port of a desk of which nothing is queued."""
    with http.server.ThreadingHTTPServer(("127.0.0.1", 0), Empty) as server:
        threading.Thread(target=server.serve_forever, daemon=True).start()
        yield server.server_address[1]
        server.shutdown()


def test_last_of_a_desk(place, empty):
    """The last customer of a desk is not dropped, nothing changes then, and its mail goes on; what the message says leads on."""
    place.desk("north", empty, ACME)
    place.done("set", "acme", "--domain", "a.example", "--login", "acme@a.example")
    for more in ([], ["--queued"]):
        before, ended = place.files(), place.run("drop", *more, "acme")
        expect(ended.returncode == 1 and "acme is the last customer of north" in ended.stderr, "it ends with", ended)
        expect(place.files() == before, "changed are", {name for name in before if place.files().get(name) != before[name]})
    command = ended.stderr.partition("`hq-customers ")[2].partition(" >/dev/null`")[0]
    place.done(*command.split())
    place.done("drop", "acme")
    expect(place.rows().keys() == {"placeholder"} and b"a.example" not in place.files()["senders.csv"], "there are", place.rows())
    expect("acme north: dropped on 20" in place.done("list"), "it is not told as dropped")


def test_refused_behind_a_drop(place, empty):
    """Where what a drop ends with would be refused, nothing was changed: the customer keeps its logins and domains."""
    place.desk("north", empty, ACME + ACME.replace("acme", "birch"))
    place.done("set", "birch", "--domain", "b.example")
    # (this one takes no directory without birch)
    (place.bin / "hq").unlink()
    (place.bin / "hq").write_text('#!/bin/sh\ngrep -q "^birch" "$3" || { echo "hq: no" >&2; exit 1; }\n')
    (place.bin / "hq").chmod(0o755)
    before, ended = place.files(), place.run("drop", "birch")
    expect(ended.returncode == 1 and "nothing was changed" in ended.stderr, "it ends with", ended)
    expect(place.files() == before, "changed are", {name for name in before if place.files().get(name) != before[name]})


SETTINGS = {"plain": "HOST=relay.example\nLISTEN=127.0.0.1:825\n", "quoted": 'HOST="relay.example"\nLISTEN=\'127.0.0.1:825\'\n',
            "blank": "# HOST=x\n HOST=relay.example \nLISTEN= 127.0.0.1:825\t\n",
            "lines of another system": "HOST=relay.example\r\nLISTEN=127.0.0.1:825\r\n"}


@pytest.mark.parametrize("text", SETTINGS.values(), ids=SETTINGS)
def test_settings_as_the_unit_has_them(place, text):
    """Settings are read as systemd reads them: by hq-customers, desk-restart and desk-metrics."""
    (place.folder / "north.env").write_bytes(text.encode())
    place.done("add", "birch")
    expect("birch 127.0.0.1:825;\n" in place.files()["names.map"].decode(), "the desk is at", place.files()["names.map"])
    ended = subprocess.run([sys.executable, "-c", "import sys, pathlib; sys.path.insert(0, sys.argv[1]); import desk_apart; "
                            "print(desk_apart.settings_of(pathlib.Path(sys.argv[2])))", DEPLOY, place.folder / "north.env"],
                           capture_output=True, text=True, timeout=LONGEST)
    expect(ended.stdout == "{'HOST': 'relay.example', 'LISTEN': '127.0.0.1:825'}\n", "it is read as", ended)
    line = re.search(r"(?m)^  address=.*$", (DEPLOY / "desk-metrics").read_text())[0]
    ended = subprocess.run(["sh", "-c", f'file=$0; {line}; echo "$address"', place.folder / "north.env"], capture_output=True,
                           text=True, timeout=LONGEST)
    expect(ended.stdout == "127.0.0.1:825\n", "counts are asked at", ended)


@pytest.mark.parametrize("line", ['HOST="relay.example', "HOST=relay'x'", "HOST=relay\\.example", 'LISTEN="127.0.0.1:825" # x'])
def test_settings_that_are_refused(place, line):
    """Where systemd would read something else, file and line are told, and nothing is changed."""
    (place.folder / "north.env").write_text(f"# settings\n{line}\n")
    before, ended = place.files(), place.run("add", "birch")
    told = (f"hq-customers: {place.folder}/north.env: line 2: {line[:line.index('=')]} has a quote or a backslash within; "
            "write its value as it is\n")
    expect((ended.returncode, ended.stderr) == (1, told) and place.files() == before, "it ends with", ended)


def test_dropped(place):
    """First its mail ends; its row goes where nothing is queued, or nobody waits for that."""
    place.done("add", "birch", "--domain", "b.example")
    before = place.files()
    ended = place.run("drop", "birch")
    expect(ended.returncode == 1 and "does not tell what is queued" in ended.stderr and place.files() == before, "no desk:", ended)
    place.done("drop", "birch", "--queued")
    left = {name: text for name, text in place.files().items() if b"birch" in text}
    expect(left.keys() == {"dropped.csv"} and left["dropped.csv"].startswith(b"name,desk,day\nbirch,north,20"), "birch is left in", left)


BAD = [
    (["add", "Birch"], "no name"), (["add", "b" * 33], "no name"), (["add", ""], "no name"), (["add", "../b"], "no name"),
    (["add", "b\n"], "no name"), (["add", "acme"], "already"), (["add", "birch", "--desk", "south"], "has to be one of: north"),
    (["add", "birch", "--messages", "0"], "column messages"), (["add", "birch", "--bytes", "many"], "column bytes"),
    (["add", "birch", "--lines", "9\nx,y"], "hq refuses"), (["set", "acme", "--delay", "-1"], "column delay"),
    (["set", "nobody", "--lines", "9"], "no customer nobody"), (["key", "nobody"], "no customer nobody"),
    (["drop", "nobody"], "no customer nobody"), (["set", "acme", "--domain", "a b"], "no domain"),
    (["set", "acme", "--login", "a,b"], "no login"), (["set", "acme", "--no-domain", "b.example"], "has no domain"),
    (["add", "birch", "--domain", "a.example"], "that of acme"),
]


@pytest.mark.parametrize("words, told", BAD, ids=range(len(BAD)))
def test_refused(place, words, told):
    """Whatever is refused leaves each file as it was, and tells no key."""
    place.done("set", "acme", "--domain", "a.example")
    before = place.files()
    ended = place.run(*words)
    expect(ended.returncode == 1 and told in ended.stderr and not ended.stdout, words, "got", ended)
    expect(ended.stderr.startswith("hq-customers: ") and ended.stderr.count("\n") == 1, words, "is told as", ended.stderr)
    expect("acmekey" not in ended.stderr and RELAY not in ended.stderr, "a key is told:", ended.stderr)
    expect(place.files() == before and not [*place.folder.glob(".customers-*")], "files were changed:", place.folder)


def test_refused_files(place):
    """A key that stands twice, in one directory or in two, and a worker that does not take its table."""
    north, relay = place.folder / "north.csv", place.folder / "relay.ini"
    for text, path, told in ((HEADER + ACME + ACME.replace("acme,", "elm,"), north, "55 DoubledKey"),
                             (HEADER + ACME.replace("acme,", "Elm,"), north, "53 BadDirectory"),
                             (HEADER + "acme\n", north, "no directory of customers"), ("", north, "no directory of customers"),
                             (RELAY_INI + "[logins]\nann = gone\n", relay, "gone is not in the directory")):
        good = path.read_bytes()
        path.write_text(text)
        before = place.files()
        ended = place.run("add", "birch")
        expect(ended.returncode == 1 and told in ended.stderr and place.files() == before, text, "got", ended)
        path.write_bytes(good)
    place.desk("south", 826, ACME.replace("acme,", "fir,").replace("acmekey", "ACMEKEY"))
    before = place.files()
    ended = place.run("add", "birch", "--desk", "north")
    expect(ended.returncode == 1 and "desk-maps refuses" in ended.stderr and place.files() == before, "two desks:", ended)


def has_far(place, rows="farfirm,farkey0000000001,9,9,9,9,9\n"):
    """A desk beyond this machine, which desk-maps is given by hand with the ones that are here."""
    (place.folder / "far.csv").write_text(HEADER + rows)
    desks = [f"127.0.0.1:825={place.folder}/north.csv", f"127.0.0.1:849={place.folder}/far.csv"]
    subprocess.run([DEPLOY / "desk-maps", place.folder, *desks], check=True, timeout=LONGEST, stdout=subprocess.DEVNULL)


def of_far(place):
    """What the three files of nginx have of that desk."""
    told = {"keys.map": "farkey0000000001 farfirm;", "names.map": "farfirm 127.0.0.1:849;", "desks.conf": "server 127.0.0.1:849 "}
    return [it for it, text in told.items() if text in (place.folder / it).read_text()]


def test_desks_beyond_this_machine(place):
    """Customers of a desk beyond this machine stay in all files of nginx, through each call, and until desk-maps is not given it."""
    all_of = ["keys.map", "names.map", "desks.conf"]
    has_far(place)
    for words in (["set", "acme", "--messages", "997"], ["add", "birch"], ["key", "acme"]):
        place.done(*words)
        expect(of_far(place) == all_of, "behind", words, "it stands in", of_far(place))
    recorded = [it for it in (place.folder / "desks.conf").read_text().splitlines() if it.startswith("#")]
    expect(recorded == [f"# 127.0.0.1:825={place.folder}/north.csv", f"# 127.0.0.1:849={place.folder}/far.csv"], "written down is", recorded)
    ended = place.run("add", "farfirm")
    expect(ended.returncode == 1 and "desk-maps refuses" in ended.stderr and of_far(place) == all_of, "its name is given:", ended)
    # (a directory that is gone is told once, and holds nobody up)
    (place.folder / "far.csv").unlink()
    ended = place.run("set", "acme", "--messages", "998")
    expect((ended.returncode, of_far(place)) == (0, []) and "far.csv is gone, so nginx knows none of its customers" in ended.stderr, "got", ended)
    place.done("set", "acme", "--messages", "999")


def test_erased_beyond_this_machine(place):
    """A customer of a desk beyond this machine is not erased here: its store is there, and its mail goes on. Of who is none any more it is
    told that this desk may have records."""
    has_far(place)
    place.done("set", "acme", "--messages", "997")
    before, ended = place.files(), place.run("--store", place.folder, "erase", "farfirm")
    expect(ended.returncode == 1 and not ended.stdout and place.files() == before, "it ended with", ended)
    expect("farfirm is a customer of the desk at 127.0.0.1:849, which is at another machine" in ended.stderr, "it is told as", ended)
    has_far(place, "another,farkey0000000001,9,9,9,9,9\n")
    told = place.done("--store", place.folder, "erase", "farfirm")
    expect("what the desk at 127.0.0.1:849 has, at another machine, until it is erased there." in told, "it is told as", told)


def test_a_row_of_another_machine(place):
    """A row of the worker's table that somebody wrote for a customer beyond this machine does not go in silence."""
    has_far(place)
    place.done("set", "acme", "--messages", "997")
    (place.folder / "relay.csv").write_text((place.folder / "relay.csv").read_text() + "farfirm,,9,9,9,9,9\n")
    before, ended = place.files(), place.run("set", "acme", "--messages", "998")
    expect(ended.returncode == 1 and place.files() == before and "relay.csv has a row of farfirm, a customer of the desk at 127.0.0.1:849" in
           ended.stderr, "it ended with", ended)
    # (one who was at a desk that was here before is dropped)
    (place.folder / "desks.csv").write_text("customer,desk\nfarfirm,far\n")
    place.done("set", "acme", "--messages", "998")


def test_a_desk_that_was_dropped(place):
    """A desk of this machine that was dropped does not come back as one beyond it, nor one that has another address or name now."""
    place.desk("far", 849, "farfirm,farkey0000000001,9,9,9,9,9\n")
    place.done("set", "acme", "--messages", "997")
    (place.folder / "far.env").unlink()
    ended = place.run("set", "acme", "--messages", "998")
    expect(ended.returncode == 0 and of_far(place) == [], "it stands in", of_far(place), ended)
    place.desk("far", 849, "farfirm,farkey0000000001,9,9,9,9,9\n")
    place.done("set", "acme", "--messages", "997")
    place.desk("far", 848, "farfirm,farkey0000000001,9,9,9,9,9\n")
    place.done("set", "acme", "--messages", "998")
    expect(of_far(place) == ["keys.map"] and "farfirm 127.0.0.1:848;" in (place.folder / "names.map").read_text(), "it stands in", of_far(place))
    place.desk("other", 848, "farfirm,farkey0000000001,9,9,9,9,9\n")
    (place.folder / "far.env").unlink()
    place.done("set", "acme", "--messages", "999")
    expect("farfirm 127.0.0.1:848;" in (place.folder / "names.map").read_text(), "the desk of another name is not there")


def test_recorded_in_a_line(place):
    """What is written down of a desk is one line: a directory whose name has a line end is refused."""
    path = place.folder / "far\nserver.csv"
    path.write_text(HEADER + "farfirm,farkey0000000001,9,9,9,9,9\n")
    ended = subprocess.run([DEPLOY / "desk-maps", place.folder, f"127.0.0.1:849={path}"], capture_output=True, text=True, timeout=LONGEST)
    expect(ended.returncode == 1 and "what cannot be printed" in ended.stderr, "it ended with", ended)


def test_two_desks_of_one_address(place):
    """Of two desks with one address only one can listen there, and it has no customers of the other: nothing is changed."""
    place.desk("south", 825, ACME.replace("acme,", "fir,").replace("acmekey", "firkeys"))
    before = place.files()
    ended = place.run("add", "birch", "--desk", "south")
    expect(ended.returncode == 1 and "south.csv" in ended.stderr and "has the address" in ended.stderr, "two desks:", ended)
    expect(place.files() == before, "files were changed")


def test_full_disk(folder, program):
    """With each size of room that is left all is as it was, or all is written."""
    place = None
    (folder / "there").mkdir()
    with small_disk(folder / "there/etc"):
        place = Place(folder / "there", program, ACME + "".join(
            f"c{it},key{it:013d},1000,500000000,1000,1000,14400\n" for it in range(900)))
        place.done("set", "acme", "--domain", "a.example")
        before, full, whole = place.files(), place.folder / "full", 0
        for room in range(0, 80, 4):
            fill(full)
            os.truncate(full, max(0, full.stat().st_size - 4096 * room))
            ended = place.run("set", "acme", "--lines", str(900 + room))
            full.unlink()
            now = place.files()
            if ended.returncode == 0:
                whole += 1
                expect(place.rows()["acme"]["lines"] == place.rows("relay.csv")["acme"]["lines"] == str(900 + room), "half is written")
                before = now
            else:
                expect(now == before and "acmekey" not in ended.stderr, "room for", room, "left", ended)
        expect(0 < whole < 20, "of 20 were done", whole)


def test_two_at_once(place):
    """Who comes while another is at work waits, and none undoes another."""
    names = [f"c{it}" for it in range(8)]
    them = [threading.Thread(target=place.run, args=("add", it, "--domain", f"{it}.example")) for it in names]
    for it in them:
        it.start()
    for it in them:
        it.join(LONGEST)
    expect(set(place.rows()) == {"acme", *names} == set(place.rows("relay.csv")), "there are", place.rows())
    expect(place.files()["senders.csv"].count(b"domain") == len(names), "of the domains there are", place.files()["senders.csv"])
    with open(place.folder / ".customers.lock", "r+") as lock:
        fcntl.flock(lock, fcntl.LOCK_EX)
        waiting = threading.Thread(target=place.run, args=("add", "late"))
        waiting.start()
        time.sleep(1)
        expect("late" not in place.rows(), "the lock is no lock")
        fcntl.flock(lock, fcntl.LOCK_UN)
        waiting.join(LONGEST)
    expect("late" in place.rows(), "who waited has not come")


def test_stopped(place):
    """Killed at each of its steps it leaves the files of before or, behind the next start, those of behind."""
    place.done("set", "acme", "--domain", "a.example", "--messages", "500")
    before, left = place.rows()["acme"]["messages"], set()
    for number in range(1, 200):
        ended = place.run("set", "acme", "--messages", str(number), script=[sys.executable, "-c", STOPPED, str(number)])
        expect(ended.returncode in (0, 9), "step", number, "ended with", ended)
        place.done("list")
        found = {place.rows(it)["acme"]["messages"] for it in ("north.csv", "relay.csv")}
        expect(len(found) == 1 and found <= {before, str(number)}, "step", number, "left", found, "and before", before)
        expect(not [it for it in place.files() if it.startswith(".customers")], "step", number, "left", place.files().keys())
        left.add(found != {before})
        before = found.pop()
        if ended.returncode == 0:
            break
    expect(number > 20 and left == {True, False}, "it was stopped", number, "times, and left", left)


def test_taken_up(place):
    """What runs is told, the nginx of workers before the worker, and nothing where no file is for it."""
    place.systemctl("exit 0")
    place.done("--files", "set", "acme", "--domain", "a.example")
    expect(not (place.bin / "called").exists(), "with --files systemctl was called")
    place.done("set", "acme", "--domain", "c.example")
    called = (place.bin / "called").read_text().splitlines()
    expect([it for it in called if "is-active" not in it] == RELOADS, "a domain has", called)


@pytest.mark.parametrize("faulty", [["reload nginx"], ["reload hq-desk-workers", "reload hq-relay-deliver"], ["restart hq-desk@north"]])
def test_not_taken_up(place, faulty):
    """A fault of one, as of another site of nginx, keeps nothing else from the files; all faults are told, and how to go on."""
    place.desk("north", 825, ACME + ACME.replace("acme", "birch"))
    # (the desk is a stand-in that starts at once)
    for it in DEPLOY.iterdir():
        if it.is_file():
            (place.bin / it.name).write_text(it.read_text())
            (place.bin / it.name).chmod(0o755)
    (place.bin / "desk-restart").write_text(f'#!/bin/sh\nexec {place.bin}/systemctl restart "hq-desk@$1"\n')
    place.systemctl(f'case " {" ".join(it.replace(" ", "=") for it in faulty)} " in *" $1=$2 "*) echo "no $2" >&2; exit 1;; esac')
    for words in (("set", "acme", "--messages", "7", "--domain", "a.example"), ("drop", "acme", "--queued")):
        (place.bin / "called").unlink(missing_ok=True)
        ended = subprocess.run([place.bin / "hq-customers", "--folder", place.folder, "--store", place.folder, *words], capture_output=True,
                               text=True, timeout=LONGEST, stdin=subprocess.DEVNULL,
                               env={**os.environ, "PATH": f"{place.bin}:{os.environ['PATH']}"})
        expect((place.bin / "called").exists(), words, "called nothing:", ended)
        called = [it for it in (place.bin / "called").read_text().splitlines() if "is-active" not in it]
        wanted = ["restart hq-desk@north", *RELOADS] if words[0] == "set" else [*RELOADS, "restart hq-desk@north"]
        expect(called == wanted, words, "called", called, ended)
        expect(ended.returncode == 1 and ended.stderr.startswith("hq-customers: the files are written, and not taken up by all"), words, "got", ended)
        for it in faulty:
            expect(f": no {it.split()[1]}" in ended.stderr, it, "is not told:", ended.stderr)
        expect(ended.stderr.count(": no ") == len(faulty) and ended.stderr.count("\n") == 1, "told is", ended.stderr)
