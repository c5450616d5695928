"""hq-customers where something goes wrong behind its files: an old key ends all the same, and what others could read is closed."""
import os
import re
import subprocess

import pytest
from customers_place import Place, mode
from deploying import DEPLOY
from serving import LONGEST, expect
from test_customers import RELOADS

ALL = ["restart hq-desk@north", *RELOADS]


@pytest.fixture
def place(folder, program):
    """A place where all programs run; the desk is a stand-in that starts at once."""
    it = Place(folder, program)
    for script in DEPLOY.iterdir():
        if script.is_file():
            (it.bin / script.name).write_text(script.read_text())
            (it.bin / script.name).chmod(0o755)
    (it.bin / "desk-restart").write_text(f'#!/bin/sh\nexec {it.bin}/systemctl restart "hq-desk@$1"\n')
    it.systemctl("exit 0")
    return it


def called(place):
    found = (place.bin / "called").read_text().splitlines()
    (place.bin / "called").unlink()
    return [it for it in found if "is-active" not in it]


def run(place, *words, **more):
    return subprocess.run([place.bin / "hq-customers", "--folder", place.folder, "--store", place.folder, *words], text=True,
                          timeout=LONGEST, stdin=subprocess.DEVNULL, env={**os.environ, "PATH": f"{place.bin}:{os.environ['PATH']}"},
                          **{"stderr": subprocess.PIPE, **more})


def test_key_that_is_not_printed(place):
    """Where the key cannot be printed, as on a full disk or by a terminal that is gone, the old one ends all the same, and that is told."""
    for words in (("key", "acme"), ("add-key", "acme", "panel")):
        with open("/dev/full", "w") as full:
            ended = run(place, *words, stdout=full)
        expect(called(place) == ALL, words, "had not all taken up:", ended)
        expect(ended.returncode == 1 and "could not be printed" in ended.stderr and ended.stderr.count("\n") == 1, words, "told", ended)
    os.chmod(place.folder / "north.csv", 0o644)
    with open("/dev/full", "w") as full:
        run(place, "drop-key", "acme", "panel", stdout=full, stderr=full)
    expect(called(place) == ALL and mode(place.folder / "north.csv") == 0o640, "a key is not dropped where nobody can be told of a mode")


@pytest.mark.parametrize("fault", [0, 1])
@pytest.mark.parametrize("words", [("key", "acme"), ("add", "birch"), ("add-key", "acme", "panel")])
def test_a_key_is_printed_last(place, words, fault):
    """A key is printed behind all that takes it up, since a script may use it at once, and also where something does not take it up."""
    printed = place.folder.parent / "printed"
    place.systemctl(f'[ ! -s {printed} ] || [ "$1" = is-active ] || echo "$*" >>{place.bin}/early; [ "$1" != reload ] || exit {fault}')
    with open(printed, "w") as file:
        ended = run(place, *words, stdout=file)
    expect(re.fullmatch(r"[0-9a-f]{40}\n", printed.read_text()) and ended.returncode == fault, words, "prints", printed.read_text(), ended)
    expect(("not taken up by all" in ended.stderr) == bool(fault) and called(place) == ALL, words, "ended with", ended)
    expect(not (place.bin / "early").exists(), words, "prints it before", place.bin / "early")


@pytest.mark.parametrize("sign", ["HUP", "INT", "TERM"])
def test_hung_up(place, sign):
    """Whoever closes the terminal, or stops it, when the files are written keeps nothing from going by them."""
    # (the first program that is asked stands for the moment; what it begins is ended by a signal as ever)
    place.systemctl(f'[ -e {place.bin}/sent ] || {{ : >{place.bin}/sent; kill -{sign} $PPID; sh -c "kill -{sign} \\$\\$; echo >{place.bin}/stays"; }}; exit 0')
    ended = run(place, "key", "acme", stdout=subprocess.PIPE)
    expect(ended.returncode == 0 and re.fullmatch(r"[0-9a-f]{40}\n", ended.stdout) and called(place) == ALL, "it ended with", ended)
    expect((place.bin / "sent").exists() and not (place.bin / "stays").exists(), "what it begins heeds no signal")


def test_open_to_others(place):
    """A file with keys that others may read is closed, and whoever made it is told; a mode that is narrower stays, and so do settings."""
    os.chmod(place.folder / "north.csv", 0o644)
    os.chmod(place.folder / "north.env", 0o644)
    ended = run(place, "add-key", "acme", "panel", stdout=subprocess.PIPE)
    expect(ended.returncode == 0 and "north.csv was open to others" in ended.stderr and ended.stderr.count("open") == 1, "told is", ended)
    found = {it: oct(mode(place.folder / it)) for it in ("north.csv", "north.keys.csv", "north.env", "keys.map")}
    expect(found == {"north.csv": "0o640", "north.keys.csv": "0o640", "north.env": "0o644", "keys.map": "0o600"}, "they have", found)
    os.chmod(place.folder / "north.csv", 0o600)
    ended = run(place, "set", "acme", "--messages", "9", stdout=subprocess.PIPE)
    expect(ended.stderr == "" and mode(place.folder / "north.csv") == 0o600, "a narrow mode is told as", ended)


def test_erased_by_a_clock_ahead(place):
    """A name that was erased while the clock ran ahead is a new customer's from now on: no restore erases by that moment what this one has."""
    for name, moment, is_kept in (("birch", "2099-01-01T00:00:00Z", False), ("cedar", "2026-01-02T03:04:05Z", True)):
        (place.folder / "erased.csv").write_text(f"name,moment\n{name},{moment}\n")
        expect(run(place, "add", name, stdout=subprocess.PIPE).returncode == 0, name, "is not added")
        found = (place.folder / "erased.csv").read_text().splitlines()[1]
        expect(found.startswith(f"{name},2") and (found == f"{name},{moment},") == is_kept and "2099" not in found, "of", name, "it has", found)


def closed(*numbers):
    """Closes streams, as `>&-` of a shell does."""
    return lambda: [os.close(it) for it in numbers]


def test_closed_streams(place):
    """With a closed output an old key ends all the same, and what cannot be printed is told; nothing is written where a stream was."""
    for numbers, status in (((1,), 1), ((0, 1), 1), ((0, 1, 2), 1), ((2,), 0), ((0, 2), 0)):
        ended = run(place, "key", "acme", preexec_fn=closed(*numbers), stdout=subprocess.PIPE)
        expect(called(place) == ALL, "with", numbers, "closed it had not all taken up:", ended)
        expect(ended.returncode == status, "with", numbers, "closed it ended with", ended)
        expect(2 in numbers or ("could not be printed" in ended.stderr) == bool(status), "it told", ended)
        expect((place.folder / ".customers.lock").read_text() == "", "the lock has", (place.folder / ".customers.lock").read_text())
