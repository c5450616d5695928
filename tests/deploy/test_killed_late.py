"""hq-customers is killed behind its files, and before anything goes by them: the next call of it has that done, whatever that call is for."""
import os
import subprocess
from pathlib import Path

import pytest
from customers_place import ACME, Place
from deploying import DEPLOY
from serving import LONGEST, expect
from test_customers import RELOADS


@pytest.fixture
def place(folder, program):
    it = Place(folder, program, ACME + ACME.replace("acme", "birch"))
    for script in filter(Path.is_file, DEPLOY.iterdir()):
        (it.bin / script.name).write_text(script.read_text())
        (it.bin / script.name).chmod(0o755)
    (it.bin / "desk-restart").write_text(f'#!/bin/sh\nexec {it.bin}/systemctl restart "hq-desk@$1"\n')
    # (as the first program is asked for, whoever asks is killed)
    it.systemctl(f'[ ! -e {it.bin}/kills ] || {{ rm {it.bin}/kills; kill -9 $PPID; }}')
    return it


def typed(place, *words):
    return subprocess.run([place.bin / "hq-customers", "--folder", place.folder, "--store", place.folder, *words], capture_output=True, text=True,
                          timeout=LONGEST, stdin=subprocess.DEVNULL, env={**os.environ, "PATH": f"{place.bin}:{os.environ['PATH']}"})


def called(place):
    """What was taken up since the last look."""
    path = place.bin / "called"
    found = [it for it in path.read_text().splitlines() if "is-active" not in it] if path.exists() else []
    path.unlink(missing_ok=True)
    return found


@pytest.mark.parametrize("command", [("drop-key", "acme", "panel"), ("drop", "acme", "--queued")])
def test_typed_again(place, command):
    """A key that has ended goes on until the desk and nginx go by the files; the same line refuses it by then, and ends it all the same."""
    expect(typed(place, "add-key", "acme", "panel").returncode == 0, "it has no key")
    called(place)
    (place.bin / "kills").touch()
    expect(typed(place, *command).returncode == -9 and not called(place), "it was not killed before")
    ended = typed(place, *command)
    expect(ended.returncode == 1 and ("has no key" in ended.stderr or "there is no customer" in ended.stderr), "it ended with", ended)
    found = called(place)
    expect(found == [*RELOADS, "restart hq-desk@north"], "taken up is", found)
    expect(not [*place.folder.glob(".untaken-*")], "a note is left")
    typed(place, *command)
    expect(called(place) == [], "it is taken up once more")


def test_killed_twice(place):
    """A kill of the call that makes up for an earlier one leaves that to the next one."""
    typed(place, "add-key", "acme", "panel")
    for words in (("drop-key", "acme", "panel"), ("set", "birch", "--messages", "5")):
        (place.bin / "kills").touch()
        expect(typed(place, *words).returncode == -9, words, "was not killed")
    called(place)
    expect(typed(place, "drop-key", "acme", "panel").returncode == 1, "the key is there")
    found = called(place)
    expect(found == [*RELOADS, "restart hq-desk@north"] and not [*place.folder.glob(".untaken-*")], "taken up is", found)


def test_left_fails(place):
    """Where a program does not take up what a killed call has left, nothing of the next call is done, and that is told."""
    before = (place.folder / "north.csv").read_text()
    (place.bin / "kills").touch()
    expect(typed(place, "add-key", "acme", "panel").returncode == -9, "it was not killed")
    place.systemctl('case "$*" in "reload nginx") echo broken >&2; exit 1 ;; esac')
    ended = typed(place, "set", "birch", "--messages", "5")
    expect(ended.returncode == 1 and "nothing is done of this" in ended.stderr and "reload nginx: broken" in ended.stderr, "it ended with", ended)
    expect((place.folder / "north.csv").read_text() == before, "something was changed")
    # (what fails is printed, and so it is left to whoever reads that)
    place.systemctl("exit 0")
    expect(typed(place, "set", "birch", "--messages", "5").returncode == 0, "it is refused for good")
