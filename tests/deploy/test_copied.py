"""What copies the stores of desks: nobody starts a desk meanwhile, and what ran before runs behind it, whatever is typed."""
import subprocess
import time

import needs
import pytest
from deploying import HEADER
from serving import LONGEST, expect, listens, until
from started_place import begin, is_set_up, place_in, run, runs, slow_copy, told, words


@pytest.fixture
def place(folder):
    return place_in(folder)


def test_stopped_while_it_is_copied(place):
    """The end of a copy starts no desk that somebody has stopped meanwhile, who waits for that end."""
    address = runs(place)
    copying = slow_copy(place)
    stopping = begin(place, "desk-stop", "north")
    until(lambda: (place / "stopped/north").exists(), "it is not stopped")
    time.sleep(0.5)
    expect(stopping.poll() is None, "a stop does not wait for who copies the store")
    (place / "slow").unlink()
    expect(told(copying) == (0, "north.db\n"), "the copy ended otherwise")
    expect(told(stopping) == (0, "desk-stop: it waits for who works at the store of north\n"), "the stop ended otherwise")
    expect((place / "stopped/north").exists() and not listens(address), "the end of the copy has started it")
    expect(run(place, "desk-start", "north").returncode == 0 and listens(address), "it does not start")


def test_started_while_it_is_copied(place):
    """A desk is not started while its store is copied, but behind that; so nobody writes what is being copied."""
    address = is_set_up(place, "north")
    (place / "stopped/north").touch()
    copying = slow_copy(place)
    starting = begin(place, "desk-start", "north")
    until(lambda: not (place / "stopped/north").exists(), "it is not to be started")
    time.sleep(1.5)
    expect(not listens(address) and starting.poll() is None, "it was started while its store is copied")
    (place / "slow").unlink()
    status, text = told(copying)
    expect(status == 0 and text.endswith("north.db\n"), "the copy ended with", status, text)
    expect(told(starting)[0] == 0 and listens(address), "it does not start")


def test_worked_at_while_it_is_copied(place):
    """Nobody works at a store while it is copied, and no second copy is made meanwhile."""
    runs(place)
    copying = slow_copy(place)
    others = [begin(place, "desk-restart", "north", "--stopped", "echo", "worked"), begin(place, "desk-backup", place / "second", "north")]
    time.sleep(0.5)
    expect([it.poll() for it in others] == [None, None], "two work at one store")
    (place / "slow").unlink()
    # (who waits may come before the start of the desk, which then waits too)
    status, text = told(copying)
    expect(status == 0 and text.endswith("north.db\n"), "the copy ended with", status, text)
    found = [told(it) for it in others]
    expect([it[0] for it in found] == [0, 0] and "worked\n" in found[0][1] and found[1][1].endswith("north.db\n"), "they ended with", found)


def test_asked_while_it_is_copied(place):
    """Who asks a desk that is stopped for its copy waits for that, and asks the desk behind it; who asks its store is waited for."""
    needs.root()
    runs(place)
    (place / "north.csv").write_text(f"{HEADER}acme,acmekey000000001,9,9,9,9,9\n")
    (place / "north.key").write_text("relaykey00000001\n")
    # (what asks the store tells what else is under way)
    (place / "bin/hq").write_text(f'#!/bin/sh\n[ -e {place}/run.copied/north ] && echo "a copy is under way" >&2 && exit 1\n'
                                  f'echo $PPID >{place}/asks; while [ -e {place}/long ]; do sleep 0.05; done; echo "200 {{\\"held\\":1}}"\n')
    (place / "bin/hq").chmod(0o755)
    place.chmod(0o777)
    ask = "hq-ask", "--folder", place, "--user", "nobody", "hold", "acme", "ALL"
    copying = slow_copy(place)
    asking = begin(place, *ask)
    time.sleep(1)
    expect(asking.poll() is None, "it asks a store that is being copied:", asking.poll() is not None and told(asking))
    (place / "slow").unlink()
    asking.kill()
    asking.communicate(timeout=LONGEST)
    expect(told(copying)[0] == 0, "the copy ended otherwise")
    expect(run(place, "desk-stop", "north").returncode == 0, "it does not stop")
    (place / "long").touch()
    asking = begin(place, *ask)
    until(lambda: (place / "asks").exists(), "the store is not asked")
    copying = begin(place, "desk-backup", place / "second", "north")
    time.sleep(1)
    expect(copying.poll() is None and not (place / "second/north.tar").exists(), "it is copied while its store is asked")
    (place / "long").unlink()
    expect(told(asking) == (0, "held 1\n"), "the store is asked otherwise")
    expect(told(copying)[0] == 0, "the second copy ended otherwise")


def test_killed_copy(place):
    """A copy that is killed keeps no desk stopped once it is started again."""
    address = runs(place)
    copying = slow_copy(place)
    copying.kill()
    (place / "slow").unlink()
    copying.communicate(timeout=LONGEST)
    expect((place / "run.copied/north").exists(), "a kill leaves no mark")
    expect(run(place, "desk-start", "north").returncode == 0 and listens(address), "it does not start")


@pytest.mark.parametrize("name", ["2026-11-30T10:31", "host:copy", "-x:1", "with a space"])
def test_names_of_folders(place, name):
    """A copy goes into whatever folder is named, and is whole: with a colon it is no other machine's."""
    is_set_up(place, "north")
    ended = subprocess.run(capture_output=True, timeout=LONGEST, cwd=place, **words(place, "desk-backup", name, "north"))
    expect((ended.returncode, ended.stdout) == (0, "north.db\n"), name, "it ended with", ended)
    expect((place / name / "north.tar").exists(), name, "there is no copy")


def test_started_behind_a_killed_copy(place):
    """So it is where systemctl starts it, as soon as nothing of the copy is left; while that goes on it starts no desk."""
    address = runs(place)
    copying = slow_copy(place)
    for _ in range(2):
        ended = run(place, "systemctl", "start", "hq-desk@north.service")
        expect(ended.returncode == 0 and "its store is being copied" in ended.stderr, "while it is copied a start is", ended)
        # (what copies goes on behind its parent)
        copying.kill()
    (place / "slow").unlink()
    copying.communicate(timeout=LONGEST)
    expect((place / "run.copied/north").exists() and not listens(address), "a kill leaves no mark, or it was started")
    ended = run(place, "systemctl", "start", "hq-desk@north.service")
    until(lambda: listens(address), "it does not start")
    expect((ended.stderr, (place / "run.copied/north").exists()) == ("", False), "the mark is left, and told is", ended)


def test_a_desk_that_did_not_run(place):
    """The end of a copy leaves a desk stopped that did not run before, unless somebody has asked for its start meanwhile."""
    address = is_set_up(place, "north")
    ended = run(place, "desk-backup", place / "first", "north")
    expect((ended.returncode, ended.stdout) == (0, "north.db\n") and not listens(address), "it was started, or ended with", ended)
    copying = slow_copy(place)
    ended = run(place, "systemctl", "start", "hq-desk@north.service")
    expect("it starts behind that" in ended.stderr and not listens(address), "while it is copied a start is", ended)
    (place / "slow").unlink()
    expect(told(copying)[0] == 0 and listens(address), "it was not started behind its copy")


@pytest.mark.parametrize("states", ["activating", "deactivating", "inactive 17", "inactive,activating"])
def test_a_desk_that_is_about_to_run(place, states):
    """A desk that just starts counts as one that runs, as by a job of a boot, or behind the retention that is under way."""
    address = is_set_up(place, "north")
    given = [*(it.split() for it in states.split(",")), ["inactive"]][:2]
    (place / "told").write_text("\n".join(f"ActiveState={it[0]}\nJob={''.join(it[1:])}\n" for it in given))
    ended = run(place, "desk-backup", place / "copy", "north")
    expect(ended.returncode == 0 and listens(address), "it was not started, or ended with", ended)


def test_copied_behind_a_killed_copy(place):
    """The next copy brings back a desk that a killed copy has left stopped."""
    address = runs(place)
    copying = slow_copy(place)
    copying.kill()
    (place / "slow").unlink()
    copying.communicate(timeout=LONGEST)
    expect(not listens(address), "it runs behind a copy that was killed")
    expect(run(place, "desk-backup", place / "second", "north").returncode == 0 and listens(address), "it was not started")


def test_nothing_to_copy(place):
    """A desk that is not there, or has no store, is told, and nothing is stopped; so it is where there is no room."""
    for name, why in (("south", "there is no desk south"), ("north", "north has no store")):
        is_set_up(place, "north")
        (place / "stores/north.db").unlink()
        ended = run(place, "desk-backup", place / "copy", name)
        expect(ended.returncode == 1 and why in ended.stderr and not (place / "called").exists(), "it ended with", ended)
    address = runs(place)
    (place / "bin/df").write_text("#!/bin/sh\necho ' 1000000 50000'\n")
    (place / "bin/df").chmod(0o755)
    ended = run(place, "desk-backup", place / "copy", "north")
    expect(ended.returncode == 1 and "is there room?" in ended.stderr and listens(address), "without room it ended with", ended)
    # (a file system may keep less than a store has)
    (place / "bin/df").write_text("#!/bin/sh\necho ' 1000000 900000'\n")
    (place / "stores/north.db").write_bytes(bytes(700000))
    expect(run(place, "desk-backup", place / "again", "north").returncode == 0, "a store is cut")
    # (whoever was erased before, and who is at which desk)
    found = [(place / f"again/north.{it}.csv").read_text() for it in ("erased", "desks")]
    expect(found == ["name,moment\n", "customer,desk\n"], "beside the copy are", found)
    (place / "erased.csv").write_text("name,moment,erasure\nbirch,2026-01-02T03:04:05Z,ab\n")
    run(place, "desk-backup", place / "third", "north")
    expect((place / "third/north.erased.csv").read_text().endswith("birch,2026-01-02T03:04:05Z,ab\n"), "erased are others")


def test_a_store_that_is_lost(place):
    """Before a restore the copy of a store that is lost is empty, and of one that lacks its log has what is there; the desk is started."""
    address, store = runs(place), place / "stores/north.db"
    for text, wanted in (("a store", "north.db\n"), (None, "")):
        if text is None:
            store.unlink()
        ended = run(place, "desk-backup", "--any", place / f"copy of {text}", "north")
        expect((ended.returncode, ended.stdout) == (0, wanted) and listens(address), "it ended with", ended)


def test_put_back_meanwhile(place):
    """A restore that begins while a copy waits for the store has it refused: until whoever was erased since is erased in that store, it is
    not the one of the list beside the copy."""
    needs.command("flock")
    is_set_up(place, "north")
    (place / "run.locks").mkdir()
    holder = subprocess.Popen(["flock", place / "run.locks/north", "sleep", "60"])
    try:
        until(lambda: subprocess.run(["flock", "--nonblock", place / "run.locks/north", "true"]).returncode, "nobody works at the store")
        copying = begin(place, "desk-backup", place / "copy", "north")
        expect(copying.stdout.readline() == "desk-backup: it waits for who works at the store of north\n", "it does not wait")
        (place / "stopped/north.restoring").touch()
    finally:
        subprocess.run(["pkill", "-P", str(holder.pid)], check=False)
        holder.wait()
    status, text = told(copying)
    expect(status == 1 and "the store of north is being put back" in text, "it ended with", status, text)
    expect(not (place / "copy/north.tar").exists() and not (place / "run.copied/north").exists(), "something was copied")
