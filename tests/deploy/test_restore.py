"""`hq-restore` by its steps, wherever it fails or is killed: desks and worker stay stopped, nobody else works at the store, and the same command
without words goes on, and puts back no store whose desk has started.

Stores are files of text; stand-ins note what they are called with, and fail or wait where a test wants it.
"""
import os
import shutil
import signal
import subprocess
import sys
import tarfile
import time

import pytest
from deploying import DEPLOY, HEADER
from serving import LONGEST, expect, listens, until
from started_place import is_set_up, place_in, run, words

# What hq-restore calls, in their order, and each word by which a stand-in knows a step of its own.
CALLS = """\
#!/bin/sh
echo "{name} $*" >>{folder}/steps
[ ! -e {folder}/waits ] || case "{name} $*" in *"$(cat {folder}/waits)"*) : >{folder}/there; sleep 30 ;; esac
[ ! -e {folder}/fails ] || case "{name} $*" in *"$(cat {folder}/fails)"*) exit 1 ;; esac
"""
STORE = "SQLite format 3\0"
STEPS = ("desk-stop", "desk-backup --any", "tar -x -p", "erase-again", "migrate", "desk-start north", "restored", "desk-start relay")
OTHER = HEADER + "acme,acmekey000000001,1000,500000000,1000,1000,14400\n"


class Place:
    """A folder with the scripts, a desk north that runs, a worker, and a copy of north's store."""

    def __init__(self, folder):
        self.folder = place_in(folder)
        self.scripts = folder / "bin"
        for name in ("hq-restore", "desk_erasures.py", "desk_programs.py", "desk_restores.py"):
            text = (DEPLOY / name).read_text()
            for it, here in (("/var/lib/hq-desk-stopped", "stopped"), ("/etc/hq", ""), ("/var/lib/hqdesk", "stores")):
                text = text.replace(it, str(folder / here) if here else str(folder))
            self.put(name, text)
        for name in ("desk-stop", "desk-start", "desk-backup", "hq-as", "hq-customers"):
            if name != "hq-customers":
                (self.scripts / name).rename(self.scripts / f"real-{name}")
            self.put(name, CALLS.format(name=name, folder=folder) + ("" if name == "hq-customers" else f'exec "$(dirname "$0")/real-{name}" "$@"\n'))
        # (what the desks' user and the worker's do)
        self.put("hq", "#!/bin/sh\n")
        self.put("hq-relay", "#!/bin/sh\n")
        self.put("real-hq-as", '#!/bin/sh\n[ "$1" != --input ] || shift\nshift\nexec "$@"\n')
        (folder / "relay.ini").write_text("[desk]\ndesks = desks.csv\n")
        (folder / "desks.csv").write_text("customer,desk\nacme,north\nbirch,south\n")
        self.addresses = {it: is_set_up(folder, it) for it in ("north", "south")}
        for name in self.addresses:
            self.store(name).write_text(STORE)
            (folder / f"{name}.key").write_text("relaykey000000001\n")
            (folder / f"{name}.csv").write_text(OTHER.replace("acme", {"north": "acme", "south": "birch"}[name]))
        for it in ("hq-relay-intake.service", "hq-relay-deliver.service"):
            (folder / f"runs-{it.removesuffix('.service')}").touch()
        self.run("real-desk-start", "north", "south")
        self.backup = folder / "backup"
        self.run("real-desk-backup", self.backup, "north", "south")
        for name in ("north", "south"):
            self.store(name).write_text(f"{STORE} of now")

    def put(self, name, text):
        (self.scripts / name).write_text(text)
        (self.scripts / name).chmod(0o755)

    def store(self, name="north"):
        return self.folder / f"stores/{name}.db"

    def run(self, command, *more):
        return run(self.folder, command, *more)

    def restore(self, *names, aside="aside"):
        return self.run("hq-restore", *(names or ["north"]), "--backup", self.backup, "--aside", self.folder / aside)

    def steps(self):
        path = self.folder / "steps"
        found = path.read_text().splitlines() if path.exists() else []
        path.unlink(missing_ok=True)
        return found

    def marks(self):
        return sorted(it.name for it in (self.folder / "stopped").iterdir())

    def is_done(self, *about, worker=True):
        """The store is that of the copy, all runs, and no mark is left."""
        expect(self.store().read_text() == STORE and self.marks() == ([] if worker else ["relay"]), *about, "there are", self.marks())
        last = (self.folder / "called").read_text().splitlines()[-1]
        expect(("start hq-relay-intake.service hq-relay-deliver.service" == last) == worker, *about, "the last call is", last)
        expect(listens(self.addresses["north"]), *about, "north does not listen")

    def is_kept(self, step, *about):
        """Until the desk has started nobody works at its store; until the book is fitted the worker does not start."""
        before = STEPS.index(step) < STEPS.index("desk-start north")
        commands = [("real-desk-start", "north"), ("real-desk-backup", self.folder / "other", "north")] if before else []
        for command in [*commands, *([("real-desk-start", "relay")] if step != "desk-start relay" else [])]:
            ended = self.run(*command)
            expect(ended.returncode == 1 and "hq-restore" in ended.stderr and not (self.folder / "other").exists(), *about, command, "ended with", ended)
        if before:
            ended = self.run("hq-ask", "--folder", self.folder, "--store", self.folder / "stores", "usage", "acme")
            expect(ended.returncode == 1 and "hq-restore" in ended.stderr, *about, "hq-ask ended with", ended)


@pytest.fixture
def place(folder):
    return Place(folder)


def test_order(place):
    """The worker is away before its desk, and starts last; what is there now is in the copy aside."""
    place.steps()
    ended = place.restore()
    expect(ended.returncode == 0, "it ended with", ended)
    place.is_done("at once")
    steps = place.steps()
    found = [next((at for at, it in enumerate(steps) if step in it), None) for step in STEPS]
    expect(None not in found and found == sorted(found), "the steps are", steps)
    moment = time.strftime("%Y-%m-%dT%H:%M:%SZ", time.gmtime((place.backup / "north.tar").stat().st_mtime))
    for it in (f"hq-customers erase-again north --copy {place.backup}", f"hq-as hqrelay hq-relay {place.folder}/relay.ini restored north --copied {moment}"):
        expect(it in steps, "no step is", it)
    with tarfile.open(place.folder / "aside/north.tar") as tar:
        expect(tar.extractfile("north.db").read() == f"{STORE} of now".encode(), "aside is another store")
    expect(place.store("south").read_text() == f"{STORE} of now", "another store was put back")
    # (a cut may leave marks without a record)
    (place.folder / "stopped/south.fitting").touch()
    ended = place.run("hq-restore")
    expect(ended.returncode == 1 and "no restore is under way" in ended.stderr and not place.marks(), "again", ended, place.marks())


@pytest.mark.parametrize("how", ["fails", "waits"])
@pytest.mark.parametrize("step", STEPS[2:])
def test_goes_on(place, step, how):
    """Where a step fails, or all of it is killed there, the same command goes on, whatever boots come between."""
    if how == "fails":
        (place.folder / how).write_text(step)
        ended = place.restore()
        goes_on = "all else is done" if step == "desk-start relay" else "type `hq-restore` without words"
        expect(ended.returncode == 1 and goes_on in ended.stderr, "it ended with", ended)
    else:
        going = until_it_waits(place, step)
        ended = place.run("hq-restore")
        expect(ended.returncode == 1 and "another hq-restore is at work" in ended.stderr, "two at once", ended)
        os.killpg(going.pid, signal.SIGKILL)
        going.wait()
    (place.folder / how).unlink(missing_ok=True)
    place.is_kept(step)
    if STEPS.index(step) > STEPS.index("desk-start north"):
        place.store().write_text(f"{STORE} of later")
    is_last = (step, how) == ("desk-start relay", "fails")
    ended = place.run("real-desk-start", "relay") if is_last else place.run("hq-restore")
    expect(ended.returncode == 0, "it ended with", ended)
    if STEPS.index(step) > STEPS.index("desk-start north"):
        # (its customers have worked by it since)
        expect(place.store().read_text() == f"{STORE} of later", "the store was put back once more")
        place.store().write_text(STORE)
    place.is_done(step)


@pytest.mark.parametrize("step", STEPS[:2])
def test_nothing_is_changed(place, step):
    """Where nothing has been put back yet, a fault leaves what ran as it was, and what desk-stop had stopped."""
    (place.folder / "fails").write_text(step)
    for stopped in ([], ["north"], ["north", "relay"]):
        for it in stopped:
            (place.folder / "stopped" / it).touch()
        ended = place.restore(aside=f"aside-{len(stopped)}")
        expect(ended.returncode == 1 and "goes on" not in ended.stderr, "it ended with", ended)
        expect(place.store().read_text() == f"{STORE} of now" and place.marks() == stopped, stopped, "there are", place.marks())


def until_it_waits(place, step, *names):
    """A restore that waits in a step, in a session of its own."""
    (place.folder / "waits").write_text(step)
    going = subprocess.Popen(start_new_session=True, stderr=subprocess.PIPE, **words(place.folder, "hq-restore", *(names or ["north"]), "--backup",
                                                                                       place.backup, "--aside", place.folder / "aside"))
    until((place.folder / "there").exists, "it does not come so far")
    (place.folder / "waits").unlink()
    return going


def test_killed_before(place):
    """Killed before there is a copy of what is there, it goes on with another folder for that, and starts what ran before."""
    going = until_it_waits(place, "desk-backup --any")
    os.killpg(going.pid, signal.SIGKILL)
    going.wait()
    (place.folder / "aside").mkdir()
    ended = place.run("hq-restore")
    expect(ended.returncode == 0 and (place.folder / "aside.1/north.tar").exists(), "it ended with", ended)
    expect(f"What was there is in {place.folder}/aside.1\n" in ended.stdout, "it tells", ended)
    place.is_done()


def test_interrupted(place):
    """Who ends it by Ctrl-C, and types that again and again, before anything is put back has all of it run as before."""
    going = until_it_waits(place, "desk-backup --any", "north", "south")
    end = time.monotonic() + 4
    while going.poll() is None and time.monotonic() < end:
        os.killpg(going.pid, signal.SIGINT)
        time.sleep(0.2)
    _, told = going.communicate(timeout=LONGEST)
    # (Python itself ends by a signal that comes behind the last line)
    expect(going.returncode in (1, -signal.SIGINT) and "goes on" not in told and not place.marks(), "it ended with", going.returncode, told, place.marks())
    expect(all(map(listens, place.addresses.values())) and place.store().read_text() == f"{STORE} of now", "some do not run")
    expect("start hq-relay-intake.service hq-relay-deliver.service" in (place.folder / "called").read_text().splitlines()[-1], "the worker does not run")


def test_nobody_reads(place):
    """A terminal that is closed meanwhile keeps no desk from its start."""
    (place.folder / "fails").write_text("desk-backup --any")
    given = words(place.folder, "hq-restore", "north", "--backup", place.backup, "--aside", place.folder / "aside")
    with open("/dev/full", "w") as full:
        ended = subprocess.run(stdout=full, timeout=LONGEST, **given)
    expect(ended.returncode and listens(place.addresses["north"]) and not place.marks(), "north is down:", place.marks())


def test_killed_as_it_gives_up(place):
    """Killed while it starts again what it has stopped for nothing, the next call does that."""
    (place.folder / "fails").write_text("desk-backup --any")
    going = until_it_waits(place, "desk-start north", "north", "south")
    os.killpg(going.pid, signal.SIGKILL)
    going.wait()
    subprocess.run(["pkill", "-9", "-f", f"{place.scripts}/desk-start"], check=False)
    (place.folder / "fails").unlink()
    ended = place.run("hq-restore")
    expect(ended.returncode == 0 and "was given up" in ended.stdout and not place.marks(), "it ended with", ended, place.marks())
    expect(all(map(listens, place.addresses.values())) and place.store().read_text() == f"{STORE} of now", "some do not run")


def test_cannot_be_written(place):
    """Where it cannot be written down what is to be done, nothing is done."""
    (place.folder / "stopped/.restore.new").mkdir()
    ended = place.restore()
    expect(ended.returncode == 1 and "goes on" not in ended.stderr and place.marks() == [".restore.new"], "it ended with", ended)
    expect(not [it for it in place.steps() if "desk-stop" in it], "something was stopped")


def test_a_desk_that_is_gone(place):
    """A desk whose settings are gone holds up the others until somebody says that it is gone for good."""
    (place.folder / "fails").write_text("migrate")
    place.restore("south", "north")
    (place.folder / "fails").unlink()
    kept = (place.folder / "south.env").read_text()
    (place.folder / "south.env").unlink()
    ended = place.run("hq-restore")
    expect(ended.returncode == 1 and "south.env is missing: put it back; or, if south is gone for good, type `hq-customers drop-desk south`" in ended.stderr,
           "it ended with", ended)
    (place.folder / "south.env").write_text(kept)
    expect(place.run("hq-restore").returncode == 0, "with its settings it does not go on")
    place.is_done("with its settings")
    (place.folder / "fails").write_text("migrate")
    place.restore("south", "north", aside="third")
    (place.folder / "fails").unlink()
    (place.folder / "south.env").unlink()
    given_up = subprocess.run([sys.executable, "-c", "import desk_restores; desk_restores.give_up(['south'])"], cwd=place.scripts, capture_output=True,
                              text=True, timeout=LONGEST)
    expect("is half done" in given_up.stdout and place.run("hq-restore").returncode == 0, "it is not given up", given_up)
    expect("south.restoring" not in place.marks() and listens(place.addresses["north"]), "there are", place.marks())


def test_one_of_several(place):
    """A desk whose store is not put back keeps no other one from its start, and the worker waits for both."""
    (place.folder / "fails").write_text("erase-again north")
    ended = place.restore("north", "south")
    expect(ended.returncode == 1 and listens(place.addresses["south"]) and place.store("south").read_text() == STORE, "it ended with", ended)
    expect({"north", "relay", "north.restoring"} <= {*place.marks()} and "south.fitting" not in place.marks(), "there are", place.marks())
    (place.folder / "fails").unlink()
    ended = place.restore("south", aside="another")
    expect(ended.returncode == 1 and "north: a restore is under way" in ended.stderr, "another store is put back without a word", ended)
    expect(place.run("hq-restore").returncode == 0, "it does not go on")
    place.is_done("behind the other")


def test_beside_the_store(place):
    """What somebody has put beside the store stays."""
    (place.folder / "stores/north.db.broken").write_text("of the operator")
    expect(place.restore().returncode == 0 and (place.folder / "stores/north.db.broken").read_text() == "of the operator", "it is gone")


def test_refused(place):
    """Words and copies that are none change nothing."""
    (place.folder / "there is").mkdir()
    empty = place.folder / "empty"
    for name in ("of another", "half", "without a store", "no store", "moved"):
        (place.folder / name).mkdir()
    (place.folder / "of another/north.tar").write_bytes((place.backup / "south.tar").read_bytes())
    (place.folder / "half/north.tar").write_bytes((place.backup / "north.tar").read_bytes()[:700])
    with tarfile.open(place.folder / "without a store/north.tar", "w"):
        pass
    (place.folder / "north.db").touch()
    with tarfile.open(place.folder / "no store/north.tar", "w") as tar:
        tar.add(place.folder / "north.db", "north.db")
    for it in ("north.tar", "north.erased.csv", "north.desks.csv"):
        for name in ("moved", "without a store", "no store", "of another", "half"):
            if not (place.folder / name / it).exists():
                shutil.copy(place.backup / it, place.folder / name)
    (place.folder / "without lists").mkdir()
    shutil.copy(place.backup / "north.tar", place.folder / "without lists")
    (place.folder / "moved/north.desks.csv").write_text("customer,desk\nacme,south\nbirch,south\n")
    new = ("--aside", place.folder / "new")
    for given, why in ((("north",), "name desks, --backup and --aside"), (("north", *new), "name desks, --backup and --aside"),
                       (("--backup", place.backup), "name desks, --backup and --aside"), (("west", "--backup", place.backup, *new), "there is no desk west"),
                       (("north", "--backup", empty, *new), "there is no copy"),
                       (("north", "--backup", place.backup, "--aside", place.folder / "there is"), "is there already"),
                       (("north", "--backup", place.folder / "of another", *new), "is no copy of north"),
                       (("north", "--backup", place.folder / "half", *new), "is no copy of north"),
                       (("north", "--backup", place.folder / "without a store", *new), "--empty has north begin anew"),
                       (("north", "--backup", place.folder / "no store", *new), "--empty has north begin anew"),
                       (("north", "--backup", place.folder / "without lists", *new), "north.erased.csv is missing"),
                       (("north", "--backup", place.folder / "without lists", *new, "--copied", "2026-11-3T02:00:00Z"), "is no moment"),
                       (("north", "--backup", place.folder / "without lists", *new, "--copied", "2999-01-01T00:00:00Z"), "is still to come"),
                       (("north", "--backup", place.folder / "moved", *new), "is from before acme moved there")):
        ended = place.run("hq-restore", *given)
        expect(ended.returncode == 1 and why in ended.stderr, given, "ended with", ended)
        expect(place.store().read_text() == f"{STORE} of now" and not place.marks() and not (place.folder / "new").exists(), given, "changed", place.marks())
    expect("--without acme gives up" in ended.stderr, "it tells no way out:", ended)
    (place.folder / "moved.csv").write_text("name,moment\nacme,2026-11-30T02:00:00Z\n")
    for copied, status in (("2026-11-30T01:59:59Z", 1), ("2026-11-30T02:00:01Z", 0)):
        ended = place.run("hq-restore", "north", "--backup", place.folder / "without lists", "--aside", place.folder / "of a moment", "--copied", copied)
        expect(ended.returncode == status and ("from before acme moved there" in ended.stderr) == (status == 1), copied, "ended with", ended)
    place.store().write_text(f"{STORE} of now")
    place.steps()
    ended = place.run("hq-restore", "north", "--backup", place.folder / "moved", *new, "--without", "acme")
    expect(ended.returncode == 0 and any(it.endswith("/moved --without acme") for it in place.steps()), "it ended with", ended)


def test_another_copy(place):
    """As long as its desk has not started another copy may be taken, as what was there before; behind that with another folder aside."""
    (place.folder / "fails").write_text("migrate")
    place.restore()
    (place.folder / "fails").unlink()
    place.steps()
    ended = place.run("hq-restore", "north", "--backup", place.folder / "aside", "--aside", place.folder / "aside")
    expect(ended.returncode == 0 and place.store().read_text() == f"{STORE} of now" and not place.marks(), "it ended with", ended)
    expect(not [it for it in place.steps() if "desk-backup" in it], "there is another copy aside")
    (place.folder / "fails").write_text("restored")
    place.restore(aside="second")
    ended = place.restore(aside="second")
    expect(ended.returncode == 1 and "second is there already" in ended.stderr and "north.fitting" in place.marks(), "it ended with", ended)


def test_empty(place):
    """Where no copy is any good, a desk begins anew, with no store; what was there is in the copy aside."""
    for number in range(2):
        # (whoever was erased a moment ago, and came again, is in no store that is empty)
        (place.folder / "erased.csv").write_text(f"name,moment\nacme,{time.strftime('%Y-%m-%dT%H:%M:%SZ', time.gmtime(time.time() - 60))}\n")
        ended = place.run("hq-restore", "north", "--empty", "--aside", place.folder / f"aside{number}")
        expect(not [it for it in place.steps() if "erase-again" in it], number, "something is erased in no store")
        expect(ended.returncode == 0 and not place.store().exists() and not place.marks(), number, "it ended with", ended)


def test_several(place):
    """The worker waits for all desks, whether they are named at once or not. Of a copy without lists its moment decides."""
    for it in place.backup.glob("*.csv"):
        it.unlink()
    ended = place.run("hq-restore", "north", "south", "--backup", place.backup, "--aside", place.folder / "aside", "--copied",
                      "2026-01-02T03:04:05Z")
    expect(ended.returncode == 0 and place.store("south").read_text() == STORE, "it ended with", ended)
    place.is_done("both")
    steps = place.steps()
    expect("hq-customers erase-again south --copied 2026-01-02T03:04:05Z" in steps, "the steps are", steps)
    order = [it.split()[-4:-2] for it in steps if "restored" in it], [at for at, it in enumerate(steps) if "desk-start" in it or "restored" in it]
    expect([it[-1] for it in order[0]] == ["north", "south"] and len(order[1]) == 5, "the steps are", steps)
    place.run("real-desk-backup", place.folder / "again", "north", "south")
    place.backup = place.folder / "again"
    (place.folder / "fails").write_text("restored north")
    place.restore("north", aside="second")
    ended = place.restore("south", aside="third")
    expect(ended.returncode == 1 and "relay" in place.marks(), "the worker has started", ended)
    (place.folder / "fails").unlink()
    expect(place.run("hq-restore").returncode == 0, "it does not go on")
    place.is_done("one behind the other")


def test_worker(place):
    """A worker that was stopped before stays stopped, and one that is not set up is left alone."""
    place.run("real-desk-stop", "relay")
    ended = place.restore()
    expect(ended.returncode == 0 and "The worker stays stopped" in ended.stdout, "it ended with", ended)
    place.is_done(worker=False)
    # (nor one that somebody has stopped behind a restore that could not start it)
    (place.folder / "fails").write_text("desk-start relay")
    place.run("real-desk-start", "relay")
    place.restore(aside="failed")
    (place.folder / "fails").unlink()
    place.run("real-desk-stop", "relay")
    expect("The worker stays stopped" in place.restore(aside="behind").stdout and place.marks() == ["relay"], "it was started", place.marks())
    place.run("real-desk-start", "relay")
    (place.folder / "relay.ini").unlink()
    place.steps()
    ended = place.restore(aside="second")
    expect(ended.returncode == 0 and not [it for it in place.steps() if "relay" in it], "it ended with", ended)
    (place.folder / "relay.ini").write_text("[desk]\n")
    ended = place.restore(aside="third")
    expect(ended.returncode == 1 and "has no line `desks = desks.csv`" in ended.stderr, "of a worker with two desks", ended)
    expect(not [it for it in place.steps() if "desk-stop" in it], "something was stopped")
    (place.folder / "south.env").unlink()
    ended = place.restore(aside="third")
    expect(ended.returncode == 0 and any(" restored --copied " in it for it in place.steps()), "of a worker with one desk", ended)
