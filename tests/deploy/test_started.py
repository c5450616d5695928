"""What stops and starts desks: whatever is typed behind it reaches them, and two who do so at once do no harm."""
import shutil
import signal
import subprocess

import needs
import pytest
from deploying import DEPLOY, all_settings_of
from serving import LONGEST, expect, free_address, listens, until
from started_place import begin, condition_of, is_set_up, place_in, run, words


@pytest.fixture
def place(folder):
    return place_in(folder)


def started(place, *names):
    addresses = {it: is_set_up(place, it) for it in names}
    for name in names:
        (place / "stopped" / name).touch()
    ended = run(place, "desk-start", *names)
    expect(not [*(place / "stopped").iterdir()], "some are kept stopped")
    return ended, [it for it, address in addresses.items() if listens(address)]


def test_listens(place):
    """Each desk listens once the command has ended."""
    ended, found = started(place, "north", "south")
    expect(ended.returncode == 0 and found == ["north", "south"], "there listen", found, ended)


def test_one_does_not(place):
    """Where one does not come up the status says so, and the next is started all the same."""
    ended, found = started(place, "bad", "south")
    expect(ended.returncode == 1 and found == ["south"] and "bad: nobody listens" in ended.stderr, "there listen", found, ended)


def test_another_listens(place):
    """Where another desk listens at its address, a desk is not taken for one that listens, and that is told."""
    for listen in ("%s:%d" % free_address(), f"unix:{place}/desk.sock"):
        for name in ("north", "south"):
            (place / f"{name}.env").write_text(f"HOST=relay.example\nLISTEN={listen}\n")
        expect(run(place, "desk-start", "north").returncode == 0, "the first one does not start")
        ended = run(place, "desk-start", "south")
        expect(ended.returncode == 1 and "south: another process listens at " in ended.stderr, "the second one ended with", ended)
        run(place, "desk-stop", "north")


def test_nobody_may_look(place):
    """Where root may not look at processes, as in some containers, whoever listens counts."""
    needs.root()
    is_set_up(place, "north")
    expect(run(place, "desk-start", "north").returncode == 0, "it does not start")
    words_of = words(place, "desk-restart", "north", "true")
    words_of["args"] = ["setpriv", "--bounding-set=-sys_ptrace", *words_of["args"]]
    ended = subprocess.run(capture_output=True, timeout=LONGEST, **words_of)
    expect(ended.returncode == 0, "it ended with", ended)


def test_listens_at_a_path(place):
    """A desk at a path is waited for too."""
    (place / "north.env").write_text(f"HOST=relay.example\nLISTEN=unix:{place}/desk.sock\n")
    ended = run(place, "desk-start", "north")
    expect(ended.returncode == 0 and (place / "desk.sock").is_socket(), "it ended with", ended)


def test_closed_to_others(place):
    """Whatever the mask of whoever types, another user of the machine has no lock of a desk, and stops none."""
    needs.root()
    is_set_up(place, "north")
    for command, *more in (("desk-restart", "north"), ("desk-stop", "north"), ("desk-start", "north"), ("desk-backup", place / "copy", "north")):
        for made in ("run.locks", "run.copied", "stopped"):
            shutil.rmtree(place / made, ignore_errors=True)
        expect(subprocess.run(umask=0, timeout=LONGEST, **words(place, command, *more)).returncode == 0, command, "fails")
        if command == "desk-restart":
            (place / "stopped").mkdir(0o700)
        expect((place / "run.locks/north").exists(), command, "has no lock")
        other = ["setpriv", "--reuid=65534", "--regid=65534", "--clear-groups", "sh", "-c",
                 'flock --nonblock "$0/run.locks/north" echo locked; : >"$0/stopped/north" && echo stopped', place]
        told = subprocess.run(other, capture_output=True, text=True, timeout=LONGEST)
        expect(told.stdout == "", "behind", command, "another user has", told)


def test_interrupted(place):
    """Who ends a start by Ctrl-C is told in one line."""
    is_set_up(place, "north")
    starting = begin(place, "desk-restart", "north", "systemctl", "start", "hq-desk@north.service")
    until(lambda: (place / "runs-north").exists(), "it does not start")
    starting.send_signal(signal.SIGINT)
    told, _ = starting.communicate(timeout=LONGEST)
    expect(starting.returncode == 1 and told == "desk-restart: north: stopped before it was known whether the desk listens\n", "it tells", told)


def test_worker(place):
    """The worker is stopped and started so too: its mark stays until it is started, also where it is stopped again."""
    for _ in range(2):
        ended = run(place, "desk-stop", "relay")
        expect((ended.returncode, [it.name for it in (place / "stopped").iterdir()]) == (0, ["relay"]), "it ended with", ended)
        called = (place / "called").read_text().splitlines()
        expect(called[-2:] == ["stop hq-relay-intake.service hq-relay-deliver.service",
                               "is-active --quiet hq-relay-intake.service hq-relay-deliver.service"], "called is", called)
    run(place, "desk-start", "relay")
    called = (place / "called").read_text().splitlines()
    expect(called[-1] == "start hq-relay-intake.service hq-relay-deliver.service" and not [*(place / "stopped").iterdir()], "called is", called)


def test_stays_stopped():
    """A unit whose desk was stopped, or is being copied, starts neither behind a boot nor by retention; who starts one that was stopped is told."""
    stopped = "!/var/lib/hq-desk-stopped/%i"
    for unit in ("hq-relay-intake.service", "hq-relay-deliver.service"):
        found = all_settings_of(DEPLOY / unit).get("AssertPathExists")
        expect(found == [stopped.replace("%i", "relay")], unit, "starts where", found)
    # (a move that is not done has marks of its own, and so has a restore)
    both = [stopped, f"{stopped}.moving", f"{stopped}.restoring"]
    for unit, wanted in (("hq-desk@.service", (both, None)), ("hq-desk-retain@.service", (None, both))):
        settings = all_settings_of(DEPLOY / unit)
        found = tuple(settings.get(it) for it in ("AssertPathExists", "ConditionPathExists"))
        expect(found == wanted, unit, "starts where", found)
        own, first = (condition_of(it).partition("{")[0] for it in (unit, "hq-desk@.service"))
        expect(own == first and "/run/hq-desk.copied/%i" in own, unit, "goes by", own)
