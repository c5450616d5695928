"""Stops at each write and refused requests for memory, of a batch and of a migration."""
import shutil
from collections import Counter
from itertools import count

from serving import expect
from stores_files import (READERS, STEPS, batch, copied, expect_migration, expect_old_or_new, expect_sound, migration, old_version,
                          on_hold, replies_of, rows_of, run, run_alone)

STOPPED = 77
COPIES = 400  # messages beside those of an earlier release, a tenth of them on hold
# How the file is left by a stop: as the calls before it, with half of the write at it, or without what was not synced.
WAYS = {"plain": {}, "half": {"STOP_HALF": "1"}, "power": {"POWER_GOES": "0"}}
# Behind which lines a commit comes, where each line comes alone, and where all are there at once: the sweep and the import go alone.
EACH, ROUNDS = [*range(1, len(STEPS) + 1)], [3, 4, 6, 7, 8]
NO_MEMORY = b'503 {"error":90,"name":"WantOfMemory"}\n'


# ---- migrations

def stop_migration(program, library, at, way, old, folder):
    """Stops a migration at one call; answers whether it was stopped, and which version it left."""
    folder.mkdir()
    store = old_version(old[0], folder, "store", COPIES)
    ended = run(migration(program, store), b"", LD_PRELOAD=library, STOP_AT=str(at), **WAYS[way])
    expect(ended.returncode in (0, STOPPED), at, ended)
    left = expect_old_or_new(store, old, folder)
    expect_migration(program, store, 0, b"migrated %d on hold\n" % (len(on_hold(old)) if left == 1 else 0))
    expect_sound(store, folder)
    shutil.rmtree(folder)
    return ended.returncode == STOPPED, left


def stopped_migrations(program, library, workers, folder, number):
    old, tried, left = rows_of(old_version(number, folder, "counted", COPIES), folder), 0, set()
    for way in WAYS:
        for start in count(1, 16):
            jobs = [workers.submit(stop_migration, program, library, at, way, old, folder / f"migration-{way}-{at}")
                    for at in range(start, start + 16)]
            ended = [job.result() for job in jobs]
            tried += sum(stopped for stopped, _ in ended)
            left |= {version for stopped, version in ended if stopped}
            if not all(stopped for stopped, _ in ended):
                break
    expect(tried > 10 and number in left, "stops of a migration", tried, left)
    return tried


def refuse_migration(program, library, at, old, folder):
    """Refuses one request for memory of a migration; answers whether it was told."""
    folder.mkdir()
    store = old_version(old[0], folder, "store")
    ended = run(migration(program, store), b"", LD_PRELOAD=library, REFUSE_AT=str(at))
    told = ended.returncode, ended.stdout, ended.stderr
    closed = 1, b"", b"hq: 93 Closed\n"
    done = 0, b"migrated %d on hold\n" % (old[0] == 1), b""
    expect(told in (done, (1, b"", b"hq: 90 WantOfMemory\n"), closed), at, ended)
    left = expect_old_or_new(store, old, folder)
    expect(told == closed or left == (3 if ended.returncode == 0 else old[0]), at, ended, "left version", left)
    shutil.rmtree(folder)
    return ended.returncode == 1


def refused_migrations(program, library, workers, folder, number):
    old = rows_of(old_version(number, folder, "refused"), folder)
    calls = folder / "migration-calls"
    run(migration(program, old_version(number, folder, "refused-counted")), b"", LD_PRELOAD=library, CALLS=str(calls))
    requests = int(calls.read_text().split()[2])
    jobs = [workers.submit(refuse_migration, program, library, at, old, folder / f"refused-migration-{at}")
            for at in range(1, requests + 1)]
    told = sum(job.result() for job in jobs)
    expect(told > 10, "refusals of a migration that were told", told)
    return told


# ---- stops and refused memory

def told_after(program, lines):
    """What a desk in memory tells after these lines."""
    replies = replies_of([program], b"".join(lines) + READERS)
    return replies.splitlines(keepends=True)[len(lines):]


def stop(program, library, at, way, wanted, ends, folder):
    """Stops at one call; answers how many lines were replied to, and whether it was stopped at all. Found is what was replied to,
    or that and all lines up to the next of these ends."""
    folder.mkdir()
    store = folder / "store"
    more = {"LD_PRELOAD": library, "STOP_AT": str(at), **WAYS[way]}
    if ends == ROUNDS:
        ended = run(batch(program, store), b"".join(STEPS), **more)
    else:
        ended = run_alone(batch(program, store), STEPS, **more)
    expect(ended.returncode in (0, STOPPED), at, ended)
    told = ended.stdout.count(b"\n")
    copy = copied(store, folder)
    found = replies_of(batch(program, copy), READERS).splitlines(keepends=True)
    end = next((it for it in ends if it > told), told)
    expect(found in (wanted[told], wanted[end]), "stopped at", at, "told", told, "found", found)
    replies_of(batch(program, store), b"")
    expect_sound(store, folder)
    shutil.rmtree(folder)
    return told, ended.returncode == STOPPED


def stops(program, library, workers, folder, ends):
    wanted = [told_after(program, STEPS[:done]) for done in range(len(STEPS) + 1)]
    expect(all(wanted[it] != wanted[it + 1] for it in range(len(STEPS))), "a step that does nothing")
    tried = Counter()
    for way in WAYS:
        reached = Counter()
        for first in count(1, 64):
            jobs = [workers.submit(stop, program, library, at, way, wanted, ends, folder / f"stop-{way}-{at}")
                    for at in range(first, first + 64)]
            ended = [job.result() for job in jobs]
            reached.update(told for told, stopped in ended if stopped)
            tried[way] += sum(stopped for _, stopped in ended)
            if not all(stopped for _, stopped in ended):
                break
        expect(set(reached) >= {0, *ends[:-1]}, "no stop before one of the ends", reached)
    return tried


def words_for(program, over, store):
    """The words of a run over one of the three stores."""
    return {"lists": [program], "memory": batch(program), "a file": batch(program, store)}[over]


def refuse(program, library, at, over, folder):
    """Refuses one request for memory; answers whether anything was told of it."""
    folder.mkdir()
    store = folder / "store"
    ended = run(words_for(program, over, store), b"".join(STEPS), LD_PRELOAD=library, REFUSE_AT=str(at))
    told = ended.stdout.splitlines(keepends=True)
    if ended.returncode != 0:
        expect((ended.returncode, ended.stderr) == (1, b"hq: 90 WantOfMemory\n"), over, at, ended)
    done = [line for line, reply in zip(STEPS, told) if reply != NO_MEMORY]
    expect(ended.returncode != 0 or len(told) == len(STEPS), over, at, ended)
    replied = [reply for reply in told if reply != NO_MEMORY]
    expect(replied == replies_of([program], b"".join(done)).splitlines(keepends=True), over, at, told)
    if store.exists():
        found = replies_of(batch(program, store), READERS).splitlines(keepends=True)
        expect(found == told_after(program, done), "refused at", at, "told", told, "found", found)
        expect_sound(store, folder)
    shutil.rmtree(folder)
    return len(done) < len(STEPS)


def refusals(program, library, workers, folder):
    tried = Counter()
    for over in ("lists", "memory", "a file"):
        calls = folder / "calls"
        run(words_for(program, over, folder / "counted"), b"".join(STEPS), LD_PRELOAD=library, CALLS=str(calls))
        requests = int(calls.read_text().split()[2])
        expect(requests > 100, "requests for memory", requests)
        jobs = [workers.submit(refuse, program, library, at, over, folder / f"refuse-{over}-{at}")
                for at in range(1, requests + 1)]
        tried[over] = sum(job.result() for job in jobs)
        expect(tried[over] > 100, "refusals that were told", tried[over])
    return tried
