"""Of bench/measure: a call over each store, how often it has a file synced, imports, and the start of the program."""
import os
import subprocess
import tempfile
import threading
import time

from interposed import library_in
from model import Customer, Script, import_of
from serving import HEADER, Wrong, words

ROOT = os.path.dirname(os.path.dirname(os.path.abspath(__file__)))
DESK = os.path.join(ROOT, "crates", "hq_main", "out", "hq_main")
REPETITIONS = 15
# messages of the neighbours together, where stores are compared; the calls of a round, and the rounds
FEW, MANY = 100, 10000
ROUND, ROUNDS = 100, 10
# the calls of a round where each one is of hundreds of messages
FEW_CALLS = 4


def finish(process):
    """Waits for the program, and gives the processor's time that it took."""
    _, status, usage = os.wait4(process.pid, 0)
    process.returncode = status
    if status != 0:
        raise Wrong(f"the program ended with status {status >> 8} and signal {status & 127}, not with 0")
    return usage.ru_utime + usage.ru_stime


def neighbours(count):
    """Submissions of the neighbours, in turn."""
    others = [Customer("birch", "")] + [Customer(f"birch{number}", "") for number in range(2, 11)]
    return [others[turn % len(others)].submit() for turn in range(count)]


def rounds_of(acme):
    """The calls of each kind, in rounds; those after the submissions find their messages.

    A round is its calls, or a pair: what is done before them, and its calls.
    """
    submitted = [[acme.submit() for _ in range(ROUND)] for _ in range(ROUNDS)]
    ids = list(acme.messages)
    held = [[acme.release(ids[0]) if turn % 2 else acme.hold(ids[0]) for turn in range(ROUND)] for _ in range(ROUNDS)]
    shown = [[acme.show(queue_id) for queue_id in ids[:ROUND]] for _ in range(ROUNDS)]
    listed = [[acme.list()] * ROUND for _ in range(ROUNDS)]
    checked = [[acme.check()] * ROUND for _ in range(ROUNDS)]
    used = [[acme.usage()] * ROUND for _ in range(ROUNDS)]
    reported = [[acme.report()] * FEW_CALLS for _ in range(ROUNDS)]
    swept = [[acme.sweep()] * ROUND for _ in range(ROUNDS)]
    due = [[acme.due()] * ROUND for _ in range(ROUNDS)]
    held_all = [[acme.hold_all() if turn % 2 == 0 else acme.release_all() for turn in range(FEW_CALLS)] for _ in range(ROUNDS)]
    tried = [[acme.outcome(queue_id) for queue_id in ids[turn::ROUNDS]] for turn in range(ROUNDS)]
    deleted = [[acme.delete(queue_id) for queue_id in ids[turn::ROUNDS]] for turn in range(ROUNDS)]
    deleted_all = [([acme.submit() for _ in range(ROUND * ROUNDS)], [acme.delete_all()]) for _ in range(FEW_CALLS)]
    return {
        "submission": submitted,
        "hold or release": held,
        "show": shown,
        "list of 100": listed,
        "check": checked,
        "usage": used,
        "report of 1,000": reported,
        "sweep of 1,000": swept,
        "due page of 100": due,
        "hold of 1,000": held_all,
        "outcome": tried,
        "deletion": deleted,
        "deletion of 1,000": deleted_all,
    }


class Serving:
    """A program while it runs: it is given lines, and its replies are compared and timed."""

    def __init__(self, asked, more=None):
        self.process = subprocess.Popen(asked, stdin=subprocess.PIPE, stdout=subprocess.PIPE, env=more)

    def seconds(self, calls):
        """By the clock, and of the processor."""
        script = Script(calls)
        writer = threading.Thread(target=self.write, args=(script.lines,))
        busy, begun = self.busy(), time.perf_counter()
        writer.start()
        written = self.process.stdout.read(len(script.replies))
        elapsed = time.perf_counter() - begun
        busy = self.busy() - busy
        writer.join()
        script.expect(written)
        return elapsed, busy

    def busy(self):
        """The seconds that the program has had of the processor, as the kernel's scheduler counts them once it waits."""
        time.sleep(0.01)
        with open(f"/proc/{self.process.pid}/schedstat") as counts:
            return int(counts.read().split()[0]) / 1e9

    def write(self, lines):
        self.process.stdin.write(lines)
        self.process.stdin.flush()

    def end(self):
        self.process.stdin.close()
        self.process.stdout.close()
        finish(self.process)


def microseconds_over(asked, neighbour):
    """The least mean times of a call of each kind, once the neighbours have so many messages."""
    serving = Serving(asked)
    serving.seconds(neighbours(neighbour))
    least = {}
    for kind, rounds in rounds_of(Customer("acme", "acmekey000000001")).items():
        taken = []
        for some in rounds:
            if isinstance(some, tuple):
                before, some = some
                serving.seconds(before)
            taken.append([seconds / len(some) * 1e6 for seconds in serving.seconds(some)])
        least[kind] = [min(some) for some in zip(*taken)]
    serving.end()
    return least


def desk_words(path, store=None):
    """The words by which the desk serves the customers of a directory, over a store in memory or in a file."""
    return words(DESK, "batch", store, directory=path)


def measured_directory(folder):
    """A directory of eleven customers, each with room for 1,000 messages."""
    path = os.path.join(folder, "measured")
    names = [("acme", "acmekey000000001"), ("birch", "birchkey00000001")]
    names += [(f"birch{it}", f"birchkey{it:08}") for it in range(2, 11)]
    with open(path, "w") as rows:
        rows.write(HEADER)
        rows.writelines(f"{name},{key},1000,1000000000,5000,1000,0\n" for name, key in names)
    return path


def syncs_of(folder, calls):
    """How often the program has the files of a new store synced for these calls."""
    told, store = (os.path.join(folder, name) for name in ("calls", f"synced-{len(calls)}"))
    serving = Serving(desk_words(measured_directory(folder), store), {**os.environ, "LD_PRELOAD": library_in(folder), "CALLS": told})
    serving.seconds(calls)
    serving.end()
    with open(told) as counts:
        return int(counts.read().split()[1])


def say_syncs(folder):
    acme = Customer("acme", "acmekey000000001")
    first, more, reads = [acme.submit()], [acme.submit() for _ in range(ROUND)], [acme.list()] * (2 * ROUND)
    opened, changed, read = (syncs_of(folder, calls) for calls in (first, first + more, first + more + reads))
    print(f"  over a file a submission has it synced {(changed - opened) / len(more):.2f} times,"
          f" a list {(read - changed) / len(reads):.2f}")


def say_stores():
    print("Over stores, one call of acme in microseconds, while its neighbours have few and many messages:")
    print("                             by the clock          of the processor          calls per second")
    print("  store    call               few      many        few      many    ratio    with many")
    with tempfile.TemporaryDirectory() as folder:
        path = measured_directory(folder)
        for store, asked in (
            ("memory", lambda count: desk_words(path)),
            ("file", lambda count: desk_words(path, os.path.join(folder, f"store-{count}"))),
        ):
            with_few, with_many = (microseconds_over(asked(count), count) for count in (FEW, MANY))
            for kind, (clock, busy) in with_few.items():
                slow, slow_busy = with_many[kind]
                print(f"  {store:<8} {kind:<15} {clock:>8.1f} {slow:>9.1f} {busy:>10.1f} {slow_busy:>9.1f}"
                      f" {slow_busy / busy:>8.2f} {1e6 / slow:>12,.0f}", flush=True)
        say_syncs(folder)


def directory_of(folder, count):
    """The directory of so many customers, and the list of the last one with its reply."""
    path = os.path.join(folder, f"customers-{count}")
    with open(path, "w") as rows:
        rows.write(HEADER)
        rows.writelines(f"c{it},customerkey{it:05},1000,2147483647000,5000,1000,431999\n" for it in range(count))
    return path, Script([Customer("", f"customerkey{count - 1:05}").list()])


def say_imports():
    print("An import of 1,000 lines in milliseconds by the clock, least and middle, new and again:")
    with tempfile.TemporaryDirectory() as folder:
        path, _ = directory_of(folder, REPETITIONS)
        for store, asked in (("memory", desk_words(path)), ("file", desk_words(path, os.path.join(folder, "imports")))):
            serving = Serving(asked)
            calls = [import_of(f"customerkey{it:05}", 1000) for it in range(REPETITIONS)]
            new, again = (sorted(serving.seconds([call])[0] * 1e3 for call in calls) for _ in range(2))
            serving.end()
            print(f"  {store:<8} {new[0]:>8.2f} {new[len(new) // 2]:>8.2f}   {again[0]:>8.2f} {again[len(again) // 2]:>8.2f}",
                  flush=True)


def milliseconds_to_reply(asked, script):
    """From the start of the program to its first reply."""
    begun = time.perf_counter()
    process = subprocess.Popen(asked, stdin=subprocess.PIPE, stdout=subprocess.PIPE)
    process.stdin.write(script.lines)
    process.stdin.flush()
    written = process.stdout.read(len(script.replies))
    elapsed = time.perf_counter() - begun
    process.stdin.close()
    process.stdout.close()
    finish(process)
    script.expect(written)
    return elapsed * 1e3


def say_start():
    print("From the start of the program to its first reply in milliseconds, least and middle:")
    print("  customers    in memory          new file           file that is there")
    with tempfile.TemporaryDirectory() as folder:
        for count in (1, 1000):
            path, script = directory_of(folder, count)
            told = []
            for store in (lambda turn: None, lambda turn: f"{path}-{turn}", lambda turn: f"{path}-0"):
                taken = sorted(milliseconds_to_reply(desk_words(path, store(turn)), script) for turn in range(REPETITIONS))
                told.append(f"{taken[0]:>7.1f} {taken[len(taken) // 2]:>7.1f}   ")
            print(f"  {count:>9,}", *told, flush=True)
