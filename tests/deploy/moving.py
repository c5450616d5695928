"""Two desks that run, of which the first has dale with all that one can have, for the tests of `hq-customers move`.

The stores are those of the program. A stand-in of systemctl notes of each start whether the desk's directory and its store agree.
"""
import contextlib
import os
import shutil
import sqlite3
import subprocess
import sys
import time

from deploying import DEPLOY
from serving import LONGEST, expect
from test_erased import BOTH, WITH_HISTORY, Stores

SCRIPTS = ("hq-customers", "hq-as", "hq-ask", "desk-stop", "desk-start", "desk-maps", "desk-store", "move-customer", "desk_apart.py", "desk_files.py",
           "desk_erasures.py", "desk_moves.py", "desk_programs.py", "desk_restores.py", "desk_store.py")
TABLES = "heads", "messages", "recipients", "lines", "marks", "notices", "holds", "ends"
ELM = "elm,elmkey0000000001,1000,500000000,1000,100,14400,1000\n"
SYSTEMCTL = """\
#!/bin/sh
echo "$*" >>{folder}/called
[ ! -e {folder}/fails ] || case "$*" in *"$(cat {folder}/fails)"*) echo "no such thing" >&2; exit 1 ;; esac
verb=$1; shift; [ "$1" != --quiet ] || shift
[ "$verb" != is-active ] || {{ for it; do [ ! -e "{folder}/runs/${{it%.service}}" ] || exit 0; done; exit 3; }}
for it; do
  it=${{it%.service}} name=${{it#*@}}
  case $verb in
    stop) rm -f "{folder}/runs/$it" ;;
    start) [ ! -e "{folder}/stopped/$name" ] && [ ! -e "{folder}/stopped/$name.moving" ] || exit 1; : >"{folder}/runs/$it"; {python} {folder}/state.py "$name" >>{folder}/starts ;;
  esac
done
"""
# Whether the directory of a desk that starts has dale, and whether its store has.
STATE = """\
import sqlite3, sys
name = sys.argv[1]
rows = sqlite3.connect("{stores}/" + name + ".db").execute("SELECT count(*) FROM messages WHERE customer = 'dale'").fetchone()[0]
print(name, "\\ndale," in open("{settings}/" + name + ".csv").read(), rows > 0)
"""
RESTART = '#!/bin/sh\nshift\n[ "$1" != --stopped ] || shift\n[ "$1" != --input ] || shift\nexec "$@"\n'
# A store whose N-th statement is never done: a fault, or the end of all that runs by these scripts.
COUNTED = """
class Counted(sqlite3.Connection):
    def execute(self, *given):
        if os.path.exists("{folder}/left"):
            with open("{folder}/left") as file:
                how, left = file.read().split()
            with open("{folder}/left", "w") as file:
                file.write(f"{{how}} {{int(left) - 1}}")
            if left == "1" and how == "fault":
                raise sqlite3.OperationalError("database or disk is full")
            if left == "1":
                ended = os.getpid()
                while ended > 1 and b"{folder}" in open(f"/proc/{{ended}}/cmdline", "rb").read():
                    before, ended = ended, int(open(f"/proc/{{ended}}/stat").read().rpartition(")")[2].split()[1])
                    if before != os.getpid():
                        os.kill(before, 9)
                os._exit(9)
        return super().execute(*given)
"""


class Moves(Stores):
    """Two desks that run, of which north has dale with all that one can have."""

    def __init__(self, folder, program):
        super().__init__(folder, program)
        self.place, self.program, self.is_refused = folder, program, False
        self.scripts = folder / "scripts"
        for it in (self.scripts, folder / "runs", folder / "stopped"):
            it.mkdir()
        here = {"/var/lib/hq-desk-stopped": f"{folder}/stopped", "/etc/hq/": f"{self.folder}/", "/run/hq-desk": f"{folder}/run"}
        for name in SCRIPTS:
            text = (DEPLOY / name).read_text()
            for it, value in here.items():
                text = text.replace(it, value)
            if name == "desk_store.py":
                text = text.replace("store = sqlite3.connect(", "store = Counted(") + COUNTED.format(folder=folder)
            self.put(self.scripts / name, text)
        self.put(self.scripts / "desk-restart", RESTART)
        self.put(folder / "state.py", STATE.format(stores=self.stores, settings=self.folder))
        self.systemctl(SYSTEMCTL.format(folder=folder, python=sys.executable).partition("\n")[2])
        self.desk("south", 826, "")
        (self.folder / "south.csv").write_text(WITH_HISTORY + ELM)
        self.directory(BOTH + "dale,dalekey000000001,1000,500000000,1000,100,14400,1000\n")
        self.now = int(time.time())
        self.filled_as("dale", "dalekey000000001", self.now)
        self.batch((self.now, "GET", "/v1/usage", "elmkey0000000001"), name="south")
        self.before = self.has("north")
        self.boot()

    @staticmethod
    def put(path, text):
        path.write_text(text)
        path.chmod(0o755)

    def words(self, *given):
        return [self.scripts / "hq-customers", *super().words(*given)[1:]]

    def told(self, name):
        asked = ((self.now, "GET", f"/v1/{it}", "dalekey000000001") for it in ("usage", "messages", "lines", "notices", "history"))
        return self.batch(*asked, name=name)

    def move(self, script=()):
        return self.run("move", "dale", "--desk", "south", script=script)

    def boot(self):
        """What a start of the machine does: what was stopped by desk-stop stays so."""
        for it in (self.place / "runs").iterdir():
            it.unlink()
        (self.place / "starts").write_text("")
        for name in ("north", "south"):
            subprocess.run([self.bin / "systemctl", "start", f"hq-desk@{name}.service"], check=False)

    def desk_start(self, name):
        return subprocess.run([self.scripts / "desk-start", name], capture_output=True, text=True, timeout=LONGEST,
                              env={**os.environ, "PATH": f"{self.bin}:{os.environ['PATH']}"})

    def is_sound(self, *about):
        """No desk has ever started by a directory that its store does not agree with."""
        for line in (self.place / "starts").read_text().splitlines():
            name, in_directory, in_store = line.split()
            expect(in_directory == in_store, *about, "the desk started with", line)

    def has(self, name):
        """All rows of dale in a store, by table."""
        with contextlib.closing(sqlite3.connect(self.stores / f"{name}.db")) as store:
            return {it: sorted(store.execute(f"SELECT * FROM {it} WHERE customer = 'dale'")) for it in TABLES}

    def is_moved(self, *about):
        """dale is served whole at south, both desks run, and nothing of the move is left."""
        self.is_sound(*about)
        expect(sorted(it.name for it in (self.place / "runs").iterdir()) == ["hq-desk@north", "hq-desk@south"], *about, "not both run")
        expect(not [*(self.place / "stopped").iterdir()] and not (self.folder / ".customers.moving").exists(), *about, "a mark is left")
        expect(self.has("south") == self.before and not any(self.has("north").values()), *about, "dale has", self.has("south"))
        expect("dale,south\n" in (self.folder / "desks.csv").read_text() and "dale 127.0.0.1:826;" in (self.folder / "names.map").read_text()
               and "dale" not in self.rows() and "dale" in self.rows("south.csv"), *about, "some files have dale at north")

    def is_cut(self, *about):
        """Behind a power loss: a boot starts no desk by half, nothing else works at dale, and the same command ends it."""
        self.boot()
        self.is_sound(*about)
        if any(it.name.endswith(".moving") for it in (self.place / "stopped").iterdir()) and not self.is_refused:
            self.is_refused = True
            for name in ("north", "south"):
                ended = self.desk_start(name)
                expect(ended.returncode == 1 and "hq-customers move dale --desk south\n" in ended.stderr, *about, "desk-start", ended)
            for words in (("set", "dale", "--messages", "5"), ("erase", "birch"), ("retain", "90"), ("compare",), ("move", "acme", "--desk", "south")):
                ended = self.run(*words)
                expect(ended.returncode == 1 and "type `hq-customers move dale --desk south` again" in ended.stderr, *about, words, ended)
        ended = self.move()
        expect(ended.returncode == 0 and ended.stdout.startswith("dale is at south "), *about, "the same again:", ended)
        self.is_moved(*about)

    def again(self, kept):
        """All as it was before."""
        for it in ("etc", "stores"):
            shutil.rmtree(self.place / it)
            shutil.copytree(kept / it, self.place / it)
        for it in (self.place / "stopped").iterdir():
            it.unlink()
        for it in ("left", "fails"):
            (self.place / it).unlink(missing_ok=True)
        self.boot()

    def kept(self):
        """A copy of all of it; from here on no new file is tried by the program, which takes its time."""
        (self.bin / "hq").unlink()
        self.put(self.bin / "hq", f'#!/bin/sh\n[ "$1" != check ] || exit 0\nexec {self.program} "$@"\n')
        kept = self.place / "kept"
        for it in ("etc", "stores"):
            shutil.copytree(self.place / it, kept / it)
        return kept
