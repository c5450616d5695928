"""A folder in which desks are stopped, started and copied by the scripts, with stand-ins for systemd and for root, for tests/deploy."""
import os
import shlex
import subprocess

import needs
from deploying import DEPLOY, all_settings_of
from serving import LONGEST, expect, free_address, listens, until

# A desk that listens a second after systemctl has come back, unless its name is `bad`, or one of its unit's marks is there.
SYSTEMCTL = """\
#!/bin/sh
echo "$*" >>{folder}/called
name=${{2#hq-desk@}} name=${{name%.service}}
case $1 in
  is-active) [ "$2" = --quiet ] && shift; [ -e "{folder}/runs-${{name#--quiet}}" ]; exit ;;
  show)
    case $2 in
      --property=MainPID) name=${{4#hq-desk@}}; cat "{folder}/pid-${{name%.service}}" 2>/dev/null ;;
      *) name=${{4#hq-desk@}} name=${{name%.service}}
        [ -e "{folder}/runs-$name" ] && echo ActiveState=active || echo ActiveState=inactive
        cat "{folder}/told" 2>/dev/null || printf 'Job=\n\nActiveState=inactive\nJob=\n' ;;
    esac
    exit 0 ;;
  stop) rm -f "{folder}/runs-$name"; pkill -F "{folder}/pid-$name" 2>/dev/null; rm -f "{folder}/pid-$name"; exit 0 ;;
  start) ! kill -0 "$(cat "{folder}/pid-$name" 2>/dev/null)" 2>/dev/null || exit 0 ;;
  restart) pkill -F "{folder}/pid-$name" 2>/dev/null ;;
esac
[ "$name" != bad ] || exit 1
[ ! -e "{folder}/stopped/$name" ] || {{ echo "Assertion failed on job for $2." >&2; exit 1; }}
sh -c "$(sed "s#%i#$name#g" "{folder}/condition")" || exit 0
: >"{folder}/runs-$name"
port=$(sed -n 's/^LISTEN=.*://p' {folder}/$name.env)
sleep 1 && exec setsid python3 -c "import socket, sys, time; where = sys.argv[1]
it = socket.socket(socket.AF_INET if where.isdecimal() else socket.AF_UNIX)
it.setsockopt(socket.SOL_SOCKET, socket.SO_REUSEADDR, 1)
it.bind(('127.0.0.1', int(where)) if where.isdecimal() else where)
it.listen()
time.sleep(60)" $port >/dev/null 2>&1 &
echo $! >"{folder}/pid-$name"
"""
# What copies a store, and takes as long as the file `slow` is there.
HQ_AS = """\
#!/bin/sh
while [ -e {folder}/slow ]; do sleep 0.05; done
[ "$1" != --input ] || shift
shift
exec "$@"
"""


def place_in(folder):
    """A folder with the scripts, and with the programs that they call."""
    needs.command("flock", "pkill")
    (folder / "bin").mkdir()
    for name in ("desk-start", "desk-stop", "desk-backup", "desk-restart", "desk_apart.py", "hq-ask"):
        text = (DEPLOY / name).read_text()
        for it, here in (("/var/lib/hq-desk-stopped", "stopped"), ("/etc/hq", ""), ("/var/lib/hqdesk", "stores"), ("/run/hq-desk", "run")):
            text = text.replace(it, str(folder / here) if here else str(folder))
        (folder / "bin" / name).write_text(text.replace("STAY, DRAIN, START = 10, 3, 30", "STAY, DRAIN, START = 10, 3, 10"))
    (folder / "bin/desk_files.py").write_text((DEPLOY / "desk_files.py").read_text())
    for name, text in (("systemctl", SYSTEMCTL), ("nft", "#!/bin/sh\nexit 1\n"), ("hq-as", HQ_AS)):
        (folder / "bin" / name).write_text(text.format(folder=folder))
    for it in (folder / "bin").iterdir():
        it.chmod(0o755)
    for it in ("stopped", "stores"):
        (folder / it).mkdir()
    (folder / "condition").write_text(condition_of("hq-desk@.service").replace("/run/hq-desk", f"{folder}/run"))
    return folder


def condition_of(unit):
    """The script by which a unit starts or not."""
    line, = all_settings_of(DEPLOY / unit)["ExecCondition"]
    way, found = line.split(" ", 1)
    expect(way == "+/bin/sh", unit, "asks by", line)
    return shlex.split(found)[1]


def is_set_up(place, name):
    """A desk of this name has settings and a store; its address."""
    host, port = free_address()
    (place / f"{name}.env").write_text(f"HOST=relay.example\nLISTEN={host}:{port}\n")
    (place / f"stores/{name}.db").write_text("a store")
    return host, port


def words(place, command, *more):
    return {"args": [place / "bin" / command, *more], "stdin": subprocess.DEVNULL, "text": True,
            "env": {**os.environ, "PATH": f"{place}/bin:{os.environ['PATH']}"}}


def run(place, command, *more):
    return subprocess.run(capture_output=True, timeout=LONGEST, **words(place, command, *more))


def begin(place, command, *more):
    return subprocess.Popen(stdout=subprocess.PIPE, stderr=subprocess.STDOUT, **words(place, command, *more))


def runs(place, name="north"):
    """A desk that is set up and runs; its address."""
    address = is_set_up(place, name)
    expect(run(place, "desk-start", name).returncode == 0 and listens(address), name, "does not start")
    return address


def slow_copy(place, folder="nightly"):
    """A copy of north's store that is under way until `slow` goes."""
    (place / "slow").touch()
    copying = begin(place, "desk-backup", place / folder, "north")
    until(lambda: (place / folder / "north.tar").exists(), "nothing is copied")
    return copying


def told(process):
    text, _ = process.communicate(timeout=LONGEST)
    return process.returncode, text
