"""A key that hq-customers prints works from then on, by nginx and a desk that run."""
import os
import shutil
import subprocess

import needs
import pytest
from customers_place import Place
from deploying import DEPLOY, ROWS, Desk, Proxy
from serving import LONGEST, RELAY, expect

# A systemctl that knows the desk and nginx for customers, and comes back from a reload as Debian's does: once the signal is sent.
SYSTEMCTL = """\
case "$1 $2 $3" in
  "is-active --quiet hq-desk@north" | "is-active --quiet nginx") exit 0 ;;
  "reload nginx ") exec kill -HUP {} ;;
esac
exit 3
"""
# Starts the desk again, which the test keeps, and waits until it listens.
RESTART = """\
#!/usr/bin/python3
import os, signal, socket, time
os.kill({process}, signal.SIGTERM)
time.sleep(0.3)
while socket.socket().connect_ex(({host!r}, {port})):
    time.sleep(0.02)
"""


@pytest.mark.parametrize("words", [("key", "acme"), ("add-key", "acme", "panel"), ("add", "birch")])
def test_works_at_once(program, folder, words):
    """Whoever reads the key as it is printed, and asks by it at once, is answered."""
    needs.command("nginx", "openssl")
    place = Place(folder, program)
    folder.chmod(0o755)
    scripts = folder / "scripts"
    shutil.copytree(DEPLOY, scripts)
    with Desk(place.folder, program, "north", ROWS) as desk, Proxy(place.folder, [desk]) as front:
        host, _, port = desk.address.rpartition(":")
        (scripts / "desk-restart").write_text(RESTART.format(process=desk.process.pid, host=host, port=int(port)))
        place.systemctl(SYSTEMCTL.format(front.front.process.pid))
        if words[0] == "add-key":
            # (it is started with them, as its unit has it read its settings at each start)
            desk.words += ["--keys", place.folder / "north.keys.csv"]
        asked = subprocess.Popen([scripts / "hq-customers", "--folder", place.folder, "--store", folder, *words], stdin=subprocess.DEVNULL,
                                 stdout=subprocess.PIPE, stderr=subprocess.PIPE, text=True,
                                 env={**os.environ, "PATH": f"{place.bin}:{os.environ['PATH']}"})
        key = asked.stdout.readline().strip()
        found = front.ask("GET", "/v1/usage", key) if key else None
        told = asked.communicate(timeout=LONGEST)
        expect(asked.returncode == 0 and found and found[0] == 200, words, "the key", key, "got", found, told)
        expect(RELAY not in told[0], "another key is told")
