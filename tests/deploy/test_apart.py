"""What the user of a service prints, root's terminal does not obey; and that user reads nothing of root's environment, nor holds root up."""
import os
import re
import resource
import shutil
import sqlite3
import subprocess
import sys
import time

import needs
import pytest
from deploying import DEPLOY, HEADER, ROWS
from serving import LONGEST, RELAY, expect, free_address, listens, until
from test_planted import USER, at_terminal

# It has a terminal print its title and where its cursor is, in two ways; the rest is text.
OBEYED, TEXT = "\x1b]0;mine\x07\x1b[6n\u009b6n\u202e", "fünf\tand six\n"
# A desk that was taken over: its replies have what it likes.
TAKEN_OVER = """\
import json, socket, sys
listener = socket.create_server(("127.0.0.1", int(sys.argv[1])))
while True:
    client, _ = listener.accept()
    client.recv(65536)
    text = sys.argv[2]
    body = json.dumps({"messages": [{"id": "1", "state": text, "size": 1, "arrival": 1, "sender": text}], "next": None, "more": False,
                       "report": text, "error": 1, "name": text})
    status = "400 Bad" if sys.argv[3:] else "200 OK"
    client.sendall(f"HTTP/1.1 {status}\\r\\nContent-Length: {len(body)}\\r\\n\\r\\n{body}".encode())
    client.close()
"""


def expect_plain(told, *what):
    expect("fünf\tand six".encode() in told, *what, "does not show the text:", told)
    expect(not any(it in told for it in (b"\x1b", b"\x07", b"\xc2\x9b", "\u202e".encode())), *what, "shows what a terminal obeys:", told)


@pytest.fixture
def etc(folder):
    needs.root()
    host, port = free_address()
    for end, text in (("csv", HEADER + "".join(f"{it}\n" for it in ROWS)), ("key", f"{RELAY}\n"), ("env", f"HOST=relay.example\nLISTEN={host}:{port}\n")):
        (folder / f"north.{end}").write_text(text)
    return folder


def ended(*words, **more):
    return subprocess.run(words, stdin=subprocess.DEVNULL, stdout=subprocess.PIPE, stderr=subprocess.STDOUT, timeout=LONGEST, **more)


def test_hq_as_is_not_obeyed(folder):
    """hq-as shows its terminal no character that it obeys; a pipe and a file get each byte."""
    needs.root()
    prints = ["printf", "%s", OBEYED + TEXT]
    _, told = at_terminal(DEPLOY / "hq-as", USER, *prints)
    expect_plain(told, "hq-as")
    expect(ended(DEPLOY / "hq-as", USER, *prints).stdout == (OBEYED + TEXT).encode(), "a pipe gets something else")
    with open(folder / "file", "wb") as file:
        subprocess.run([DEPLOY / "hq-as", USER, *prints], stdout=file, timeout=LONGEST, check=True)
    expect((folder / "file").read_text() == OBEYED + TEXT, "a file gets something else")


def test_desk_is_not_obeyed(etc):
    """Nor does hq-ask, of whatever a desk replies."""
    port = int((etc / "north.env").read_text().rpartition(":")[2])
    for more in ((), ("refuses",)):
        desk = subprocess.Popen([sys.executable, "-c", TAKEN_OVER, str(port), OBEYED + TEXT, *more])
        try:
            until(lambda: listens(("127.0.0.1", port)), "it does not listen")
            for words in (("find", "acme", "sender", "a.example"), ("queue", "acme")):
                expect_plain(ended(DEPLOY / "hq-ask", "--folder", etc, *words).stdout, "hq-ask", *words, *more)
        finally:
            desk.kill()
            desk.wait()


def test_store_is_not_obeyed(etc):
    """Nor does hq-customers, of whatever stands in a store."""
    with sqlite3.connect(etc / "north.db") as store:
        store.execute("PRAGMA writable_schema = ON")
        store.execute("INSERT INTO sqlite_master VALUES ('table', ?, 'it', 0, 'CREATE TABLE half (')", (OBEYED + TEXT,))
    (etc / "bin").mkdir()
    told = ended(DEPLOY / "hq-customers", "--folder", etc, "--store", etc, "retain", "90", env={"PATH": str(etc / "bin")})
    expect(told.returncode == 1, "a store of no desk ends with", told)
    expect_plain(told.stdout.replace(b"six /", b"six"), "hq-customers")


@pytest.mark.parametrize("script, words, name", [
    ("hq-customers", ("retain", "90"), "desk-store"), ("hq-customers", ("retain", "90"), "desk-store >&2"), ("hq-ask", ("--user", USER, "usage", "acme"), "hq"),
    ("hq-customers", ("erase", "birch"), "hq-as")])
def test_without_an_end(etc, script, words, name):
    """A command of that user which prints without an end fills nobody's memory: it ends, and so does what root typed."""
    name, _, to = name.partition(" ")
    shutil.copytree(DEPLOY, etc / "bin")
    (etc / "bin" / name).unlink(missing_ok=True)
    (etc / "bin" / name).write_text(f"#!/bin/sh\nexec /usr/bin/yes {to}\n")
    (etc / "bin" / name).chmod(0o755)
    (etc / "north.db").touch()
    if name == "hq-as":
        (etc / "north.db").unlink()
        (etc / "relay.ini").touch()
    told = ended(etc / "bin" / script, "--folder", etc, "--store", etc, *words, env={"PATH": str(etc / "bin")},
                 preexec_fn=lambda: resource.setrlimit(resource.RLIMIT_AS, (1_500_000_000, 1_500_000_000)))
    expect(told.returncode == 1 and b"prints more than" in told.stdout and told.stdout.count(b"\n") < 4, "it ends with", told.returncode, told.stdout[-500:])


def test_environment(etc):
    """What root's environment has of secrets, no command of that user has."""
    (etc / "bin").mkdir()
    (etc / "bin/hq").write_text("#!/bin/sh\nenv >&2\nexit 1\n")
    (etc / "bin/hq").chmod(0o755)
    (etc / "north.db").touch()
    kept = {"PATH": f"{etc}/bin:/usr/sbin:/usr/bin:/sbin:/bin", "LANG": "C.UTF-8"}
    for words in ((DEPLOY / "hq-as", USER, "env"), (DEPLOY / "hq-ask", "--folder", etc, "--store", etc, "--user", USER, "usage", "acme")):
        told = ended(*words, env={**kept, "BORG_PASSPHRASE": "a secret of root's", "SSH_AUTH_SOCK": "/root/agent"}).stdout.decode()
        expect(f"PATH={kept['PATH']}" in told and "LANG=C.UTF-8" in told and "HOME=/nonexistent" in told, "the command has", told)
        expect("secret" not in told and "SSH" not in told, "the command has", told)


def test_left_running():
    """What a command leaves running, with its output open, holds root up neither at a terminal nor at a pipe."""
    needs.root()
    words = [DEPLOY / "hq-as", USER, "sh", "-c", "sleep 60 & echo begun; exit 3"]
    begun = time.monotonic()
    status, told = at_terminal(*words)
    expect(status == 3 and b"begun" in told, "at a terminal it ends with", status, told)
    found = ended(*words)
    expect((found.returncode, found.stdout) == (3, b"begun\n"), "at a pipe it ends with", found)
    expect(time.monotonic() - begun < 10, "it took", time.monotonic() - begun)


def test_all_of_it():
    """All that a command writes comes, also where it is much and is read slowly; and one that nobody reads any more ends."""
    needs.root()
    much = "head -c 5000000 /dev/zero | tr '\\0' x; echo end"
    found = ended("sh", "-c", f'"$0" {USER} sh -c "{much}" | (sleep 1; cat)', DEPLOY / "hq-as")
    expect(len(found.stdout) == 5000004 and found.stdout.endswith(b"xend\n"), "of 5,000,004 bytes there came", len(found.stdout))
    found = ended("sh", "-c", f'"$0" {USER} yes 2>/dev/null | head -c 4', DEPLOY / "hq-as")
    expect(found.stdout == b"y\ny\n", "of one that is not read to its end comes", found)
    expect(ended("sh", "-c", f'"$0" {USER} true >&-', DEPLOY / "hq-as").returncode == 0, "with a closed output it fails")


# What root's shell reads, with a command of a service's user among it, which looks for another place in the file.
LINES = """\
echo line A
{hq_as} {user} python3 -c 'import os; os.lseek(0, {offset}, 0)' 2>/dev/null
# never: echo this comment was run as $(id -un)
echo line B
"""


def test_lines_of_a_shell(folder):
    """What root's shell reads, from a file or a pipe, a command of that user neither reads nor moves."""
    needs.root()
    names = {"hq_as": DEPLOY / "hq-as", "user": USER}
    offset = LINES.format(**names, offset=100).index("echo this")
    (folder / "lines").write_text(LINES.format(**names, offset=offset))
    (folder / "lines").chmod(0o600)
    with open(folder / "lines") as lines:
        told = subprocess.run(["bash"], stdin=lines, capture_output=True, text=True, timeout=LONGEST)
    expect(told.stdout == "line A\nline B\n", "of a file root's shell does", told)
    told = subprocess.run(["bash"], input=f"echo one\n{DEPLOY}/hq-as {USER} cat\necho two\n", capture_output=True, text=True,
                          timeout=LONGEST)
    expect(told.stdout == "one\ntwo\n", "of a pipe root's shell does", told)


def test_input(folder):
    """With --input a command reads what it is given, by a pipe, and no more than there is. A file without it is refused, since most
    commands take an empty input for an empty file."""
    needs.root()
    (folder / "given").write_bytes(b"x" * 300_000 + b"end")
    words = ["sh", "-c", "test -p /proc/self/fd/0 && exec cat"]
    for more in ({"input": b"x" * 300_000 + b"end"}, {"stdin": open(folder / "given", "rb")}):
        told = subprocess.run([DEPLOY / "hq-as", "--input", USER, *words], capture_output=True, timeout=LONGEST, **more)
        expect(told.returncode == 0 and len(told.stdout) == 300_003 and told.stdout.endswith(b"end"), "of an input comes",
               told.stdout[-50:], told.stderr)
    told = subprocess.run([DEPLOY / "hq-as", "--input", USER, "true"], input=b"x" * 300_000, capture_output=True, timeout=LONGEST)
    expect((told.returncode, told.stderr) == (0, b""), "a command that reads nothing ends with", told)
    with open(folder / "given") as given:
        told = subprocess.run([DEPLOY / "hq-as", USER, "cat"], stdin=given, capture_output=True, text=True, timeout=LONGEST)
    refusal = "hq-as: its input is a file, which --input hands on\n"
    expect((told.returncode, told.stdout, told.stderr) == (1, "", refusal), "a file is", told)
    for words in (("--input", USER), ("--other", USER, "true")):
        expect(ended(DEPLOY / "hq-as", *words).returncode == 1, "taken are", words)


def test_output(folder):
    """A file that root has what is printed written to is not that user's to change; and where it takes no more, that is told."""
    needs.root()
    (folder / "kept").write_text("of before\n")
    with open(folder / "kept", "r+") as kept:
        kept.seek(0, 2)
        script = "import os\nfor it in (1, 2):\n try: os.ftruncate(it, 0)\n except OSError: pass\nprint('behind')"
        subprocess.run([DEPLOY / "hq-as", USER, "python3", "-c", script], stdin=subprocess.DEVNULL, stdout=kept, stderr=kept,
                       timeout=LONGEST, check=True)
    expect((folder / "kept").read_text() == "of before\nbehind\n", "root's file has", (folder / "kept").read_text())
    with open("/dev/full", "w") as full:
        told = subprocess.run([DEPLOY / "hq-as", USER, "echo", "x"], stdin=subprocess.DEVNULL, stdout=full, stderr=subprocess.PIPE,
                              timeout=LONGEST)
    expect(told.returncode == 1 and b"No space left" in told.stderr, "on a full disk it ends with", told)


def test_folder_of_root(etc):
    """What that user runs is in no folder of root's, which may be closed above: by hq-as, hq-ask and hq-customers."""
    closed = etc / "closed/w"
    closed.mkdir(parents=True)
    (etc / "closed").chmod(0o700)
    (closed / "plan").write_text("root's alone")
    # (no program is on its path)
    tells = "pwd; for it in plan /proc/self/cwd/plan; do read -r line <$it; echo $line; done"
    shutil.copytree(DEPLOY, etc / "bin")
    for name in ("hq", "desk-store"):
        (etc / "bin" / name).unlink(missing_ok=True)
        (etc / "bin" / name).write_text(f"#!/bin/sh\n{{ {tells}; }} >&2\nexit 1\n")
        (etc / "bin" / name).chmod(0o755)
    (etc / "north.db").touch()
    # (relative words are those of root's folder)
    here = os.path.relpath(etc, closed)
    for words in (("hq-as", USER, "/bin/sh", "-c", tells),
                  ("hq-ask", "--folder", here, "--store", here, "--user", USER, "usage", "acme"),
                  ("hq-customers", "--folder", here, "--store", here, "retain", "90")):
        told = ended(etc / "bin" / words[0], *words[1:], cwd=closed, env={"PATH": f"{etc}/bin"}).stdout.decode()
        expect("alone" not in told and "No such file" in told and re.search(r"(?m)(^| )/($|,| /)", told), words[0], "tells", told)
