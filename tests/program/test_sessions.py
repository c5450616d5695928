"""Tries the sessions that README.md and docs/OPERATIONS.md show.

In a block between three backquotes `$ cat > FILE <<END` writes a file, of the lines up to END, and `$ hq WORDS` runs the
program: each line that begins with a moment is one of its input, and every other one is a line of its output, in a batch
the reply to the line before it. (`</dev/null` says that there is none of the first kind.) A command goes on in the next
line where it ends in `\\`. The sessions are run in one folder, in the order of the documents, and the output must be the
one that is shown, byte for byte.

`$ hq serve WORDS --listen unix:PATH &` is a server, which runs until `$ kill %1`. `$ curl WORDS` asks it at that path, and the
lines below are what curl prints, a last line without an end and those of `-i` with LF.
"""
import re
import shlex
import subprocess
from pathlib import Path

import needs
import pytest
from serving import LONGEST, Server, expect

ROOT = Path(__file__).resolve().parents[2]
PAGES = ("README.md", "docs/OPERATIONS.md")


def commands(text):
    """The commands that are shown, each with the lines below it."""
    for block in re.findall(r"(?ms)^```\n(.*?)^```$", text):
        for shown in re.split(r"(?m)^\$ ", block)[1:]:
            command, *lines = shown.splitlines()
            while command.endswith("\\"):
                command = command[:-1] + lines.pop(0)
            yield shlex.split(command), lines


def run(program, words, shown, folder):
    """Runs the program over the lines of a session; answers how many lines of its output were as they are shown."""
    asked = [line for line in shown if re.match(r"\d{10} ", line)]
    wanted = [line for line in shown if line not in asked]
    ended = subprocess.run(
        [program, *words], input="".join(f"{line}\n" for line in asked), capture_output=True, text=True, cwd=folder,
        timeout=LONGEST)
    told = ended.stdout.splitlines()
    if (ended.returncode, ended.stderr) != (0, "") or len(told) != len(wanted) or (asked and len(asked) != len(wanted)):
        pytest.fail(f"{words}: status {ended.returncode}, {len(asked)} lines, {len(told)} told, {len(wanted)} shown\n{ended.stderr}")
    for number, (want, got) in enumerate(zip(wanted, told)):
        if want != got:
            pytest.fail(f"{asked[number] if asked else words}\n  tells {got}\n  and is shown with {want}")
    return len(wanted)


class Served:
    """A server that a session has begun; `shown` is the line that is shown of it."""

    def __init__(self, program, words, shown, folder):
        *words, option, listen = words
        if option != "--listen" or not listen.startswith("unix:") or shown != [f"listening on {listen}"]:
            pytest.fail(f"{words}: a server is shown with --listen unix:PATH, and with one line, that path")
        self.server, self.path, self.folder = Server([program, *words], folder, 1000, listen), listen[len("unix:"):], folder

    def curl(self, words, shown):
        """Asks the server; answers how many lines were as they are shown."""
        if words[-3:-1] != ["--unix-socket", self.path]:
            pytest.fail(f"curl {words} does not ask at {self.path}")
        told = by_curl(words, self.folder)
        wanted = "\n".join(shown)
        if told.replace("\r\n", "\n") != wanted:
            pytest.fail(f"curl {words}\n  tells {told}\n  and is shown with {wanted}")
        return len(shown)

    def end(self):
        """Stops it, as a reader does; it has told nothing more."""
        self.server.process.terminate()
        told = self.server.process.communicate(timeout=LONGEST)
        self.server.stop()
        if told != (b"", b""):
            pytest.fail(f"the server told {told}")


def by_curl(words, folder):
    asked = ["curl", "-q", "-sS", "--noproxy", "*", "--max-time", str(LONGEST), *words]
    ended = subprocess.run(asked, capture_output=True, timeout=LONGEST + 5, cwd=folder)
    if (ended.returncode, ended.stderr) != (0, b""):
        pytest.fail(f"curl {words}: status {ended.returncode}\n{ended.stderr.decode()}")
    return ended.stdout.decode()


def session(program, folder):
    """Does all that is shown, in its order; answers how many lines were compared."""
    count, server = 0, None
    try:
        for (word, *words), shown in (it for page in PAGES for it in commands((ROOT / page).read_text())):
            if word == "cat" and words[:1] + words[2:] == [">", "<<END"] and shown[-1:] == ["END"]:
                Path(folder, words[1]).write_text("".join(f"{line}\n" for line in shown[:-1]))
            elif word == "hq" and words[-1:] == ["&"]:
                if server:
                    pytest.fail(f"{words}: the server before it was not stopped")
                server = Served(program, words[:-1], shown, folder)
                count += 1
            elif word == "hq":
                count += run(program, [it for it in words if it != "</dev/null"], shown, folder)
            elif (word, words, shown) == ("kill", ["%1"], []) and server:
                server.end()
                server = None
            elif word == "curl" and server:
                count += server.curl(words, shown)
            else:
                pytest.fail(f"{word} {words} is shown, and not known here")
        if server:
            pytest.fail("a server is shown that is not stopped")
    finally:
        if server:
            server.server.stop()
    return count


def test_sessions(program, folder):
    """Each line of the pages has what they show below it."""
    needs.command("curl")
    expect(session(program, folder), "no session is shown")
