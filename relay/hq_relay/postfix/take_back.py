"""Takes one message back from the queue of the Postfix that delivers: relay/take-back FOLDER.

It is root's, and begun by systemd for each connection to a socket that the worker alone may use.
Its standard input has one line, a queue ID; its standard output gets one line: `deleted`, `not
there`, or `fault` with the reason. FOLDER is the configuration of that Postfix.
"""
import os
import re
import select
import subprocess
import sys

# An ID has no vowel, so that it is never the word ALL of postsuper.
QUEUE_ID = re.compile(rb"([0-9B-DF-HJ-NP-TV-Zb-df-hj-np-tv-z]{1,64})\n")
# The most bytes of the line, and the most characters of a reason.
LONGEST_LINE, LONGEST_REASON = 65, 300
# In seconds: for the line to come, and for postsuper to end.
FOR_THE_LINE, FOR_POSTSUPER = 10, 30
DELETED = b"Deleted: 1 message"


def requested() -> bytes:
    """The one line that comes, as far as it is bounded; anything after it is not read."""
    line, input_file = b"", sys.stdin.fileno()
    while len(line) < LONGEST_LINE and not line.endswith(b"\n"):
        if not select.select([input_file], [], [], FOR_THE_LINE)[0]:
            break
        piece = os.read(input_file, 1)
        if not piece:
            break
        line += piece
    return line


def take_back(folder: str, id: str) -> str:
    """Deletes a message, and returns the line of the answer."""
    try:
        done = subprocess.run(["postsuper", "-c", folder, "-d", id], stdin=subprocess.DEVNULL,
                              stdout=subprocess.DEVNULL, stderr=subprocess.PIPE,
                              timeout=FOR_POSTSUPER)
    except (OSError, subprocess.TimeoutExpired) as error:
        return f"fault {error}"
    if done.returncode:
        why = " ".join(done.stderr.decode(errors="replace").split())
        return f"fault postsuper ended with {done.returncode}: {why[-LONGEST_REASON:]}"
    return "deleted" if DELETED in done.stderr else "not there"


def main(words: list[str]) -> int:
    """Answers one line; the status is 2 for bad words."""
    if len(words) != 1:
        print(__doc__, file=sys.stderr)
        return 2
    found = QUEUE_ID.fullmatch(requested())
    answer = take_back(words[0], found[1].decode()) if found else "fault no queue ID"
    try:
        print(answer, flush=True)
    except OSError:
        pass  # (the worker repeats its request)
    return 0
