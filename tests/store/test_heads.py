"""What sqlite3 reads and writes of the head rows of a store in a file.

1. After each line its customer's head row has the counts that are written here beside the line.
2. sqlite3 writes acme's head row, and the desk replies to the lines of a folder of tests/store/spent as it has them: where
   the next queue ID, or the next number of a notice, is the last one or past it, it gives the last one, refuses what needs
   one more, and changes nothing; and the greatest counts are told whole.
"""
import subprocess
from pathlib import Path

import pytest
from serving import LONGEST, expect, words
from worked import lines_of, replies_of

sqlite3 = pytest.importorskip("sqlite3")

ROOT = Path(__file__).resolve().parents[2]
PUT = b'1767225600 POST /v1/line-put acmekey000000001 {"class":"sender","pattern":"a.example","action":"%s"}\n'
DROP = b'1767225600 POST /v1/line-drop acmekey000000001 {"class":"sender","pattern":"a.example"}\n'
SUBMIT = (b'1767225600 POST /relay/submit/acme relaykey00000001 {"spool":"%s","sender":"ann@a.example",'
          b'"recipients":["bob@far.example"],"size":900}\n')
REQUEUE = b"1767225600 POST /v1/requeue/0000000001 acmekey000000001\n"
REPORT = (b'1767225610 POST /relay/outcome/acme relaykey00000001 {"id":"%s","attempt":1,"outcomes":'
          b'[{"recipient":"bob@far.example","result":"%s","status":"%s","text":"x"}]}\n')
# each line, and acme's messages, their bytes and its lines then
STEPS = [
    (PUT % b"OK", (0, 0, 1)),
    (PUT % b"OK", (0, 0, 1)),
    (PUT % b"HOLD", (0, 0, 1)),
    (DROP, (0, 0, 0)),
    (SUBMIT % b"s1", (1, 900, 0)),
    (REQUEUE, (1, 900, 0)),
    (REPORT % (b"0000000002", b"delivered", b"2.0.0"), (0, 0, 0)),
]
LAST, GREATEST = 2**40 - 1, 2**63 - 1
# acme's head row for each folder: the next queue ID and the next notice, five tallies, and three counts
SPENT = {
    "last-serial": (LAST, 1, *8 * [0]),
    "no-notice-left": (1, LAST + 1, *8 * [0]),
    "one-notice-left": (1, LAST, *8 * [0]),
    "great-counts": (2, 1, *8 * [GREATEST]),
}


def replies(program, store, *lines):
    asked = words(program, "batch", store, directory=ROOT / "tests" / "examples" / "directory")
    ended = subprocess.run(asked, input=b"".join(lines), stdout=subprocess.PIPE, stderr=subprocess.PIPE, timeout=LONGEST)
    expect((ended.returncode, ended.stderr) == (0, b""), lines, ended)
    return ended.stdout.splitlines(keepends=True)


def sql(store, text):
    with sqlite3.connect(store) as base:
        rows = base.execute(text).fetchall()
    base.close()
    return rows


def test_counts(program, folder):
    """The counts after each line."""
    store = folder / "store"
    for line, counts in STEPS:
        told = replies(program, store, line)
        expect(len(told) == 1 and told[0].startswith(b"200 "), line, told)
        rows = sql(store, "SELECT messages, bytes, lines FROM heads WHERE customer = 'acme'")
        expect(rows == [counts], line, rows, "and not", counts)


@pytest.mark.parametrize("name", SPENT)
def test_spent(program, folder, name):
    """The last queue ID, the last notice, and the greatest counts."""
    store, place = folder / "store", ROOT / "tests" / "store" / "spent" / name
    expect(replies(program, store) == [], "an empty desk")
    sql(store, f"INSERT INTO heads VALUES ('acme', {', '.join(map(str, SPENT[name]))})")
    told = replies(program, store, *lines_of(place))
    expect(told == replies_of(place), name, told, "and not", replies_of(place))
