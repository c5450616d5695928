"""Rows that are no values of a desk: what sqlite3 wrote of one customer into a store.

Each call that reads such a row is told `503 {"error":91,"name":"Disk"}`, and so once more. All other calls of that customer
and of another one are told what they are told where nothing is kept. No row is changed. The calls come one by one, each
behind the reply before, or all at once, so that they share rounds.
"""
import pytest
from serving import expect
from stores_files import KEYS, batch, copied, replies_of, run, run_alone, sqlite3

DISK = b'503 {"error":91,"name":"Disk"}\n'
# A call that reads of each kind, and what it is told where nothing is kept. (An import looks for its label before its file.)
READINGS = {
    "head": (b"GET /v1/usage %s", b'200 {"accepted":0,"bytes":0,"deleted":0,"delivered":0,"expired":0,"failed":0,"lines":0,'
             b'"messages":0,"pending":0}\n'),
    "messages": (b"GET /v1/messages %s", b'200 {"messages":[],"more":false}\n'),
    "lines": (b"GET /v1/lines %s", b'200 {"lines":[],"more":false}\n'),
    "mark": (b'POST /v1/import %s {"label":"l","csv":"x"}', b'400 {"error":50,"name":"BadCsv","row":0}\n'),
    "notices": (b"GET /v1/notices %s", b'200 {"more":false,"notices":[]}\n'),
    "ends": (b"GET /v1/history %s", b'200 {"history":[],"more":false}\n'),
}
QUEUED = "INSERT INTO messages VALUES ('acme', 1, '', 's1', 9, 1767225600, {}, 0, 0, 0); "
# What sqlite3 does, and the kind of reading that is struck.
ROWS = {
    "none": ("", None),
    "a serial below 0": ("INSERT INTO heads VALUES ('acme', -1, 1, 0, 0, 0, 0, 0, 0, 0, 0)", "head"),
    "a sender": ("INSERT INTO messages VALUES ('acme', 1, 'nobody', 's1', 9, 1767225600, 1, 0, 0, 0)", "messages"),
    "an action": ("INSERT INTO lines VALUES ('acme', 'recipient', '@a.example', 'REDIRECT nobody')", "lines"),
    "a pattern": ("INSERT INTO lines VALUES ('acme', 'sender', 'no pattern', 'OK ')", "lines"),
    "a digest": ("INSERT INTO marks VALUES ('acme', 'l', x'00', 1, 0, 0)", "mark"),
    "the kind of a notice": ("INSERT INTO notices VALUES ('acme', 1, 9, 1, 1767225600, 'ann@a.example', 'a', 'b')", "notices"),
    "a recipient": (QUEUED.format(1) + "INSERT INTO recipients VALUES ('acme', 1, 1, 'nobody', '', '')", "messages"),
    "a reason of two lines": (QUEUED.format(2) + "INSERT INTO holds VALUES ('acme', 1, 'one\nline more')", "messages"),
    "a fate": ("INSERT INTO ends VALUES ('acme', 1, 1767225600, 1, '', 'bob@far.example', 9, '', '')", "ends"),
}


def dump_of(store, folder):
    """All that a store holds, as statements."""
    with sqlite3.connect(copied(store, folder)) as base:
        found = list(base.iterdump())
    base.close()
    return found


@pytest.mark.parametrize("alone", [True, False], ids=["lines-alone", "lines-together"])
@pytest.mark.parametrize("text, struck", ROWS.values(), ids=ROWS)
def test_bad_rows(program, folder, text, struck, alone):
    """The calls that read it are told 91, and all others what they are told without it."""
    store = folder / "store"
    replies_of(batch(program, store), b"")
    with sqlite3.connect(store) as base:
        base.executescript(text)
    base.close()
    before = dump_of(store, folder)
    asked = [(kind, line % key, key) for key in (KEYS[0], *KEYS) for kind, (line, _) in READINGS.items()]
    lines = [b"1767225700 " + line + b"\n" for _, line, _ in asked]
    ended = run_alone(batch(program, store), lines) if alone else run(batch(program, store), b"".join(lines))
    told = ended.stdout.splitlines(keepends=True)
    wanted = [DISK if kind == struck and key == KEYS[0] else READINGS[kind][1] for kind, _, key in asked]
    expect(ended.returncode == 0 and not ended.stderr, text, ended)
    expect(told == wanted, text, told, "and not", wanted)
    expect(dump_of(store, folder) == before, text, "the rows were changed")
