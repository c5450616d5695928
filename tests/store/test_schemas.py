"""Which databases that sqlite3 made are opened as desks or migrated.

1. A database without a table becomes a desk, and so does the version table alone without a row. One with exactly the tables
   of a desk and version 3 is a desk, and keeps its rows.
2. Any other is refused as 92 by an opening, and keeps each byte: another version, none or two, an index or a table more, the
   version table alone with a row, and tables of another program.
3. What has not exactly the tables and the version of an earlier release is refused as 92 by `migrate`, and keeps each byte.
"""
import pytest
from serving import expect
from stores_files import KEYS, batch, copied, expect_migration, replies_of, run, sqlite3

VERSION_TABLE = "CREATE TABLE desk_schema (version INTEGER NOT NULL) STRICT;"
# The tables of version 1, with no version yet.
FIRST_TABLES = VERSION_TABLE + """
CREATE TABLE heads (customer TEXT NOT NULL, next_serial INTEGER NOT NULL, next_notice INTEGER NOT NULL,
accepted INTEGER NOT NULL, delivered INTEGER NOT NULL, failed INTEGER NOT NULL, deleted INTEGER NOT NULL,
expired INTEGER NOT NULL, messages INTEGER NOT NULL, bytes INTEGER NOT NULL, lines INTEGER NOT NULL,
PRIMARY KEY (customer)) STRICT;
CREATE TABLE messages (customer TEXT NOT NULL, serial INTEGER NOT NULL, sender TEXT NOT NULL, spool TEXT NOT NULL,
size INTEGER NOT NULL, arrival INTEGER NOT NULL, state INTEGER NOT NULL, next_try INTEGER NOT NULL,
attempts INTEGER NOT NULL, warned INTEGER NOT NULL, PRIMARY KEY (customer, serial), UNIQUE (customer, spool)) STRICT;
CREATE TABLE recipients (customer TEXT NOT NULL, serial INTEGER NOT NULL, place INTEGER NOT NULL, address TEXT NOT NULL,
status TEXT NOT NULL, reason TEXT NOT NULL, PRIMARY KEY (customer, serial, place)) STRICT;
CREATE TABLE lines (customer TEXT NOT NULL, class TEXT NOT NULL, pattern TEXT NOT NULL, action TEXT NOT NULL,
PRIMARY KEY (customer, class, pattern)) STRICT;
CREATE TABLE notices (customer TEXT NOT NULL, number INTEGER NOT NULL, kind INTEGER NOT NULL, serial INTEGER NOT NULL,
moment INTEGER NOT NULL, sender TEXT NOT NULL, human TEXT NOT NULL, status TEXT NOT NULL,
PRIMARY KEY (customer, number)) STRICT;
CREATE TABLE marks (customer TEXT NOT NULL, label TEXT NOT NULL, digest BLOB NOT NULL, added INTEGER NOT NULL,
changed INTEGER NOT NULL, same INTEGER NOT NULL, PRIMARY KEY (customer, label)) STRICT;
"""
# Those of version 3.
TABLES = FIRST_TABLES + """
CREATE TABLE holds (customer TEXT NOT NULL, serial INTEGER NOT NULL, hold_reason TEXT NOT NULL,
PRIMARY KEY (customer, serial)) STRICT;
CREATE TABLE ends (customer TEXT NOT NULL, number INTEGER NOT NULL, moment INTEGER NOT NULL, serial INTEGER NOT NULL,
sender TEXT NOT NULL, recipient TEXT NOT NULL, fate INTEGER NOT NULL, status TEXT NOT NULL, reason TEXT NOT NULL,
PRIMARY KEY (customer, number)) STRICT;
"""
NAMES = ["desk_schema", "ends", "heads", "holds", "lines", "marks", "messages", "notices", "recipients"]
VERSION = "INSERT INTO desk_schema VALUES "
OTHER_LINES = "CREATE TABLE lines (a); INSERT INTO lines VALUES (5)"
# (a database of one page)
NO_TABLE = "PRAGMA user_version = 1"
MARK = ("a", "l", b"\0", 1, 0, 0)
USAGE = b"1767225600 GET /v1/usage %s\n" % KEYS[0]
NOTHING_KEPT = (b'200 {"accepted":0,"bytes":0,"deleted":0,"delivered":0,"expired":0,"failed":0,"lines":0,"messages":0,'
                b'"pending":0}\n')
# What each database is made by, and the marks that it has.
DESKS = {
    "no table": (NO_TABLE, []),
    "the version table alone": (VERSION_TABLE, []),
    "a desk": (TABLES + VERSION + "(3)", []),
    "a desk with a mark": (TABLES + VERSION + "(3); INSERT INTO marks VALUES ('a', 'l', x'00', 1, 0, 0)", [MARK]),
}
NO_DESKS = {
    "version 1": TABLES + VERSION + "(1)",
    "version 2": TABLES + VERSION + "(2)",
    "version 9": TABLES + VERSION + "(9)",
    "no version": TABLES,
    "version 3 twice": TABLES + VERSION + "(3), (3)",
    "versions 3 and 9": TABLES + VERSION + "(3), (9)",
    "an index more": TABLES + VERSION + "(3); CREATE INDEX more ON heads (next_serial)",
    "a table more": TABLES + VERSION + "(3); CREATE TABLE other (a)",
    "the version table alone with a row": VERSION_TABLE + VERSION + "(3)",
    "lines of another program": OTHER_LINES,
    "notes of another program": "CREATE TABLE note (id INTEGER PRIMARY KEY, a TEXT UNIQUE); INSERT INTO note (a) VALUES ('x')",
}
NOT_MIGRATED = {
    "version 9 of the tables of version 1": FIRST_TABLES + VERSION + "(9)",
    "version 1 with a table more": FIRST_TABLES + VERSION + "(1); CREATE TABLE other (a)",
    "the tables of version 1 without a version": FIRST_TABLES,
    "no table": NO_TABLE,
    "lines of another program": OTHER_LINES,
}


def made_by(text, folder):
    """A database that sqlite3 made by these statements."""
    store = folder / "store"
    with sqlite3.connect(store) as base:
        base.executescript(text)
    base.close()
    expect(store.stat().st_size > 0, store, "has no byte")
    return store


def rows(store, folder, text):
    with sqlite3.connect(copied(store, folder)) as base:
        found = base.execute(text).fetchall()
    base.close()
    return found


def texts_of(named):
    return pytest.mark.parametrize("text", named.values(), ids=named)


@pytest.mark.parametrize("text, marks", DESKS.values(), ids=DESKS)
def test_desks(program, folder, text, marks):
    """It is a desk, with no rows but those that it had."""
    store = made_by(text, folder)
    expect(replies_of(batch(program, store), USAGE) == NOTHING_KEPT, store, "usage")
    tables = rows(store, folder, "SELECT name FROM sqlite_master WHERE type = 'table' ORDER BY 1")
    expect([name for name, in tables] == NAMES, store, "has the tables", tables)
    wanted = {name: [] for name in NAMES} | {"desk_schema": [(3,)], "marks": marks}
    for name in NAMES:
        found = rows(store, folder, f"SELECT * FROM {name}")
        expect(found == wanted[name], store, name, "has", found)


@texts_of(NO_DESKS)
def test_no_desks(program, folder, text):
    """It is refused, and stays."""
    store = made_by(text, folder)
    before = store.read_bytes()
    ended = run(batch(program, store), USAGE)
    expect((ended.returncode, ended.stdout, ended.stderr) == (1, b"", b"hq: 92 BadSchema\n"), store, ended)
    expect(store.read_bytes() == before, store, "was changed")


@texts_of(NOT_MIGRATED)
def test_not_migrated(program, folder, text):
    """It is not migrated, and stays."""
    store = made_by(text, folder)
    before = store.read_bytes()
    expect_migration(program, store, 1, b"", b"hq: 92 BadSchema\n")
    expect(store.read_bytes() == before, store, "was changed")
