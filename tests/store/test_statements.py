"""Counts the SQL statements that each kind of call runs.

The program is that of crates/hq_main, over a store in memory. Each kind of call is made once behind the same lines, under
valgrind, whose callgrind counts the calls of the one function of the kit's `sqlite` that every statement goes through;
those of a run of the lines alone are taken off. So BEGIN and COMMIT count, and a statement that finds nothing. The counts
are compared with those of tests/store/statements.txt, where a line has a count and a kind of call, and each that differs is told.
Some calls are made of a customer with a history too, which has one end by then. It needs valgrind, and takes a minute or two.
"""
import re
import tempfile
from pathlib import Path

import needs
import pytest
from serving import ACME, BIRCH, DIRECTORY, HEADER, RELAY, batch_line, expect, one_by_one, words
from tool import Workers

TABLE = Path(__file__).resolve().parent / "statements.txt"
# In a file of callgrind: the name of a function, under its number, and how often it is called from somewhere.
NAME = re.compile(r"c?fn=\((\d+)\) (.*)")
CALLS = re.compile(r"cfn=\((\d+)\).*\n(?:c?(?:file|ob|fi|fl|fe)=.*\n)*calls=(\d+)")
STATEMENT = re.compile(r"\bsqlite::connection::Connection::bind\b")
START, LATER = 1767225600, 1767229200


def line(method, path, body=None, at=START):
    return batch_line(at, method, path, RELAY if path.startswith("/relay/") else ACME, body)


def submit(spool, *recipients, customer="acme"):
    asked = {"spool": spool, "sender": "ann@a.example", "recipients": recipients, "size": 900}
    return line("POST", f"/relay/submit/{customer}", asked)


def outcome(message, attempt, **results):
    failed = {"status": "5.1.1", "text": "no such user"}
    outcomes = [{"recipient": f"{it}@far.example", "result": result, **(failed if result == "failed" else {})}
                for it, result in results.items()]
    return line("POST", "/relay/outcome/acme", {"id": f"{message:010X}", "attempt": attempt, "outcomes": outcomes}, LATER)


def load(label, *patterns):
    rows = "".join(f"sender,{it},OK\n" for it in patterns)
    return line("POST", "/v1/import", {"label": label, "csv": f"class,pattern,action\n{rows}"})


def entry(pattern, **more):
    return {"class": "sender", "pattern": pattern, **more}


# Messages 1 to 4, of which 3 is on hold and 4 has a failed recipient, whose sender has a notice; and three lines.
BEFORE = [
    submit("s1", "a@far.example"), submit("s2", "a@far.example", "b@far.example", "c@far.example"),
    submit("s3", "a@far.example"), line("POST", "/v1/hold/0000000003"),
    submit("s4", "a@far.example", "b@far.example"), outcome(4, 1, a="failed"), load("jan", "x.example", "y.example", "z.example"),
]
# The one that is refused.
MISSING = line("POST", "/v1/hold/00000000FF")
CALLED = {
    "submission without lines": submit("s5", "a@far.example", customer="birch"),
    "submission by eight keys": submit("s5", "a@far.example"),
    "submission for three recipients by sixteen keys": submit("s5", "a@far.example", "b@far.example", "c@far.example"),
    "submission that is a repeat": submit("s1", "a@far.example"),
    "list of messages": line("GET", "/v1/messages"),
    "list behind a message": line("GET", "/v1/messages-after/0000000002"),
    "message shown": line("GET", "/v1/message/0000000002"),
    "message deleted": line("DELETE", "/v1/message/0000000002"),
    "hold": line("POST", "/v1/hold/0000000002"),
    "hold of what is on hold": line("POST", "/v1/hold/0000000003"),
    "hold of a message that is missing": MISSING,
    "release": line("POST", "/v1/release/0000000003"),
    "requeue": line("POST", "/v1/requeue/0000000003"),
    "hold of all four": line("POST", "/v1/hold-all"),
    "hold of all, of whom there is none": batch_line(START, "POST", "/v1/hold-all", BIRCH, None),
    "release of all four": line("POST", "/v1/release-all"),
    "deletion of all four": line("POST", "/v1/delete-all"),
    "deletion of all, of whom there is none": batch_line(START, "POST", "/v1/delete-all", BIRCH, None),
    "search by a pattern": line("POST", "/v1/find", {**entry("a.example"), "after": None}),
    "hold of the three that a pattern is for": line("POST", "/v1/hold-matching", entry("a.example")),
    "release of the one on hold by a pattern": line("POST", "/v1/release-matching", entry("a.example")),
    "deletion of the four that a pattern is for": line("POST", "/v1/delete-matching", entry("a.example")),
    "deletion by a pattern that is for none": line("POST", "/v1/delete-matching", entry("b.example")),
    "list of lines": line("GET", "/v1/lines"),
    "list behind a line": line("POST", "/v1/lines-after", entry("x.example")),
    "line put": line("POST", "/v1/line-put", entry("w.example", action="OK")),
    "line put again": line("POST", "/v1/line-put", entry("x.example", action="OK")),
    "line dropped": line("POST", "/v1/line-drop", entry("x.example")),
    "check that finds the second key": line("POST", "/v1/check", {"class": "sender", "address": "x@x.example"}),
    "check that finds none of four": line("POST", "/v1/check", {"class": "sender", "address": "a@far.example"}),
    "import of two rows": load("feb", "x.example", "w.example"),
    "import again": load("jan", "x.example", "y.example", "z.example"),
    "list of notices": line("GET", "/v1/notices"),
    "list behind a notice": line("GET", "/v1/notices-after/1"),
    "notice shown": line("GET", "/v1/notice/1"),
    "usage": line("GET", "/v1/usage"),
    "limits": line("GET", "/v1/limits"),
    "report": line("GET", "/v1/report"),
    "due": line("POST", "/relay/due/acme", {"after": None}),
    "due that finds nothing": line("POST", "/relay/due/birch", {"after": None}, LATER),
    "due of both customers": line("POST", "/relay/due", at=LATER),
    "outcome that delivers": outcome(1, 1, a="delivered"),
    "outcome that fails": outcome(2, 1, a="failed"),
    "outcome again": outcome(4, 1, a="failed"),
    "sweep that finds nothing": line("POST", "/relay/sweep/acme"),
    "sweep that warns of three": line("POST", "/relay/sweep/acme", at=START + 20000),
    "sweep that gives up three": line("POST", "/relay/sweep/acme", at=START + 500000),
}
# Of a customer with a history.
KEPT = {
    "history": line("GET", "/v1/history"),
    "history before a number": line("GET", "/v1/history-before/2"),
    "search in the history": line("POST", "/v1/history-find", {"class": "sender", "pattern": "a.example", "before": None}),
    "message deleted, with a history": CALLED["message deleted"],
    "deletion of all four, with a history": CALLED["deletion of all four"],
    "outcome that delivers, with a history": CALLED["outcome that delivers"],
    "outcome that fails, with a history": CALLED["outcome that fails"],
    "sweep that gives up three, with a history": CALLED["sweep that gives up three"],
}
HISTORY = f"{HEADER.strip()},history\nacme,{ACME},1000,500000000,1000,100,14400,1000\n"


def counted(text):
    """How often the function of statements is called, by a file of callgrind."""
    of_statements = {number for number, name in NAME.findall(text) if STATEMENT.search(name)}
    expect(of_statements, "the program shows no function that every statement goes through")
    return sum(int(count) for number, count in CALLS.findall(text) if number in of_statements)


def statements(program, folder, place, *called):
    """The statements of a run of the lines, with these behind them."""
    told = folder / f"callgrind.{place}"
    asked = ["valgrind", "-q", "--tool=callgrind", f"--callgrind-out-file={told}", *words(program, "batch")]
    calls = [*BEFORE, *called]
    # (each line comes alone, so that none shares a transaction)
    replies = one_by_one(asked, calls, folder)
    are_well = all(reply.startswith("404 " if one == MISSING else "200 ") for one, reply in zip(calls, replies))
    expect(are_well, called, "gave", replies[-1:])
    return counted(told.read_text())


def behind(program, workers, directory, calls):
    """How many statements each call runs behind the lines, where the customers are those of a directory."""
    with tempfile.TemporaryDirectory() as made:
        folder = Path(made)
        (folder / "customers.csv").write_text(directory)
        jobs = [workers.submit(statements, program, folder, place, *called)
                for place, called in enumerate([[], *([it] for it in calls.values())])]
        before, *whole = (it.result() for it in jobs)
    return {kind: count - before for kind, count in zip(calls, whole)}


@pytest.fixture(scope="module")
def found(program):
    """How many statements each kind of call runs."""
    needs.command("valgrind")
    with Workers() as workers:
        return {**behind(program, workers, DIRECTORY, CALLED), **behind(program, workers, HISTORY, KEPT)}


def test_statements(found):
    """They are those of tests/store/statements.txt; `-s` prints them in its form."""
    print("".join(f"{count:3} {kind}\n" for kind, count in found.items()))
    wanted = {kind: int(count) for count, _, kind in (it.strip().partition(" ") for it in TABLE.read_text().splitlines())}
    differs = [f"{kind}: {found.get(kind)} and not {wanted.get(kind)}" for kind in {**wanted, **found}
               if found.get(kind) != wanted.get(kind)]
    expect(not differs, "statements differ:", "; ".join(differs))
