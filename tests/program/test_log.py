"""Tries the log of the compiled program.

1. A server's: each exchange has its line, byte for byte but for its milliseconds: of customers, of the relay, of keys that
   nobody has, of a sweep of all with what was told of each, and of a request that cannot be read. No key and no body stands there.
   Of a path or a method of more than 256 bytes the characters within these stand there, and that they are cut; a path that
   fills a head makes no line longer than docs/LOG.md says.
2. Moved away while the server runs: the next line is in a new file, for its owner alone, and no line is missing.
3. One that cannot be written: each reply comes all the same, and that is told once. Once it can be written again there is a
   line for each exchange from then on.
4. `-`: the lines are on standard error.
5. A batch's: a line for each line, in order, of the moments that the lines name; the replies are those without a log.
6. The milliseconds of an import of a thousand lines, behind one that waits: they are some, and no more than it took.
7. The lines of docs/LOG.md that ask a log, by `jq`.
"""
import json
import re
import shutil
import subprocess
import time
from pathlib import Path

import pytest
from serving import ACME, BIRCH, DIRECTORY, LONGEST, RELAY, Server, expect, request, submission, words

ROOT = Path(__file__).resolve().parents[2]
TAKEN = re.compile(r'"milliseconds":\d+,')
LISTED = '{"messages":[],"more":false}'
NO_ROUTE = '{"error":4,"name":"NoRoute"}'
# What docs/LOG.md says of the longest line that a request can make.
LONGEST_LINE = 1_000
QUEUED = '{"id":"0000000001","recipients":["bob@far.example"],"refused":[],"state":"incoming","verdict":"queued"}'
SWEPT = ('{"done":[{"customer":"acme","expired":0,"notices":0,"warned":0},{"customer":"birch","expired":0,"notices":0,'
         '"warned":0}],"stopped":null}')
SWEPT_BEHIND = '{"done":[{"customer":"birch","expired":0,"notices":0,"warned":0}],"next":null,"stopped":null}'
USED = ('{{"customer":"{}","accepted":{one},"bytes":0,"deleted":{one},"delivered":0,"expired":0,"failed":0,"lines":0,"messages":0,'
        '"pending":0}}')
LOST = "hq: log"


def line(customer, method, path, status=200, error="null", told=None, at=None, cut=False):
    """A line of the log, without its moment where none is given."""
    def text(value):
        return "null" if value is None else json.dumps(value, ensure_ascii=False)

    last = (',"cut":true' if cut else "") + (f',"told":{told}' if told else "")
    return (f'{{"at":{"MOMENT" if at is None else at},"customer":{text(customer)},"error":{error},"method":{text(method)},'
            f'"milliseconds":N,"path":{text(path)},"status":{status}{last}}}')


def without_times(text):
    """The lines of a log, without what differs from run to run."""
    return [re.sub(r'^{"at":\d+,', '{"at":MOMENT,', TAKEN.sub('"milliseconds":N,', it)) for it in text.splitlines()]


def expect_lines(log, wanted, what):
    found = without_times(log)
    expect(found == wanted, what, "has", found, "and not", wanted)


# ---- what is asked, with its reply and its line

def exchanges():
    path = '/v1/message/"\u00e4\\'
    return [
        (request("GET", "/v1/messages", ACME), 200, LISTED, line("acme", "GET", "/v1/messages")),
        (request("POST", "/relay/submit/birch", RELAY, submission("s1")), 200, QUEUED,
         line("birch", "POST", "/relay/submit/birch")),
        (request("DELETE", "/v1/message/0000000001", BIRCH), 200, '{"changed":1}',
         line("birch", "DELETE", "/v1/message/0000000001")),
        (request("DELETE", "/v1/message/0000000001", BIRCH), 404, '{"error":10,"name":"NoMessage"}',
         line("birch", "DELETE", "/v1/message/0000000001", 404, 10)),
        (request("GET", "/v1/messages"), 401, '{"error":2,"name":"NoKey"}', line(None, "GET", "/v1/messages", 401, 2)),
        (request("GET", "/v1/messages", "nobodyskey000001"), 401, '{"error":2,"name":"NoKey"}',
         line(None, "GET", "/v1/messages", 401, 2)),
        (request("POST", "/relay/sweep", ACME), 403, '{"error":3,"name":"WrongRole"}',
         line("acme", "POST", "/relay/sweep", 403, 3)),
        (request("POST", "/relay/due/cedar", RELAY), 404, '{"error":13,"name":"NoCustomer"}',
         line(None, "POST", "/relay/due/cedar", 404, 13)),
        (request("POST", "/relay/sweep", RELAY), 200, SWEPT, line(None, "POST", "/relay/sweep", told=SWEPT)),
        (request("POST", "/relay/sweep-from", RELAY, {"from": "birch"}), 200, SWEPT_BEHIND,
         line(None, "POST", "/relay/sweep-from", told=SWEPT_BEHIND)),
        (request("POST", "/relay/sweep-from", RELAY), 400, '{"error":7,"name":"BadJson"}',
         line(None, "POST", "/relay/sweep-from", 400, 7)),
        (request("POST", "/relay/usage", RELAY), 200,
         f'{{"done":[{USED.format("acme", one=0)},{USED.format("birch", one=1)}],"stopped":null}}',
         line(None, "POST", "/relay/usage")),
        (request("GET", path, ACME), 400, '{"error":8,"name":"BadField"}', line("acme", "GET", path, 400, 8)),
        (b"GET\r\n\r\n", 400, '{"error":1,"name":"BadRequest"}', line(None, None, None, 400, 1)),
        *(asked_long(*it) for it in LONG),
    ]


# Each with what stands of it in its line; that of 256 bytes stands whole, and no character in part.
LONG = [
    ("GET", "/" + "x" * 255, "GET", "/" + "x" * 255),
    ("GET", "/" + "x" * 256, "GET", "/" + "x" * 255),
    ("GET", "/" + "\\" * 16_000, "GET", "/" + "\\" * 255),
    ("GET", "/x" + "\u00e4" * 200, "GET", "/x" + "\u00e4" * 127),
    ("GET", "/" + "\u00e4" * 200, "GET", "/" + "\u00e4" * 127),
    ("G" * 300, "/v1/usage", "G" * 256, "/v1/usage"),
]


def asked_long(method, path, method_told, path_told):
    status, refusal = (405, '{"error":5,"name":"WrongMethod"}') if path == "/v1/usage" else (404, NO_ROUTE)
    told = line(None, method_told, path_told, status, 4 if status == 404 else 5, cut=(method, path) != (method_told, path_told))
    return request(method, path), status, refusal, told


def ask_all(server):
    """All of them in turn; answers their lines."""
    for asked, status, body, _ in exchanges():
        server.ask(asked, status, body)
    return [it[-1] for it in exchanges()]


def list_once(server):
    server.ask(request("GET", "/v1/messages", ACME), 200, LISTED)
    return line("acme", "GET", "/v1/messages")


# ---- the steps

def told_in_lines(program, folder):
    count = len(exchanges())
    with Server(words(program, "serve", None, "--log", "desk.log"), folder, count) as server:
        wanted = ask_all(server)
    log = (folder / "desk.log").read_text(encoding="utf-8")
    expect_lines(log, wanted, "the log")
    expect((folder / "desk.log").stat().st_mode & 0o777 == 0o600, "the log is open to others")
    expect(max(map(len, log.encode().split(b"\n"))) <= LONGEST_LINE, "a line of the log is", max(log.split("\n"), key=len))
    for secret in (ACME, BIRCH, RELAY, "nobodyskey000001", "ann@a.example"):
        expect(secret not in log, "the log has", secret)
    return count


def moved_away(program, folder):
    with Server(words(program, "serve", None, "--log", "moved.log"), folder, 4) as server:
        wanted = [list_once(server), list_once(server)]
        (folder / "moved.log").rename(folder / "moved.log.1")
        wanted += [list_once(server), list_once(server)]
    for name in ("moved.log.1", "moved.log"):
        expect_lines((folder / name).read_text(), wanted[:2], name)
    return 4


def not_writable(program, folder):
    """Twice there is no folder for it, and in between there is."""
    place = folder / "logs"
    with Server(words(program, "serve", None, "--log", "logs/desk.log"), folder, 8) as server:
        for _ in range(2):
            list_once(server)
        server.told(LOST)
        place.mkdir()
        wanted = [list_once(server), list_once(server)]
        expect_lines((place / "desk.log").read_text(), ["", *wanted], "a log that can be written again")
        place.rename(folder / "away")
        for _ in range(2):
            list_once(server)
        server.told(LOST)
        place.mkdir()
        wanted = [list_once(server), list_once(server)]
    expect_lines((place / "desk.log").read_text(), ["", *wanted], "a log that can be written once more")
    with Server(words(program, "serve", None, "--log", "/dev/full"), folder, 3) as server:
        for _ in range(3):
            list_once(server)
        server.told(LOST)
    return 11


def on_standard_error(program, folder):
    server = Server(words(program, "serve", None, "--log", "-"), folder, 1)
    try:
        wanted = [list_once(server)]
        _, errors = server.process.communicate(timeout=LONGEST)
    finally:
        server.stop()
    expect_lines(errors.decode(), wanted, "standard error")
    return 1


LINES = [
    (f"1767225600 GET /v1/messages {ACME}", line("acme", "GET", "/v1/messages", at=1767225600)),
    ("1767225601 GET /v1/messages -", line(None, "GET", "/v1/messages", 401, 2, at=1767225601)),
    ("no line", line(None, None, None, 400, 1, at="null")),
    (f"1767225602 POST /relay/sweep {RELAY}", line(None, "POST", "/relay/sweep", told=SWEPT, at=1767225602)),
]


def batch(program, folder, lines, *more):
    begun = time.monotonic()
    done = subprocess.run(words(program, "batch", None, *more), cwd=folder, input=lines.encode(), stdout=subprocess.PIPE,
                          stderr=subprocess.PIPE, timeout=300)
    expect((done.returncode, done.stderr) == (0, b""), "a batch ended with", done.returncode, done.stderr)
    return done.stdout, time.monotonic() - begun


def of_a_batch(program, folder):
    lines = "".join(f"{it}\n" for it, _ in LINES)
    replies, _ = batch(program, folder, lines, "--log", "batch.log")
    expect(replies == batch(program, folder, lines)[0], "a batch with a log has other replies")
    found = [TAKEN.sub('"milliseconds":N,', it) for it in (folder / "batch.log").read_text().splitlines()]
    expect(found == [it for _, it in LINES], "the log of a batch has", found)
    many = f"1767225600 GET /v1/messages {ACME}\n" * 20000
    plain, logged = (min(batch(program, folder, many, *more)[1] for _ in range(3)) for more in ([], ["--log", "many.log"]))
    expect((folder / "many.log").read_text().count("\n") == 60000, "lines of a long log are missing")
    return len(LINES), (logged - plain) / 20000 * 1e6


def in_milliseconds(program, folder):
    """The second exchange takes a while, and begins a second after the first: its time is its own."""
    rows = "".join(f"sender,s{number}.example,OK\\n" for number in range(1000))
    body = f'{{"label":"l1","csv":"class,pattern,action\\n{rows}"}}'
    with Server(words(program, "serve", None, "--log", "times.log"), folder, 2) as server:
        list_once(server)
        time.sleep(1)
        begun = time.monotonic()
        server.ask(request("POST", "/v1/import", ACME, body.encode()), 200, '{"added":1000,"changed":0,"same":0}')
        most = (time.monotonic() - begun) * 1000
    taken = json.loads((folder / "times.log").read_text().splitlines()[1])["milliseconds"]
    expect(1 <= taken <= most, "an import that took", most, "milliseconds is logged with", taken)


def asked_by_jq(folder):
    """Each line of the page that begins with `jq` is run beside a log that has something for it."""
    page = (ROOT / "docs" / "LOG.md").read_text(encoding="utf-8")
    asked = [it.strip() for it in page.splitlines() if it.strip().startswith("jq ")]
    expect(len(asked) == 5, "the page has", len(asked), "lines for jq")
    with open(folder / "desk.log", "a", encoding="utf-8") as log:
        for more in (line("acme", "POST", "/v1/delete-all", at=1767225600), line("acme", "GET", "/v1/report", at=1767225601),
                     line("acme", "POST", "/v1/hold-all", at=1767225602)[:-1] + ',"key":"ci"}'):
            log.write(more.replace('"milliseconds":N', '"milliseconds":1001') + "\n")
    for it in asked:
        done = subprocess.run(it, shell=True, cwd=folder, stdout=subprocess.PIPE, stderr=subprocess.PIPE, timeout=60)
        expect(done.returncode == 0 and done.stdout and not done.stderr, it, "tells", done.stdout, done.stderr)
    return len(asked)


@pytest.fixture
def customers(folder):
    (folder / "customers.csv").write_text(DIRECTORY)
    return folder


def test_lines_of_a_server(program, customers):
    told_in_lines(program, customers)
    if shutil.which("jq"):
        asked_by_jq(customers)


def test_moved_away(program, customers):
    moved_away(program, customers)


def test_not_writable(program, customers):
    not_writable(program, customers)


def test_on_standard_error(program, customers):
    on_standard_error(program, customers)


def test_lines_of_a_batch(program, customers):
    _, cost = of_a_batch(program, customers)
    print(f"a line costs {cost:.1f} microseconds")


def test_milliseconds(program, customers):
    in_milliseconds(program, customers)
