"""Random lines over each store, few at a time: what differs is made as small as it can be by hypothesis.

tests/program/test_soak.py has many lines at once, whose first difference is told as it came.
"""
import json

from hypothesis import HealthCheck, given, settings
from hypothesis import strategies as some
from serving import HEADER, KEYS, RELAY, expect, words
from stores_files import DIRECTORY as BUILT_IN
from stores_files import run

EXAMPLES = 60
CUSTOMERS = {"acme": f"acme,{KEYS['acme']},3,5000,4,3,60,5", "birch": f"birch,{KEYS['birch']},9,9000,9,9,0,0"}
DIRECTORY = f"{HEADER.strip()},history\n" + "".join(f"{it}\n" for it in CUSTOMERS.values())
IDS = some.integers(1, 5).map(lambda it: f"{it:010X}")
ADDRESSES = some.sampled_from(["ann@a.example", "bob@far.example", "Cat+x@b.far.example", "d@a.example"])
PATTERNS = some.sampled_from(["a.example", ".far.example", "bob@", "cat@b.far.example", "<>", "no pattern"])
SIDES = some.sampled_from(["sender", "recipient"])
ACTIONS = some.sampled_from(["OK", "REJECT no", "HOLD", "DISCARD", "REDIRECT one@r.example", "DUNNO"])
RESULTS = some.sampled_from([{"result": "delivered", "status": "2.0.0", "text": "ok"}, {"result": "delivered"},
                             {"result": "deferred", "status": "4.2.0", "text": "busy"},
                             {"result": "failed", "status": "5.1.1", "text": "no user"}])


def fixed(value):
    return some.just(value)


def body(**members):
    return some.fixed_dictionaries(members).map(lambda it: json.dumps(it, separators=(",", ":")))


def own(method, path, of=fixed("")):
    """A call of a customer: its method, its path and its body."""
    path = path if isinstance(path, some.SearchStrategy) else fixed(path)
    return some.tuples(some.sampled_from([*CUSTOMERS]), fixed("own"), fixed(method), path, of)


def relay(name, of=fixed("")):
    """A call of the relay for a customer."""
    return some.sampled_from([*CUSTOMERS]).flatmap(
        lambda it: some.tuples(fixed(it), fixed("relay"), fixed("POST"), fixed(f"/relay/{name}/{it}"), of))


OUTCOMES = some.tuples(ADDRESSES, RESULTS).map(lambda it: [{"recipient": it[0], **it[1]}])
BY_PATTERN = body(**{"class": SIDES, "pattern": PATTERNS})
CALLS = some.one_of(
    relay("submit", body(spool=some.sampled_from(["s1", "s2", "s3", "s4"]), sender=some.one_of(fixed(""), ADDRESSES),
                         recipients=some.lists(ADDRESSES, min_size=1, max_size=3), size=some.integers(1, 2000))),
    relay("outcome", body(id=IDS, attempt=some.integers(1, 3), outcomes=OUTCOMES)),
    relay("due", body(after=fixed(None))), relay("sweep"), relay("history", body(before=fixed(None))),
    own("POST", IDS.map("/v1/hold/{}".format)), own("POST", IDS.map("/v1/release/{}".format)),
    own("POST", IDS.map("/v1/requeue/{}".format)), own("DELETE", IDS.map("/v1/message/{}".format)),
    own("GET", IDS.map("/v1/message/{}".format)), own("GET", "/v1/messages"), own("GET", "/v1/usage"),
    own("GET", "/v1/report"), own("GET", "/v1/lines"), own("GET", "/v1/notices"), own("GET", "/v1/limits"),
    own("GET", "/v1/history"), own("GET", some.integers(0, 9).map("/v1/history-before/{}".format)),
    own("POST", "/v1/history-find", body(**{"class": SIDES, "pattern": PATTERNS, "before": fixed(None)})),
    own("POST", "/v1/find", body(**{"class": SIDES, "pattern": PATTERNS, "after": some.one_of(fixed(None), IDS)})),
    own("POST", "/v1/hold-all"), own("POST", "/v1/release-all"), own("POST", "/v1/delete-all"),
    own("POST", "/v1/hold-matching", BY_PATTERN), own("POST", "/v1/release-matching", BY_PATTERN),
    own("POST", "/v1/delete-matching", BY_PATTERN),
    own("POST", "/v1/line-put", body(**{"class": SIDES, "pattern": PATTERNS, "action": ACTIONS})),
    own("POST", "/v1/line-drop", BY_PATTERN))
# each call, and how many seconds after the one before it
HISTORIES = some.lists(some.tuples(some.sampled_from([0, 1, 70, 400, 200_000]), CALLS), min_size=1, max_size=25)


def lines_of(history):
    """The lines of a history, each with its customer."""
    at, made = 1767225600, []
    for seconds, (customer, whose, method, path, sent) in history:
        at += seconds
        key = RELAY if whose == "relay" else KEYS[customer]
        made.append((customer, f"{at} {method} {path} {key} {sent}".rstrip(" ").encode() + b"\n"))
    return made


def replies(asked, lines):
    ended = run(asked, b"".join(lines))
    expect(ended.returncode == 0, asked, "ended with", ended.returncode, ended.stderr)
    return ended.stdout.splitlines()


def test_each_store_replies_the_same(program, folder):
    """Over memory and a file, and with the quotas of the built-in customers over lists; and each customer alone is told what it
    is told among all."""
    directory, made = folder / "directory", iter(range(1_000_000))
    directory.write_text(DIRECTORY)

    def over_memory(lines, of=directory):
        return replies(words(program, "batch", directory=of), lines)

    @settings(max_examples=EXAMPLES, deadline=None, database=None, suppress_health_check=[HealthCheck.too_slow])
    @given(HISTORIES)
    def same(history):
        whose, lines = zip(*lines_of(history))
        told = over_memory(lines)
        assert over_memory(lines, BUILT_IN) == replies([program], lines)
        assert told == replies(words(program, "batch", str(folder / f"store-{next(made)}"), directory=directory), lines)
        for customer in CUSTOMERS:
            own_lines = [line for it, line in zip(whose, lines) if it == customer]
            assert over_memory(own_lines) == [reply for it, reply in zip(whose, told) if it == customer]

    same()
