"""Lines of a batch in whichever pieces they come, and inputs and outputs that fail.

Standard input and standard output give and take little, are interrupted and fail, as a library has them
(tests/support/interpose.c). Expected are the rules of a batch: each line that is not empty is replied to once, in order, as
soon as it is whole; a line ends by LF or CR LF, and the last one by the end of the input too; a line has at most 300,000 bytes.
What an input that fails has given whole is replied to, and nothing else. A reply that cannot be written ends the batch.
"""
import os
import subprocess

import pytest
from serving import HEADER, LONGEST, RELAY, expect, one_by_one, words

AT, KEY = b"1767225600 ", b"acmekey000000001"
# Three lines, each with a reply of its own, and what is no line at all.
LIST, NOBODY, NOWHERE = AT + b"GET /v1/messages " + KEY, AT + b"GET /v1/messages -", AT + b"GET /nowhere -"
LISTED, NO_KEY, NO_ROUTE = b'200 {"messages":[],"more":false}\n', b'401 {"error":2,"name":"NoKey"}\n', b'404 {"error":4,"name":"NoRoute"}\n'
WRONG_ROLE, WRONG_METHOD = b'403 {"error":3,"name":"WrongRole"}\n', b'405 {"error":5,"name":"WrongMethod"}\n'
BAD_REQUEST, TOO_LONG = b'400 {"error":1,"name":"BadRequest"}\n', b'413 {"error":6,"name":"BodyTooLong"}\n'
PUT = AT + b"POST /v1/line-put " + KEY + b' {"class":"sender","pattern":"a.example","action":"OK"}'
LINES = AT + b"GET /v1/lines " + KEY
ADDED, SAME = b'200 {"put":"added"}\n', b'200 {"put":"same"}\n'
ONE_LINE = b'200 {"lines":[{"action":"OK","class":"sender","pattern":"a.example"}],"more":false}\n'
# The most bytes of one read, and whether each other read is interrupted.
MANNERS = [{"READ_MOST": "1"}, {"READ_MOST": "2", "FLICKERS": "1"}, {"READ_MOST": "7"}, {"FLICKERS": "1"}]
# So many reads are made of an input at most.
MOST_READS = 67_108_864

# Inputs, and what is written for them.
INPUTS = [
    (b"", b""),
    (b"\n\r\n\n", b""),
    (LIST + b"\n", LISTED),
    (LIST, LISTED),
    (LIST + b"\n" + NOBODY, LISTED + NO_KEY),
    (b"\r\n" + LIST + b"\r\n\n" + NOBODY + b"\nx\n" + NOWHERE + b"\n", LISTED + NO_KEY + BAD_REQUEST + NO_ROUTE),
    (LIST + b"\r\r\n", NO_KEY),
    (LIST + b"\r", NO_KEY),
    (b"\r", BAD_REQUEST),
    (AT + b"GET /v1/messages \r" + KEY + b"\n", NO_KEY),
    (AT + b"GET\n", BAD_REQUEST),
    (PUT + b"\n" + PUT + b"\r\n\n" + LINES + b"\n" + LIST, ADDED + SAME + ONE_LINE + LISTED),
]

# Lines that can be read, none of which asks for anything that there is.
TAKEN = [b"0 GET /p abc", b"1 GET /p - ", b"1 POST /p -  {} x", b"1 GET /p -- \xff", b"1 GET /\xc3\xa9 -", b"1 GET /p -\r",
         b"0000000007 a b c", b"4102444799 a b c"]
# What their fields are: the key is the third, and the rest is the body.
FIELDS = [
    (AT + b"GET /v1/messages " + KEY + b" ", LISTED),
    (AT + b"GET /v1/messages " + KEY + b" \xff", LISTED),
    (AT + b"GET /v1/messages --", NO_KEY),
    (AT + b"PUT /v1/messages " + KEY, WRONG_METHOD),
    (AT + b"POST /v1/line-put " + KEY + b'  {"class":"sender","pattern":"a.example","action":"OK"}', ADDED),
    (AT + b"GET /v1/messages relaykey00000001", WRONG_ROLE),
]
# Lines that cannot be read.
REFUSED = [b"1", b"1 a", b"1 a b", b"1 a b ", b" a b c", b"1  b c", b"1 a  c", b"+1 a b c", b"1\ta b c d", b"1 \xff b c",
           b"1 a \xff c", b"1 a b \xc3", b"00000000007 a b c", b"4102444800 a b c", b"9999999999 a b c"]


def batch(asked, lines, **more):
    return subprocess.run(asked, input=lines, capture_output=True, timeout=LONGEST, env={**os.environ, **more})


def expect_ended(ended, status, output, errors, *told):
    found = ended.returncode, ended.stdout, ended.stderr
    expect(found == (status, output, errors), *told, "gave", found, "and not", (status, output, errors))


@pytest.mark.parametrize("manner", MANNERS, ids=lambda it: "-".join(f"{name}-{many}" for name, many in it.items()))
def test_lines_in_pieces(program, library, manner):
    for lines, written in INPUTS:
        expect_ended(batch([program], lines, LD_PRELOAD=library, **manner), 0, written, b"", lines)


def test_fields(program):
    """Each line by itself, ended by LF and by the end of the input."""
    for line, reply in [*((it, NO_ROUTE) for it in TAKEN), *FIELDS, *((it, BAD_REQUEST) for it in REFUSED)]:
        for end in b"", b"\n":
            expect_ended(batch([program], line + end), 0, reply, b"", line)


# How long a line is, its end, and what is told of it: that its body is too long, or that it is.
LONG = [(299_999, b"\r\n", TOO_LONG), (300_000, b"\n", TOO_LONG), (300_000, b"\r\n", BAD_REQUEST), (300_001, b"\n", BAD_REQUEST),
        (300_001, b"\r\n", BAD_REQUEST), (700_000, b"\n", BAD_REQUEST)]


@pytest.mark.parametrize("manner", [{}, *MANNERS], ids=["whole", "1", "2-flickers", "7", "flickers"])
def test_long_lines(program, library, manner):
    """A line filled to its length by its body, and one behind it."""
    for length, end, told in LONG:
        lines = (AT + b"POST /v1/check " + KEY + b" ").ljust(length) + end + LIST + b"\n"
        expect_ended(batch([program], lines, LD_PRELOAD=library, **manner), 0, told + LISTED, b"", length, end)


@pytest.mark.parametrize("reads, replies", [(0, b""), (1, LISTED), (2, LISTED + ADDED), (3, LISTED + ADDED + SAME)])
def test_input_that_fails(program, library, folder, reads, replies):
    """Each read gives a line and the first bytes of the next one; what came whole before a failed read is replied to, and done."""
    lines = [LIST + b"\n", PUT + b"\n", PUT + b"\n"]
    most = max(len(it) for it in lines)
    padded = b"".join(it[:-1].ljust(most - 1) + b"\n" for it in lines)
    (folder / "customers.csv").write_text(HEADER + "acme,acmekey000000001,2,10000,10,5,3600\n")
    asked = words(program, "batch", str(folder / "store"), directory=folder / "customers.csv")
    more = {"LD_PRELOAD": library, "READ_MOST": str(most + 2), "INPUT_FAILS_AT": str(reads + 1)}
    for run in [program], asked:
        expect_ended(batch(run, padded, **more), 1, replies, b"hq: input\n", reads, "reads")
    kept = ONE_LINE if ADDED in replies else b'200 {"lines":[],"more":false}\n'
    expect_ended(batch(asked, LINES + b"\n"), 0, kept, b"", "behind", reads, "reads")


def test_each_read_fails(program, library):
    """At each place of a line, and of the one behind it."""
    lines = LIST + b"\n" + PUT + b"\n"
    for reads in range(len(lines) + 1):
        replies = (LISTED if reads > len(LIST) else b"") + (ADDED if reads == len(lines) else b"")
        ended = batch([program], lines, LD_PRELOAD=library, READ_MOST="1", INPUT_FAILS_AT=str(reads + 1))
        expect_ended(ended, 1, replies, b"hq: input\n", reads, "bytes were read")


def test_most_reads(program, library, folder):
    """One read is for the line and one for the end of the input. An interrupted read counts as one."""
    for interrupts, status, errors in ((MOST_READS - 2, 0, b""), (MOST_READS - 1, 1, b"hq: input\n")):
        more = {"LD_PRELOAD": library, "INTERRUPTS": str(interrupts), "CALLS": str(folder / "calls")}
        expect_ended(batch([program], LIST + b"\n", **more), status, LISTED, errors, interrupts)
        reads = int((folder / "calls").read_text().split()[4])
        expect(reads == MOST_READS, "with", interrupts, "interruptions", reads, "reads were made")


# ---- what is written

THREE = LIST + b"\n" + PUT + b"\n" + LINES + b"\n"
WRITTEN = LISTED + ADDED + ONE_LINE


def test_output_that_takes_little(program, library):
    """Each write takes a byte, and each other one is interrupted: all is written, and once."""
    for more in {"WRITE_MOST": "1"}, {"WRITE_MOST": "1", "FLICKERS": "1"}, {"FLICKERS": "1"}:
        expect_ended(batch([program], THREE, LD_PRELOAD=library, **more), 0, WRITTEN, b"", more)


@pytest.mark.parametrize("how", ["OUTPUT_TAKES", "OUTPUT_FILLS"])
def test_output_that_fails(program, library, how):
    """Behind each byte of the replies a write fails, or takes nothing: what went out is their beginning."""
    for room in range(len(WRITTEN) + 1):
        ended = batch([program], THREE, LD_PRELOAD=library, **{how: str(room)})
        is_whole = room == len(WRITTEN)
        expect_ended(ended, 0 if is_whole else 1, WRITTEN[:room], b"" if is_whole else b"hq: output\n", how, room)


def test_output_that_fails_over_a_file(program, library, folder):
    """The line whose reply cannot be written is done, and where each line comes alone, none behind it."""
    (folder / "customers.csv").write_text(HEADER + "acme,acmekey000000001,2,10000,10,5,3600\n")
    for room in 0, len(ADDED) - 1, len(ADDED):
        store = str(folder / f"store-{room}")
        asked = words(program, "batch", store, directory=folder / "customers.csv")
        # (each read gives one line)
        second = PUT.replace(b"a.example", b"b.example")
        more = {"LD_PRELOAD": library, "READ_MOST": str(len(PUT) + 1), "OUTPUT_TAKES": str(room)}
        ended = batch(asked, PUT + b"\n" + second + b"\n", **more)
        expect_ended(ended, 1, ADDED[:room], b"hq: output\n", room)
        found = batch(asked, LINES + b"\n").stdout.count(b'"pattern"')
        expect(found == (2 if room == len(ADDED) else 1), "an output of", room, "bytes left", found, "lines")


def test_each_reply_is_flushed(program, library, folder):
    """Each reply has left before the next line comes, and none leaves in two writes, nor two in one."""
    calls, lines = folder / "calls", ["1 GET /v1/messages -", "x", "2 GET /v1/messages -"]
    told = one_by_one([program], lines, folder, {"LD_PRELOAD": library, "CALLS": str(calls)})
    wanted = [it.decode().rstrip("\n") for it in (NO_KEY, BAD_REQUEST, NO_KEY)]
    expect(told == wanted and int(calls.read_text().split()[5]) == 3, "told", told, "by", calls.read_text())
    expect_ended(batch([program], b"1 GET /v1/messages -\n\nx\n2 GET /v1/messages -", LD_PRELOAD=library, CALLS=str(calls)), 0,
                 NO_KEY + BAD_REQUEST + NO_KEY, b"", "at once")
    expect(int(calls.read_text().split()[5]) == 3, "three replies at once took the writes of", calls.read_text())


def test_customers_of_other_settings(program, folder):
    """The key of a customer that the directory has, those of the built-in ones, which it has not, and two keys of a relay."""
    (folder / "cedar.csv").write_text(HEADER + "cedar,cedarkey00000001,1,1,1,1,0\n")
    asked = [program, "batch", "--directory", folder / "cedar.csv", "--host", "mail.example", "--relay-key", "otherrelaykey001"]
    keys = b"cedarkey00000001", b"acmekey000000001", RELAY.encode(), b"otherrelaykey001"
    lines = b"".join(b"1 GET /v1/messages %s\n" % key for key in keys)
    expect_ended(batch(asked, lines), 0, LISTED + NO_KEY + NO_KEY + WRONG_ROLE, b"", "other settings")
