"""Holds docs/openapi.json to the table of routes, the tables of the pages, and the examples."""
import json
import re
from pathlib import Path

from schema import Forms

PAGE = Path("docs/openapi.json")
ROUTE = re.compile(r'"(/[^"]+)",\s*(Get|Post|GetOrDelete)\(')
METHODS = {"Get": ["get"], "Post": ["post"], "GetOrDelete": ["get", "delete"]}
# The calls of a row of a page's table, and the number of a refusal there.
CALL, REFUSAL = re.compile(r"`(GET|POST|DELETE) (/[^`]+)`"), re.compile(r"(\d+) `\w+`")
# The refusals of every call, and of the relay's calls for a customer.
COMMON, NO_CUSTOMER = {1, 2, 3, 6}, {13}
# The faults of every call; a call of all customers tells the others within its reply.
FAULTS, FAULTS_OF_ALL = {90, 91, 93}, {90}
OF_ALL = {"/relay/sweep", "/relay/usage", "/relay/due", "/relay/sweep-from", "/relay/usage-from", "/relay/due-from"}

# What a request that has the form of the file never gets.
AGAINST_THE_FORM = {7, 8, 20, 23, 27, 28}


class Calls:
    """What the file says of each call."""

    def __init__(self):
        self.document = json.loads(PAGE.read_text())
        self.forms = Forms(self.document, closed=True)
        self.calls = {(path, method): {**call, "parameters": item.get("parameters", [])}
                      for path, item in self.document["paths"].items()
                      for method, call in item.items() if method != "parameters"}
        self.shapes = {path: re.compile(re.sub(r"\{(\w+)\}", r"(?P<\1>[^/]+)", path))
                       for path, _ in self.calls}

    def reply(self, call, status):
        """The schema of a reply, or none where the call has no such status."""
        told = call["responses"].get(status)
        return told and self.forms.resolved(told)["content"]["application/json"]["schema"]

    def numbers(self, call):
        """The numbers of the refusals and faults of a call, each with its status."""
        for status in call["responses"].keys() - {"200"}:
            schema = self.reply(call, status)
            for it in schema.get("oneOf", [schema]):
                yield self.forms.resolved(it)["properties"]["error"]["const"], status

    def named(self, name):
        return {"$ref": f"#/components/schemas/{name}"}


def route_faults(calls, table):
    """The paths and methods are those of the table of routes."""
    wanted = {(path, method) for path, kind in ROUTE.findall(table) for method in METHODS[kind]}
    for path, method in sorted(wanted ^ calls.calls.keys()):
        where = "no call of the desk" if (path, method) in calls.calls else f"missing in {PAGE}"
        yield f"{method} {path} is {where}"
    if not wanted:
        yield "there is no table of routes"


def rows_of(pages):
    """The calls of the tables of the pages, each with the numbers of its own refusals."""
    for line in pages.split("\n"):
        cells = line.strip("|").split(" | ")
        for method, path in CALL.findall(cells[0]) if len(cells) == 4 else []:
            yield (path, method.lower()), {int(it) for it in REFUSAL.findall(cells[3])}


def refusal_faults(calls, pages):
    """Each call has the refusals of its row, and the common ones, under their statuses."""
    status = dict(re.findall(r"(?m)^\| (\d+) \| \w+ \| (\d+) \|", pages))
    rows = dict(rows_of(pages))
    for key, call in calls.calls.items():
        if key not in rows:
            yield f"{key[1]} {key[0]} has no row in a table of the pages"
            continue
        wanted = rows[key] | COMMON | (FAULTS_OF_ALL if key[0] in OF_ALL else FAULTS)
        wanted |= NO_CUSTOMER if "{customer}" in key[0] else set()
        found = set(calls.numbers(call))
        if found != {(it, status[str(it)]) for it in wanted}:
            told = f"the refusals {sorted(found)}, and the pages {sorted(wanted)}"
            yield f"{PAGE}: {key[1]} {key[0]} has {told}"


def integer(digits):
    """A number of digits alone, as the desk takes it; `-0` is none."""
    return float(digits) if digits == "-0" else int(digits)


def is_as_told(calls, call, found, body):
    """Whether the parameters and the body of a request have the forms that are told."""
    by_name = {it["name"]: it["schema"] for it in call["parameters"]}
    if not all(calls.forms.has(by_name[name], value) for name, value in found.groupdict().items()):
        return False
    if "requestBody" not in call or not (body or call["requestBody"]["required"]):
        return True
    schema = call["requestBody"]["content"]["application/json"]["schema"]
    try:
        return calls.forms.has(schema, json.loads(body, parse_int=integer))
    except (ValueError, RecursionError):
        return False


def pair_faults(calls, line, reply):
    """What a request of an example, and its reply, have that is not told."""
    status, _, told = reply.decode().partition(" ")
    told, fields = json.loads(told), line.decode(errors="replace").split(" ", 4)
    method, path = [*fields, "", "", ""][1:3]
    shape = next((it for it, form in calls.shapes.items() if form.fullmatch(path)), None)
    call = calls.calls.get((shape, method.lower())) if method.isupper() else None
    if not call:
        elsewhere = calls.named("WrongMethod" if shape else "NoRoute")
        schema = {"oneOf": [elsewhere, *map(calls.named, ("BadRequest", "BodyTooLong"))]}
        yield from calls.forms.faults(schema, told, "the refusal")
        return
    schema = calls.reply(call, status)
    if not schema:
        yield f"the status {status} is not told"
        return
    yield from calls.forms.faults(schema, told)
    good = is_as_told(calls, call, calls.shapes[shape].fullmatch(path), [*fields, "", ""][4])
    if good and told.get("error") in AGAINST_THE_FORM or not good and status == "200":
        yield f"the request has {'the' if good else 'not the'} form that is told"


def example_faults(calls, pairs):
    """Each example, given with its folder, is as the file tells."""
    number = 0
    for folder, line, reply in pairs:
        number += 1
        for fault in pair_faults(calls, line, reply):
            yield f"{PAGE}: {folder}: {line[:120]!r} gets {reply[:120]!r}: {fault}"
    if number < 1000:
        yield f"only {number} examples were found"


def validator_faults(calls):
    """What another reader of such files finds, where it is installed."""
    try:
        import openapi_spec_validator as reader
    except ImportError:
        return
    check = getattr(reader, "validate", None) or reader.validate_spec
    try:
        check(calls.document)
    except Exception as fault:
        yield f"{PAGE}: {type(fault).__name__}: {str(fault)[:300]}"
