"""Whether a value has the form of a schema of docs/openapi.json, as Python's jsonschema sees it."""
import copy

from jsonschema import Draft202012Validator, RefResolver
from jsonschema.validators import extend

# An integer is written in digits alone: the desk takes no 1.0 for 1.
INTEGERS = Draft202012Validator.TYPE_CHECKER.redefine(
    "integer", lambda _, it: isinstance(it, int) and not isinstance(it, bool))
Checked = extend(Draft202012Validator, type_checker=INTEGERS)


class Forms:
    """The schemas of a document. `closed` refuses a member that no schema of the object names."""

    def __init__(self, document, closed):
        self.document, self.closed = fitted(copy.deepcopy(document), closed), closed
        self.references = RefResolver.from_schema(self.document)

    def resolved(self, part):
        """A part of the document, or what it refers to."""
        while "$ref" in part:
            part = self.references.resolve(part["$ref"])[1]
        return part

    def faults(self, schema, value, at="the body"):
        """What of the value has not the form."""
        own = fitted(copy.deepcopy(schema), self.closed)
        for it in Checked(own, resolver=self.references).iter_errors(value):
            yield f"{at}{it.json_path[1:]}: {it.message}"

    def has(self, schema, value):
        return not any(True for _ in self.faults(schema, value))


def fitted(part, closed):
    """A part of a document whose patterns end at the end of a text, and not before a last line feed; and whose objects
    have no further members where it is `closed`, or any where it is not."""
    if isinstance(part, list):
        return [fitted(it, closed) for it in part]
    if not isinstance(part, dict):
        return part
    if "properties" in part:
        part.pop("additionalProperties", None)
        part.update({"additionalProperties": False} if closed else {})
    if isinstance(part.get("pattern"), str) and part["pattern"].endswith("$"):
        part["pattern"] = part["pattern"][:-1] + r"\Z"
    return {name: fitted(it, closed) for name, it in part.items()}
