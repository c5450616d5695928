"""Members of JSON objects, each with the type that its reader expects.

A member that is missing raises KeyError, and one of another type raises TypeError.
"""
import json
from typing import cast

Members = dict[str, object]


def members_of(text: str | bytes) -> Members:
    """The object of a JSON text. ValueError is raised if the text is no JSON."""
    return as_members(json.loads(text), "the text")


def as_members(value: object, name: str) -> Members:
    """A value that has to be an object."""
    if not isinstance(value, dict):
        raise TypeError(f"{name} is no object")
    return value


def text_of(members: Members, name: str) -> str:
    """A member that has to be a text."""
    value = members[name]
    if not isinstance(value, str):
        raise TypeError(f"{name} is no text")
    return value


def number_of(members: Members, name: str) -> int:
    """A member that has to be a whole number."""
    value = members[name]
    if not isinstance(value, int):
        raise TypeError(f"{name} is no number")
    return value


def list_of(members: Members, name: str) -> list[object]:
    """A member that has to be a list."""
    value = members[name]
    if not isinstance(value, list):
        raise TypeError(f"{name} is no list")
    return value


def objects_of(members: Members, name: str) -> list[Members]:
    """A member that has to be a list of objects.

    (A value that is no object raises TypeError when a member of it is read: so long lists take
    less.)
    """
    return cast(list[Members], list_of(members, name))


def texts_of(members: Members, name: str) -> list[str]:
    """A member that has to be a list of texts."""
    values = list_of(members, name)
    for value in values:
        if not isinstance(value, str):
            raise TypeError(f"{name} has a value that is no text")
    return cast(list[str], values)
