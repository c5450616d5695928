"""The mail of a calm customer is delivered soon, whatever another customer or another desk does.

Each takes the program of the desk and two instances of Postfix, of which the first asks the worker whose mail comes.
"""
import tempfile
from pathlib import Path

import needs
import pytest
from fairness import SITUATIONS, check
from machine import PYTHON, Shared


@pytest.fixture(scope="module")
def shared():
    needs.command("postfix")
    needs.root()
    needs.module(PYTHON, "aiosmtpd")
    with tempfile.TemporaryDirectory() as made, Shared(Path(made), has_policy=True) as it:
        yield it


@pytest.mark.parametrize("situation", SITUATIONS)
def test_fair(program, shared, situation):
    check(program, shared, situation)
