"""What a test needs of the machine. Where it is lacking the test is skipped, and ./test counts it as left out."""
import os
import shutil
import subprocess

import pytest


def command(*names):
    """These programs are on the path."""
    for it in names:
        if not shutil.which(it):
            pytest.skip(f"no {it}")


def root():
    if os.geteuid() != 0:
        pytest.skip("no rights of root")


def module(python, name):
    """This Python has this module."""
    if subprocess.run([python, "-c", f"import {name}"], capture_output=True).returncode:
        pytest.skip(f"no {name} of {python}")


def that(holds, lacking):
    """Something else is there; else this text says what is lacking."""
    if not holds:
        pytest.skip(f"no {lacking}")
