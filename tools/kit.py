"""The command `rt` of the Rattle kit, and the module that it stands on, for the tools that call their functions."""
import importlib.machinery
import importlib.util
import os
import shutil
import sys


def load_rt():
    """The command `rt` as a module: its own check, and its own rule for one wrong body."""
    path = shutil.which("rt") or sys.exit("there is no rt on the path: it comes with the Rattle kit")
    loader = importlib.machinery.SourceFileLoader("rt_command", os.path.realpath(path))
    made = importlib.util.module_from_spec(importlib.util.spec_from_loader("rt_command", loader))
    loader.exec_module(made)
    return made


rt = load_rt()
rtlib = rt.rtlib
