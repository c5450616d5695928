"""The library of interpose.c, which makes one call of a program fail, compiled for a test."""
import subprocess
from pathlib import Path

from serving import LONGEST

SOURCE = Path(__file__).resolve().parent / "interpose.c"


def library_in(folder):
    """The library as a file of this folder, for LD_PRELOAD; it is compiled where it is not there."""
    library = Path(folder) / "interpose.so"
    if not library.exists():
        words = ["cc", "-shared", "-fPIC", "-O1", "-o", library, SOURCE, "-ldl"]
        subprocess.run(words, check=True, timeout=LONGEST)
    return str(library)
