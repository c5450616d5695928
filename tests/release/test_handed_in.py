"""Proofs that another clone has kept: taken by their sums where the sources are the same, and else made from nothing."""
import hashlib
import os
import re
import subprocess
import sys
import tarfile

import needs
import pytest
from releasing import copied, run, stand_in, version
from serving import expect

# The crate that is proved fastest, with nothing below it.
CRATE = "hq_memory"
LONGEST = 600
# The script ./release, for which any program counts as the one that was proved; it prints what comes into PROVED.
PROVED = """\
import sys
from importlib.machinery import SourceFileLoader
script = SourceFileLoader("release", sys.argv[1]).load_module()
script.is_proved = lambda program: True
print(script.evidence(script.Path(sys.argv[2]), sys.argv[3]))
"""


def build(place, proofs=None):
    env = {**os.environ, **({"HQ_PROOFS": str(proofs)} if proofs else {})}
    return subprocess.run([place / "tools/build", CRATE], capture_output=True, text=True, timeout=LONGEST, env=env)


def named_in_proved(place, folder):
    """The crates whose proofs were handed in, by the file PROVED that a clone makes of a program that it has proved."""
    ended = run(sys.executable, "-B", "-W", "ignore", "-c", PROVED, place / "release", stand_in(folder, version()), version())
    expect(ended.returncode == 0 and re.search(rf"(?m)^[0-9a-f]{{64}}  {CRATE}$", ended.stdout), "the crate has no sum in", ended)
    said, _, names = ended.stdout.partition("(HQ_PROOFS):\n")
    expect(("Of these crates the proofs were not made for this release" in said) == bool(names), "it says", ended.stdout)
    return names.split()


@pytest.fixture(scope="module")
def proofs(tmp_path_factory):
    """A folder that a clone has written which proved the crate, by its own command."""
    needs.command("rt", "git")
    folder = tmp_path_factory.mktemp("proofs")
    place = copied(folder / "first")
    expect(build(place).returncode == 0, "it is not proved")
    told = subprocess.run([place / "tools/proofs", folder / "kept"], capture_output=True, text=True, timeout=LONGEST)
    expect(told.returncode == 0 and "1 proofs are in" in told.stdout, "no proofs are written:", told)
    return folder / "kept"


def test_taken(proofs, folder):
    """A clone with the same sources makes no proof of its own, keeps from where it has one, and says so of that crate alone in PROVED."""
    place = copied(folder / "same")
    told = build(place, proofs)
    expect(told.returncode == 0 and f"1 proofs were taken from {proofs}" in told.stderr, "it ended with", told)
    expect((place / f"crates/{CRATE}/out/taken-from").read_text() == f"{proofs}\n" and "1 at work" not in told.stderr, "a proof was made", told)
    expect(build(place).returncode == 0 and (place / f"crates/{CRATE}/out/taken-from").exists(), "it is proved again")
    named = named_in_proved(place, folder)
    expect(named == [CRATE], "PROVED names", named)


def test_of_other_sources(proofs, folder):
    """Where a source has changed nothing of it is taken, the crate is proved, and PROVED names no proof that was handed in."""
    place = copied(folder / "other")
    path = place / f"crates/{CRATE}/src/lib.rt"
    path.write_text(path.read_text() + "\n")
    told = build(place, proofs)
    expect(told.returncode == 0 and "0 proofs were taken" in told.stderr, "it ended with", told)
    expect(not (place / f"crates/{CRATE}/out/taken-from").exists(), "it counts as taken")
    named = named_in_proved(place, folder)
    expect(named == [], "PROVED names", named)


def test_refused(proofs, folder):
    """A folder without sums, a file with another sum, and one that leads out of the crate are refused before anything is taken."""
    place, lists = copied(folder / "strict"), folder / "lists"
    lists.mkdir()
    expect("tools/proofs writes such a folder" in build(place, lists).stderr, "a folder without sums")
    (lists / f"{CRATE}.tar").write_bytes((proofs / f"{CRATE}.tar").read_bytes() + b"x")
    (lists / "SHA256SUMS").write_text((proofs / "SHA256SUMS").read_text())
    expect("has not the sum" in build(place, lists).stderr, "a file with another sum")
    for name, kind in (("out/../../../escaped", tarfile.REGTYPE), ("out/link", tarfile.SYMTYPE), ("other", tarfile.REGTYPE)):
        with tarfile.open(lists / f"{CRATE}.tar", "w") as packed:
            member = tarfile.TarInfo(name)
            member.type, member.linkname = kind, "/etc/passwd"
            packed.addfile(member)
        digest = hashlib.sha256((lists / f"{CRATE}.tar").read_bytes()).hexdigest()
        (lists / "SHA256SUMS").write_text(f"{digest}  {CRATE}.tar\n")
        told = build(place, lists)
        expect(told.returncode == 1 and "which is no file of out/" in told.stderr, name, "is taken:", told)
    expect(not (place / f"crates/{CRATE}/out").exists(), "something was taken")
