"""A release that is signed, and what the lines of docs/PRODUCTION.md tell of it, and of one that was changed on its way."""
import os
import re
import shutil
import subprocess
import tempfile
from pathlib import Path

import needs
import pytest
from releasing import ROOT, run, stand_in
from serving import expect

OWNER = "releaser@relay.example"


def keys_in(folder):
    """Keys of a releaser, in a folder of their own: the settings by which gpg has them, and the file of the public one."""
    folder.mkdir(mode=0o700)
    settings = {**os.environ, "GNUPGHOME": str(folder)}
    run("gpg", "--batch", "--passphrase", "", "--quick-generate-key", OWNER, "ed25519", "sign", env=settings).check_returncode()
    public = folder / "releaser.gpg"
    public.write_bytes(subprocess.run(["gpg", "--batch", "--export", OWNER], env=settings, capture_output=True, check=True).stdout)
    run("gpgconf", "--kill", "all", env=settings)
    return settings, public


@pytest.fixture(scope="module")
def made(begun):
    """A folder with a release that is signed, and the releaser's keys."""
    needs.command("gpg", "gpgv", "gpgconf")
    with tempfile.TemporaryDirectory() as place:
        folder = Path(place)
        settings, _ = keys_in(folder / "keys")
        program = stand_in(folder, "0.9")
        ended = run(ROOT / "release", "--program", program, "--as", "0.9", "--sign", OWNER, folder / "made", env=settings)
        run("gpgconf", "--kill", "all", env=settings)
        expect(ended.returncode == 0 and "signed" not in ended.stderr, "./release:", ended)
        yield folder


@pytest.fixture
def signed(made, folder):
    """A signed release of the test's own, and the file of the key that checks it."""
    return shutil.copytree(made / "made", folder / "signed"), made / "keys/releaser.gpg"


def checked(place, public, package=None):
    """The status of the lines that the page shows, and what they tell of a package."""
    package = package or next(place.glob("*.deb"), place / "none.deb")
    section = (ROOT / "docs/PRODUCTION.md").read_text().partition("\n### The package\n")[2].partition("\n### ")[0]
    lines = next(it for it in re.findall(r"(?ms)^```\n(.*?)^```$", section) if "gpgv" in it)
    ended = run("bash", "-c", lines, env={**os.environ, "RELEASER": str(public), "PACKAGE": str(package)})
    return ended.returncode, ended.stdout + ended.stderr


def test_signed(signed):
    """The lines of the page pass, also where only the package was fetched; no file has a secret key."""
    place, public = signed
    status, told = checked(place, public)
    expect(status == 0 and "Good signature" in told and told.count(": OK") == 6, "the lines tell", status, told)
    expect((place / "SHA256SUMS.asc").read_text().startswith("-----BEGIN PGP SIGNATURE-----\n"), "it is no signature")
    expect(not [it for it in place.iterdir() if b"PRIVATE KEY" in it.read_bytes()], "a secret key is handed out")
    for it in place.iterdir():
        if it.suffix not in (".deb", ".asc") and it.name != "SHA256SUMS":
            it.unlink()
    status, told = checked(place, public)
    expect(status == 0 and told.count(": OK") == 1, "of the package alone the lines tell", status, told)


def test_another_package(signed):
    """A package that the signed sums do not name is refused, whatever stands beside it."""
    place, public = signed
    named = next(place.glob("*.deb")).name
    # (also by a name that is a pattern for the one that they name, or where that one is not there)
    for name in ("hq-desk_1.0.1_amd64.deb", named.replace("_", "."), f"x{named}", named[:-4] + ".de?", ".*"):
        for is_there in (True, False):
            whole = (place / named).read_bytes()
            (place / name).write_bytes(b"of somebody else")
            (place / named).unlink() if not is_there else None
            status, told = checked(place, public, place / name)
            expect(status != 0, name, "that nobody signed is told as", told)
            (place / name).unlink()
            (place / named).write_bytes(whole)


def changed(path):
    data = bytearray(path.read_bytes())
    data[len(data) // 2] ^= 1
    path.write_bytes(data)


def test_changed(signed, folder):
    """They fail where a byte of any file is another one, where nothing is left to check, and by another key."""
    place, public = signed
    names = sorted(it.name for it in place.iterdir())
    expect(len(names) == 8, "it has", names)
    for name in names:
        whole = (place / name).read_bytes()
        changed(place / name)
        status, told = checked(place, public)
        expect(status != 0, "a change of", name, "is told as", told)
        (place / name).write_bytes(whole)
    expect(checked(place, public)[0] == 0, "they fail without a change")
    status, told = checked(place, keys_in(folder / "others")[1])
    expect(status != 0 and "No public key" in told, "by another key they tell", told)
    for name in names:
        if not name.startswith("SHA256SUMS"):
            (place / name).unlink()
    expect(checked(place, public)[0] != 0, "they pass without any file")


def test_no_key(signed, made, folder):
    """Of a key that gpg has not, one line tells before anything is made. A later release that is not signed has no signature."""
    place, _ = signed
    words = [ROOT / "release", "--program", stand_in(folder, "0.9"), "--as", "0.9"]
    ended = run(*words, "--sign", "nobody", folder / "none", env={**os.environ, "GNUPGHOME": str(made / "keys")})
    expect((ended.returncode, ended.stdout, ended.stderr) == (1, "", "release: gpg has no secret key nobody\n"), "it tells", ended)
    expect(not (folder / "none").exists(), "something was made")
    ended = run(*words, place)
    expect(ended.returncode == 0 and "release: the sums are not signed" in ended.stderr, "it tells", ended)
    expect(not (place / "SHA256SUMS.asc").exists(), "a signature of other sums is left")
