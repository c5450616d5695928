"""What ./release makes and tells, of a program that is a script, where only what stands around the program is tried."""
import os
import re
import shutil
import sys
from importlib.machinery import SourceFileLoader

import needs
from releasing import ROOT, copied, run, stand_in
from serving import expect


def test_not_proved(folder, releases):
    """Of a program that was handed over, and is not the one that was proved, nothing is said of a proof. Lines say that the
    repository states no licence, and that the sums are not signed."""
    ended = run(ROOT / "release", "--program", stand_in(folder, releases.version), folder / "made")
    told = ("release: the repository states no licence: ask its maintainers before you hand the release on\n"
            "release: the sums are not signed: --sign KEY has gpg sign them\n")
    expect(ended.returncode == 0 and ended.stderr == told, "./release:", ended)
    told = (folder / "made/PROVED").read_text()
    expect("Nothing is said of a proof." in told and "The kit proved" not in told, "of a stand-in PROVED says", told)


def test_sums_of_crates(folder, releases, monkeypatch):
    """Of the program that was proved, PROVED names each crate whose proof carries the headline, with the sum that its line
    prints."""
    script = SourceFileLoader("release_script", str(ROOT / "release")).load_module()
    monkeypatch.setattr(script, "is_proved", lambda program: True)
    told = script.evidence(stand_in(folder, releases.version), releases.version)
    line = re.search(r"(?m)^  (git ls-files .*)$", told).group(1)
    listed = dict(re.findall(r"(?m)^([0-9a-f]{64})  (hq_\w+)$", told))
    names = {name: its_sum for its_sum, name in listed.items()}
    expect({"hq_main", "hq_laws", "hq_sql_across", "hq_values"} <= {*names} and "hq_trial" not in names, "it names", names)
    for name in ("hq_laws", "hq_sql_across"):
        printed = run("bash", "-c", line.replace("NAME", name), cwd=ROOT).stdout.split()[0]
        expect(names[name] == printed, name, "has", names[name], "and the line prints", printed)


def test_same_to_the_byte(folder, releases):
    """Made twice, in two places and with other settings around it, each file of a release is the same to the byte."""
    program = stand_in(folder, releases.version)
    (folder / "elsewhere").mkdir()
    others = {**os.environ, "TZ": "Asia/Tokyo", "LC_ALL": "C", "HOME": "/", "TMPDIR": str(folder / "elsewhere"),
              "XZ_OPT": "-0", "TAR_OPTIONS": "--mode=a+w", "DEB_BUILD_OPTIONS": "nodoc", "DPKG_DEB_COMPRESSOR_TYPE": "gzip"}
    for name, how, mask in (("one", dict(os.environ), 0o022), ("two", others, 0o077)):
        place = copied(folder / f"repository-{name}", mask)
        ended = run(place / "release", "--program", program, folder / name, env=how, umask=mask)
        expect(ended.returncode == 0, "./release:", ended)
    kinds = {"".join(it.suffixes[-2:]) for it in (folder / "one").iterdir()}
    expect({".tar.xz", ".tar.gz"} < kinds, "it makes", kinds)
    for it in sorted((folder / "one").iterdir()):
        expect(it.read_bytes() == (folder / "two" / it.name).read_bytes(), it.name, "is another one the second time")


# What ./release needs, and the package that has it.
NEEDED = {"dh": "debhelper", "dpkg-buildpackage": "dpkg-dev", "dpkg-deb": "dpkg", "dpkg-source": "dpkg-dev", "git": "git",
          "gpg": "gnupg"}


def test_missing(folder):
    """Where a program is lacking, one line names it and the package that has it, before anything is proved or made."""
    needs.command(*NEEDED)
    for lacking, package in NEEDED.items():
        path = folder / f"without-{lacking}"
        path.mkdir()
        for it in {*NEEDED, "dpkg-parsechangelog"} - {lacking}:
            (path / it).symlink_to(shutil.which(it))
        ended = run(sys.executable, ROOT / "release", "--sign", "key", folder / "made", env={"PATH": str(path)})
        wanted = f"release: there is no {lacking} (of the package {package})\n"
        expect((ended.returncode, ended.stdout, ended.stderr) == (1, "", wanted), "without", lacking, "it tells", ended)
    expect(not (folder / "made").exists(), "something was made")


def test_no_clone(folder, releases):
    """Of files without git's folder nothing is made, as one line says."""
    for it in ("release", "tools", "packaging"):
        run("cp", "-r", ROOT / it, folder)
    ended = run(folder / "release", "--program", stand_in(folder, releases.version), folder / "made")
    told = ended.stderr.splitlines()
    expect(ended.returncode == 1 and told[-1].startswith("release: git ") and "not a git repository" in told[-1] and
           "Traceback" not in ended.stderr, "without git's folder it tells", ended)


def test_licence(folder, releases):
    """Where the repository states a licence, no line says that it states none."""
    place = copied(folder / "repository")
    page = place / "packaging/debian/copyright"
    page.write_text(page.read_text().replace(": none-stated", ": Expat"))
    ended = run(place / "release", "--program", stand_in(folder, releases.version), "--as", "0.9", folder / "made")
    expect(ended.returncode == 0 and "licence" not in ended.stderr, "a licence is told by", ended)


def test_refused(folder, releases):
    """A program of another release, none, and what is no version."""
    for words, told in ((["--program", stand_in(folder, "0.0.1")], "the program prints 'hq 0.0.1 (calls 1)'"),
                        (["--program", folder / "none"], "none is no file"),
                        (["--program", stand_in(folder, releases.version), "--as", "../x"], "../x is no version")):
        ended = run(ROOT / "release", *words, folder / "refused")
        expect(ended.returncode == 1 and told in ended.stderr, words, "are told", ended)
    expect(not (folder / "refused").exists(), "something was made")
