"""Both packages in a clean Debian: the one is installed and taken away, and is made again of the other, and tried.

The tests of this file go on from one another's machine, in their order.
"""
import re
from pathlib import Path

import needs
import pytest
from releasing import ROOT, linted, package_in, run
from rooted import Root, fetched, mirror, place
from serving import expect

TO_BUILD, FROM_SOURCE = "build-essential debhelper", "From the source package"


def blocks_of(title):
    """The blocks of lines that docs/RELEASE.md shows under a title."""
    section = (ROOT / "docs/RELEASE.md").read_text().partition(f"\n## {title}\n")[2].partition("\n## ")[0]
    return re.findall(r"(?ms)^```\n(.*?)^```$", section)


@pytest.fixture(scope="module")
def root(begun):
    with place() as folder, Root(Path(folder) / "debian") as it:
        fetched(lambda: it.run("apt-get -qq update", longest=120))
        yield it


@pytest.fixture(scope="module")
def stocked(root, releases):
    """The same machine with the files of a release in the folder /root/release."""
    root.path("/root/release").mkdir()
    for it in releases.now.iterdir():
        root.take(it, "/root/release")
    return root


def test_taken_away(root, releases):
    """Installed, removed and purged by Debian's own tool, the package leaves nothing behind, and breaks no file of others. (What
    the packages leave that it depends on, is theirs.)"""
    needs.command("piuparts")
    address, name = mirror()
    ended = run("piuparts", "--distribution", name, "--mirror", f"{address} main", "--existing-chroot", root.folder,
                "--tmpdir", root.folder.parent, "--no-eatmydata", "--warn-on-others", package_in(releases.now))
    needs.that("Failed to fetch" not in ended.stdout, "mirror of Debian that gives all")
    wrong = re.findall(r"(?m)^\S+ ERROR: (?:.|\n )*", ended.stdout)
    passed = ended.returncode == 0 and "PASS: All tests." in ended.stdout
    expect(passed, "piuparts:", wrong, ended.stdout[-500:], ended.stderr[-500:])


def test_made_again(stocked):
    """The package that the lines of RELEASE make of the source package has the sum of the one in the release."""
    fetched(lambda: stocked.run(f"apt-get -qq install -y --no-install-recommends {TO_BUILD}", longest=400))
    stocked.run(f"mkdir again; cp release/*.dsc release/*.tar.xz again; cd again; {blocks_of(FROM_SOURCE)[0]}", longest=600)
    expect(stocked.run("cmp again/*.deb release/*.deb && echo same") == "same\n", "it is another one")


def test_changes(root):
    """lintian finds nothing in what such a build would hand to Debian."""
    needs.command("lintian")
    linted(next(root.path("/root/again").glob("*.changes")))


def test_own_test(stocked):
    """The test of the source package passes, as Debian's own tool runs it over the installed package."""
    fetched(lambda: stocked.run("apt-get -qq install -y --no-install-recommends autopkgtest curl", longest=400))
    told = stocked.run(f"cd release; {blocks_of(FROM_SOURCE)[1]}", longest=400)
    expect(re.search(r"(?m)^first-session +PASS$", told), "it tells", told[-2000:])


def test_elsewhere(stocked):
    """By the lines of RELEASE the tarball makes on a machine what the package makes there, with the same modes and owners."""
    places = "/etc/hq /usr/bin/hq* /usr/libexec/hq-desk /usr/sbin/hq-* /usr/share/hq-desk /var/lib/hq* /var/log/hq*"
    listed = f"find {places} -printf '%p %m %u %g %l\\n' | sort; head /etc/hq/*.map"
    fetched(lambda: stocked.run("apt-get -qq install -y --no-install-recommends --reinstall ./release/*.deb", longest=240))
    wanted = stocked.run(listed)
    stocked.run("apt-get -qq purge -y hq-desk", longest=120)
    expect(not stocked.path("/etc/hq").exists(), "the package is there")
    told = stocked.run(f"TARBALL=$(echo release/*.tar.gz); {blocks_of('Elsewhere than on Debian')[0]}")
    found = stocked.run(listed)
    differ = set(found.splitlines()) ^ set(wanted.splitlines())
    expect(not differ and "/etc/hq/names.map 640 root hqdesk" in found, "it makes or lacks", differ, "and tells", told)
