"""The files that ./release makes, before anything is installed."""
import hashlib
import os
import re
import stat
import tarfile
from pathlib import Path

import help_texts
import needs
from releasing import ROOT, linted, package_in, run, tarball_in, version
from serving import expect

# The folders that are the package's own.
OWN = ("./etc/hq/", "./usr/libexec/hq-desk/", "./usr/share/doc/hq-desk/", "./usr/share/hq-desk/")


def test_lintian(releases):
    """lintian finds nothing in both packages, and each override is one that is needed."""
    needs.command("lintian")
    linted(package_in(releases.now))
    linted(next(releases.now.glob("*.dsc")))


def test_evidence(releases, program):
    """The sums are those of the files, and PROVED names the program that is in the package."""
    now = releases.now
    found = run("sha256sum", "--check", "--strict", "SHA256SUMS", cwd=now)
    names = {it.name for it in now.iterdir()} - {"SHA256SUMS"}
    expect(found.returncode == 0 and len(names) == found.stdout.count(": OK") == 6, "sums:", found.stdout, found.stderr)
    told = (now / "PROVED").read_text()
    its_sum = hashlib.sha256(Path(program).read_bytes()).hexdigest()
    commit = run("git", "rev-parse", "HEAD", cwd=ROOT).stdout.strip()
    for it in (f"hq-desk {releases.version}\n", f"sha256    {its_sum}\n", f"commit    {commit}", "\nkit       "):
        expect(it in told, "PROVED lacks", it, "and has", told)
    with tarfile.open(tarball_in(now)) as tar:
        inside = {it.name: it for it in tar}
        for name, wanted in (("./usr/bin/hq", Path(program).read_bytes()), ("./usr/share/doc/hq-desk/PROVED", told.encode())):
            expect(tar.extractfile(name).read() == wanted, "the tarball has another", name)
    listed = {line.split(None, 5)[5].split(" -> ")[0] for line in run("dpkg-deb", "-c", package_in(now)).stdout.splitlines()}
    wanted = {it.rstrip("/") for it in listed if not it.endswith("/") or it.startswith(OWN)}
    expect(set(inside) == wanted, "the tarball and the package differ in", set(inside) ^ wanted)
    expect(all(it.uname == it.gname == "root" for it in inside.values()), "the tarball has files of others")


def test_tarball(releases):
    """It has nothing below /lib, a link of a merged /usr, and no entry of a folder that is the machine's."""
    with tarfile.open(tarball_in(releases.now)) as tar:
        inside = [it.name + "/" * it.isdir() for it in tar]
    expect("./usr/lib/systemd/system/hq-desk@.service" in inside, "it has no units")
    wrong = [it for it in inside if not re.match(r"\./(etc|usr)/", it) or it.endswith("/") and not it.startswith(OWN)]
    expect(not wrong, "it has", wrong)


def merged(folder):
    """A machine with a merged /usr, whose folders have modes that no package has; what they are."""
    for it in ("etc/logrotate.d", "usr/lib/systemd/system", "usr/bin", "usr/sbin"):
        (folder / it).mkdir(parents=True)
    for it in ("lib", "bin", "sbin"):
        (folder / it).symlink_to(f"usr/{it}")
    for number, it in enumerate((".", "etc", "etc/logrotate.d", "usr", "usr/lib", "usr/bin", "usr/lib/systemd/system")):
        (folder / it).chmod(0o2700 + number)
    return {it: it.lstat().st_mode for it in (folder, *folder.rglob("*"))}


def test_tarball_extracted(folder, releases):
    """The line of RELEASE leaves links and modes of a machine as they are, and each file is in its place."""
    line, = re.findall(r"(?m)^tar -C / .*$", (ROOT / "docs/RELEASE.md").read_text())
    root = folder / "root"
    before = merged(root)
    told = run("sh", "-euc", line.replace("-C /", f"-C {root}"), env={**os.environ, "TARBALL": str(tarball_in(releases.now))})
    expect(told.returncode == 0 and not told.stderr, line, "tells", told)
    for it, mode in before.items():
        expect(it.lstat().st_mode == mode, it, "has the mode", oct(it.lstat().st_mode), "and had", oct(mode))
    with tarfile.open(tarball_in(releases.now)) as tar:
        for it in tar:
            place = root / it.name
            expect(os.path.lexists(place), "there is no", it.name)
            expect(not it.isreg() or place.read_bytes() == tar.extractfile(it).read(), it.name, "is another one")
            expect(it.issym() or stat.S_IMODE(place.stat().st_mode) == it.mode, it.name, "has another mode")


def test_one_version():
    """The program's sources, the changelog of the package and that for users name one release."""
    text = (ROOT / "crates/hq_words/src/texts.rt").read_text()
    expect(f'VERSION: &str = "{version()} (calls ' in text, "the program has another release than", version())
    first = re.search(r"(?m)^## (.*)$", (ROOT / "CHANGELOG.md").read_text())[1]
    expect(first == version(), "CHANGELOG.md begins with", first)


def test_one_schema():
    """The package and the scripts that open stores name the schema of the program's stores."""
    schema = (ROOT / "packaging/schema").read_text().strip()
    of_program = re.search(r"(?m)^//! Schema (\d+):", (ROOT / "crates/hq_schema/src/lib.rt").read_text())
    expect(of_program and of_program[1] == schema, "the program has the schema", of_program)
    expect(f"\nVERSION = {schema}\n" in (ROOT / "deploy/desk_store.py").read_text(), "desk_store.py has another than", schema)


def test_manual_page():
    """The manual page of the program has each command and option that its help tells."""
    page = (ROOT / "packaging/man/hq.1").read_text().replace("\\-", "-")
    texts = {name: text.decode() for name, text in vars(help_texts).items() if name.endswith("HELP")}
    commands = re.findall(r"(?m)^  ([a-z]+) +[A-Z]", texts["HELP"].partition("Commands:")[2].partition("Options:")[0])
    options = {it for text in texts.values() for it in re.findall(r"(?m)^ +(?:-\w, )?(--[a-z-]+)", text)}
    expect(len(commands) > 10 and len(options) > 12, "the help has only", commands, options)
    for it in (*commands, *options):
        expect(re.search(rf"(?m)^\.(B|BI|BR)\b.*(?<![a-z-]){it}(?![a-z-])", page), "packaging/man/hq.1 lacks", it)


def test_first_session(folder, program):
    """The test that the source package brings passes over the program, and fails where README shows another reply, or none."""
    needs.command("curl")
    (folder / "hq").symlink_to(program)
    script, page = ROOT / "packaging/debian/tests/first-session", (ROOT / "README.md").read_text()
    settings = {**os.environ, "PATH": f"{folder}:{os.environ['PATH']}", "AUTOPKGTEST_TMP": str(folder)}
    calls = page.count("\n$ curl ")
    for text, status, told in ((page, 0, f" commands were run, of which {calls} are calls\n"),
                               (page.replace('{"changed":1}', '{"changed":2}'), 1, '{"changed":1}'),
                               (page.replace("\n$ curl ", "\n$ true "), 1, "README.md shows only ")):
        (folder / "README.md").write_text(text)
        ended = run(script, cwd=folder, env=settings)
        expect(ended.returncode == status and told in ended.stdout + ended.stderr, "it tells", ended)
    expect(calls == 3, "README shows", calls, "calls")
