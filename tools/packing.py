"""Packages for Debian and tarballs, of the files that are committed here, of a program and of PROVED: for ./release."""
import gzip
import hashlib
import os
import re
import shutil
import subprocess
import tarfile
from datetime import datetime, timezone
from email.utils import format_datetime
from pathlib import Path

ROOT = Path(__file__).resolve().parent.parent
ARCHITECTURE = "amd64"
# What the package is made of, beside the program and PROVED; and the sources of the program, which are in the source package.
PARTS = ["CHANGELOG.md", "README.md", "deploy", "docs", "packaging", "relay", "web"]
SOURCES = ["HANDLES", "crates", "crates.txt", "run", "tools"]
# Each program that this needs, and the package of Debian that has it.
NEEDED = {"dh": "debhelper", "dpkg-buildpackage": "dpkg-dev", "dpkg-deb": "dpkg", "dpkg-parsechangelog": "dpkg-dev",
          "dpkg-source": "dpkg-dev", "git": "git"}
# The folders that are the package's own; all others belong to the machine.
OWN = ("./etc/hq", "./usr/libexec/hq-desk", "./usr/share/doc/hq-desk", "./usr/share/hq-desk")


class NotMade(Exception):
    """No release was made; the text says why."""


def said(*words, folder: Path = ROOT, **more) -> str:
    """What a command prints; its status has to be 0."""
    ended = subprocess.run(words, cwd=folder, stdin=subprocess.DEVNULL, capture_output=True, text=True, **more)
    if ended.returncode:
        told = (ended.stderr or ended.stdout).strip().split("\n")[0]
        raise NotMade(f"{' '.join(map(str, words))} ended with {ended.returncode}: {told}")
    return ended.stdout.strip()


def sum_of(path: Path, kind: str = "sha256") -> str:
    return hashlib.new(kind, path.read_bytes()).hexdigest()


def expect_programs(needed: dict) -> None:
    """Each of these programs is on the path."""
    missing = [f"{name} (of the package {package})" for name, package in sorted(needed.items()) if not shutil.which(name)]
    if missing:
        raise NotMade(f"there is no {', no '.join(missing)}")


def moment() -> int:
    """When the commit was made, in seconds: the time of all files of a release."""
    return int(said("git", "log", "-1", "--format=%ct"))


class Packing:
    """The packages of one release, in a folder of their own."""

    def __init__(self, folder: Path, version: str, is_trial: bool):
        self.folder, self.version, self.is_trial, self.moment = folder, version, is_trial, moment()
        self.stage = folder / f"hq-desk-{version}"
        # (what else is set around it may change a byte: options of tar, of xz, of make and of Debian's tools)
        self.settings = {"PATH": os.environ["PATH"], "HOME": str(folder), "LC_ALL": "C.UTF-8", "TZ": "UTC",
                         "SOURCE_DATE_EPOCH": str(self.moment)}
        if is_trial:
            self.settings["DPKG_DEB_COMPRESSOR_LEVEL"] = "1"

    def run(self, *words, folder: Path) -> None:
        ended = subprocess.run(words, cwd=folder, env=self.settings, stdin=subprocess.DEVNULL, stdout=subprocess.PIPE,
                               stderr=subprocess.STDOUT, text=True, umask=0o022)
        if ended.returncode:
            raise NotMade(f"{words[0]} ended with {ended.returncode}:\n{ended.stdout[-3000:]}")

    def gather(self, program: Path, proved: str) -> None:
        """Puts into a folder what Debian's tools make both packages of."""
        for name in filter(None, said("git", "ls-files", "-z", *PARTS, *SOURCES).split("\0")):
            if (ROOT / name).exists():
                (self.stage / name).parent.mkdir(parents=True, exist_ok=True)
                shutil.copy(ROOT / name, self.stage / name)
        (self.stage / "packaging/debian").rename(self.stage / "debian")
        shutil.copy(self.stage / "deploy/hq-desk.logrotate", self.stage / "debian")
        (self.stage / "prebuilt").mkdir()
        shutil.copy(program, self.stage / "prebuilt/hq")
        (self.stage / "prebuilt/hq").chmod(0o755)
        (self.stage / "prebuilt/PROVED").write_text(proved)
        self.dated()
        for it in (self.stage, *self.stage.rglob("*")):
            # (so that no mask and no moment of a copy comes into a package)
            it.chmod(0o755 if it.is_dir() or it.stat().st_mode & 0o100 else 0o644)
            os.utime(it, (self.moment, self.moment))

    def dated(self) -> None:
        """Gives the changelog this version, and the commit's time, which Debian's tools read there."""
        path = self.stage / "debian/changelog"
        text = re.sub(r"\(.*?\)", f"({self.version})", path.read_text(), count=1)
        told = format_datetime(datetime.fromtimestamp(self.moment, timezone.utc))
        path.write_text(re.sub(r"(?m)^( -- .*>  ).*$", lambda it: it[1] + told, text, count=1))

    def source(self) -> list:
        """The source package: its description, and its tarball."""
        more = ["--compression-level=1"] if self.is_trial else []
        self.run("dpkg-source", "--compression=xz", *more, "--build", self.stage.name, folder=self.folder)
        return [self.made(f"hq-desk_{self.version}.dsc"), self.made(f"hq-desk_{self.version}.tar.xz")]

    def package(self) -> Path:
        self.run("dpkg-buildpackage", "--build=binary", "--no-sign", "--no-check-builddeps", folder=self.stage)
        return self.made(f"hq-desk_{self.version}_{ARCHITECTURE}.deb")

    def tarball(self) -> Path:
        """The files of the package, as a tarball. A folder of the machine has no entry, which would give it another mode."""
        path = self.folder / f"hq-desk_{self.version}_{ARCHITECTURE}.tar.gz"
        package = self.made(f"hq-desk_{self.version}_{ARCHITECTURE}.deb")
        with subprocess.Popen(["dpkg-deb", "--fsys-tarfile", package], stdout=subprocess.PIPE) as files, open(path, "wb") as file:
            with gzip.GzipFile("", "wb", 1 if self.is_trial else 9, file, 0) as zipped, \
                 tarfile.open(fileobj=files.stdout, mode="r|") as old, \
                 tarfile.open(fileobj=zipped, mode="w|", format=tarfile.GNU_FORMAT) as new:  # type: ignore[arg-type]  # (it only writes)
                for it in old:
                    if not it.isdir() or is_ours(it.name):
                        new.addfile(it, old.extractfile(it) if it.isreg() else None)
                # (dpkg-deb ends by a fault of its own where its last bytes are not read)
                assert files.stdout
                files.stdout.read()
        if files.returncode:
            raise NotMade("dpkg-deb cannot read the package")
        return path

    def made(self, name: str) -> Path:
        if not (self.folder / name).is_file():
            raise NotMade(f"Debian's tools made no {name}")
        return self.folder / name


def is_ours(path: str) -> bool:
    return any(path == it or path.startswith(f"{it}/") for it in OWN)
