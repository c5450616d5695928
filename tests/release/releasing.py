"""Releases of the repository: what one is called, its files, and what is made in a copy of the repository."""
import re
import subprocess
from pathlib import Path

from serving import expect

ROOT = Path(__file__).resolve().parents[2]
# It prints what the program prints for --version.
STAND_IN = "#!/bin/sh\necho 'hq {} (calls 1)'\n"
COPY = """git ls-files -zco --exclude-standard | while read -r -d '' file; do [ ! -e "$file" ] || printf '%s\\0' "$file"; done |
xargs -0 cp --parents -t "$0" && git -C "$0" reset --quiet"""


def run(*words, **more):
    return subprocess.run(words, capture_output=True, text=True, stdin=subprocess.DEVNULL, timeout=300, **more)


def version() -> str:
    """The version of the release, as the changelog of the package has it."""
    return re.match(r"hq-desk \((.+?)\)", (ROOT / "packaging/debian/changelog").read_text())[1]


def package_in(folder: Path) -> Path:
    """The one package of a release."""
    found, = folder.glob("*.deb")
    return found


def tarball_in(folder: Path) -> Path:
    """The one tarball of a release that has the files of the package."""
    found, = folder.glob("*.tar.gz")
    return found


def stand_in(folder: Path, printed: str) -> Path:
    """A program that prints this version, and is small."""
    path = folder / f"program-{printed}"
    path.write_text(STAND_IN.format(printed))
    path.chmod(0o755)
    return path


def copied(folder: Path, mask: int = 0o022) -> Path:
    """The repository as it stands, in another folder, made under this mask."""
    run("git", "clone", "--quiet", "--shared", "--no-checkout", ROOT, folder, umask=mask).check_returncode()
    run("bash", "-euc", COPY, folder, cwd=ROOT, umask=mask).check_returncode()
    return folder


def linted(path: Path) -> None:
    """Expects that lintian finds nothing in a package, down to what it is least sure of. (Of the machine code of a program it
    takes some bytes for misspelled words.)"""
    found = run("lintian", "--info", "--display-info", "--display-experimental", "--pedantic", "--tag-display-limit", "0",
                "--suppress-tags", "spelling-error-in-binary", "--fail-on", "error,warning,info,pedantic,experimental", path)
    expect(found.returncode == 0 and not re.search(r"(?m)^[A-Z]: ", found.stdout), "lintian:", found.stdout, found.stderr)


def blocks(page, title):
    """The blocks of lines that a page shows under a title, up to the next of any level."""
    text = (ROOT / page).read_text()
    section = re.search(rf"(?ms)^#+ {re.escape(title)}\n(.*?)(?=^#+ |\Z)", text)
    expect(section, page, "has no section", title)
    found = re.findall(r"(?ms)^```\n(.*?)^```$", section[1])
    expect(found, page, "has no lines under", title)
    return found
