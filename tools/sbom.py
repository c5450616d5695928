"""What a release is made of, as a document of SPDX 2.3: its files, the crates and libraries of its program, and what it needs.

    document(parts, proved, version, moment)    the text, of the files of a release, and of PROVED
"""
import hashlib
import json
import re
import subprocess
import tarfile
import uuid
from datetime import datetime, timezone
from pathlib import Path
from typing import Dict, List

from packing import ROOT, NotMade, said, sum_of

UNKNOWN = "NOASSERTION"
PACKAGE = "SPDXRef-package"
PROGRAM = "./usr/bin/hq"


def rows_of() -> Dict[str, List[str]]:
    """What each crate of the repository names: crates, and libraries of the kit."""
    found = re.findall(r"(?m)^(hq_\w+):(.*)$", (ROOT / "crates.txt").read_text())
    return {name: below.split() for name, below in found}


def crates_below(name: str) -> set:
    """The crates of the repository that one stands on, with itself."""
    rows, found, waiting = rows_of(), set(), [name]
    while waiting:
        found.add(waiting[-1])
        waiting += [it for it in rows[waiting.pop()] if it in rows and it not in found]
    return found


def named(kind: str, name: str) -> str:
    """An identifier, which takes letters, digits, dots and hyphens alone."""
    return f"SPDXRef-{kind}-{re.sub('[^A-Za-z0-9.-]', '-', name)}"


def package_of(identifier: str, name: str, version: str, **more) -> dict:
    known = {"versionInfo": version} if version else {}
    return {"SPDXID": identifier, "name": name, **known, "downloadLocation": UNKNOWN, "filesAnalyzed": False,
            "licenseConcluded": UNKNOWN, "licenseDeclared": UNKNOWN, "copyrightText": UNKNOWN, "supplier": UNKNOWN, **more}


def checksums(data: bytes) -> list:
    return [{"algorithm": kind.upper(), "checksumValue": hashlib.new(kind, data).hexdigest()} for kind in ("sha1", "sha256")]


def part_of(path: Path, kind: str, version: str) -> dict:
    """A file of the release that is handed out."""
    return package_of(f"SPDXRef-{kind}", path.name, version, packageFileName=path.name, checksums=checksums(path.read_bytes()))


def tied(one: str, kind: str, other: str) -> dict:
    return {"spdxElementId": one, "relationshipType": kind, "relatedSpdxElement": other}


def files_of(package: Path) -> list:
    """The files that the package installs."""
    with subprocess.Popen(["dpkg-deb", "--fsys-tarfile", package], stdout=subprocess.PIPE) as read:
        with tarfile.open(fileobj=read.stdout, mode="r|") as tar:
            opened = ((it.name, tar.extractfile(it)) for it in tar if it.isreg())
            found = [(name, file.read()) for name, file in opened if file]
        assert read.stdout
        read.stdout.read()
    return [{"SPDXID": f"SPDXRef-file-{number}", "fileName": name, "checksums": checksums(data), "licenseConcluded": UNKNOWN,
             "licenseInfoInFiles": [UNKNOWN], "copyrightText": UNKNOWN} for number, (name, data) in enumerate(sorted(found), 1)]


def verification(files: list) -> str:
    """The sum that SPDX makes of the sums of a package's files."""
    sums = sorted(it["checksums"][0]["checksumValue"] for it in files)
    return hashlib.sha1("".join(sums).encode()).hexdigest()


def needed(package: Path) -> list:
    """The packages of Debian without which this one is not installed, each with the lowest version that does."""
    asked = said("dpkg-deb", "-f", str(package), "Depends")
    found = [re.fullmatch(r"([a-z0-9.+-]+)(?::any)?(?: \((.+)\))?", it.strip().split(" | ")[0]) for it in asked.split(",")]
    if None in found:
        raise NotMade(f"these are no packages: {asked}")
    return [(it[1], it[2] or "") for it in found if it]


class Document:
    """The packages of a document, and how they are tied."""

    def __init__(self, version: str):
        self.version, self.ties = version, [tied("SPDXRef-DOCUMENT", "DESCRIBES", PACKAGE)]
        self.packages: List[dict] = []

    def add(self, package: dict, *ties: dict) -> None:
        self.packages.append(package)
        self.ties += ties

    def add_parts(self, parts: List[Path], files: list) -> None:
        """The package with its files, the tarball and the source package."""
        found = {"".join(it.suffixes[-2:]) if ".tar." in it.name else it.suffix: it for it in parts}
        package = part_of(found[".deb"], "package", self.version)
        package.update(name="hq-desk", filesAnalyzed=True, licenseInfoFromFiles=[UNKNOWN],
                       packageVerificationCode={"packageVerificationCodeValue": verification(files)},
                       hasFiles=[it["SPDXID"] for it in files])
        self.add(package, *(tied(PACKAGE, "CONTAINS", it["SPDXID"]) for it in files))
        self.add(part_of(found[".tar.gz"], "tarball", self.version), tied("SPDXRef-tarball", "VARIANT_OF", PACKAGE))
        self.add(part_of(found[".dsc"], "source-description", self.version), tied(PACKAGE, "GENERATED_FROM", "SPDXRef-source"))
        self.add(part_of(found[".tar.xz"], "source", self.version),
                 tied("SPDXRef-source-description", "METAFILE_OF", "SPDXRef-source"))

    def add_crates(self, program: str, commit: str, kit: str) -> None:
        """The crates that the program is built of, and the libraries that they name."""
        rows = rows_of()
        crates = crates_below("hq_main")
        libraries = {it for crate in crates for it in rows[crate] if it not in rows}
        for name in sorted(crates):
            ties = [tied(named("crate", name), "DEPENDS_ON", named("crate" if it in rows else "kit", it)) for it in rows[name]]
            self.add(package_of(named("crate", name), name, commit, comment="a crate of the repository"), *ties)
        for name in sorted(libraries):
            self.add(package_of(named("kit", name), name, kit, comment="a library of the Rattle kit"))
        self.ties.append(tied(program, "GENERATED_FROM", named("crate", "hq_main")))

    def add_needed(self, package: Path) -> None:
        for name, version in needed(package):
            self.add(package_of(named("debian", name), name, version, comment="a package of Debian"),
                     tied(PACKAGE, "DEPENDS_ON", named("debian", name)))


def of_proved(proved: str, name: str) -> str:
    found = re.search(rf"(?m)^{name} +(.*)$", proved)
    if not found:
        raise NotMade(f"PROVED has no line {name}")
    return found[1]


def document(parts: List[Path], proved: str, version: str, moment: int) -> str:
    """The text, of the files of a release."""
    package = next(it for it in parts if it.suffix == ".deb")
    files = files_of(package)
    program = next(it["SPDXID"] for it in files if it["fileName"] == PROGRAM)
    made = Document(version)
    made.add_parts(parts, files)
    made.add_crates(program, of_proved(proved, "commit"), of_proved(proved, "kit"))
    made.add_needed(package)
    whole = {"spdxVersion": "SPDX-2.3", "dataLicense": "CC0-1.0", "SPDXID": "SPDXRef-DOCUMENT", "name": f"hq-desk-{version}",
             "documentNamespace": f"urn:uuid:{uuid.uuid5(uuid.NAMESPACE_OID, sum_of(package))}",
             "creationInfo": {"created": f"{datetime.fromtimestamp(moment, timezone.utc):%Y-%m-%dT%H:%M:%SZ}",
                              "creators": [f"Tool: release-{version}"]},
             "packages": made.packages, "files": files, "relationships": made.ties}
    return json.dumps(whole, indent=1) + "\n"
