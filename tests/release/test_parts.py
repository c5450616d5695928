"""The list of what a release is made of, as SPDX 2.3 has it."""
import functools
import hashlib
import json
import re
import tarfile

import pytest
from releasing import ROOT, package_in, run, tarball_in
from serving import expect

# What each has to have.
OF_DOCUMENT = {"spdxVersion", "dataLicense", "SPDXID", "name", "documentNamespace", "creationInfo"}
OF_PACKAGE, OF_FILE = {"SPDXID", "name", "downloadLocation"}, {"SPDXID", "fileName", "checksums"}
TIES = {"DESCRIBES", "CONTAINS", "DEPENDS_ON", "GENERATED_FROM", "VARIANT_OF", "METAFILE_OF"}


@pytest.fixture
def told(releases):
    found, = releases.now.glob("*.spdx.json")
    return json.loads(found.read_text())


def sums(data):
    return {"SHA1": hashlib.sha1(data).hexdigest(), "SHA256": hashlib.sha256(data).hexdigest()}


def sums_of(it):
    return {one["algorithm"]: one["checksumValue"] for one in it["checksums"]}


def test_valid(told):
    """It has each field that SPDX 2.3 demands, in its form, and whatever it ties is there."""
    expect(OF_DOCUMENT <= set(told), "the document lacks", OF_DOCUMENT - set(told))
    fixed = {"spdxVersion": "SPDX-2.3", "dataLicense": "CC0-1.0", "SPDXID": "SPDXRef-DOCUMENT"}
    is_document = all(told[name] == it for name, it in fixed.items())
    expect(is_document and re.fullmatch(r"[a-z]+:[^#\s]+", told["documentNamespace"]), "its namespace is", told["documentNamespace"])
    created = told["creationInfo"]
    expect(re.fullmatch(r"\d{4}-\d\d-\d\dT\d\d:\d\d:\d\dZ", created["created"]), "it was created at", created)
    makers = created["creators"]
    expect(makers and all(re.match("(Tool|Person|Organization): .", it) for it in makers), "it was created by", makers)
    for kind, wanted in (("packages", OF_PACKAGE), ("files", OF_FILE)):
        for it in told[kind]:
            expect(wanted <= set(it), it, "lacks", wanted - set(it))
    for it in told["packages"]:
        expect(it.get("filesAnalyzed", True) is False or "packageVerificationCode" in it, it["SPDXID"], "has no sum")
    expect(all("SHA1" in sums_of(it) and it["fileName"].startswith("./") for it in told["files"]), "files lack sums")
    known = [told["SPDXID"], *(it["SPDXID"] for it in (*told["packages"], *told["files"]))]
    wrong = [it for it in known if known.count(it) > 1 or not re.fullmatch(r"SPDXRef-[A-Za-z0-9.-]+", it)]
    expect(not wrong, "identifiers are", wrong)
    for it in told["relationships"]:
        expect({it["spdxElementId"], it["relatedSpdxElement"]} <= set(known) and it["relationshipType"] in TIES, "it ties", it)
    expect([it["relatedSpdxElement"] for it in told["relationships"] if it["relationshipType"] == "DESCRIBES"] ==
           ["SPDXRef-package"], "it describes another thing")


def test_sums(told, releases):
    """The sums are those of the files that are handed out, and of those that the package installs."""
    handed = {it["packageFileName"]: sums_of(it) for it in told["packages"] if "packageFileName" in it}
    wanted = {it.name for it in releases.now.iterdir() if it.name.startswith("hq-desk_") and it.suffix != ".json"}
    expect(set(handed) == wanted and len(wanted) == 4, "it names", set(handed), "of", wanted)
    for name, found in handed.items():
        expect(found == sums((releases.now / name).read_bytes()), name, "has other sums")
    with tarfile.open(tarball_in(releases.now)) as tar:
        inside = {it.name: sums(tar.extractfile(it).read()) for it in tar if it.isreg()}
    expect({it["fileName"]: sums_of(it) for it in told["files"]} == inside, "files have other sums")
    package = next(it for it in told["packages"] if it["SPDXID"] == "SPDXRef-package")
    code = hashlib.sha1("".join(sorted(it["SHA1"] for it in inside.values())).encode()).hexdigest()
    expect(package["packageVerificationCode"]["packageVerificationCodeValue"] == code, "the package has another code")
    expect(set(package["hasFiles"]) == {it["SPDXID"] for it in told["files"]}, "the package lacks files")


@functools.lru_cache(None)
def below(name):
    """What the program is built of, by crates.txt: crates, and libraries of the kit."""
    row = re.search(rf"(?m)^{name}:(.*)$", (ROOT / "crates.txt").read_text())
    return {name}.union(*(below(it) for it in row[1].split())) if row else {name}


def test_whole(told, releases):
    """It ties to the program each crate below it, and each library that these name; and to the package what apt installs."""
    ties = {}
    for it in told["relationships"]:
        ties.setdefault(it["spdxElementId"], set()).add(it["relatedSpdxElement"])
    names = {it["SPDXID"]: it["name"] for it in told["packages"]}
    program = next(it["SPDXID"] for it in told["files"] if it["fileName"] == "./usr/bin/hq")
    found, waiting = set(), [program]
    while waiting:
        new = ties.get(waiting.pop(), set()) - found
        found |= new
        waiting += new
    found, wanted = {names[it] for it in found}, below("hq_main")
    expect(len(wanted) > 60 and found == wanted, "of the program it lacks or adds", found ^ wanted)
    asked = run("dpkg-deb", "-f", package_in(releases.now), "Depends").stdout
    of_debian = {names[it] for it in ties["SPDXRef-package"] if it.startswith("SPDXRef-debian-")}
    wanted = set(re.findall(r"(?:^|, )([a-z0-9.+-]+)", asked))
    expect(of_debian == wanted and "python3" in wanted, "of", asked, "it has", of_debian)
