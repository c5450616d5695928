"""Proofs that another clone has kept, in a folder that is handed in by HQ_PROOFS: of each crate its out/ as NAME.tar, with its sum in
SHA256SUMS. Whoever wrote the folder vouches for them."""
import os
import shutil
import sys
import tarfile
from pathlib import Path

from packing import sum_of

SUMS, HANDED_IN = "SHA256SUMS", "HQ_PROOFS"
# The file of out/ that names the folder from which a proof was taken; ./release says so in PROVED.
TAKEN = "taken-from"


def sums_in(folder: Path) -> dict:
    """The sum of each file that SHA256SUMS names."""
    lines = (folder / SUMS).read_text(encoding="utf-8").splitlines()
    return {name: digest for digest, _, name in (it.partition("  ") for it in lines)}


def keep(crates: list, folder: Path) -> None:
    """Writes the proofs of these crates into a new folder."""
    folder.mkdir(parents=True)
    for it in crates:
        with tarfile.open(folder / f"{it.name}.tar", "w") as packed:
            packed.add(f"{it.folder}/out", arcname="out")
    (folder / SUMS).write_text("".join(f"{sum_of(folder / f'{it.name}.tar')}  {it.name}.tar\n" for it in crates), encoding="utf-8")


def take(crates: list) -> None:
    """Takes the proofs of these crates that are made of the same sources, where a folder is handed in. What does not fit is removed, so
    that the crate is proved from nothing."""
    given = os.environ.get(HANDED_IN)
    if not given:
        return
    folder = Path(given).absolute()
    if not (folder / SUMS).is_file():
        sys.exit(f"run: {HANDED_IN}: there is no {folder / SUMS}: tools/proofs writes such a folder")
    sums, taken = sums_in(folder), 0
    for it in crates:
        if f"{it.name}.tar" in sums and not it.is_current():
            unpack(folder / f"{it.name}.tar", sums[f"{it.name}.tar"], Path(it.folder))
            if it.is_current():
                taken += 1
                Path(it.folder, "out", TAKEN).write_text(f"{folder}\n", encoding="utf-8")
            else:
                shutil.rmtree(Path(it.folder, "out"))
    print(f"run: {taken} proofs were taken from {folder}, which was handed in", file=sys.stderr, flush=True)


def unpack(path: Path, digest: str, crate: Path) -> None:
    """Puts what a crate has kept in the place of its out/, if it has this sum. Nothing comes to another place."""
    if not path.is_file() or sum_of(path) != digest:
        sys.exit(f"run: {path} has not the sum that {SUMS} names")
    with tarfile.open(path) as packed:
        for it in packed.getmembers():
            if not (it.isfile() or it.isdir()) or ".." in it.name.split("/") or it.name.split("/")[0] != "out":
                sys.exit(f"run: {path} has {it.name}, which is no file of out/")
        shutil.rmtree(crate / "out", ignore_errors=True)
        packed.extractall(crate)
