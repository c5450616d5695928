"""Parts of a configuration that `install` writes to, and the record of what it wrote.

The parts are main.cf and master.cf, by postconf, and whole files.
"""
import json
import os
import subprocess
from collections.abc import Callable, Iterable, Mapping
from dataclasses import asdict, dataclass, field
from pathlib import Path

# How many seconds a command of Postfix may take.
LONGEST = 120
# The mark of a parameter that no service of master.cf has (yet), in the warnings of postconf.
UNUSED = ": unused parameter: "
RECORD = "desk-install.json"


class NotInstalled(Exception):
    """Something was not done; the text says what and why."""


def run(*words: str | Path, needs: str = "") -> "subprocess.CompletedProcess[str]":
    """Runs a command to its end. Raises NotInstalled if it fails.

    `needs` says what to do if there is no such program.
    """
    try:
        ended = subprocess.run([str(word) for word in words], stdin=subprocess.DEVNULL,
                               stdout=subprocess.PIPE, stderr=subprocess.PIPE, timeout=LONGEST,
                               universal_newlines=True, errors="replace", check=False)
    except FileNotFoundError:
        raise NotInstalled(f"there is no {words[0]}{needs and f': {needs}'}") from None
    except subprocess.TimeoutExpired:
        raise NotInstalled(f"{words[0]} does not end") from None
    if ended.returncode:
        raise NotInstalled(f"{' '.join(map(str, words))}: {ended.stderr.strip()}"
                           f" (status {ended.returncode})")
    return ended


def keep(path: Path, text: str, mode: int) -> None:
    """Writes a file, so that it is there whole or as it was.

    (A reader of the folder passes by a name that begins with a dot.)
    """
    made = path.with_name(f".{path.name}.new")
    with open(made, "w", encoding="utf-8") as file:
        os.fchmod(file.fileno(), mode)
        file.write(text)
        file.flush()
        os.fsync(file.fileno())
    os.replace(made, path)


class ConfigurationPart:
    """Values by their names, which are written and dropped."""

    name: str

    def present(self) -> dict[str, str]:
        """The values that are there now."""
        raise NotImplementedError

    def write(self, values: Mapping[str, str]) -> None:
        raise NotImplementedError

    def drop(self, names: list[str]) -> None:
        raise NotImplementedError

    def shown(self, value: str | None) -> str:
        """A value as the lines of `install` have it."""
        return "unset" if value is None else value or "(empty)"


class MainParameters(ConfigurationPart):
    """The parameters of a main.cf."""

    def __init__(self, folder: Path):
        self.folder, self.name = folder, str(folder / "main.cf")

    def present(self) -> dict[str, str]:
        ended = run("postconf", "-c", self.folder, "-n")
        lines = ended.stdout.splitlines()
        # (the services that use them may come later)
        lines += [line.partition(UNUSED)[2] for line in ended.stderr.splitlines()
                  if UNUSED in line and self.name in line]
        pairs = (line.partition("=") for line in lines)
        return {name.strip(): " ".join(value.split()) for name, _, value in pairs}

    def write(self, values: Mapping[str, str]) -> None:
        run("postconf", "-c", self.folder, "-e",
            *(f"{name}={value}" for name, value in values.items()))

    def drop(self, names: list[str]) -> None:
        run("postconf", "-c", self.folder, "-X", *names)


class MasterServices(ConfigurationPart):
    """The services of a master.cf, by NAME/TYPE."""

    def __init__(self, folder: Path):
        self.folder, self.name = folder, str(folder / "master.cf")

    def present(self) -> dict[str, str]:
        lines = run("postconf", "-c", self.folder, "-M").stdout.splitlines()
        return {"/".join(line.split()[:2]): " ".join(line.split()) for line in lines
                if line.strip()}

    def write(self, values: Mapping[str, str]) -> None:
        run("postconf", "-c", self.folder, "-M",
            *(f"{name}={value}" for name, value in values.items()))

    def drop(self, names: list[str]) -> None:
        run("postconf", "-c", self.folder, "-MX", *names)


class ConfigurationFiles(ConfigurationPart):
    """Files of a folder, each as a text; `check` raises NotInstalled for a text that is faulty."""

    def __init__(self, folder: Path, names: Iterable[str], mode: int = 0o644,
                 check: Callable[[str], None] | None = None):
        self.folder, self.name, self.names = folder, str(folder), list(names)
        self.mode, self.check = mode, check

    def present(self) -> dict[str, str]:
        texts = {}
        for name in self.names:
            try:
                texts[name] = (self.folder / name).read_text(encoding="utf-8", errors="replace")
            except FileNotFoundError:
                pass
        return texts

    def write(self, values: Mapping[str, str]) -> None:
        for name, text in values.items():
            if self.check:
                self.check(text)
            keep(self.folder / name, text, self.mode)

    def drop(self, names: list[str]) -> None:
        for name in names:
            (self.folder / name).unlink()

    def shown(self, value: str | None) -> str:
        return "unset" if value is None else json.dumps(value)


@dataclass
class Record:
    """What `install` wrote into an instance.

    `wrote` has the value by part and name; two values while it is being changed. `made` is what the
    instance was made with. `making` is the folder of another instance that is being made. Postfix
    has not read all of it while it `is_unread`.
    """

    spool: str
    wrote: dict[str, dict[str, list[str]]] = field(default_factory=dict)
    made: dict[str, dict[str, str]] = field(default_factory=dict)
    making: str = ""
    is_unread: bool = False

    @staticmethod
    def path(folder: Path) -> Path:
        return folder / RECORD

    @classmethod
    def load(cls, folder: Path) -> "Record | None":
        """The record of an instance; None if it has none."""
        try:
            return cls(**json.loads(cls.path(folder).read_text(encoding="utf-8")))
        except FileNotFoundError:
            return None
        except (ValueError, TypeError) as error:
            raise NotInstalled(f"{cls.path(folder)} cannot be read: {error}") from None

    def save(self, folder: Path) -> None:
        keep(self.path(folder), json.dumps(asdict(self), indent=1) + "\n", 0o644)

    def own(self, part: str, name: str) -> list[str]:
        """The values that are no one else's."""
        made = self.made.get(part, {})
        wrote = self.wrote.get(part, {}).get(name, [])
        return [*wrote, made[name]] if name in made else [*wrote]
