"""The definitions of the crates, as their sources have them: what each says, and which others it names.

A definition stands in crates/NAME/specs, with the comment above it, up to the next empty line. It reaches each name in
its text that its file brings in or has. A type of the code reaches what its ghost fields say, the types of its fields, and
what its values are seen as; the invariant of a model, which is the form of a text or a number, it does not reach.
"""
import re
from collections import namedtuple
from functools import lru_cache
from pathlib import Path

CRATES = Path(__file__).resolve().parent.parent / "crates"

# How a file begins that serves proofs alone.
INNER = "-- Inner: it serves proofs alone, and no promise rests on it."

# where: a Path below crates/, from the crate's name on; comment, text: lists of lines; named: the keys of what it names
Definition = namedtuple("Definition", "name where comment text named")

BROUGHT = re.compile(r"^(?:pub |ghost )*use Rattle\.([\w.]+)\.\{(.*)\};?$")
BROUGHT_WHOLE = re.compile(r"^(?:pub |ghost )*use Rattle\.([\w.]+) as (\w+);?$")
HEAD = re.compile(r"^\s*(?:pub )?(?:abbrev|unfoldable)?(?: ?pub)? ?(?:record|data)? ?(\S+)")
BEGINS = re.compile(r"^\s*(?:abbrev|unfoldable|pub record|pub data) ")
WORD = re.compile(r"[^\s(){}\[\],;∷λ→×⊎∀]+")
MODEL = re.compile(r"impl(?:<[^>]*>)? Model for (\w+)")
VIEW = re.compile(r"ghost view = \{(.*?)\};\n", re.S)
SIGHT = re.compile(r"ghost sight = \{(.*?)\};\n\n", re.S)
TYPE = re.compile(r"(?:pub(?:\(crate\))? )?(?:struct|enum) (\w+)")
ENDS_TYPE = re.compile(r"^[})]|;$")
GHOST = re.compile(r"ghost \w+[^{;\n]*\{(.*?)\}[,;]?$", re.M | re.S)


def brought_by(lines):
    """What `use` lines bring in: name by name the module that has it, and its name there; of a whole one with a dot."""
    found = {}
    for line in lines:
        some, whole = BROUGHT.match(line.strip()), BROUGHT_WHOLE.match(line.strip())
        for entry in some[2].split(", ") if some else ():
            name, _, local = entry.partition(" as ")
            found[local or name] = (some[1], name)
        if whole:
            found[f"{whole[2]}."] = (whole[1], None)
    return found


def words_of(text):
    """Each word of the lines, with what follows its dot: `serial` of `m.serial`, and nothing of `m`."""
    for line in text:
        for word in WORD.findall(line):
            first, _, rest = word.strip(".").partition(".")
            yield first, rest.partition(".")[0]


class SpecFile:
    """A file of specs/: what it brings in, and its definitions in order."""

    def __init__(self, path):
        self.where = path.relative_to(CRATES)
        lines = path.read_text(encoding="utf-8").split("\n")
        head = next(it for it, line in enumerate(lines) if not line.startswith("--"))
        self.is_marked = INNER in lines[:head]
        self.purpose = " ".join(line[3:] for line in lines[:head] if line != INNER)
        self.brought, self.found = brought_by(lines), []
        comment, text = [], None
        for line in lines:
            if BEGINS.match(line):
                text = [line]
                self.found.append((HEAD.match(line)[1], comment, text))
                comment = []
            elif line.startswith(("--", "infix")):
                text, comment = None, [*comment, line]
            elif not line.strip() or line.startswith(("use ", "pub use ")):
                text, comment = None, []
            elif text is not None:
                text.append(line)

    def module(self):
        return ".".join(self.where.with_suffix("").parts)

    def says(self):
        """The first sentence of the file."""
        return re.match(r"[^.]*(?:\.(?! |$)[^.]*)*", self.purpose)[0].rstrip(".")


class Source:
    """A source file: its types, with what their ghost fields and models say, and the clauses of its functions."""

    def __init__(self, path):
        self.where, self.found, self.views = path.relative_to(CRATES), {}, {}
        self.lines = path.read_text(encoding="utf-8").split("\n")
        self.brought = brought_by(self.lines)
        for number, line in enumerate(self.lines):
            head, model = TYPE.match(line), MODEL.match(line)
            ends = (it for it in range(number, len(self.lines)) if ENDS_TYPE.search(self.lines[it]))
            closes = (it for it in range(number, len(self.lines)) if self.lines[it] == "}")
            if head:
                self.found.setdefault(head[1], []).extend(self.lines[number : next(ends) + 1])
            elif model:
                self.views[model[1]] = "\n".join(self.lines[number : next(closes) + 1])

    def named_by_type(self, name):
        """The keys of what a type's ghost parts name, and of the types of its fields."""
        text, seen = "\n".join(self.found[name]), self.views.get(name, "")
        ghost = [*GHOST.findall(text), *VIEW.findall(seen)]
        plain = re.sub(r"//.*|^ +[A-Z]\w*\b", "", GHOST.sub("", text), flags=re.M)  # (variants are no types)
        types = (type_key(it, self.where.parts[0]) for it in re.findall(r"\b[A-Z]\w*", plain) if it != name)
        return [*named_in(self.like(text + seen), tuple(ghost)), *filter(None, types)]

    def named_by_sight(self):
        """The keys of what a shelf of this file is seen by."""
        text = "\n".join(self.lines)
        return named_in(self.like(text), tuple(SIGHT.findall(text)))

    def like(self, text):
        """A file that brings in what this one does, and what the text does."""
        other = Source.__new__(Source)
        other.where, other.found, other.brought = self.where, {}, {**self.brought, **brought_by(text.split("\n"))}
        return other

    def named_by_function(self, name):
        """The keys of what the clauses of a function name."""
        begin = next(it for it, line in enumerate(self.lines) if re.search(rf"\bfn {name}\b", line))
        end = next(it for it in range(begin, len(self.lines)) if self.lines[it].strip() in ("{", "{}"))
        clauses = re.split(r"\b(?:requires|ensures)\b", "\n".join(self.lines[begin:end]), maxsplit=1)[-1]
        return named_in(self, tuple(clauses.split("\n")))


@lru_cache(None)
def spec_files():
    paths = (it for it in sorted(CRATES.glob("*/specs/**/*.antt")) if it.name != "Lib.antt")
    return {it.module(): it for it in map(SpecFile, paths)}


@lru_cache(None)
def source(crate, file):
    """The source file of a crate, as `account` is src/account.rt; None where there is none."""
    path = CRATES / crate / "src" / f"{file}.rt"
    return Source(path) if path.is_file() else None


@lru_cache(None)
def types():
    """Where the types of each name stand: crates with their files."""
    found = {}
    for path in sorted(CRATES.glob("*/src/**/*.rt")):
        crate, file = path.relative_to(CRATES).parts[0], str(path.relative_to(CRATES)).split("/src/")[1][:-3]
        for name in source(crate, file).found:
            found.setdefault(name, []).append((crate, file))
    return found


def type_key(name, crate):
    """The key of a type that a field of the crate has: the crate's own, or the only one of this name."""
    places = types().get(name, [])
    own = [it for it in places if it[0] == crate]
    chosen = own if len(own) == 1 else places if len(places) == 1 else []
    return ("type", *chosen[0], name) if chosen else None


def key_of(module, name):
    """What a name of a module is: ('spec', module, name), ('type', crate, file, type), or None where it is a library's."""
    crate, declared, rest = module.partition(".specs.declared.")
    if declared:
        *file, name = re.sub(r"\.TheVariants$", "", rest).split(".")
        return ("type", crate, "/".join(file) or "lib", name) if (CRATES / crate).is_dir() else None
    file = spec_files().get(module)
    if file is None:
        if (CRATES / module.partition(".")[0]).is_dir():
            raise LookupError(f"there is no file of definitions {module}")
        return None
    names = [it[0] for it in file.found]
    for wanted in (name, f"◌{name}◌"):
        if wanted in names:
            return ("spec", module, wanted)
    return key_of(*file.brought[name]) if name in file.brought else None


@lru_cache(None)
def named_in(file, text):
    """The keys of what these lines of a file name."""
    found = {}
    names = {it[0] for it in file.found} if isinstance(file, SpecFile) else set()
    for word, rest in words_of(text):
        keys = [("spec", file.module(), it) for it in (word, f"◌{word}◌") if it in names]
        keys += [key_of(*file.brought[it]) for it in (word, f"◌{word}◌") if it in file.brought and it not in names]
        if rest and f"{word}." in file.brought:
            keys.append(key_of(file.brought[f"{word}."][0], rest))
        found.update(dict.fromkeys(filter(None, keys)))
    return [*found]


@lru_cache(None)
def definition(key):
    """The definition of a key."""
    if key[0] == "type":
        file = source(*key[1:3])
        if file is None or key[3] not in file.found:
            return Definition(key[3], Path(key[1], "src", f"{key[2]}.rt"), [], [], [])
        return Definition(key[3], file.where, [], file.found[key[3]], file.named_by_type(key[3]))
    file = spec_files()[key[1]]
    _, comment, text = next(it for it in file.found if it[0] == key[2])
    named = [it for it in named_in(file, tuple(text)) if it != key]
    return Definition(key[2], file.where, comment, text, named)


def reached(roots, stops=()):
    """The keys that are reached from these, themselves too, nearest first; nothing is reached through a stop."""
    found, waiting = {}, [*roots]
    while waiting:
        key = waiting.pop(0)
        if key not in found and key not in stops:
            found[key] = None
            waiting += definition(key).named
    return [*found]
