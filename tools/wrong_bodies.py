"""Wrong bodies: the file in which those of a crate stand, the lines that an edit changes, the function whose body they are,
and which edits one check can try."""
import os
import sys

from kit import rt, rtlib
from source_functions import functions


# The first line of an edit, behind which stands its text in the form of rt.
NAMED = "wrong: "


def file_of(crate):
    return f"{crate.folder}/strength.txt"


def texts_of(crate, part=""):
    """The edits of a crate with this part in their names: each name, and its text."""
    found = {}
    for it in f"\n{rtlib.text_of(file_of(crate)) or ''}".split(f"\n{NAMED}")[1:]:
        name, _, text = it.partition("\n")
        if name in found:
            sys.exit(f"strength: {crate.name} has two edits with the name {name}")
        found[name] = text
    return {name: text for name, text in found.items() if part in name}


class Sources:
    """The source files of a crate, and the functions in them."""

    def __init__(self, crate):
        self.texts, self.functions = {}, {}
        for path in rtlib.files_of(crate.folder):
            if path.endswith(".rt"):
                file = os.path.relpath(path, crate.folder)
                with open(path, "rb") as it:
                    self.texts[file] = it.read()
                self.functions[file] = functions(rtlib.RATTLE, file, self.texts[file])

    def with_lines_of(self, edits):
        """The texts of the files that these edits change, with the lines of all of them."""
        rows = {it.source: self.texts[it.source].split(b"\n") for it in edits}
        for edit in edits:
            for number, row in edit.lines.items():
                rows[edit.source][number - 1] = row
        return {file: b"\n".join(it).decode() for file, it in rows.items()}


def changes(old, new):
    """Each changed line: its number, its new text, and which bytes of the old text change."""
    at = 0
    for number, (before, after) in enumerate(zip(old.split(b"\n"), new.split(b"\n")), 1):
        if before != after:
            head = len(os.path.commonprefix([before, after]))
            tail = len(os.path.commonprefix([before[head:][::-1], after[head:][::-1]]))
            yield number, after, at + head, at + len(before) - tail
        at += len(before) + 1


class Edit:
    """A wrong body; where it changes just one function's body, that function's path and lines."""

    def __init__(self, name, text, crate, sources):
        self.name, self.text, self.path, self.lines = f"{crate.name}/{name}", text, None, {}
        texts, self.bad = rt.edited(text, crate.folder)
        if not self.bad and len(texts) == 1 and {*texts} <= {*sources.texts}:
            (self.source, text), *_ = texts.items()
            self.find_function(text.encode(), sources)

    def find_function(self, text, sources):
        known, owners = sources.functions[self.source], set()
        for number, row, begin, end in changes(sources.texts[self.source], text):
            inside = (it for it in known if it.is_apart and it.opens < begin and end <= it.closes)
            owners.add(next(inside, None))
            self.lines[number] = row
        # a body that is closed early, or takes in the function behind it, is not one function's
        made = functions(rtlib.RATTLE, self.source, text)
        has_same = [it[:4] for it in made] == [it[:4] for it in known]
        if len(owners) == 1 and None not in owners and has_same:
            self.path, self.first, self.last, *_ = owners.pop()

    def holds(self, file, line):
        return file == self.source and self.first <= int(line) <= self.last


def batches(edits):
    """The edits in as few batches as hold no two of one function."""
    made = []
    for edit in edits:
        free = next((it for it in made if all(edit.path != other.path for other in it)), None)
        if free is None:
            made.append([edit])
        else:
            free.append(edit)
    return made
