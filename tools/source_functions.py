"""Which functions a Rattle source file has, where each stands, and how verdicts name it."""
import re
import subprocess
import tempfile
from typing import NamedTuple

BLOCKS = ("fn", "impl", "trait", "mod", "macro_rules")
# Words at the head of a function by which its body is more than a body, or more than its own.
NOT_PLAIN = ("const", "extern", "cycle")
CODE = re.compile(r'(?m)^(\d+) (\d+) \d+ Code "(.*)"$')


class Function(NamedTuple):
    path: str  # as verdicts name it: modules, type and trait, name
    first: int  # its lines
    last: int
    is_apart: bool  # a change of its body can concern no other function
    opens: int  # where the braces of its body stand, in bytes
    closes: int


class Block(NamedTuple):
    kind: str  # a word of BLOCKS, or "" for any other pair of braces
    name: str
    first: int
    is_plain: bool
    opens: int
    depth: int  # of the brackets that are open around it


def code_tokens(rattle, text):
    """The tokens of a source text that are code, as (line, offset, word); None where it has none.

    Rattle's own lexer tells them. Comments, literals, clauses and ghost items are no code, so the
    first brace behind a function's name opens its body.
    """
    with tempfile.NamedTemporaryFile(suffix=".rt") as file:
        file.write(text)
        file.flush()
        words = [rattle, "fmt", "--tokens", file.name]
        ran = subprocess.run(words, stdin=subprocess.DEVNULL, capture_output=True)
    if ran.returncode:
        return None
    found = CODE.findall(ran.stdout.decode(errors="replace"))
    return [(int(line), int(start), word) for line, start, word in found]


def impl_name(words):
    """How verdicts name an impl: its type, and its trait behind it, without what stands in <>."""
    names, depth, before = [], 0, ""
    for word in words[: words.index("where")] if "where" in words else words:
        depth += (word == "<") - (word == ">" and before != "-")
        if depth == 0 and re.fullmatch(r"\w+", word):
            names.append(word)
        before = word
    cut = names.index("for") if "for" in names else 0
    return "".join([*names[cut:][-1:], *names[:cut][-1:]])


def opened_block(head, first, is_plain, start, depth):
    """The block that begins behind these words."""
    kind = next((it for it in head if it in BLOCKS), "")
    behind = head[head.index(kind) + 1 :] if kind else []
    name = impl_name(behind) if kind == "impl" else "".join(behind[:1])
    return Block(kind, name, first, is_plain, start, depth)


def closed_function(file, opened, block, last, closes):
    """The function whose body ends, in the blocks that are still open."""
    parts = file[len("src/") : -len(".rt")].split("/")
    modules = [it for it in parts if it not in ("lib", "main", "mod")]
    around = [it for it in opened if it.kind]
    path = "::".join([*modules, *(it.name for it in around), block.name])
    is_apart = block.is_plain and all(it.kind in ("impl", "trait", "mod") for it in around)
    return Function(path, block.first, last, is_apart, block.opens, closes)


def functions(rattle, file, text):
    """The functions with a body of a source file, by path; none where the lexer stops."""
    opened, found, head, first, depth, is_plain = [], [], [], 0, 0, True
    for line, start, word in code_tokens(rattle, text) or []:
        first = first or line
        is_plain = is_plain and word not in NOT_PLAIN
        depth += (word in ("(", "[")) - (word in (")", "]"))
        if word == "{":
            opened.append(opened_block(head, first, is_plain, start, depth))
            depth = 0
        elif word == "}" and opened:
            block = opened.pop()
            depth = block.depth
            if block.kind == "fn":
                found.append(closed_function(file, opened, block, line, start))
        elif depth == 0 and word != ";":
            head.append(word)
        if word in ("{", "}") or word == ";" and depth == 0:
            head, first, is_plain = [], 0, True

    def has_own_lines(one):
        return all(it is one or it.last < one.first or one.last < it.first for it in found)

    return sorted(it._replace(is_apart=it.is_apart and has_own_lines(it)) for it in found)
