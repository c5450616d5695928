"""What the lines of a check that is not proved say of the functions that were edited in it."""
import re

PLACE = re.compile(r"(?:note: )?(?:\./)?((?:src|specs|proofs)/[^:\s]+):(\d+):\d+: (.*)")
ENDED = re.compile(r"(fn|impl|struct|enum|trait|type) (\S+): (proved$|not proved|no proof)(.*)")
SEARCHED = re.compile(r": expected answers in .*?; `search` did not prove ([^;]*)")
PROOF = re.compile(r"proofs/(.*)/(Answers|Invariants|Proof)\.antt")
# (the proofs of a function NAME that calls itself stand in a folder +NAME)
CALLS_ITSELF = re.compile(r"(^|/)\+")
# A proof file that misses a name says that the edit took the name away, and nothing of a goal.
MISSES_A_NAME = re.compile(r"has no field|is not in scope|has no `|was not admitted")


def owner_of(path, paths):
    """The function of a verdict's path: itself, or the one that has the closure; None if unknown.

    The closures of a::T::f are named a::fn::T::f::NAME, and their calls
    a::fn::T::f::NAME+FnMut::call_mut.
    """
    words = [it for it in path.split("::") if it != "fn"]
    is_closure = len(words) <= path.count("::")
    ends = range(len(words), 0, -1) if is_closure else [len(words)]
    return next((it for it in ("::".join(words[:end]) for end in ends) if it in paths), None)


class Evidence:
    """What the lines of a check say of the edits in it.

    goals      the first open goal of each edited function's own, by its path
    proved     the edited functions that are proved
    elsewhere  what is open where no edit can have opened it: then nothing of the check is believed

    An edited function that is not proved, and that calls another one that is not, may have no goal
    told as its own: nothing is told of its edit then, and the others are none the less believed.
    """

    def __init__(self, said, batch, paths):
        self.said, self.paths, self.edits = said, paths, {it.path: it for it in batch}
        self.goals, self.elsewhere, self.states, self.answers = {}, [], {}, {}
        self.notes = []  # the unproved places that were told since the last verdict
        for line in said.split("\n"):
            place, ended = PLACE.match(line), ENDED.match(line)
            if place and place[3].startswith("error"):
                self.read_error(line, *place.groups())
            elif place and "it is not proved" in place[3]:
                self.notes.append((place[1], place[2]))
            elif ended and ended[1] == "fn":
                self.read_verdict(line, *ended.groups()[1:])
            elif ended and ended[3] != "proved" and "it waits for" not in line:
                self.elsewhere.append(line)
        proved = {path for path, state in self.states.items() if state == "proved"}
        self.proved = (proved & {*self.edits}) - {*self.goals}

    def read_error(self, line, file, number, error):
        proof = PROOF.fullmatch(file)
        path = CALLS_ITSELF.sub(r"\1", proof[1]).replace("/", "::") if proof else ""
        owner = owner_of(path, self.paths)
        if owner not in self.edits:
            self.elsewhere.append(line)
        elif not MISSES_A_NAME.search(error):
            self.answers.setdefault(owner, f"{file}:{number}: {error[len('error: ') :]}")

    def read_verdict(self, line, whole_path, state, why):
        path, searched = whole_path.partition("::")[2], SEARCHED.match(why)
        owner = owner_of(path, self.paths)
        self.states[path] = state
        is_own = owner in self.edits and any(self.edits[owner].holds(*it) for it in self.notes)
        if state != "proved" and (searched and is_own or owner in self.answers):
            goal = searched[1].replace("`", "").strip() if searched else self.answers[owner]
            self.goals.setdefault(owner, goal)
        elif searched and owner not in self.edits:
            self.elsewhere.append(line)
        self.notes = []

    def is_believed(self):
        last = self.said.rstrip("\n").split("\n")[-1]
        has_verdict = last.startswith(("logic=not-proved", "logic=proved"))
        return has_verdict and not self.elsewhere
