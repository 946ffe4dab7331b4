"""What a check of a crate with a wrong body says.

A goal is known by its name, which tells the place in the body and the clause. A refusal shows something where search leaves a
goal open that it closes in the right body. It does too, where the edit keeps all branches, where an answer is of another type
now, or where an open goal is new by its name alone, as that of a condition with another number, and no answer's goal is gone.
It shows nothing where answers only name what the edit took away, or where the only open goals are those of a branch that the
edit added: nobody has answered those. Nor does a goal whose own answer was dropped (answers.py) or, where the edit adds a
branch or takes one away, one that has the name of another by its number alone.
"""
import re
from collections import namedtuple

REFUSED, NAME, PROVED, BAD, LIMIT, UNKNOWN = "refused", "a name alone", "still proved", "bad edit", "a limit", "unknown"

OPEN = re.compile(r"note: (\S+): it is not proved .*?\(`([^`]+)`\)")
OUTCOME = re.compile(r"(?:fn|struct|enum|impl|trait) (\S+): (proved|not proved|no proof|could not tell)")
ERROR = re.compile(r"(?:\./)?(\S+?):(\d+):\d+: error: (?:`([^`]*)`: )?(.*)")
# what a line begins with that does not go on with the one before, however that was wrapped
BEGINS = re.compile(r"\S+:\d+:\d+: |(?:note|warning|help|error|rt|antt|so far|by-macro|ahead of the check)\b.*:|"
                    r"(?:fn|struct|enum|impl|trait) \S+: |(?:logic|statements|checked|calls) |(?:logic|only|holes)=")
# names that the edit took away
MISSING = re.compile(r"has no (?:field )?`|is not in scope|is no name")
# what is said of them, and of what hangs on them
NAMES = re.compile(MISSING.pattern + r"|that depends? on `|was not admitted")
# an answer whose goal is gone
GONE = re.compile(r"(?:\./)?(\S+?):\d+:\d+: .*Goals` has no `([^`]*)`")
UNREAD = re.compile(r"is not in scope|has no field|is no name|operand is missing|expected the end|cannot continue")
STALE = re.compile(r"module .Rattle-\w+-.*Run the lower steps again")
LIMITS = re.compile(r"antt ran out of|outgrew the memory limit|stopped at the step limit")

# an error: the file, the line, the declaration where one is told, and what is said
Error = namedtuple("Error", "path line name text")


class Goal:
    """A goal that search leaves open, or whose answer does not fit."""

    def __init__(self, function, name, place, answered):
        self.function = function
        self.name = name
        self.place = place
        self.answered = answered

    def __str__(self):
        return f"{self.name} of {self.function} ({self.place})"


def messages(output):
    """The lines, each with those that go on with it."""
    gathered = []
    for line in output.splitlines():
        goes_on = line.startswith("  ") or line.strip() and not BEGINS.match(line)
        if goes_on and gathered and gathered[-1]:
            gathered[-1] += " " + line.strip()
        else:
            gathered.append(line.strip())
    return gathered


def error_of(line):
    found = ERROR.match(line)
    return Error(found[1], int(found[2]), found[3], found[4]) if found else None


def function_of(crate, path):
    """The name of the function that a file of answers is of, as `held_output::held::HeldOutput::put`."""
    return "::".join([crate, *path.removeprefix("proofs/").split("/")[:-1]])


def missing(output):
    """The places in files of answers, (path, line) each, that name what is not there."""
    errors = [error for error in map(error_of, messages(output)) if error and MISSING.search(error.text)]
    return [(error.path, error.line) for error in errors
            if error.path.startswith("proofs/") and error.path.endswith("/Answers.antt")]


def goals(crate, lines):
    """The goals that are open, and those whose answers are refused for another cause than a name."""
    waiting = []
    for line in lines:
        if found := OPEN.match(line):
            waiting.append(found.groups())
        elif found := OUTCOME.match(line):
            yield from (Goal(found[1], name, place, False) for place, name in waiting)
            waiting = []
        elif (found := error_of(line)) and found.path.startswith("proofs/") and found.name and not NAMES.search(found.text):
            yield Goal(function_of(crate, found.path), found.name, found.path, True)


def numberless(name):
    return re.sub(r"-\d+", "", name)


def told_goal(mutant, lines, base, dropped, is_own=lambda function: True):
    """The goal of meaning that the check refuses, or None; and one that is open, if any; of functions of its own alone."""
    own = (goal for goal in goals(mutant.crate, lines) if is_own(goal.function))
    found = [goal for goal in own if goal.name not in dropped.get(goal.function, ())]
    gone = [name for line in lines for path, name in GONE.findall(line) if is_own(function_of(mutant.crate, path))]
    if found and not mutant.branches() and not gone and not dropped:
        return found[0], None
    answered, known, new = [], [], []
    for goal in found:
        (answered if goal.answered else known if goal.name in base(goal.function) else new).append(goal)
    if not mutant.branches():
        told = known or answered or ([] if gone or dropped else new)
    else:
        others = {numberless(name) for name in [*gone, *(goal.name for goal in new), *set().union(*dropped.values())]}
        told = [goal for goal in known if numberless(goal.name) not in others]
    return (told[0] if told else None), next(iter([*known, *new]), None)


def judged(mutant, status, output, base, dropped=None):
    """The verdict on a mutant, and what it stands on. `base` gives the names of a function's goals with its right body,
    `dropped` has those whose answers were dropped, by function."""
    lines = [line for line in messages(output) if not line.startswith("rt: warning: ")]
    if status == 0:
        return PROVED, "the crate is proved with it"
    if STALE.search(output):
        return UNKNOWN, "the kept work of a library could not be used"
    unread = next((line for line in lines if is_unread(line)), None)
    if unread:
        return BAD, unread
    if status == 3 and any(LIMITS.search(line) for line in lines):
        return LIMIT, next(line for line in lines if LIMITS.search(line))
    if not any(line.startswith(("logic=not-proved", "only=")) for line in lines):
        refused = next((line for line in lines if re.search(r"\berror\[[\w-]+\]", line)), None)
        return (BAD, refused) if status == 1 and refused else (UNKNOWN, " ".join(lines[:4]))
    told, left = told_goal(mutant, lines, base, dropped or {})
    if told:
        return REFUSED, str(told)
    cause = next((line for line in lines if error_of(line)), None) or (str(left) if left else lines[0])
    return NAME, cause


def refused_together(mutant, functions, output, base):
    """The goal of meaning, of the functions that a mutant changes, that a check of it with mutants of other functions refuses;
    None where there is none, or the check does not tell."""
    lines = messages(output)
    told = any(line.startswith("logic=not-proved") for line in lines) and not STALE.search(output)
    if not told or any(is_unread(line) for line in lines):
        return None

    def is_own(function):
        return any(is_of(mutant.crate, function, path, name) for path, name in functions)

    return told_goal(mutant, lines, base, {}, is_own)[0]


def is_of(crate, function, path, name):
    """Whether a function, by its whole name, is one of this name in a file of src."""
    parts = [part for part in path.removeprefix("src/").removesuffix(".rt").split("/") if part not in ("lib", "main", "mod")]
    return function.startswith("::".join([crate, *parts, ""])) and function.split("::")[-1] == name


def is_unread(line):
    """Whether a text of src or specs could not be read, where an edit that only makes a statement false reads well."""
    found = error_of(line)
    if not found or not found.path.startswith(("src/", "specs/")):
        return False
    return not found.name or bool(UNREAD.search(found.text))
