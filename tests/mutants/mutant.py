"""One wrong body: a file of `file: PATH` lines and pairs of lines `old: TEXT`, `new: TEXT`."""
import re

# what makes a branch: where an edit has more or fewer of these, the goals of the function have other names
BRANCHES = re.compile(r"\b(?:if|else|match|for|while|loop|return|break|continue)\b|\?|&&|\|\||=>")
FUNCTION = re.compile(r"( *)(?:pub(?:\([^)]*\))? )?fn (\w+)")


class Unfit(Exception):
    """The edit cannot be applied."""


def heads(indent):
    """What a line begins with in which the head of a function ends, where it has no clauses."""
    return f"{indent}fn ", f"{indent}pub", f"{indent})"


def bodies(text):
    """The functions of a text of src: the name of each, and where its body begins and ends. A `const fn` is not among them."""
    name = indent = begun = None
    at = 0
    for line in text.splitlines(keepends=True):
        if begun is None:
            if found := FUNCTION.match(line):
                indent, name = found.groups()
            if name and (line.rstrip() == f"{indent}{{" or line.endswith(" {\n") and line.startswith(heads(indent))):
                begun = at
        elif line.rstrip() == f"{indent}}}":
            yield name, begun, at
            name = begun = None
        at += len(line)


class Mutant:
    def __init__(self, crate, path):
        self.crate = crate
        self.path = path
        self.text = path.read_text()

    def edits(self):
        """The files, each with an old and a new text."""
        path = old = None
        for line in self.text.splitlines():
            if line.startswith("file: "):
                path = line.removeprefix("file: ").strip()
            elif line.startswith("old: "):
                old = line.removeprefix("old: ")
            elif line.startswith("new:"):
                if path is None or old is None:
                    raise Unfit("a `new:` line without a file or an old text")
                yield path, old, line.removeprefix("new:").removeprefix(" ")
                old = None

    def branches(self):
        """Whether the edit adds a branch or takes one away."""
        return any(sorted(BRANCHES.findall(old)) != sorted(BRANCHES.findall(new)) for _, old, new in self.edits())

    def functions(self, folder):
        """The functions whose bodies alone it changes, each with the path of its file; none where it changes anything else."""
        found = set()
        for path, old, _ in self.edits():
            text = (folder / path).read_text() if (folder / path).is_file() else ""
            at = text.find(old)
            within = [name for name, begun, ended in bodies(text) if begun < at and at + len(old) <= ended]
            if not path.startswith("src/") or not within:
                return set()
            found.add((path, within[0]))
        return found

    def applied(self, folder, others=None):
        """The texts of the files that are changed, by their paths, over those that others have changed."""
        texts = dict(others or {})
        for path, old, new in self.edits():
            if not (folder / path).is_file():
                raise Unfit(f"there is no file {path}")
            text = texts.setdefault(path, (folder / path).read_text())
            if text.count(old) != 1:
                raise Unfit(f"{path} has the old text {text.count(old)} times: {old[:60]}")
            texts[path] = text.replace(old, new)
        if not texts or all(text == (folder / path).read_text() for path, text in texts.items()):
            raise Unfit("it changes nothing")
        return texts
