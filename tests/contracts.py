"""The public functions of the crates and their contracts."""

import re
from dataclasses import dataclass
from functools import lru_cache
from pathlib import Path

from names import CRATES, bound_in, comment_above, lines_of, meant, types_of


@dataclass
class Function:
    """A function of a crate: its comment, and the clauses of its contract, by name."""

    crate: str
    name: str
    path: Path
    line: int
    comment: str
    clauses: dict

    def named_by(self, clause):
        """What the words of a clause name; `S.left` is the ghost function of the trait that S has."""
        words, head = self.clauses[clause], lines_of(self.path)[self.line - 1]
        traits = dict(re.findall(r"([A-Z]\w*): (\w+)", head))
        every = {name: thing for crate in sorted(CRATES.iterdir()) for name, thing in types_of(crate.name).items() if "." in name}
        dotted = re.findall(r"\b([A-Z]\w*)\.(\w+)", words)
        found = list(meant(self.path, words, bound_in(words)))
        found += [every.get(f"{traits.get(kind)}.{name}") or types_of(self.crate).get(kind) for kind, name in dotted]
        return list(dict.fromkeys(thing for thing in found if thing is not None))


@lru_cache(maxsize=None)
def functions(path):
    """The public functions of a file with their contracts, in their order."""
    lines, found = lines_of(path), []
    for at, line in enumerate(lines):
        if not (match := re.match(r" *pub fn (\w+)", line)):
            continue
        mark, end = at, at
        while lines[mark - 1].lstrip().startswith("#["):
            mark -= 1
        while not lines[end].endswith((" {", "{}")) and lines[end].strip() != "{" and end + 1 < len(lines):
            end += 1
        text = "\n".join(lines[at:end])
        clauses = {name.strip(): words for name, words in re.findall(r"ensures (\w* ?)\{(.*?)\}(?=\n|$)", text, re.S)}
        crate, comment = path.relative_to(CRATES).parts[0], comment_above(lines, mark, "///")
        found.append(Function(crate, match.group(1), path, at + 1, comment, clauses))
    return found
