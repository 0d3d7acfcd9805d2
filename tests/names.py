"""What the crates define, and what the words of each definition name.

A thing is a definition of `specs/*.antt`, a type or a ghost function of a trait in `src/**/*.rt`, or a name of a library.
Names are followed, not files: a word that is bound where it stands (a parameter, a field, a variable) names nothing.
"""

import re
from dataclasses import dataclass, field
from functools import lru_cache
from pathlib import Path

ROOT = Path(__file__).resolve().parent.parent
CRATES = ROOT / "crates"
HEAD = re.compile(r"^(?:(?:abbrev|unfoldable|pub|record|data)\s+)+([^\s:({]+)|^([^\s:({-][^\s:({]*)\s*:\s")
USE = re.compile(r"^\s*(?:ghost )?use Rattle\.([\w.]+?)(?:\.\{([^}]*)\})?(?: as (\w+))?;?\s*$", re.M)
SILENT = re.compile(r'"(?:\\.|[^"\\])*"|--.*|//.*')
WORD = re.compile(r"[^\s(){},;]+")
BINDER = re.compile(r"[({]([^(){}:=]+?) : ")
LAMBDA = re.compile(r"λ ([^.λ]+?)\.(?=\s)")
LET = re.compile(r"\blet (\S+)(?: : [^=]*)? =")
FIELD = re.compile(r"^ +(?:pub )?(\S+) : ", re.M)
GIVEN = re.compile(r"(?<=[{;])\s*([^\s{};=]+) = ")


@dataclass(frozen=True)
class Thing:
    """Something that is defined: `words` is its text, without the comment above it."""

    crate: str
    name: str
    path: Path
    line: int
    kind: str = field(compare=False)
    words: str = field(compare=False, repr=False)
    comment: str = field(compare=False, repr=False)

    @property
    def place(self):
        return str(self.path.relative_to(ROOT))

    @property
    def last(self):
        return self.line + self.words.count("\n")


@lru_cache(maxsize=None)
def lines_of(path):
    """The lines of a file. What stands in a `module _` begins where it would stand without it."""
    lines, inside = path.read_text(encoding="utf-8").split("\n"), False
    for at, line in enumerate(lines):
        inside = line.startswith("module _ ") or inside and (not line or line.startswith("  "))
        if inside and line.startswith("  "):
            lines[at] = line[2:]
    return lines


def comment_above(lines, at, mark):
    """The comment that stands right above a line, as one text."""
    first = at
    while first > 0 and lines[first - 1].lstrip().startswith(mark):
        first -= 1
    return " ".join(line.strip().removeprefix(mark).strip() for line in lines[first:at])


def cut(path, at, end):
    """The text from a line up to another, without the comments and blank lines at its end."""
    lines = lines_of(path)
    while end > at + 1 and (not lines[end - 1].strip() or lines[end - 1].startswith("--")):
        end -= 1
    return "\n".join(lines[at:end])


@lru_cache(maxsize=None)
def definitions(path):
    """The definitions of a file of specs, by name; a constructor of a `data` names the whole."""
    lines = lines_of(path)
    matches = [(i, HEAD.match(line)) for i, line in enumerate(lines) if not line.startswith(("use ", "--", "pub mod"))]
    heads = [(i, match.group(1) or match.group(2)) for i, match in matches if match]
    found = {}
    for (at, name), (end, _) in zip(heads, heads[1:] + [(len(lines), "")]):
        words = cut(path, at, end)
        kind = re.sub(r"\b(pub|abbrev|unfoldable)\b", "", words.split(name)[0]).strip() or "definition"
        thing = Thing(path.relative_to(CRATES).parts[0], name, path, at + 1, kind, words, comment_above(lines, at, "--"))
        found[name] = thing
        if kind == "data":
            found.update((constructor, thing) for constructor in FIELD.findall(words))
    return found


@lru_cache(maxsize=None)
def types_of(crate):
    """The structs and enums of a crate, and the ghost functions of its traits (as `Trait.name`)."""
    found = {}
    for path in sorted((CRATES / crate / "src").rglob("*.rt")):
        lines, trait = lines_of(path), ""
        for at, line in enumerate(lines):
            trait = match.group(1) if (match := re.match(r"(?:pub(?:\(crate\))? )?trait (\w+)", line)) else trait
            if match := re.match(r"(?:pub(?:\(crate\))? )?(?:struct|enum) (\w+)", line):
                end = at + 1 if line.endswith(";") else lines.index("}", at) + 1
                name, kind = match.group(1), "type"
            elif match := re.match(r"    ghost (\w+): \{", line):
                end, name, kind = at + 1, f"{trait}.{match.group(1)}", "of a trait"
            else:
                continue
            mark = at
            while lines[mark - 1].startswith("#["):
                mark -= 1
            comment = comment_above(lines, mark, "///")
            found.setdefault(name, Thing(crate, name, path, at + 1, kind, "\n".join(lines[at:end]), comment))
    return found


def named(module, name):
    """The thing that a module path, without its `Rattle.`, has under a name."""
    parts = module.split(".")
    if not (CRATES / parts[0]).exists():
        return f"{module}.{name}"
    if parts[2] == "declared":
        kind = [part for part in parts[3:] if part != "TheVariants" and part[0].isupper()]
        return types_of(parts[0]).get(kind[0] if kind else name)
    path = CRATES / parts[0] / "specs" / f"{'.'.join(parts[2:])}.antt"
    return definitions(path).get(name) if path.exists() else None


@lru_cache(maxsize=None)
def scope_of(path):
    """What a file's words may name: the names that it uses or defines, and its names for modules."""
    names, modules = {}, {}
    for module, taken, other in USE.findall("\n".join(lines_of(path))):
        for name, _, here in (part.strip().partition(" as ") for part in taken.split(",") if part.strip()):
            names[here or name] = named(module, name)
        if not taken:
            modules[other or module.split(".")[-1]] = module
    names.update(definitions(path) if path.suffix == ".antt" else {})
    return names, modules


def bound_in(words):
    """The names that some words bind: parameters, variables and fields."""
    groups = BINDER.findall(words) + LAMBDA.findall(words)
    return {name for group in groups for name in group.split()} | set(LET.findall(words)) | set(FIELD.findall(words))


def pieces(thing):
    """The signature and each clause by itself, with the names that are bound in it."""
    for piece in re.split(r"\n(?=\S)", thing.words):
        piece = SILENT.sub(" ", piece)
        bound = bound_in(piece)
        if piece.startswith(f"{thing.name} "):
            bound |= set(WORD.findall(re.split(r"\s=\s", piece, maxsplit=1)[0]))
        yield GIVEN.sub(" ", piece), bound


def meant(path, words, bound):
    """The things that the words of a file name, in their order."""
    names, modules = scope_of(path)
    for word in WORD.findall(words):
        head, _, rest = word.strip(".").partition(".")
        if head in modules and rest:
            yield named(modules[head], rest.split(".")[0])
        elif head in names and (head not in bound or head[0].isupper()):
            yield names[head]


def view_of(thing):
    """What a type's model shows it as."""
    text = "\n".join(lines_of(thing.path))
    if match := re.search(rf"^impl Model for {thing.name}\b.*?^\}}", text, re.M | re.S):
        for words in re.findall(r"ghost (?:Value|view) = \{(.*)\};", match.group()):
            yield from meant(thing.path, words, bound_in(words))


def type_parts(thing):
    """The types of the project that a declared type is made of, and what its model shows."""
    text = "\n".join(lines_of(thing.path))
    taken = re.findall(r"^use (\w+)(?:::\w+)*::\{?([\w, \n]+)\}?;", text, re.M)
    homes = {name.strip(): thing.crate if crate == "crate" else crate for crate, group in taken for name in group.split(",")}
    for name in re.findall(r"\b[A-Z]\w*", SILENT.sub(" ", thing.words)):
        crate = homes.get(name, thing.crate)
        if (CRATES / crate).exists() and name in types_of(crate):
            yield types_of(crate)[name]
    yield from view_of(thing)


@lru_cache(maxsize=None)
def parts(thing):
    """What a thing's words name: things of the project, and names of libraries as texts; each once, in their order."""
    if isinstance(thing, str) or thing.kind == "of a trait":
        return ()
    if thing.kind == "type":
        found = type_parts(thing)
    else:
        found = (part for words, bound in pieces(thing) for part in meant(thing.path, words, bound))
    return tuple(dict.fromkeys(part for part in found if part is not None and part != thing))


def reached(first):
    """All that is reached from some things, each after the first that names it."""
    found, todo = {}, list(reversed(first))
    while todo:
        thing = todo.pop()
        if thing not in found:
            found[thing] = None
            todo.extend(reversed(parts(thing)))
    return list(found)
