"""Pages of docs/ that are partly written by a script: a part stands between `<!-- KIND: WORDS -->` and `<!-- end -->`."""

import re
import sys

PART = re.compile(r"(<!-- (\w+)(?::([^>]*?))? -->\n).*?(<!-- end -->)", re.S)


def marks_of(text):
    """The marks of a page: what each part is, and the words of its mark."""
    return [(kind, rest.split()) for _, kind, rest, _ in PART.findall(text)]


def filled(text, makers):
    """The page with each part written anew by the maker of its kind, which is given the words of the mark."""

    def part(match):
        lines = makers[match.group(2)]((match.group(3) or "").split())
        return "\n".join([match.group(1), *lines, "", match.group(4)] if lines else [match.group(1) + match.group(4)])

    return PART.sub(part, text)


def table(heads, rows):
    """The lines of a table."""
    return [f"| {' | '.join(heads)} |", "|" + "---|" * len(heads), *(f"| {' | '.join(map(str, row))} |" for row in rows)]


def sentence(comment):
    """The first sentence of a comment that says more than two words, fit for a cell of a table."""
    sentences = re.split(r"(?<=[.:])\s+(?=[A-Z`\[(])", comment.strip())
    first = next((s for s in sentences if len(s.split()) > 2), comment)
    return first.replace("|", "\\|").replace("[`", "`").replace("`]", "`").rstrip(".:")


def run(page, page_of):
    """Writes a page, or with `--check` says whether it is what would be written."""
    text = page.read_text(encoding="utf-8")
    new = page_of(text)
    if "--check" not in sys.argv[1:]:
        page.write_text(new, encoding="utf-8")
    elif new != text:
        raise SystemExit(f"docs/{page.name} is stale: {sys.argv[0]} writes it anew")
