#!/usr/bin/env python3
"""Runs the examples of README.md and docs/ through the built program, and compares what it says.

    tests/docs.py [--check] [PROGRAM]

These are the examples: lines that begin with `$ ` in a block, with the output below each; in docs/SCRIPT.md the scripts in
blocks, and the rows of an input and its refusal; in docs/REPORT.md the rows of an example, which has to be a line of a file in
examples/, and the rows of a change to examples/call-history.check and its verdict. The last line says how many there were.
PROGRAM is crates/fiasco_run/out/fiasco_run if none is named. It writes nothing, so `--check` changes nothing.
"""

import re
import subprocess
import sys
from pathlib import Path

ROOT = Path(__file__).resolve().parent.parent
BLOCK = re.compile(r"^```\n((?:(?!```)[^\n]*\n)*)```$|^((?:    [^\n]*\n)+)", re.M)
ROW = re.compile(r"^\| (.+?) \| (.+?) \|", re.M)
CODE = re.compile(r"`([^`]+)`")


class Examples:
    """The examples that were tried, and what is wrong with some."""

    def __init__(self, program):
        self.program, self.count, self.faults = program, 0, []

    def run(self, words, given):
        ran = subprocess.run([self.program, *words], input=given.encode(), capture_output=True, timeout=60)
        return ran.stdout.decode(errors="replace")

    def expect(self, what, found, wanted):
        self.count += 1
        if found.rstrip("\n") != wanted.rstrip("\n"):
            self.faults.append(f"{what}: says {found[:200]!r}, and should say {wanted[:200]!r}")

    def shell(self, page, text):
        """The blocks in which a line begins with `$ `."""
        for fenced, indented in BLOCK.findall(text):
            block = fenced or re.sub(r"^    ", "", indented, flags=re.M)
            for command, output in re.findall(r"^\$ (.*)\n((?:(?!\$ ).*\n)*)", block, re.M):
                if "./fiasco_run " not in command:
                    continue
                command = command.replace("./fiasco_run ", f"{self.program} ")
                ran = subprocess.run(["sh", "-c", command], cwd=ROOT, capture_output=True, text=True, timeout=60)
                self.expect(f"{page}: {command}", ran.stdout, output)

    def scripts(self, text):
        """The scripts in blocks are scripts, and the rows of refusals are refused so."""
        for script, _ in BLOCK.findall(text):
            if script:
                said = self.run(["check"], script)
                self.expect("docs/SCRIPT.md: a script", said.split(" ")[0].strip(), "unfinished")
        for given, refusal in re.findall(r"^\| `([^`]+)` \| `(line \d+ \w+)`", text, re.M):
            self.refused(given, f"refused {refusal}")
        for given, refusal in re.findall(r"`([^`]+)`: `(refused [^`]+)`", text):
            self.refused(given, refusal)

    def refused(self, given, refusal):
        script = given.replace(" / ", "\n")
        self.expect(f"docs/SCRIPT.md: {given}", self.run(["run"], script), refusal)

    def lines(self, text):
        """The examples of tables with a column for them are lines of files in examples/."""
        stored = {path.name: path.read_text(encoding="utf-8") for path in sorted((ROOT / "examples").iterdir())}
        every = {line for found in stored.values() for line in found.split("\n")}
        for table in re.findall(r"^\|.*\| Example \|.*\n(?:\|.*\n)+", text, re.M):
            column = [cell.strip() for cell in table.split("\n")[0].split("|")].index("Example")
            for row in table.strip().split("\n")[2:]:
                cell = row.split("|")[column]
                line, *file = CODE.findall(cell)
                found = line in stored[Path(file[0]).name] if file else line in every
                self.expect(f"docs/REPORT.md: {line}", str(found), "True")

    def changes(self, text):
        """The changes of a history, each with its verdict."""
        script, history = (ROOT / "examples" / "call-history.check").read_text(encoding="utf-8").split("\n--\n")
        (table,) = re.findall(r"^\| Change \| Verdict \|\n\|.*\n((?:\|.*\n)+)", text, re.M)
        for change, verdict in ROW.findall(table):
            lines = changed(history.splitlines(), change)
            given = "\n".join([script, "--", *lines]) + "\n"
            self.expect(f"docs/REPORT.md: {change}", self.run(["check"], given), verdict.strip("`"))


def changed(lines, change):
    """The lines of a history after a change that is said in words."""
    numbers = [int(n) - 1 for n in re.findall(r"(?:line|lines|and) (\d+)", change)]
    at = numbers[0] if numbers else 0
    if "exchanged" in change:
        lines[at], lines[numbers[1]] = lines[numbers[1]], lines[at]
    elif "dropped" in change:
        del lines[at]
    elif "twice" in change:
        lines.insert(at, lines[at])
    elif "empty" in change:
        lines[at] = ""
    elif change != "none":
        (lines[at],) = CODE.findall(change)
    return lines


def main():
    named = [word for word in sys.argv[1:] if word != "--check"]
    examples = Examples(named[0] if named else str(ROOT / "crates/fiasco_run/out/fiasco_run"))
    for page in [ROOT / "README.md", *sorted((ROOT / "docs").glob("*.md"))]:
        text = page.read_text(encoding="utf-8")
        examples.shell(page.relative_to(ROOT), text)
        if page.name == "SCRIPT.md":
            examples.scripts(text)
        if page.name == "REPORT.md":
            examples.lines(text)
            examples.changes(text)
    print(*examples.faults, f"examples: {examples.count - len(examples.faults)} passed, {len(examples.faults)} failed", sep="\n")
    return 1 if examples.faults or not examples.count else 0


if __name__ == "__main__":
    sys.exit(main())
