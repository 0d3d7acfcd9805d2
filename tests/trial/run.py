#!/usr/bin/env python3
"""Runs the kernel's code, without proofs, and compares each of its steps with the plain reference.

    tests/trial/run.py worked            the scripts of all worked examples
    tests/trial/run.py fuzz FIRST COUNT  generated scripts
    tests/trial/run.py wide FIRST COUNT  with more threads and carriers
    tests/trial/run.py seldom            scripts that meet answers which come seldom

It puts a copy of the repository's crates together with those of this folder, and runs `rt try` there. The crates of this
folder are kept as text, since no check reads them. They have no contracts yet: the words and slots (k_shared), the world that steps (k_core) and the schedule (k_dispatch). What
they run, from k_carrier down, is the code that is proved.
"""

import shutil
import subprocess
import sys
import tempfile
from pathlib import Path

HERE = Path(__file__).resolve().parent
TOP = HERE.parent.parent
LINES = """\
k_shared: k_ids k_ready k_senders k_locks k_script k_context k_carrier
k_core: k_ids k_locks k_script k_context k_carrier k_shared
k_dispatch: k_ids k_locks k_machine k_script k_context k_core
try_core: k_ids k_locks k_script k_context k_carrier k_shared k_text itoa
try_dispatch: k_ids k_locks k_machine k_script k_context try_core
try_run: k_ids k_locks k_script k_outside k_input k_reader k_text k_context k_carrier k_dispatch try_dispatch itoa
"""


def copied(top: Path) -> None:
    """Makes the repository for the trial in this folder."""
    without = shutil.ignore_patterns("out", "must-fail", "__pycache__")
    shutil.copytree(TOP / "crates", top / "crates", ignore=without)
    shutil.copytree(TOP / "tests" / "reference", top / "tests" / "reference", ignore=without)
    shutil.copy(TOP / "HANDLES", top / "HANDLES")
    (top / "crates.txt").write_text((TOP / "crates.txt").read_text() + LINES)
    for crate in sorted((HERE / "crates").iterdir()):
        for folder in ("src", "specs", "proofs"):
            (top / "crates" / crate.name / folder).mkdir(parents=True)
        for text in (crate / "src").iterdir():
            shutil.copy(text, top / "crates" / crate.name / "src" / text.name.removesuffix(".txt"))
        for folder in ("specs", "proofs"):
            (top / "crates" / crate.name / folder / "Lib.antt").write_text("")
    (top / "compare").mkdir()
    for name in ("compare.py", "make_traced.py", "rare.py", "wide.py", "trace.rt.txt"):
        shutil.copy(HERE / name, top / "compare" / name.removesuffix(".txt"))
    subprocess.run([sys.executable, "-B", "compare/make_traced.py"], cwd=top, check=True)


def seldom(top: Path) -> list:
    """The files of the scripts that meet answers which come seldom."""
    files = []
    for number, text in enumerate((HERE / "seldom.scripts").read_text().split("==\n")):
        files.append(f"seldom{number}.script")
        (top / files[-1]).write_text(text)
    return files


def main(words: list) -> int:
    if not words:
        print(__doc__)
        return 2
    with tempfile.TemporaryDirectory() as folder:
        top = Path(folder) / "trial"
        top.mkdir()
        copied(top)
        given = ["files", *seldom(top)] if words == ["seldom"] else words
        return subprocess.run([sys.executable, "-B", "compare/compare.py", *given], cwd=top).returncode


if __name__ == "__main__":
    sys.exit(main(sys.argv[1:]))
