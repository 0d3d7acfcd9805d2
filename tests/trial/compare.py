"""Compares the kernel's code with the plain reference, step by step.

    python3 compare/compare.py worked            the scripts of all worked examples
    python3 compare/compare.py fuzz FIRST COUNT  generated scripts
    python3 compare/compare.py all FIRST COUNT   both
    python3 compare/compare.py wide FIRST COUNT  generated scripts with more threads and carriers
    python3 compare/compare.py rare FIRST COUNT EACH   of these, EACH that meet an answer which comes seldom, and the worked examples
    python3 compare/compare.py files FILE ..     scripts in files
    python3 compare/compare.py long              one run of four million steps, its report alone

The trial program runs without proofs, by `rt try`. Of each script its trace (without the locations) and its report are
compared; the first line that differs is shown with the script.
"""

import re
import shutil
import subprocess
import sys
import time
from pathlib import Path

TOP = Path(__file__).resolve().parent.parent
sys.path.insert(0, str(TOP / "tests" / "reference"))

import big  # noqa: E402
import fuzz  # noqa: E402
import rare  # noqa: E402
import wide  # noqa: E402
import worked  # noqa: E402
from carrier import SectionMove  # noqa: E402
from report import report  # noqa: E402
from schedule import Schedule  # noqa: E402
from script import BadScript, TooLong, read  # noqa: E402

MOST_TEXT = 700_000  # bytes of one run's output
MOST_INPUT = 900_000
MOST_WEIGHT = 200_000
FOLDER = Path("/tmp/try_cases")


def line(record) -> str:
    move = record.move
    text = f"{record.owner} {move.step}" if isinstance(move, SectionMove) else str(move)
    return f"{record.number} c{record.carrier} {text} -> {record.answer} => {record.stepped}"


def expected(text: str, traced: bool) -> str:
    lines: list = []

    def watch(world, events) -> None:
        lines.append(line(world.record) + "\n")

    schedule = Schedule(read(text), watch if traced else None)
    schedule.world.tracing = traced
    world = schedule.run()
    return "".join(lines) + report(world)


def worked_scripts() -> list:
    """The texts of all scripts that the worked examples read."""
    texts: dict = {}
    real = worked.read

    def noted(text: str):
        script = real(text)
        texts.setdefault(text, None)
        return script

    worked.read = noted
    for name, function in worked.ROWS:
        if "long" in name:
            continue
        function()
    worked.read = real
    return [(f"worked {n}", text) for n, text in enumerate(texts)]


def parts_of(scripts: list) -> list:
    """The scripts with what has to come, in groups that one run prints."""
    groups, group, size, given = [], [], 0, 0
    for name, text in scripts:
        if not text.endswith("\n"):
            text += "\n"
        if read(text).weight() > MOST_WEIGHT:
            print(f"{name}: left out, its weight is {read(text).weight()}")
            continue
        wanted = expected(text, True)
        if len(wanted) > MOST_TEXT:
            print(f"{name}: left out, {len(wanted)} bytes")
            continue
        if group and (size + len(wanted) > MOST_TEXT or given + len(text) > MOST_INPUT):
            groups.append(group)
            group, size, given = [], 0, 0
        group.append((name, text, wanted))
        size, given = size + len(wanted) + 16, given + len(text) + 3
    if group:
        groups.append(group)
    return groups


def run(groups: list, form: str, quiet: bool = False, seconds: int = 300) -> dict:
    """What the trial program prints for each group."""
    shutil.rmtree(FOLDER, ignore_errors=True)
    FOLDER.mkdir()
    for number, group in enumerate(groups):
        (FOLDER / f"g{number:04}").write_text("==\n".join(text for _, text, _ in group))
    words = ["rt", "try", "--cases", str(FOLDER), "--seconds", str(seconds), "--", form]
    done = subprocess.run(words, cwd=TOP / "crates" / "try_run", capture_output=True)
    out, said = done.stdout.decode("latin-1"), done.stderr.decode("latin-1")
    (FOLDER.parent / "try_out").write_text(out)
    (FOLDER.parent / "try_said").write_text(said)
    pieces = re.split(r"^== (g\d+)\n", out, flags=re.M)
    found = dict(zip(pieces[1::2], pieces[2::2]))
    if not quiet:
        print("\n".join(said.strip().split("\n")[-3:]))
    return found


def first_difference(wanted: str, found: str) -> str:
    left, right = wanted.split("\n"), found.split("\n")
    for n, (a, b) in enumerate(zip(left, right)):
        if a != b:
            before = "\n".join(f"  {x}" for x in left[max(0, n - 8) : n])
            return f"line {n + 1}\n{before}\n- {a}\n+ {b}"
    return f"line {min(len(left), len(right)) + 1}: one ends here ({len(left)} and {len(right)} lines)"


def compare(scripts: list) -> int:
    begun = time.perf_counter()
    groups = parts_of(scripts)
    count, steps = sum(map(len, groups)), 0
    print(f"{count} scripts in {len(groups)} groups, reference {time.perf_counter() - begun:.0f} s")
    begun = time.perf_counter()
    found = run(groups, "both")
    print(f"trial {time.perf_counter() - begun:.0f} s")
    differ = 0
    for number, group in enumerate(groups):
        pieces = re.split(r"^@ \d+\n", found.get(f"g{number:04}", ""), flags=re.M)[1:]
        for at, (name, text, wanted) in enumerate(group):
            steps += wanted.count(" => ")
            got = pieces[at] if at < len(pieces) else ""
            if got != wanted:
                differ += 1
                if differ <= 5:
                    print(f"DIFFERS {name}\n{text}{first_difference(wanted, got)}")
    print(f"{count} compared, {steps} steps, {differ} differ")
    return differ


def compare_long() -> int:
    """The largest run, and the first script of the generator: their reports alone."""
    texts = ["kernel 1\ntable 1\nprogram a\nwork 3999996\nend\nthread 5 a\n", big.big(1) + "\n"]
    groups = [[(f"long {n}", text, expected(text, False))] for n, text in enumerate(texts)]
    found = run(groups, "report")
    differ = 0
    for number, [(name, _, wanted)] in enumerate(groups):
        got = found.get(f"g{number:04}", "").removeprefix("@ 0\n")
        if got != wanted:
            differ += 1
            print(f"DIFFERS {name}\n{first_difference(wanted, got)}")
    print(f"{len(groups)} compared, {differ} differ")
    return differ


def main(words: list) -> int:
    match words:
        case ["worked"]:
            scripts = worked_scripts()
        case ["fuzz", first, many]:
            scripts = [(f"fuzz {n}", fuzz.script_of(n)) for n in range(int(first), int(first) + int(many))]
        case ["all", first, many]:
            scripts = worked_scripts()
            scripts += [(f"fuzz {n}", fuzz.script_of(n)) for n in range(int(first), int(first) + int(many))]
        case ["rare", first, many, each]:
            scripts = worked_scripts() + rare.chosen(int(first), int(many), int(each))
        case ["wide", first, many]:
            scripts = [(f"wide {n}", wide.script_of(n)) for n in range(int(first), int(first) + int(many))]
        case ["long"]:
            return compare_long()
        case ["files", *names]:
            scripts = [(name, Path(name).read_text(encoding="latin-1")) for name in names]
        case _:
            print(__doc__)
            return 2
    return int(compare(scripts) > 0)


if __name__ == "__main__":
    sys.exit(main(sys.argv[1:]))
