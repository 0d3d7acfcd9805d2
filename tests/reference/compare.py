"""Compares another program with this one, on scripts made from numbers or on files.

    python3 compare.py [--big] [--trace | --json] FIRST COUNT -- COMMAND ..
    python3 compare.py [--trace | --json] FILE .. -- COMMAND ..

With --big the scripts of numbers are the large ones of big.py, and else those of fuzz.py.

COMMAND takes a script on its standard input, and prints a report (or with --trace or --json that trace, as FORMAT.md
has it). The first line that differs is told, with the lines before it.
"""

import subprocess
import sys

import traces
from big import big
from fuzz import script_of
from report import report
from schedule import Schedule
from script import read


def expected(text: str, form: str) -> str:
    lines: list = []

    def watch(world, events) -> None:
        if form == "--json":
            lines.append(traces.json_line(world, world.record, events))
        else:
            lines.append(traces.line(world.record))

    schedule = Schedule(read(text), watch if form else None)
    schedule.world.tracing = bool(form)
    world = schedule.run()
    return "".join(line + "\n" for line in lines) if form else report(world)


def first_difference(wanted: str, found: str) -> str:
    left, right = wanted.split("\n"), found.split("\n")
    for n, (a, b) in enumerate(zip(left, right)):
        if a != b:
            before = "\n".join(f"  {line}" for line in left[max(0, n - 5) : n])
            return f"line {n + 1}\n{before}\n- {a}\n+ {b}"
    return f"line {min(len(left), len(right)) + 1}: one ends here ({len(left)} and {len(right)} lines)"


def main(words: list) -> int:
    if "--" not in words:
        print(__doc__)
        return 2
    divider = words.index("--")
    options = [word for word in words[:divider] if word in ("--big", "--trace", "--json")]
    names, command = [word for word in words[:divider] if word not in options], words[divider + 1 :]
    forms = [word for word in options if word != "--big"]
    make = big if "--big" in options else script_of
    if len(names) == 2 and all(name.isdigit() for name in names):
        first, count = int(names[0]), int(names[1])
        scripts = [(str(seed), make(seed)) for seed in range(first, first + count)]
    else:
        scripts = [(name, open(name, encoding="latin-1").read()) for name in names]
    differ = 0
    for name, text in scripts:
        wanted = expected(text, forms[0] if forms else "")
        found = subprocess.run(command, input=text, capture_output=True, text=True).stdout
        if wanted != found:
            differ += 1
            print(f"{name} differs at {first_difference(wanted, found)}")
    print(f"{len(scripts)} compared, {differ} differ")
    return int(differ > 0)


if __name__ == "__main__":
    sys.exit(main(sys.argv[1:]))
