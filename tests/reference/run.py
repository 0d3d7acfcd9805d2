"""Runs a script and prints its report.

    python3 run.py SCRIPT            the report
    python3 run.py --trace SCRIPT    each atomic step in a line
    python3 run.py --json SCRIPT     each atomic step in a line of JSON
    python3 run.py --verdict SCRIPT  the verdict on the history of the run

SCRIPT is a file, or `-` for standard input. With --slash, ` / ` stands for a line feed. Other words follow a trace:
--report puts the report after it.
"""

import sys

import traces
from machine import judge
from report import report
from schedule import Schedule
from script import BadScript, read


def main(words: list) -> int:
    options = {word for word in words if word.startswith("--")}
    files = [word for word in words if not word.startswith("--")]
    if len(files) != 1 or not options <= {"--trace", "--json", "--verdict", "--slash", "--report"}:
        print(__doc__)
        return 2
    text = sys.stdin.read() if files[0] == "-" else open(files[0], encoding="latin-1").read()
    if "--slash" in options:
        text = text.replace(" / ", "\n")
    try:
        script = read(text)
    except BadScript as fault:
        print(fault)
        return 1

    def watch(world, events) -> None:
        if "--json" in options:
            print(traces.json_line(world, world.record, events))
        else:
            print(traces.line(world.record))

    tracing = bool(options & {"--trace", "--json"})
    schedule = Schedule(script, watch if tracing else None)
    schedule.world.tracing = tracing
    world = schedule.run()
    if "--verdict" in options:
        print(judge(script, world.history))
    elif not tracing or "--report" in options:
        print(report(world), end="")
    return 0


if __name__ == "__main__":
    sys.exit(main(sys.argv[1:]))
