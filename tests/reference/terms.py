"""Writes runs of the reference as terms, so that the definitions of k_world are compared with them by computing.

    python3 terms.py NUMBER..

The scripts are those that `fuzz.py` makes of these numbers. Put the output into `crates/k_world/proofs/Compared.antt`,
name it in `proofs/Lib.antt`, and run `rt check` there. Each run is proved by `refl`, exactly where the definitions leave
the same history, the same marks of steps and of waits with their links, and words that show the same statuses. Remove
the file then. Some 15,000 steps take a minute.
"""

import sys

import calls
import fuzz
from schedule import Schedule
from script import BadScript, read
from words import ThreadId
from world import World

OPENED = (
    "moved booted step_in started sliced parked context_bits context_word_of lock_bits lock_word_of state_bits "
    "state_word_of highest_below entry_for message_of sender_of thread_of who_of same_word"
)
HEAD = """\
-- Runs of the reference, compared by computing.
use Rattle.std.proofs.Common.{◌≡◌, ℕ, zero, suc, Bool, true, false, List, [], ◌∷◌, length, map, refl, Option, Some, None}
use Rattle.std.specs.List.{range_with_len}
use Rattle.k_ids.specs.declared.calls.Act.TheVariants as act
use Rattle.k_ids.specs.declared.calls.Outcome.TheVariants as outcome
use Rattle.k_ids.specs.declared.calls.Phase.TheVariants as phase
use Rattle.k_ids.specs.declared.histories.Entry.{Entry}
use Rattle.k_ids.specs.declared.threads.Found.{Found}
use Rattle.k_ids.specs.declared.threads.Status.TheVariants as status
use Rattle.k_ids.specs.ContextWords.{context_bits, context_word_of}
use Rattle.k_ids.specs.LockWords.{lock_bits, lock_word_of}
use Rattle.k_ids.specs.Messages.{message_bits, message_of_bits}
use Rattle.k_ids.specs.StateWords.{state_bits, state_word_of}
use Rattle.k_ready.specs.Popped.{highest_below}
use Rattle.k_senders.specs.Entries.{entry_for, message_of, sender_of, thread_of, who_of}
use Rattle.k_locks.specs.Asks.{same_word}
use Rattle.k_locks.specs.Shown.{found_in}
use Rattle.k_locks.specs.declared.locks.Lock.TheVariants as lock
use Rattle.k_script.specs.declared.lines.AtWhat.TheVariants as what
use Rattle.k_script.specs.declared.operation.Operation.TheVariants as operation
use Rattle.k_script.specs.declared.operation.Value.TheVariants as value
use Rattle.k_script.specs.declared.operation.Who.TheVariants as who
use Rattle.k_script.specs.Script.{Script}
use Rattle.k_context.specs.declared.owner.Owner.TheVariants as owner
use Rattle.k_carrier.specs.declared.marks.Link.{Link}
use Rattle.k_carrier.specs.declared.marks.StepMark.{StepMark}
use Rattle.k_carrier.specs.declared.marks.WaitMark.{WaitMark}
use Rattle.k_carrier.specs.declared.marks.Want.TheVariants as want
use Rattle.k_world.specs.Boot.{booted}
use Rattle.k_world.specs.Runs.{Step, Start, Slice, Park, burst, run_of}
use Rattle.k_world.specs.Steps.{moved, parked, sliced, started, step_in}
use Rattle.k_world.specs.Worlds.{World, state_at}

record Shown : Type 0 where
  made : ℕ
  history : List Entry
  steps : List StepMark
  marks : List WaitMark
  links : List Link
  finals : List Found

abbrev shown : ℕ → World → Shown
shown table w = record {
  made = w.made;
  history = w.history;
  steps = w.steps;
  marks = w.waits.marks;
  links = w.waits.links;
  finals = map (λ t. found_in t (state_at w t)) (range_with_len 0 table);
}
"""


class Logged(World):
    """A world that keeps all links in the order in which they were found, each with the index of its mark."""

    def __init__(self, script):
        super().__init__(script)
        self.tracing = True
        self.links: list = []

    def add_link(self, mark, holder, wants, step) -> None:
        before = len(mark.links)
        super().add_link(mark, holder, wants, step)
        if len(mark.links) > before:
            index = next(i for i, other in enumerate(self.waits) if other is mark)
            self.links.append((index, mark.links[-1]))


def within(text: str) -> str:
    return f"({text})" if " " in text else text


def record(**fields) -> str:
    return "record { " + "; ".join(f"{name} = {value}" for name, value in fields.items()) + " }"


def listed(terms: list) -> str:
    return "".join(f"{within(term)} ∷ " for term in terms) + "[]"


def truth(value: bool) -> str:
    return "true" if value else "false"


def option(term: str | None) -> str:
    return "None" if term is None else f"Some {within(term)}"


def applied(head: str, *terms) -> str:
    return " ".join([head] + [within(str(term)) for term in terms])


# What a script says.


def who(name) -> str:
    return {"last": "who.Last", "made": "who.Made"}.get(name, f"who.Number {name}")


def value(word) -> str:
    return {"got0": "value.Got0", "got1": "value.Got1"}.get(word, f"value.Number {word}")


def operation(op) -> str:
    words = [value(op.low), value(op.high), truth(op.zero)]
    match op.kind:
        case "send" | "call":
            return applied(f"operation.{op.kind.capitalize()}", who(op.who), *words)
        case "reply":
            return applied("operation.Reply", *words)
        case "receive" | "wait":
            source = None if op.kind == "wait" else who(op.who)
            return applied("operation.Receive", option(source), truth(op.zero))
        case "create":
            return applied("operation.Create", op.program, op.priority)
        case "destroy":
            return applied("operation.Destroy", who(op.who))
        case "work" | "repeat":
            return applied(f"operation.{op.kind.capitalize()}", op.count)
    return "operation.Again"


def script_term(script) -> str:
    programs = [record(name="[]", operations=listed([operation(op) for op in p.operations])) for p in script.programs]
    events = {"start": "what.Start", "slice": "what.Slice"}
    return record(
        version=script.version,
        table=script.table,
        carriers=script.carriers,
        show_steps="false",
        aged=listed([str(script.aged.get(t, 0)) for t in range(script.table)]),
        programs=listed(programs),
        threads=listed([record(priority=line.priority, program=line.program) for line in script.threads]),
        at_lines=listed([record(step=a.step, what=f"{events[a.what]} {a.number}") for a in script.at_lines]),
        turns="[]",
    )


# What comes of a run.


def thread(who) -> str:
    return record(number=who.number, version=who.version)


def message(m) -> str:
    return record(low=m.low, high=m.high)


def status(text: str) -> str:
    kind, *rest = text.split()
    if not rest:
        return f"status.{kind.capitalize()}"
    id = None if rest[0] == "any" else thread(ThreadId(*map(int, rest[0].split("."))))
    return applied(f"status.{kind.capitalize()}", id if kind == "sending" else option(id))


def found(f) -> str:
    return record(id=thread(f.id), status=status(f.status))


def act(a) -> str:
    match a:
        case calls.Send(manner="reply"):
            phase = applied("phase.Reply", thread(a.to), message(a.message), truth(a.zero))
        case calls.Send():
            joined = truth(a.manner == "joined")
            phase = applied("phase.Send", thread(a.to), message(a.message), truth(a.zero), joined)
        case calls.Receive():
            source = None if a.source is None else thread(a.source)
            phase = applied("phase.Receive", option(source), truth(a.zero))
        case calls.Create():
            phase = applied("phase.Create", a.program, a.priority)
        case calls.Destroy():
            phase = applied("phase.Destroy", thread(a.who))
        case calls.End():
            phase = "phase.End"
        case _:
            return "act.Gone" if isinstance(a, calls.Gone) else "act.Pick"
    return applied("act.Call", phase)


def outcome(o) -> str:
    head = f"outcome.{o.kind.capitalize()}"
    match o.kind:
        case "took":
            return applied(head, thread(o.id), message(o.message))
        case "made":
            return applied(head, thread(o.id))
        case "absent" | "busy":
            return applied(head, found(o.found))
        case "full":
            return applied(head, o.alive, o.worn)
    return head


def entry(e) -> str:
    return record(event=record(who=thread(e.who), serial=e.serial, act=act(e.act)), outcome=outcome(e.outcome))


def owner(o) -> str:
    return f"owner.Carrier {o[1:]}" if isinstance(o, str) else applied("owner.Thread", thread(o))


def want(text: str) -> str:
    kind, *number = text.split()
    if kind == "context":
        return applied("want.Context", *number)
    return applied("want.Lock", applied(f"lock.{kind.capitalize()}", *number))


def step_mark(m) -> str:
    return record(owner=owner(m.owner), serial=m.serial, number=m.number, runner=owner(m.runner))


def wait_mark(world, index: int, m) -> str:
    first = next(i for i, (mark, _) in enumerate(world.links) if mark == index)
    return record(
        requester=owner(m.requester),
        serial=m.serial,
        wants=want(m.wants),
        got=truth(m.got),
        allowed=m.allowed,
        used=m.used,
        first=first,
        count=len(m.links),
    )


def link(index: int, found_link) -> str:
    return record(
        mark=index,
        owner=owner(found_link.owner),
        serial=found_link.serial,
        wants=want(found_link.wants),
        left=found_link.left,
    )


def shown(world) -> str:
    return record(
        made=world.made,
        history=listed([entry(e) for e in world.history]),
        steps=listed([step_mark(m) for m in world.steps]),
        marks=listed([wait_mark(world, i, m) for i, m in enumerate(world.waits)]),
        links=listed([link(i, one) for i, one in world.links]),
        finals=listed([found(world.found(t)) for t in range(world.script.table)]),
    )


# The turns that were made.


def turn(event: str) -> tuple:
    match event.split():
        case ["start", number, carrier]:
            return ("Start", carrier[1:], number)
        case ["slice", carrier]:
            return ("Slice", carrier)
        case [_, carrier]:
            return ("Park", carrier)


def turns_term(turns: list) -> str:
    """Steps of one carrier without an event between them are a burst."""
    term = "[]"
    for kind, *words in reversed(turns):
        term = applied("burst", *words, term) if kind == "burst" else f"{applied(kind, *words)} ∷ {term}"
    return term


def run(script) -> tuple:
    turns: list = []

    def watch(world, events) -> None:
        turns.extend(turn(event) for event in events)
        c = str(world.record.carrier)
        if turns and turns[-1][:2] == ("burst", c):
            turns[-1] = ("burst", c, turns[-1][2] + 1)
        else:
            turns.append(("burst", c, 1))

    schedule = Schedule(script, watch)
    schedule.world = Logged(script)
    return turns, schedule.run()


def compared(name: str, script) -> str:
    turns, world = run(script)
    left = f"shown {script.table} (run_of {name}_script {script.carriers} ({turns_term(turns)}))"
    return (
        f"abbrev {name}_script : Script\n{name}_script = {script_term(script)}\n\n"
        f"{name} : {left} ≡ {shown(world)}\nunfolding {OPENED}\n{name} = refl\n"
    )


def main(words: list) -> int:
    if not words or not all(word.isdigit() for word in words):
        print(__doc__)
        return 2
    print(HEAD)
    for word in words:
        try:
            print(compared(f"run_{word}", read(fuzz.script_of(int(word)))))
        except BadScript:
            continue
    return 0


if __name__ == "__main__":
    sys.exit(main(sys.argv[1:]))
