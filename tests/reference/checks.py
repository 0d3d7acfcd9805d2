"""What every run has to keep, whatever the script."""

from context import ThreadContext
from machine import Machine, judge
from report import reply_lines
from sections import ReceiveSection, SendSection
from words import Dead, Sending, ThreadId, read_context, read_state
from steps import READY, THREAD_LOCKS


class Broken(Exception):
    pass


def demand(holds: bool, text: str) -> None:
    if not holds:
        raise Broken(text)


class Watch:
    """Looks at a run step by step. With `deep` it also compares after each step what the words show with the state of
    the kernel that makes one event at a time."""

    def __init__(self, script, deep: bool):
        self.script, self.deep = script, deep
        self.replied: dict = {}
        self.missed = 0
        self.machine = Machine([script.aged.get(t, 0) for t in range(script.table)], len(script.threads))
        self.seen = 0

    def step(self, world, events) -> None:
        stepped = world.stepped
        if stepped.kind == "replied":
            key = (stepped.id, stepped.serial)
            demand(key not in self.replied, f"two replies to {key}")
            self.replied[key] = stepped.reply
        self.missed += stepped.kind == "missed"
        for entry in world.history[self.seen :]:
            outcome = self.machine.step(entry.who, entry.serial, entry.act)
            demand(outcome == entry.outcome, f"{entry} differs {outcome}")
        demand(len(world.history) - self.seen <= 1, "two events in a step")
        self.seen = len(world.history)
        if self.deep:
            compare_shown(world, self.machine)
            check_ready(world)
            check_standing(world)
            check_places(world)
            check_on(world)

    def end(self, world) -> None:
        script = self.script
        demand(judge(script, world.history) == f"legal {len(world.history)}", judge(script, world.history))
        for key, reply in self.replied.items():
            demand(self.machine.replies.get(key) == reply, f"the reply to {key}")
        for who, serial in self.machine.replies:
            given = (who, serial) in self.replied
            row = self.machine.rows[who.number]
            demand(given or row.version != who.version or row.status == "dead", f"no reply to {who} {serial}")
        demand(len(reply_lines(world)) == len(self.machine.replies), "replies")
        for t in range(script.table):
            demand(world.found(t) == self.machine.shown(t), f"the end of {t}")
        demand(len(world.history) <= 2 * script.phases(), "the history is longer than its room")
        check_marks(world.steps)
        for mark in world.waits:
            pairs = {(link.owner, link.wants) for link in mark.links}
            demand(len(pairs) == len(mark.links) > 0, f"a chain with one link twice, or none: {mark}")
            if mark.got and script.carriers == 1:
                kind = mark.wants.split(" ")[0]
                demand(mark.allowed <= bounds(script)[kind], f"{mark} is above {bounds(script)}")
                check_got(mark)
        demand(script.carriers > 1 or self.missed == 0, "one carrier missed a context")


def check_got(mark) -> None:
    """With one carrier: what was used is allowed, by owners of links that held what they hold up, and for each link
    alone too."""
    demand(mark.used <= mark.allowed, f"{mark}")
    for step in mark.counted:
        links = [link for link in mark.links if link.owner == step.owner]
        fits = any(link.wants in step.held or (link.wants.startswith("context") and step.held) for link in links)
        demand(fits, f"a step of {step.owner} in {mark}")
    for link in mark.links:
        made = sum(step.owner == link.owner and step.wants == link.wants for step in mark.counted)
        demand(made <= link.left, f"{link} was helped {made} steps in {mark}")


def bounds(script) -> dict:
    """What a wait of each kind allows at most, from the script alone."""
    kinds = {op.kind for program in script.programs for op in program.operations}
    n = script.table
    longest = max(
        8 if kinds & {"send", "call", "reply"} else 0,
        n + 5 if kinds & {"receive", "wait", "reply"} else 0,
        n + 6 if "reply" in kinds and script.version == 2 else 0,
        max(4 * n, 6) if "destroy" in kinds else 0,
    )
    table = 10 * n - 1 if "destroy" in kinds else 6
    return {"ready": 3, "thread": longest + 3, "context": longest + 3, "table": table + n * (longest + 3)}


def check_marks(marks: list) -> None:
    """No step twice, and those of a call are numbered from 0 in their order."""
    counts: dict = {}
    for mark in marks:
        key = (mark.owner, mark.serial)
        demand(counts.get(key, 0) == mark.number, f"{mark}")
        counts[key] = mark.number + 1


def threads_at(world) -> list:
    contexts = list(world.slots.values()) + [c.hand.value for c in world.carriers if c.hand is not None]
    return [context for context in contexts if isinstance(context, ThreadContext) and context.at == "Section"]


def queue_of(world, number: int) -> list:
    lock = THREAD_LOCKS[number]
    if lock in world.home:
        return world.home[lock].entries
    for context in threads_at(world):
        if lock in context.section.hand:
            return context.section.hand[lock].entries
    raise Broken(f"the queue of {number} is nowhere")


def compare_shown(world, machine: Machine) -> None:
    words = [read_state(world.words["state", t]) for t in range(world.script.table)]
    running, coming = set(), {}
    for context in threads_at(world):
        section = context.section
        if isinstance(section, SendSection):
            if section.at in ("WakeReceiver", "ReloadReceiver"):
                running.add(section.to_id)
            if section.at == "ReleaseQueued" and words[context.id.number].shows(context.id):
                coming.setdefault(section.to_id.number, []).append((context.id, section.phase.message))
        if isinstance(section, ReceiveSection) and section.at in ("CommitGone", "EndPick"):
            running.add(context.id)
    for t, word in enumerate(words):
        row, who = machine.rows[t], ThreadId(t, word.version)
        if who in running and not isinstance(word.state, Dead):
            status = "run"
        else:
            status = str(word.state)
        demand(machine.shown(t).id == who and machine.shown(t).status == status, f"{t} shows {status}")
        if isinstance(word.state, Sending):
            demand(word.state.joined == row.joined, f"{t} joined")
        waiting = []
        if not isinstance(word.state, Dead):
            for entry in queue_of(world, t):
                state = words[entry.who.number]
                if state.shows(entry.who) and isinstance(state.state, Sending) and state.state.to == who:
                    waiting.append((entry.who, entry.message))
            waiting += coming.get(t, [])
        demand(waiting == row.waiting, f"the list of {t}: {waiting} is not {row.waiting}")


def check_ready(world) -> None:
    """No thread stands in the ready lists twice, or in them while it is a carrier's goal."""
    if READY not in world.home:
        return
    ids = world.home[READY].all()
    demand(len(ids) == len(set(ids)), f"twice in the ready lists: {ids}")
    for carrier in world.carriers:
        if carrier.goal is not None and not carrier.switching:
            demand(carrier.goal.id not in ids, f"a goal in the ready lists: {carrier.goal}")
    demand(0 <= world.home[READY].running <= len(world.carriers), "running")


def check_standing(world) -> None:
    """Whose mark stands still asks for what it wants, unless it is gone."""
    for mark in world.standing:
        if mark is None:
            continue
        contexts = list(world.slots.values()) + [c.hand.value for c in world.carriers if c.hand is not None]
        for context in contexts:
            if context.owner == mark.requester:
                step = str(context.ask())
                kind, number = (mark.wants.split(" ") + [""])[:2]
                wanted = f"remove {number}." if kind == "context" else f"acquire {mark.wants}"
                demand(step.startswith(wanted), f"{mark} stands, and its owner asks for {step}")


def contexts_of(world) -> dict:
    found = dict(world.slots)
    for carrier in world.carriers:
        if carrier.hand is not None:
            demand(carrier.hand.context not in found, f"context {carrier.hand.context} is twice")
            found[carrier.hand.context] = carrier.hand.value
    return found


def check_places(world) -> None:
    """Context words tell where the contexts are, and lock words who holds what."""
    contexts = contexts_of(world)
    taken = {c.hand.context: c.number for c in world.carriers if c.hand is not None}
    owners: dict = {}
    for index, context in contexts.items():
        for lock in context.holds():
            if lock is not None:
                demand(lock not in owners, f"{lock} is held twice")
                owners[lock] = index
    for name, bits in world.words.items():
        if name[0] == "lock":
            demand(bits == owners.get(name[1], -1) + 1, f"the word of {name[1]}")
            demand((name[1] in world.home) == (bits == 0), f"what {name[1]} guards")
        if name[0] == "context":
            word, index = read_context(bits), name[1]
            if index not in contexts:
                demand(word.kind == "empty", f"the word of context {index}")
                continue
            context = contexts[index]
            kind = "holds" if any(context.holds()) else "clean"
            wanted = ("taken", taken[index]) if index in taken else (kind, 0)
            demand((word.kind, word.carrier) == wanted, f"the word of context {index}")
            demand(word.version == context.version, f"the version of context {index}")


def pushed_by(section) -> ThreadId | None:
    """The thread that a section has made run, and hasn't put into the ready lists yet."""
    match section.place():
        case "Send.AcquireReady" | "Send.PushReceiver":
            return section.to_id
        case "Pick.EndPick":
            return section.entry.who if section.needs_push(section.freed) else None
        case "Receive.AcquireReady" | "Receive.LoadFreed" | "Receive.PushFreed":
            return section.entry.who
        case "Pick.AcquireReady" | "Pick.LoadFreed" | "Pick.PushFreed":
            return section.entry.who
        case "Create.AcquireReady" | "Create.PushCreated":
            return section.id
        case "Destroy.AcquireReadyForSender" | "Destroy.PushSender":
            return section.first_sender().who
        case "Destroy.AcquireReadyForVisited" | "Destroy.PushVisited":
            return section.visited_id()
    return None


def check_on(world) -> None:
    """A thread that is on stands in one ready list, or is one carrier's goal, or is pushed by one section, or has a
    start to come: one of these, once. One that is off stands nowhere."""
    contexts = contexts_of(world)
    places = [ThreadId(number, 1) for number in world.unstarted]
    lists = world.home.get(READY)
    for context in contexts.values():
        if isinstance(context, ThreadContext):
            if context.at == "Section":
                lists = context.section.hand.get(READY, lists)
                places.append(pushed_by(context.section))
        elif context.switch is not None:
            lists = context.switch.lists or lists
            if context.switch.start is not None and context.switch.at != "Finished":
                places.append(ThreadId(context.switch.start, 1))
    places += lists.all()
    for carrier in world.carriers:
        switched = contexts[carrier.own].switched()
        goal = carrier.goal if switched is None else switched.goal
        places.append(goal.id if goal is not None else None)
        places += [ThreadId(t, 1) for t in range(world.script.table) if carrier.starts >> t & 1]
    for t in range(world.script.table):
        word = read_state(world.words["state", t])
        if not isinstance(word.state, Dead):
            count = places.count(ThreadId(t, word.version))
            demand(count == int(word.on), f"{t} is {'on' if word.on else 'off'} and stands in {count} places")
