"""All words, contexts and carriers, what is at home of what the locks guard, and the logs."""

from dataclasses import dataclass, field
from typing import Optional

import calls
from calls import Entry, Found, Point
from carrier import Carrier, GiveContext, Look, SectionMove, Stepped, TakeContext
from context import CarrierContext, ThreadContext
from steps import (
    GIVEN,
    PLACED,
    READY,
    RELEASED,
    REMOVED,
    STORED,
    TABLE,
    THREAD_LOCKS,
    WON,
    Acquire,
    Exchange,
    Got,
    Holds,
    Load,
    Looked,
    Loaded,
    Lost,
    Numbers,
    Owned,
    Place,
    ReadyLists,
    Release,
    Remove,
    Senders,
    Store,
    Taken,
    Took,
    is_vain,
)
from words import EMPTY, MAX_COUNT, ContextWord, Run, StateWord, ThreadId
from words import dead_word, lock_bits, read_context, read_state


@dataclass(frozen=True, slots=True)
class StepMark:
    owner: object
    serial: int
    number: int
    runner: object


@dataclass
class Link:
    owner: object
    serial: int
    wants: str
    left: int

    def __str__(self) -> str:
        return f"{self.owner} {self.serial} {self.left}"


@dataclass(frozen=True, slots=True)
class Counted:
    """A step counted in `used`: whose, what it held before the step, and the want for which it was helped."""

    owner: object
    held: tuple
    wants: Optional[str]


@dataclass
class WaitMark:
    requester: object
    serial: int
    wants: str
    got: bool = False
    used: int = 0
    links: list = field(default_factory=list)
    counted: list = field(default_factory=list)  # each step counted in `used`

    @property
    def allowed(self) -> int:
        return sum(link.left for link in self.links)

    def __str__(self) -> str:
        end = "got" if self.got else "broken"
        chain = "".join(f" {link}" for link in self.links)
        bound = f"allowed {self.allowed} used {self.used}"
        return f"wait {self.requester} {self.serial} {self.wants} {end} {bound} chain{chain}"


@dataclass
class Record:
    """One atomic step, for a trace. `before` and `after` are what its word was and is."""

    number: int
    carrier: int
    move: object
    context: int
    owner: object
    place: Optional[str]
    word: tuple
    before: int
    after: int
    answer: object
    stepped: Stepped
    entry: Optional[Entry]


class World:
    def __init__(self, script, carriers: Optional[int] = None):
        self.script = script
        count = script.carriers if carriers is None else carriers
        size = script.table
        self.words: dict = {("lock", TABLE): 0, ("lock", READY): 0}
        self.slots: dict = {}
        self.home: dict = {}
        self.unstarted = {line.number for line in script.at_lines if line.what == "start"}
        lists = ReadyLists()
        for t in range(size):
            has_thread = t < len(script.threads)
            if has_thread:
                line = script.threads[t]
                who, word = ThreadId(t, 1), StateWord(1, line.priority, True, Run())
                self.slots[t] = ThreadContext(script, who, line.program, line.priority)
                if t not in self.unstarted:
                    lists = lists.with_last(who, line.priority)
            else:
                word = dead_word(script.aged.get(t, 0))
            self.words["state", t] = word.bits()
            self.words["mail", t] = 0
            self.words["lock", THREAD_LOCKS[t]] = 0
            self.words["context", t] = ContextWord("clean", 1).bits() if has_thread else EMPTY
            self.home[THREAD_LOCKS[t]] = Senders()
        for c in range(count):
            self.slots[size + c] = CarrierContext(c)
            self.words["context", size + c] = ContextWord("clean", 1).bits()
        versions = [self.state(t).version for t in range(size)]
        self.home[TABLE] = Numbers(versions, [t < len(script.threads) for t in range(size)])
        self.home[READY] = lists
        self.carriers = [Carrier(c, size) for c in range(count)]
        self.last_serials = [0] * size
        self.made = 0
        self.history: list = []
        self.steps: list = []
        self.waits: list = []
        self.standing: list = [None] * count
        self.tracing = False
        self.record: Optional[Record] = None
        self.entry: Optional[Entry] = None  # what the last step added
        self.stepped: Optional[Stepped] = None  # and how it was answered

    def state(self, number: int) -> StateWord:
        word = read_state(self.words["state", number])
        assert word is not None
        return word

    def found(self, number: int) -> Found:
        word = self.state(number)
        return Found(ThreadId(number, word.version), str(word.state))

    def context(self, index: int) -> object:
        """The context, in its slot or in a carrier's hand."""
        for carrier in self.carriers:
            if carrier.hand is not None and carrier.hand.context == index:
                return carrier.hand.value
        return self.slots[index]

    # What is done to a carrier without an atomic step.

    def start(self, c: int, number: int) -> None:
        self.unstarted.discard(number)
        self.carriers[c].starts |= 1 << number

    def slice(self, c: int) -> None:
        self.carriers[c].slice = True

    def park(self, c: int) -> None:
        self.carriers[c].putting = True

    def step(self, c: int) -> Stepped:
        """One atomic step of this carrier."""
        self.break_interrupted()
        carrier = self.carriers[c]
        goal = carrier.goal
        self.entry = None
        move = carrier.next()
        word = self.word_of(move)
        before = self.words[word]
        context = carrier.hand.context if isinstance(move, (SectionMove, GiveContext)) else move.context
        place, owner = None, None
        if self.tracing and isinstance(move, SectionMove):
            place, owner = carrier.hand.value.place(), carrier.hand.value.owner
        answer = self.perform(carrier, move)
        stepped = self.stepped = carrier.resume(move, answer)
        if carrier.goal != goal:
            self.standing[c] = None
        if self.tracing:
            after = self.words[word]
            self.record = Record(
                self.made, c, move, context, owner, place, word, before, after, answer, stepped, self.entry
            )
        self.made += 1
        return stepped

    def word_of(self, move: object) -> tuple:
        if not isinstance(move, SectionMove):
            return ("context", move.context)
        step = move.step
        if isinstance(step, (Acquire, Release)):
            return ("lock", step.lock)
        if isinstance(step, (Place, Remove)):
            return ("context", step.id.number)
        return step.word

    def perform(self, carrier: Carrier, move: object) -> object:
        if isinstance(move, Look):
            return Looked(self.words["context", move.context])
        if isinstance(move, TakeContext):
            word = self.words["context", move.context]
            if word != move.old:
                return Lost(word)
            self.words["context", move.context] = move.new
            return Took(self.slots.pop(move.context))
        if isinstance(move, GiveContext):
            self.words["context", move.context] = move.new
            self.slots[move.context] = move.value
            return GIVEN
        return self.section_step(carrier, move.step)

    def section_step(self, carrier: Carrier, step: object) -> object:
        context = carrier.hand.value
        is_thread = isinstance(context, ThreadContext)
        caller_word = self.state(context.id.number) if is_thread else None
        answer = self.atomic(step, carrier.hand.context)
        point = context.point(caller_word, answer)
        if point is not None:
            self.append(point, context)
        self.marks(carrier, context, step, answer)
        return answer

    def atomic(self, step: object, running: int) -> object:
        words = self.words
        if isinstance(step, Load):
            return Loaded(words[step.word])
        if isinstance(step, Exchange):
            found = words[step.word]
            if found != step.old:
                return Lost(found)
            words[step.word] = step.new
            return WON
        if isinstance(step, Acquire):
            owner = words["lock", step.lock]
            if owner != 0:
                return Owned(owner - 1)
            words["lock", step.lock] = lock_bits(running)
            return Got(self.home.pop(step.lock))
        if isinstance(step, Release):
            assert words["lock", step.lock] == lock_bits(running)
            words["lock", step.lock] = 0
            self.home[step.lock] = step.goods
            return RELEASED
        if isinstance(step, Store):
            words[step.word] = step.value
            return STORED
        if isinstance(step, Place):
            number = step.id.number
            assert words["context", number] == EMPTY and number not in self.slots
            words["context", number] = ContextWord("clean", step.id.version).bits()
            self.slots[number] = ThreadContext(self.script, step.id, step.program, step.priority)
            return PLACED
        assert isinstance(step, Remove)
        number = step.id.number
        word = read_context(words["context", number])
        assert word.version == step.id.version
        if word.kind == "holds":
            return Holds(number)
        if word.kind == "taken":
            return Taken(number, word.carrier)
        words["context", number] = EMPTY
        del self.slots[number]
        return REMOVED

    def append(self, point: Point, context: ThreadContext) -> None:
        number = point.who.number
        serial = self.last_serials[number]
        if calls.is_phase(point.act):
            serial += 1
            assert point.who == context.id and serial == context.serial
        self.last_serials[number] = serial
        if point.outcome.kind == "made":
            self.last_serials[point.outcome.id.number] = 0
        self.entry = Entry(point.who, serial, point.act, point.outcome)
        self.history.append(self.entry)

    # Marks.

    def break_interrupted(self) -> None:
        for c, mark in enumerate(self.standing):
            if mark is not None and self.carriers[c].interrupted():
                self.standing[c] = None

    def runner(self, carrier: Carrier) -> object:
        if carrier.switching:
            return f"c{carrier.number}"
        return carrier.goal.id

    def marks(self, carrier: Carrier, context: object, step: object, answer: object) -> None:
        c = carrier.number
        if not is_vain(answer):
            for d, mark in enumerate(self.standing):
                if mark is not None and mark.requester == context.owner:
                    mark.got, self.standing[d] = True, None
            if is_marked(context):
                self.steps.append(StepMark(context.owner, context.serial, context.done, self.runner(carrier)))
                mark = self.standing[c]
                if mark is not None:
                    mark.used = min(mark.used + 1, MAX_COUNT)
                    held = tuple(str(lock) for lock in context.holds() if lock is not None)
                    mark.counted.append(Counted(context.owner, held, help_wants(carrier)))
            return
        if isinstance(answer, Taken):
            return
        wants = f"context {answer.context}" if isinstance(answer, Holds) else str(step.lock)
        holder = self.context(answer.context if isinstance(answer, Holds) else answer.owner)
        mark = self.standing[c]
        if not carrier.helped_in_hand():
            assert mark is None or (mark.requester, mark.wants) == (context.owner, wants)
            if mark is None:
                mark = WaitMark(context.owner, context.serial, wants)
                self.waits.append(mark)
                self.standing[c] = mark
                self.add_link(mark, holder, wants, step)
        elif mark is not None:
            self.add_link(mark, holder, wants, step)

    def add_link(self, mark: WaitMark, holder: object, wants: str, step: object) -> None:
        if any(link.owner == holder.owner and link.wants == wants for link in mark.links):
            return
        if isinstance(step, Acquire):
            lock = step.lock
        else:
            lock = next(lock for lock in holder.holds() if lock is not None)
        mark.links.append(Link(holder.owner, holder.serial, wants, holder.left(lock)))


def help_wants(carrier: Carrier) -> Optional[str]:
    if carrier.help is None:
        return None
    return f"context {carrier.help.context}" if carrier.help.lock is None else str(carrier.help.lock)


def is_marked(context: object) -> bool:
    """Whether the step that was just made gets a mark. Loads of work get none, and the numbers end."""
    if isinstance(context, CarrierContext):
        return context.serial < MAX_COUNT
    return context.is_call_step() and context.done < MAX_COUNT
