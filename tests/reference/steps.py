"""Locks, what they guard, atomic steps and their answers."""

from dataclasses import dataclass, field
from typing import Optional

from words import LAST_VERSION, Message, StateWord, ThreadId


@dataclass(frozen=True, slots=True)
class Lock:
    """The kind is table, thread or ready; only a thread lock has a number."""

    kind: str
    number: int = 0

    @property
    def rank(self) -> int:
        return RANKS[self.kind]

    def __str__(self) -> str:
        return f"thread {self.number}" if self.kind == "thread" else self.kind


RANKS = {"table": 0, "thread": 1, "ready": 2}
TABLE, READY = Lock("table"), Lock("ready")
THREAD_LOCKS = [Lock("thread", t) for t in range(64)]


# What the locks guard.


@dataclass
class Numbers:
    """Of the table lock: each number's version, and which numbers have a thread."""

    versions: list
    present: list

    def copy(self) -> "Numbers":
        return Numbers(list(self.versions), list(self.present))

    def lowest_free(self) -> Optional[int]:
        for number, version in enumerate(self.versions):
            if not self.present[number] and version < LAST_VERSION:
                return number
        return None

    def alive(self) -> int:
        return sum(self.present)

    def worn(self) -> int:
        return sum(not p and v == LAST_VERSION for p, v in zip(self.present, self.versions))


@dataclass(frozen=True, slots=True)
class SenderEntry:
    who: ThreadId
    message: Message


@dataclass
class Senders:
    """Of a thread's lock: who waits to send to the thread, in the order in which they came."""

    entries: list = field(default_factory=list)

    def without(self, who: ThreadId) -> "Senders":
        return Senders([e for e in self.entries if e.who != who])


@dataclass
class ReadyLists:
    """Of the ready lock: a list of ids for each priority, and how many carriers run a thread."""

    lists: dict = field(default_factory=dict)
    running: int = 0

    def copy(self) -> "ReadyLists":
        return ReadyLists(dict(self.lists), self.running)

    def with_last(self, who: ThreadId, priority: int) -> "ReadyLists":
        new = self.copy()
        new.lists[priority] = self.lists.get(priority, ()) + (who,)
        return new

    def with_first(self, who: ThreadId, priority: int) -> "ReadyLists":
        new = self.copy()
        new.lists[priority] = (who,) + self.lists.get(priority, ())
        return new

    def without(self, who: ThreadId) -> "ReadyLists":
        kept = {p: tuple(w for w in ids if w != who) for p, ids in self.lists.items()}
        return ReadyLists({p: ids for p, ids in kept.items() if ids}, self.running)

    def pop_highest(self) -> tuple:
        """The lists without the first of the highest list, with it and its priority; None where all are empty."""
        if not self.lists:
            return self, None, 0
        priority = max(self.lists)
        first, rest = self.lists[priority][0], self.lists[priority][1:]
        new = self.copy()
        if rest:
            new.lists[priority] = rest
        else:
            del new.lists[priority]
        return new, first, priority

    def all(self) -> list:
        return [who for ids in self.lists.values() for who in ids]


# Atomic steps. A word is named by ("state", number), ("mail", number), ("lock", lock) or ("context", number).


@dataclass(frozen=True, slots=True)
class Load:
    word: tuple

    def __str__(self) -> str:
        return f"load {self.word[0]} {self.word[1]}"


@dataclass(frozen=True, slots=True)
class Store:
    word: tuple
    value: int

    def __str__(self) -> str:
        return f"store {self.word[0]} {self.word[1]} {self.value}"


@dataclass(frozen=True, slots=True)
class Exchange:
    word: tuple
    old: int
    new: int

    def __str__(self) -> str:
        return f"exchange {self.word[0]} {self.word[1]} {self.old} {self.new}"


@dataclass(frozen=True, slots=True)
class Acquire:
    lock: Lock

    def __str__(self) -> str:
        return f"acquire {self.lock}"


@dataclass(slots=True)
class Release:
    lock: Lock
    goods: object

    def __str__(self) -> str:
        return f"release {self.lock}"


@dataclass(frozen=True, slots=True)
class Place:
    id: ThreadId
    program: int
    priority: int

    def __str__(self) -> str:
        return f"place {self.id} {self.program} {self.priority}"


@dataclass(frozen=True, slots=True)
class Remove:
    id: ThreadId

    def __str__(self) -> str:
        return f"remove {self.id}"


# Answers to them.


@dataclass(frozen=True, slots=True)
class Loaded:
    value: int

    def __str__(self) -> str:
        return f"loaded {self.value}"


@dataclass(frozen=True, slots=True)
class Lost:
    found: int

    def __str__(self) -> str:
        return f"lost {self.found}"


@dataclass(slots=True)
class Got:
    goods: object

    def __str__(self) -> str:
        return "got"


@dataclass(frozen=True, slots=True)
class Owned:
    owner: int

    def __str__(self) -> str:
        return f"owned {self.owner}"


@dataclass(frozen=True, slots=True)
class Holds:
    context: int

    def __str__(self) -> str:
        return f"holds {self.context}"


@dataclass(frozen=True, slots=True)
class Taken:
    context: int
    carrier: int

    def __str__(self) -> str:
        return f"taken {self.context} {self.carrier}"


@dataclass(frozen=True, slots=True)
class Plain:
    """Stored, won, released, placed, removed or given."""

    kind: str

    def __str__(self) -> str:
        return self.kind


STORED, WON, RELEASED, PLACED, REMOVED, GIVEN = (
    Plain(k) for k in ("stored", "won", "released", "placed", "removed", "given")
)


@dataclass(frozen=True, slots=True)
class Looked:
    value: int

    def __str__(self) -> str:
        return f"looked {self.value}"


@dataclass(slots=True)
class Took:
    context: object

    def __str__(self) -> str:
        return "took"


def is_vain(answer: object) -> bool:
    """The answers after which the same step is asked for again. They are no step of the section."""
    return isinstance(answer, (Owned, Holds, Taken))


def state_name(who: ThreadId) -> tuple:
    return ("state", who.number)


def load_state(number: int) -> Load:
    return Load(("state", number))


def exchange_state(number: int, old: StateWord, new: StateWord) -> Exchange:
    return Exchange(("state", number), old.bits(), new.bits())
