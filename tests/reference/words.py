"""Values that stand in 64-bit words, and how they are spelled.

A state word tells what the thread of a number does, a mail word holds a message, a lock word names the owner of a
lock, and a context word tells where a context stands. `bits` spells a value; `read_*` reads a spelling and answers
None where the bits are none.
"""

from dataclasses import dataclass
from functools import lru_cache
from typing import Optional

LAST_VERSION = 1_048_575
MAX_COUNT = 4_294_967_295
CONTEXTS = 72


@dataclass(frozen=True, slots=True)
class ThreadId:
    number: int
    version: int

    def __str__(self) -> str:
        return f"{self.number}.{self.version}"


@dataclass(frozen=True, slots=True)
class Message:
    low: int
    high: int

    def packed(self) -> int:
        return self.low | self.high << 32

    @staticmethod
    def of(bits: int) -> "Message":
        return Message(bits & 0xFFFF_FFFF, bits >> 32)

    def __str__(self) -> str:
        return f"{self.low} {self.high}"


# What a thread does.


@dataclass(frozen=True, slots=True)
class Dead:
    def __str__(self) -> str:
        return "dead"


@dataclass(frozen=True, slots=True)
class Run:
    """The result says how the last wait ended: plain, sent, delivered or gone. A delivered one has its sender."""

    result: str = "plain"
    sender: Optional[ThreadId] = None

    def __str__(self) -> str:
        return "run"


@dataclass(frozen=True, slots=True)
class Sending:
    to: ThreadId
    joined: bool

    def __str__(self) -> str:
        return f"sending {self.to}"


@dataclass(frozen=True, slots=True)
class Receiving:
    """From one thread, or from any where none is named."""

    source: Optional[ThreadId]

    def __str__(self) -> str:
        return f"receiving {self.source or 'any'}"


@dataclass(frozen=True, slots=True)
class Picking:
    def __str__(self) -> str:
        return "picking"


@dataclass(frozen=True, slots=True)
class Ended:
    def __str__(self) -> str:
        return "ended"


DEAD, PICKING, ENDED = Dead(), Picking(), Ended()
RESULTS = ["plain", "sent", "delivered", "gone"]


@dataclass(frozen=True, slots=True)
class StateWord:
    version: int
    priority: int
    on: bool
    state: object

    def bits(self) -> int:
        return state_bits(self)

    def shows(self, who: ThreadId) -> bool:
        """Whether this word, which is that of the thread's number, says that the thread is present."""
        return self.version == who.version and not isinstance(self.state, Dead)

    def with_state(self, state: object, on: Optional[bool] = None) -> "StateWord":
        return StateWord(self.version, self.priority, self.on if on is None else on, state)

    def with_on(self, on: bool) -> "StateWord":
        return StateWord(self.version, self.priority, on, self.state)

    def runs(self) -> bool:
        return isinstance(self.state, Run)


def dead_word(version: int) -> StateWord:
    return StateWord(version, 0, False, DEAD)


@lru_cache(maxsize=100_000)
def state_bits(word: StateWord) -> int:
    state = word.state
    code, joined, any_, result, partner = 0, False, False, 0, None
    if isinstance(state, Run):
        code, result, partner = 1, RESULTS.index(state.result), state.sender
    elif isinstance(state, Sending):
        code, joined, partner = 2, state.joined, state.to
    elif isinstance(state, Receiving):
        code, any_, partner = 3, state.source is None, state.source
    elif isinstance(state, Picking):
        code, joined, any_ = 3, True, True
    elif isinstance(state, Ended):
        code = 4
    bits = code | word.on << 3 | joined << 4 | any_ << 5 | result << 6
    if partner is not None:
        bits |= partner.number << 8 | partner.version << 14
    return bits | word.version << 34 | word.priority << 54


@lru_cache(maxsize=100_000)
def read_state(bits: int) -> Optional[StateWord]:
    code, on, joined, any_ = bits & 7, bits >> 3 & 1, bits >> 4 & 1, bits >> 5 & 1
    result = RESULTS[bits >> 6 & 3]
    partner = ThreadId(bits >> 8 & 63, bits >> 14 & 0xF_FFFF)
    version, priority = bits >> 34 & 0xF_FFFF, bits >> 54 & 63
    state: object
    if code == 0:
        state = DEAD
    elif code == 1:
        state = Run(result, partner if result == "delivered" else None)
    elif code == 2:
        state = Sending(partner, bool(joined))
    elif code == 3 and any_:
        state = PICKING if joined else Receiving(None)
    elif code == 3:
        state = Receiving(partner)
    elif code == 4:
        state = ENDED
    else:
        return None
    word = StateWord(version, priority, bool(on), state)
    return word if is_state_word(word) and state_bits(word) == bits else None


def is_state_word(word: StateWord) -> bool:
    """Whether the fields go together."""
    state = word.state
    if isinstance(state, Dead):
        return word.priority == 0 and not word.on
    if word.version < 1 or (isinstance(state, Ended) and word.on):
        return False
    if isinstance(state, Run):
        return (state.result == "delivered") == (state.sender is not None) and is_partner(state.sender)
    if isinstance(state, Sending):
        return is_partner(state.to)
    return not isinstance(state, Receiving) or is_partner(state.source)


def is_partner(who: Optional[ThreadId]) -> bool:
    return who is None or who.version >= 1


# Lock words: 0 is free, else the number of the owning context plus one.


def lock_bits(owner: Optional[int]) -> int:
    return 0 if owner is None else owner + 1


def is_lock_word(bits: int) -> bool:
    return 0 <= bits <= CONTEXTS


# Context words.


@dataclass(frozen=True, slots=True)
class ContextWord:
    """The kind is empty, clean, holds or taken. Only a taken one has a carrier; an empty one has no version."""

    kind: str
    version: int = 0
    carrier: int = 0

    def bits(self) -> int:
        return KINDS.index(self.kind) | self.carrier << 2 | self.version << 6


KINDS = ["empty", "clean", "holds", "taken"]
EMPTY = 0


def read_context(bits: int) -> Optional[ContextWord]:
    word = ContextWord(KINDS[bits & 3], bits >> 6 & 0xF_FFFF, bits >> 2 & 15)
    if word.kind == "empty":
        fits = word.version == 0 and word.carrier == 0
    else:
        fits = word.version >= 1 and word.carrier <= (7 if word.kind == "taken" else 0)
    return word if fits and word.bits() == bits else None
