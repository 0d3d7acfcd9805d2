"""Phases, replies, outcomes and entries of the history, with their texts."""

from dataclasses import dataclass
from typing import Optional

from words import Message, ThreadId


@dataclass(frozen=True, slots=True)
class Send:
    """The manner is plain, joined (a call) or reply."""

    to: ThreadId
    message: Message
    zero: bool
    manner: str

    def __str__(self) -> str:
        word = {"plain": "send", "joined": "call", "reply": "reply"}[self.manner]
        return f"{word} {self.to} {self.message}{' now' if self.zero else ''}"


@dataclass(frozen=True, slots=True)
class Receive:
    source: Optional[ThreadId]
    zero: bool

    def __str__(self) -> str:
        word = "wait" if self.source is None else f"receive {self.source}"
        return word + (" now" if self.zero else "")


@dataclass(frozen=True, slots=True)
class Create:
    program: int
    priority: int

    def __str__(self) -> str:
        return f"create {self.program} {self.priority}"


@dataclass(frozen=True, slots=True)
class Destroy:
    who: ThreadId

    def __str__(self) -> str:
        return f"destroy {self.who}"


@dataclass(frozen=True, slots=True)
class End:
    def __str__(self) -> str:
        return "end"


@dataclass(frozen=True, slots=True)
class Work:
    """No phase: so many loads of the thread's own state word."""

    count: int


@dataclass(frozen=True, slots=True)
class Gone:
    """An event that goes on with the last call: a thread that waits for one that isn't there is freed."""

    def __str__(self) -> str:
        return "gone"


@dataclass(frozen=True, slots=True)
class Pick:
    """An event that goes on with a reply: its caller takes the next sender, or begins to wait."""

    def __str__(self) -> str:
        return "pick"


END, GONE, PICK = End(), Gone(), Pick()


def is_phase(act: object) -> bool:
    return not isinstance(act, (Gone, Pick))


@dataclass(frozen=True, slots=True)
class Found:
    """What a number shows. The status is its text."""

    id: ThreadId
    status: str

    def __str__(self) -> str:
        return f"{self.id} {self.status}"


@dataclass(frozen=True, slots=True)
class Told:
    """A reply or an outcome: the kind is its first word."""

    kind: str
    id: Optional[ThreadId] = None
    message: Optional[Message] = None
    found: Optional[Found] = None
    alive: int = 0
    worn: int = 0

    def __str__(self) -> str:
        if self.kind == "full":
            return f"full alive {self.alive} worn {self.worn}"
        rest = [str(part) for part in (self.id, self.message, self.found) if part is not None]
        return " ".join([self.kind] + rest)


SENT, GOT_GONE, KILLED, NOBODY, OWN = (Told(k) for k in ("sent", "gone", "killed", "nobody", "own"))
PASSED, WAITS, ENDED_, FREED = (Told(k) for k in ("passed", "waits", "ended", "freed"))


def got(sender: ThreadId, message: Message) -> Told:
    return Told("got", id=sender, message=message)


def took(sender: ThreadId, message: Message) -> Told:
    return Told("took", id=sender, message=message)


@dataclass(frozen=True, slots=True)
class Point:
    """What a deciding step adds to the history, but for the serial."""

    who: ThreadId
    act: object
    outcome: Told


@dataclass(frozen=True, slots=True)
class Entry:
    who: ThreadId
    serial: int
    act: object
    outcome: Told

    def __str__(self) -> str:
        if isinstance(self.act, (End, Gone)):
            return f"{self.who} {self.serial} {self.act}"
        return f"{self.who} {self.serial} {self.act} -> {self.outcome}"
