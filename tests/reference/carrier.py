"""A carrier: what it does next, and what an answer makes of it.

It runs its goal, the thread to which it was switched. Where a step finds a lock owned, it puts its context down and
runs the owner's context until that lock is released.
"""

from dataclasses import dataclass
from typing import Optional

from context import Goal
from steps import GIVEN, Holds, Lock, Owned, Taken, Took
from words import ContextWord, ThreadId, read_context


@dataclass
class Hand:
    context: int
    value: object


@dataclass(frozen=True)
class Help:
    """The context that is helped, and the lock that it shall release; any lock where none is named."""

    context: int
    lock: Optional[Lock]

    def __str__(self) -> str:
        return f"{self.context}/{self.lock or 'any'}"


# Moves.


@dataclass
class SectionMove:
    step: object

    def __str__(self) -> str:
        return str(self.step)


@dataclass(frozen=True)
class Look:
    context: int

    def __str__(self) -> str:
        return f"look {self.context}"


@dataclass(frozen=True)
class TakeContext:
    context: int
    old: int
    new: int

    def __str__(self) -> str:
        return f"take {self.context} {self.old} {self.new}"


@dataclass
class GiveContext:
    context: int
    new: int
    value: object

    def __str__(self) -> str:
        return f"give {self.context} {self.new}"


@dataclass(frozen=True)
class Stepped:
    """On, blocked, blockedby, missed, left, idle or replied, with what goes with it."""

    kind: str
    lock: Optional[Lock] = None
    context: int = 0
    carrier: int = 0
    id: Optional[ThreadId] = None
    serial: int = 0
    reply: object = None

    def __str__(self) -> str:
        match self.kind:
            case "blocked":
                return f"blocked {self.lock} {self.context}"
            case "blockedby":
                return f"blockedby {self.context}"
            case "missed":
                return f"missed {self.context} {self.carrier}"
            case "replied":
                return f"replied {self.id} {self.serial} {self.reply}"
        return self.kind


ON, LEFT, IDLE = Stepped("on"), Stepped("left"), Stepped("idle")


def missed(context: int, carrier: int) -> Stepped:
    return Stepped("missed", context=context, carrier=carrier)


class Carrier:
    def __init__(self, number: int, table: int):
        self.number, self.table = number, table
        self.goal: Optional[Goal] = None
        self.counted = False
        self.hand: Optional[Hand] = None
        self.help: Optional[Help] = None
        self.switching = False
        self.looked: Optional[int] = None
        self.starts = 0
        self.slice = False
        self.resched = False
        self.putting = False

    @property
    def own(self) -> int:
        return self.table + self.number

    def interrupted(self) -> bool:
        return not self.switching and (self.starts != 0 or self.slice or self.resched)

    def settled(self) -> bool:
        busy = self.goal is not None or self.hand is not None or self.switching or self.counted
        return not busy and self.starts == 0

    def hand_released(self) -> bool:
        """Whether the helped context, which is in hand, no longer holds what it is helped for."""
        held = [lock for lock in self.hand.value.holds() if lock is not None]
        return not held if self.help.lock is None else self.help.lock not in held

    def helped_in_hand(self) -> bool:
        return self.hand is not None and self.help is not None and self.help.context == self.hand.context

    def puts_down(self) -> bool:
        hand, is_own = self.hand, self.hand.context == self.own
        helped = self.helped_in_hand()
        if self.putting:
            return True
        if is_own and hand.value.switched() is not None:
            return True
        if helped and self.hand_released():
            return True
        if self.help is not None and not helped:
            return True
        is_thread = hand.context < self.table
        if is_thread and not helped and (self.goal is None or self.goal.id != hand.value.owner):
            return True
        return self.interrupted() and not is_own

    def next(self) -> object:
        if self.hand is not None:
            if not self.puts_down():
                return SectionMove(self.hand.value.ask())
            context = self.hand.value
            kind = "holds" if any(context.holds()) else "clean"
            return GiveContext(self.hand.context, ContextWord(kind, context.version).bits(), context)
        if self.interrupted() or (not self.switching and self.goal is None):
            self.switching, self.help, self.looked = True, None, None
        target = self.target()
        if self.looked is None:
            return Look(target)
        taken = ContextWord("taken", read_context(self.looked).version, self.number)
        return TakeContext(target, self.looked, taken.bits())

    def target(self) -> int:
        if self.help is not None:
            return self.help.context
        return self.own if self.switching else self.goal.id.number

    def target_is_goal(self) -> bool:
        return self.help is None and not self.switching

    def resume(self, move: object, answer: object) -> Stepped:
        if isinstance(move, Look):
            return self.after_look(move.context, read_context(answer.value))
        if isinstance(move, TakeContext):
            if isinstance(answer, Took):
                return self.after_take(move.context, answer.context)
            word = read_context(answer.found)
            self.looked = None
            return missed(move.context, word.carrier) if word.kind == "taken" else ON
        if isinstance(move, GiveContext):
            assert answer == GIVEN
            return self.after_give(move)
        return self.after_step(move.step, answer)

    def after_look(self, context: int, word: ContextWord) -> Stepped:
        helping, to_goal = self.help is not None, self.target_is_goal()
        stepped = missed(context, word.carrier) if word.kind == "taken" else ON
        if word.kind == "empty" or (to_goal and word.version != self.goal.id.version):
            if helping:
                self.help = None
            elif to_goal:
                self.goal = None
        elif word.kind == "taken" or (word.kind == "clean" and helping):
            self.help = None
        else:
            self.looked = word.bits()
        return stepped

    def after_take(self, number: int, context: object) -> Stepped:
        to_goal = self.target_is_goal()
        self.hand, self.looked = Hand(number, context), None
        if to_goal and context.asleep():
            context.wake()
        if to_goal and context.dead():
            self.goal = None
        if number == self.own and not context.has_switch():
            start = (self.starts & -self.starts).bit_length() - 1 if self.starts else None
            context.begin_switch(self.goal, self.counted, self.slice, start)
            self.slice = self.resched = False
            if start is not None:
                self.starts &= ~(1 << start)
        return ON

    def after_give(self, move: GiveContext) -> Stepped:
        stepped = ON
        helped_released = self.helped_in_hand() and self.hand_released()
        self.putting = False
        self.hand = None
        if move.context == self.own and move.value.switched() is not None:
            switched = move.value.switched()
            self.goal, self.counted, self.switching = switched.goal, switched.goal is not None, False
            move.value.end_switch()
            stepped = IDLE if switched.idle else ON
        if helped_released:
            self.help = None
        return stepped

    def after_step(self, step: object, answer: object) -> Stepped:
        context = self.hand.value
        is_goal = self.goal is not None and self.goal.id == context.owner
        ran = context.answer(answer)
        if isinstance(answer, Owned):
            self.help = Help(answer.owner, step.lock)
            return Stepped("blocked", lock=step.lock, context=answer.owner)
        if isinstance(answer, Holds):
            self.help = Help(answer.context, None)
            return Stepped("blockedby", context=answer.context)
        if isinstance(answer, Taken):
            return missed(answer.context, answer.carrier)
        match ran.kind:
            case "pushed":
                if not self.switching and ran.priority > self.goal.priority:
                    self.resched = True
                return ON
            case "left" | "dead":
                if is_goal:
                    self.goal = None
                return LEFT if ran.kind == "left" else ON
            case "replied":
                return Stepped("replied", id=context.owner, serial=ran.serial, reply=ran.reply)
        return ON

    def text(self) -> str:
        """All fields in one line."""

        def shown(value: object) -> str:
            return "-" if value is None else str(value)

        fields = [
            ("goal", shown(self.goal)),
            ("counted", int(self.counted)),
            ("hand", shown(self.hand.context if self.hand else None)),
            ("help", shown(self.help)),
            ("switching", int(self.switching)),
            ("looked", shown(self.looked)),
            ("starts", self.starts),
            ("slice", int(self.slice)),
            ("resched", int(self.resched)),
            ("putting", int(self.putting)),
        ]
        return f"c{self.number} " + " ".join(f"{name}={value}" for name, value in fields)
