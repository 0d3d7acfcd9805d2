"""Contexts: what runs. A thread's context makes the calls of its program; a carrier's own makes its switches."""

from dataclasses import dataclass
from typing import Optional

import calls
from calls import Point, Told, Work
from sections import ReceiveSection, Section, section_for, word_in
from steps import READY, WON, Acquire, Got, Load, Lock, ReadyLists, Release, exchange_state, is_vain, load_state
from words import ENDED, MAX_COUNT, Message, Receiving, Run, Sending, StateWord, ThreadId


@dataclass(frozen=True, slots=True)
class Ran:
    """On, again, pushed, left, dead or replied."""

    kind: str
    priority: int = 0
    serial: int = 0
    reply: Optional[Told] = None


ON, AGAIN, LEFT, DEAD = (Ran(k) for k in ("on", "again", "left", "dead"))


@dataclass(frozen=True, slots=True)
class Goal:
    id: ThreadId
    priority: int

    def __str__(self) -> str:
        return f"{self.id}@{self.priority}"


class ThreadContext:
    """A thread's. It stands between two calls, in a section, or at a location of its own."""

    def __init__(self, script, who: ThreadId, program: int, priority: int):
        self.id, self.table = who, script.table
        self.own = StateWord(who.version, priority, True, Run())
        self.position = script.start(program, who)
        self.at = "Between"
        self.section: Optional[Section] = None
        self.reply: Optional[Told] = None  # to the call before
        self.work = 0
        self.serial = 0
        self.done = 0

    @property
    def owner(self) -> ThreadId:
        return self.id

    @property
    def version(self) -> int:
        return self.id.version

    def place(self) -> str:
        return self.section.place() if self.at == "Section" else f"Thread.{self.at}"

    def holds(self) -> list:
        return self.section.holds() if self.at == "Section" else [None, None, None]

    def left(self, lock: Lock) -> int:
        return self.section.left(lock)

    def asleep(self) -> bool:
        return self.at == "Asleep"

    def dead(self) -> bool:
        return self.at == "Dead"

    def wake(self) -> None:
        assert self.at == "Asleep"
        self.at = "LookAgain"

    def begin(self) -> None:
        """Begins what comes next in the program: a call, with the next serial, or work."""
        phase = self.position.next(self.reply)
        self.reply = None
        if isinstance(phase, Work):
            self.at, self.work = "Work", phase.count
            return
        self.serial += 1
        self.done = 0
        if phase == calls.END:
            self.at = "CommitEnd"
        else:
            self.at, self.section = "Section", section_for(self.id, self.own, phase, self.table)

    def ask(self) -> object:
        if self.at == "Between":
            self.begin()
        match self.at:
            case "Section":
                return self.section.ask()
            case "FallAsleep":
                return exchange_state(self.id.number, self.own, self.own.with_on(False))
            case "LookAgain" | "Work":
                return load_state(self.id.number)
            case "LoadMail":
                return Load(("mail", self.id.number))
            case "CommitEnd":
                return exchange_state(self.id.number, self.own, self.own.with_state(ENDED, False))
        raise AssertionError(self.at)

    def is_call_step(self) -> bool:
        """Whether the step that is due belongs to a call. A load of work doesn't."""
        return self.at != "Work"

    def point(self, caller_word: StateWord, answer: object) -> Optional[Point]:
        if self.at == "Section":
            return self.section.point(caller_word, answer)
        if self.at == "CommitEnd" and answer == WON:
            return Point(self.id, calls.END, calls.ENDED_)
        return None

    def answer(self, answer: object) -> Ran:
        if is_vain(answer):
            return AGAIN
        if self.is_call_step():
            self.done = min(self.done + 1, MAX_COUNT)
        match self.at:
            case "Section":
                return self.after_section(answer)
            case "FallAsleep":
                if answer != WON:
                    return self.to("LookAgain")
                self.own = self.own.with_on(False)
                self.at = "Asleep"
                return LEFT
            case "LookAgain":
                return self.look(word_in(answer))
            case "LoadMail":
                return self.ends(calls.got(self.own.state.sender, Message.of(answer.value)))
            case "Work":
                if not word_in(answer).shows(self.id):
                    return self.die()
                self.work -= 1
                return self.to("Work" if self.work else "Between")
            case "CommitEnd":
                if answer != WON:
                    return self.die()
                self.own = self.own.with_state(ENDED, False)
                self.at = "Ended"
                return LEFT
        raise AssertionError(self.at)

    def to(self, at: str) -> Ran:
        self.at = at
        return ON

    def die(self) -> Ran:
        self.at, self.section = "Dead", None
        return DEAD

    def ends(self, reply: Told) -> Ran:
        self.at, self.section, self.reply = "Between", None, reply
        return Ran("replied", serial=self.serial, reply=reply)

    def look(self, word: StateWord) -> Ran:
        if not word.shows(self.id):
            return self.die()
        self.own = word
        if isinstance(word.state, (Sending, Receiving)):
            return self.to("FallAsleep")
        assert isinstance(word.state, Run) and word.on
        match word.state.result:
            case "sent":
                return self.ends(calls.SENT)
            case "gone":
                return self.ends(calls.GOT_GONE)
            case "delivered":
                return self.to("LoadMail")
        raise AssertionError(word)

    def after_section(self, answer: object) -> Ran:
        went = self.section.answer(answer)
        self.own = self.section.own
        match went.kind:
            case "on":
                return ON
            case "pushed":
                return Ran("pushed", priority=went.priority)
            case "waits":
                self.section = None
                return self.to("FallAsleep")
            case "picks":
                self.section = ReceiveSection(self.id, self.own, calls.Receive(None, False), picks=True)
                return ON
            case "ends":
                return self.ends(went.reply)
            case "dead":
                return self.die()
        raise AssertionError(went)


@dataclass(frozen=True, slots=True)
class Switched:
    goal: Optional[Goal]
    idle: bool


class Switch:
    """It gives the carrier the first thread of the highest ready list, under the ready lock."""

    def __init__(self, goal: Optional[Goal], counted: bool, back: bool, start: Optional[int]):
        self.goal, self.counted, self.back, self.start = goal, counted, back, start
        self.at = "AcquireReady"
        self.lists: Optional[ReadyLists] = None
        self.returns: Optional[Goal] = None  # the thread that goes back into its list
        self.started: Optional[Goal] = None
        self.switched: Optional[Switched] = None

    def ask(self) -> object:
        match self.at:
            case "AcquireReady":
                return Acquire(READY)
            case "LoadGoal":
                return load_state(self.goal.id.number)
            case "LoadStart":
                return load_state(self.start)
            case "ReleaseReady":
                return Release(READY, self.outcome()[0])
        raise AssertionError(self.at)

    def outcome(self) -> tuple:
        """The lists after the switch, and what it has come to."""
        lists = self.lists.copy()
        if self.counted:
            assert lists.running > 0
            lists.running -= 1
        if self.returns is not None:
            put = lists.with_last if self.back else lists.with_first
            lists = put(self.returns.id, self.returns.priority)
        if self.started is not None:
            lists = lists.with_last(self.started.id, self.started.priority)
        lists, first, priority = lists.pop_highest()
        if first is None:
            return lists, Switched(None, lists.running == 0)
        lists = lists.copy()
        lists.running += 1
        return lists, Switched(Goal(first, priority), False)

    def answer(self, answer: object) -> None:
        match self.at:
            case "AcquireReady":
                assert isinstance(answer, Got)
                self.lists = answer.goods
                if self.goal is not None:
                    self.at = "LoadGoal"
                else:
                    self.at = "ReleaseReady" if self.start is None else "LoadStart"
            case "LoadGoal":
                word = word_in(answer)
                if word.shows(self.goal.id) and word.on:
                    self.returns = Goal(self.goal.id, word.priority)
                self.at = "ReleaseReady" if self.start is None else "LoadStart"
            case "LoadStart":
                word, who = word_in(answer), ThreadId(self.start, 1)
                if word.shows(who) and word.on:
                    self.started = Goal(who, word.priority)
                self.at = "ReleaseReady"
            case "ReleaseReady":
                self.switched = self.outcome()[1]
                self.lists = None
                self.at = "Finished"

    def left(self) -> int:
        return {"LoadGoal": 2 + (self.start is not None), "LoadStart": 2, "ReleaseReady": 1}[self.at]


class CarrierContext:
    """A carrier's own. It makes steps while a switch stands in it that isn't finished."""

    version = 1

    def __init__(self, carrier: int):
        self.carrier = carrier
        self.serial = 0
        self.done = 0
        self.switch: Optional[Switch] = None

    @property
    def owner(self) -> str:
        return f"c{self.carrier}"

    def place(self) -> str:
        return f"Switch.{self.switch.at}"

    def begin_switch(self, goal: Optional[Goal], counted: bool, back: bool, start: Optional[int]) -> None:
        assert self.switch is None
        self.serial = min(self.serial + 1, MAX_COUNT)
        self.done = 0
        self.switch = Switch(goal, counted, back, start)

    def has_switch(self) -> bool:
        return self.switch is not None

    def switched(self) -> Optional[Switched]:
        return self.switch.switched if self.switch is not None else None

    def end_switch(self) -> None:
        self.switch = None

    def asleep(self) -> bool:
        return False

    def dead(self) -> bool:
        return False

    def holds(self) -> list:
        held = self.switch is not None and self.switch.lists is not None
        return [None, None, READY if held else None]

    def left(self, lock: Lock) -> int:
        return self.switch.left()

    def ask(self) -> object:
        return self.switch.ask()

    def is_call_step(self) -> bool:
        return True

    def point(self, caller_word: Optional[StateWord], answer: object) -> Optional[Point]:
        return None

    def answer(self, answer: object) -> Ran:
        if is_vain(answer):
            return AGAIN
        if self.serial < MAX_COUNT:
            self.done += 1
        self.switch.answer(answer)
        return ON
