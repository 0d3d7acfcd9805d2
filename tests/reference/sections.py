"""The critical sections: send, receive, pick, create and destroy.

A section is a value that stands at a location. `ask` gives the atomic step of the location, without a change of the
section. `answer` goes on by the answer, and tells what came of it. `point` says what the step adds to the history,
and is asked before `answer`. `own` is the caller's state word as the section knows it.
"""

from dataclasses import dataclass
from typing import Optional

import calls
from calls import Create, Destroy, Found, Point, Receive, Send, Told
from steps import (
    READY,
    TABLE,
    THREAD_LOCKS,
    WON,
    Acquire,
    Got,
    Place,
    Release,
    Remove,
    SenderEntry,
    Senders,
    Store,
    exchange_state,
    is_vain,
    load_state,
)
from words import (
    PICKING,
    Picking,
    Receiving,
    Run,
    Sending,
    StateWord,
    ThreadId,
    dead_word,
    read_state,
)


# What a step of a section came to.


@dataclass(frozen=True, slots=True)
class Went:
    """On, again, pushed, waits, picks, ends or dead."""

    kind: str
    reply: Optional[Told] = None
    priority: int = 0


ON, AGAIN, WAITS, PICKS, CALLER_DEAD = (Went(k) for k in ("on", "again", "waits", "picks", "dead"))


def ends(reply: Told) -> Went:
    return Went("ends", reply=reply)


def pushed(priority: int) -> Went:
    return Went("pushed", priority=priority)


def found_of(number: int, word: StateWord) -> Found:
    return Found(ThreadId(number, word.version), str(word.state))


def word_in(answer: object) -> StateWord:
    word = read_state(answer.value)
    assert word is not None
    return word


class Section:
    name = ""
    first = ""
    first_own = ""  # where the call names its own caller

    def __init__(self, caller: ThreadId, own: StateWord, phase: object):
        self.caller, self.own, self.phase = caller, own, phase
        self.hand: dict = {}  # by lock, what it guards
        self.done = 0
        self.at = self.first

    def place(self) -> str:
        return f"{self.name}.{self.at}"

    def holds(self) -> list:
        """The locks held, by rank."""
        held: list = [None, None, None]
        for lock in self.hand:
            held[lock.rank] = lock
        return held

    def answer(self, answer: object) -> Went:
        if is_vain(answer):
            return AGAIN
        self.done += 1
        return self.go(answer)

    def got(self, lock, answer: object, at: str) -> Went:
        assert isinstance(answer, Got)
        self.hand[lock] = answer.goods
        return self.to(at)

    def to(self, at: str) -> Went:
        self.at = at
        return ON

    def told(self, act: object, outcome: Told) -> Point:
        return Point(self.caller, act, outcome)

    def ask(self) -> object:
        raise NotImplementedError

    def go(self, answer: object) -> Went:
        raise NotImplementedError

    def point(self, caller_word: StateWord, answer: object) -> Optional[Point]:
        raise NotImplementedError

    def left(self, lock) -> int:
        raise NotImplementedError


class SendSection(Section):
    """A send, a call (joined) or a reply, under the receiver's lock."""

    name = "Send"
    first = "AcquireReceiver"

    def __init__(self, caller: ThreadId, own: StateWord, phase: Send):
        super().__init__(caller, own, phase)
        self.to_id, self.lock = phase.to, THREAD_LOCKS[phase.to.number]
        self.loaded: Optional[StateWord] = None  # the receiver's word, as it was loaded last
        self.refusal: Optional[Told] = None
        self.push_priority = 0
        if phase.to == caller:
            self.at = "LoadCaller"

    def passed_own(self) -> StateWord:
        state = {"plain": Run("sent"), "joined": Receiving(self.to_id), "reply": PICKING}[self.phase.manner]
        return self.own.with_state(state, True)

    def woken(self) -> StateWord:
        return self.loaded.with_state(Run("delivered", self.caller), True)

    def queued_own(self) -> StateWord:
        return self.own.with_state(Sending(self.to_id, self.phase.manner == "joined"))

    def ask(self) -> object:
        number = self.to_id.number
        match self.at:
            case "LoadCaller" | "CheckCaller":
                return load_state(self.caller.number)
            case "AcquireReceiver":
                return Acquire(self.lock)
            case "LoadReceiver" | "ReloadReceiver":
                return load_state(number)
            case "StoreMail":
                return Store(("mail", number), self.phase.message.packed())
            case "CommitPass":
                return exchange_state(self.caller.number, self.own, self.passed_own())
            case "WakeReceiver":
                return exchange_state(number, self.loaded, self.woken())
            case "AcquireReady":
                return Acquire(READY)
            case "PushReceiver":
                return Release(READY, self.hand[READY].with_last(self.to_id, self.push_priority))
            case "CommitWait":
                return exchange_state(self.caller.number, self.own, self.queued_own())
            case "ReleasePassed" | "ReleaseDead" | "ReleaseRefused":
                return Release(self.lock, self.hand[self.lock])
            case "ReleaseQueued":
                entry = SenderEntry(self.caller, self.phase.message)
                return Release(self.lock, Senders(self.hand[self.lock].entries + [entry]))
        raise AssertionError(self.at)

    def receives(self, word: StateWord) -> bool:
        """Whether the receiver, whose word this is, takes the message at once."""
        if isinstance(word.state, Receiving):
            return word.state.source in (None, self.caller)
        return isinstance(word.state, Picking) and self.phase.zero

    def refused(self, word: StateWord) -> Optional[Told]:
        """The refusal for which the receiver's word gives a reason."""
        if not word.shows(self.to_id):
            return Told("absent", found=found_of(self.to_id.number, word))
        if not self.receives(word) and self.phase.zero:
            return Told("busy", found=found_of(self.to_id.number, word))
        return None

    def go(self, answer: object) -> Went:
        match self.at:
            case "LoadCaller":
                self.at = "Over"
                return ends(calls.OWN) if word_in(answer).shows(self.caller) else CALLER_DEAD
            case "AcquireReceiver":
                return self.got(self.lock, answer, "LoadReceiver")
            case "LoadReceiver":
                self.loaded = word_in(answer)
                self.refusal = self.refused(self.loaded)
                if self.refusal is not None:
                    return self.to("ReleaseRefused")
                return self.to("StoreMail" if self.receives(self.loaded) else "CommitWait")
            case "StoreMail":
                return self.to("CommitPass")
            case "CommitPass":
                if answer != WON:
                    return self.to("ReleaseDead")
                self.own = self.passed_own()
                return self.to("WakeReceiver")
            case "WakeReceiver":
                if answer != WON:
                    return self.to("ReloadReceiver")
                self.push_priority = self.loaded.priority
                return self.to("ReleasePassed" if self.loaded.on else "AcquireReady")
            case "ReloadReceiver":
                self.loaded = word_in(answer)
                return self.to("WakeReceiver")
            case "AcquireReady":
                return self.got(READY, answer, "PushReceiver")
            case "PushReceiver":
                del self.hand[READY]
                self.at = "ReleasePassed"
                return pushed(self.push_priority)
            case "CommitWait":
                if answer != WON:
                    return self.to("ReleaseDead")
                self.own = self.queued_own()
                return self.to("ReleaseQueued")
            case "CheckCaller":
                self.at = "Over"
                return ends(self.refusal) if word_in(answer).shows(self.caller) else CALLER_DEAD
        del self.hand[self.lock]
        at, self.at = self.at, "Over"
        match at:
            case "ReleasePassed":
                return {"plain": ends(calls.SENT), "joined": WAITS, "reply": PICKS}[self.phase.manner]
            case "ReleaseDead":
                return CALLER_DEAD
            case "ReleaseRefused":
                return self.to("CheckCaller")
            case "ReleaseQueued":
                return WAITS
        raise AssertionError(at)

    def point(self, caller_word: StateWord, answer: object) -> Optional[Point]:
        match self.at:
            case "LoadCaller":
                return self.told(self.phase, calls.OWN) if word_in(answer).shows(self.caller) else None
            case "LoadReceiver":
                refusal = self.refused(word_in(answer))
                return self.told(self.phase, refusal) if refusal and caller_word.shows(self.caller) else None
            case "CommitPass":
                return self.told(self.phase, calls.PASSED) if answer == WON else None
            case "CommitWait":
                return self.told(self.phase, calls.WAITS) if answer == WON else None
        return None

    def left(self, lock) -> int:
        if lock == READY:
            return 1
        was_on = self.loaded is not None and self.loaded.on
        return {
            "LoadReceiver": 7,
            "StoreMail": 8 if was_on else 6,
            "CommitPass": 7 if was_on else 5,
            "WakeReceiver": 6,
            "ReloadReceiver": 5,
            "AcquireReady": 3,
            "PushReceiver": 2,
            "CommitWait": 2,
        }.get(self.at, 1)


class ReceiveSection(Section):
    """A receive under the caller's own lock, or the pick that follows a reply."""

    name = "Receive"
    first = "AcquireOwn"

    def __init__(self, caller: ThreadId, own: StateWord, phase: Receive, picks: bool = False):
        super().__init__(caller, own, phase)
        self.lock, self.picks = THREAD_LOCKS[caller.number], picks
        self.dropped: set = set()  # places in the queue whose senders don't wait any more
        self.entry = None  # the candidate that is tried
        self.loaded: Optional[StateWord] = None  # its sender's word, as it was loaded last
        self.freed: Optional[StateWord] = None  # the same, before its message was taken
        if picks:
            self.name = "Pick"
        elif phase.source == caller:
            self.at = "LoadCaller"

    def candidates(self) -> list:
        """The places in the queue of the entries that match and weren't dropped."""
        entries = self.hand[self.lock].entries
        return [
            place
            for place, entry in enumerate(entries)
            if self.phase.source in (None, entry.who) and place not in self.dropped
        ]

    def waits_for_caller(self, word: StateWord, entry) -> bool:
        return word.shows(entry.who) and isinstance(word.state, Sending) and word.state.to == self.caller

    def freed_word(self) -> StateWord:
        if self.loaded.state.joined:
            return self.loaded.with_state(Receiving(self.caller))
        return self.loaded.with_state(Run("sent"), True)

    def needs_push(self, before: StateWord) -> bool:
        return not before.state.joined and not before.on

    def own_run(self, result: str) -> StateWord:
        return self.own.with_state(Run(result), True)

    def ask(self) -> object:
        me = self.caller.number
        match self.at:
            case "LoadCaller" | "LoadOwn" | "LoadPicking":
                return load_state(me)
            case "AcquireOwn":
                return Acquire(self.lock)
            case "LoadSender" | "LoadNext" | "LoadFreed":
                return load_state(self.entry.who.number)
            case "FreeSender" | "FreeNext":
                return exchange_state(self.entry.who.number, self.loaded, self.freed_word())
            case "EndPick":
                return exchange_state(me, self.own, self.own_run("plain"))
            case "SettlePick":
                return exchange_state(me, self.own, self.own.with_state(Receiving(None), True))
            case "AcquireReady":
                return Acquire(READY)
            case "PushFreed":
                lists = self.hand[READY]
                if self.pushes_freed():
                    lists = lists.with_last(self.entry.who, self.loaded.priority)
                return Release(READY, lists)
            case "CommitWait":
                return exchange_state(me, self.own, self.own.with_state(Receiving(self.phase.source)))
            case "LoadPartner":
                return load_state(self.phase.source.number)
            case "CommitGone":
                return exchange_state(me, self.own, self.own_run("gone"))
            case "ReleaseTaken":
                return Release(self.lock, self.hand[self.lock].without(self.entry.who))
            case "ReleaseWaits" | "ReleaseDelivered" | "ReleaseGone" | "ReleaseNobody" | "ReleaseDead":
                return Release(self.lock, self.hand[self.lock])
        raise AssertionError(self.at)

    def pushes_freed(self) -> bool:
        return self.loaded.shows(self.entry.who) and self.loaded.runs()

    def scan(self, dropping: bool) -> tuple:
        """The location after a look at the queue, with the place of the next candidate. With `dropping` the entry
        at hand is passed over."""
        left = self.candidates()
        if dropping:
            left = left[1:]
        if left:
            return ("LoadNext" if self.picks else "LoadSender"), left[0]
        if self.picks:
            return "SettlePick", None
        return ("ReleaseNobody" if self.phase.zero else "CommitWait"), None

    def go_scan(self, dropping: bool) -> Went:
        at, place = self.scan(dropping)
        if dropping:
            self.dropped.add(self.candidates()[0])
        self.entry = None if place is None else self.hand[self.lock].entries[place]
        return self.to(at)

    def go(self, answer: object) -> Went:
        match self.at:
            case "LoadCaller":
                self.at = "Over"
                return ends(calls.OWN) if word_in(answer).shows(self.caller) else CALLER_DEAD
            case "AcquireOwn":
                return self.got(self.lock, answer, "LoadPicking" if self.picks else "LoadOwn")
            case "LoadOwn":
                return self.go_scan(False) if word_in(answer).shows(self.caller) else self.to("ReleaseDead")
            case "LoadPicking":
                word = word_in(answer)
                if not word.shows(self.caller):
                    return self.to("ReleaseDead")
                if isinstance(word.state, Picking):
                    return self.go_scan(False)
                assert word.runs() and word.state.result == "delivered"
                return self.to("ReleaseDelivered")
            case "LoadSender" | "LoadNext":
                self.loaded = word_in(answer)
                if not self.waits_for_caller(self.loaded, self.entry):
                    return self.go_scan(True)
                return self.to("FreeNext" if self.picks else "FreeSender")
            case "FreeSender":
                if answer != WON:
                    return self.to("LoadSender")
                self.freed = self.loaded
                return self.to("AcquireReady" if self.needs_push(self.freed) else "ReleaseTaken")
            case "FreeNext":
                self.freed = self.loaded
                return self.to("EndPick" if answer == WON else "LoadNext")
            case "EndPick":
                assert answer == WON
                self.own = self.own_run("plain")
                return self.to("AcquireReady" if self.needs_push(self.freed) else "ReleaseTaken")
            case "SettlePick":
                assert answer == WON
                self.own = self.own.with_state(Receiving(None), True)
                return self.to("ReleaseWaits")
            case "AcquireReady":
                return self.got(READY, answer, "LoadFreed")
            case "LoadFreed":
                self.loaded = word_in(answer)
                return self.to("PushFreed")
            case "PushFreed":
                del self.hand[READY]
                self.at = "ReleaseTaken"
                return pushed(self.loaded.priority) if self.pushes_freed() else ON
            case "CommitWait":
                assert answer == WON
                self.own = self.own.with_state(Receiving(self.phase.source))
                return self.to("ReleaseWaits" if self.phase.source is None else "LoadPartner")
            case "LoadPartner":
                there = word_in(answer).shows(self.phase.source)
                return self.to("ReleaseWaits" if there else "CommitGone")
            case "CommitGone":
                assert answer == WON
                self.own = self.own_run("gone")
                return self.to("ReleaseGone")
        del self.hand[self.lock]
        at, self.at = self.at, "Over"
        match at:
            case "ReleaseTaken":
                return ends(calls.got(self.entry.who, self.entry.message))
            case "ReleaseWaits" | "ReleaseDelivered":
                return WAITS
            case "ReleaseGone":
                return ends(calls.GOT_GONE)
            case "ReleaseNobody":
                return ends(calls.NOBODY)
            case "ReleaseDead":
                return CALLER_DEAD
        raise AssertionError(at)

    def point(self, caller_word: StateWord, answer: object) -> Optional[Point]:
        act = calls.PICK if self.picks else self.phase
        match self.at:
            case "LoadCaller":
                return self.told(act, calls.OWN) if word_in(answer).shows(self.caller) else None
            case "LoadOwn":
                alive = word_in(answer).shows(self.caller)
                return self.told(act, calls.NOBODY) if alive and self.scan(False)[0] == "ReleaseNobody" else None
            case "LoadSender":
                dropped = not self.waits_for_caller(word_in(answer), self.entry)
                nobody = dropped and self.scan(True)[0] == "ReleaseNobody"
                return self.told(act, calls.NOBODY) if nobody else None
            case "FreeSender" | "FreeNext":
                return self.told(act, calls.took(self.entry.who, self.entry.message)) if answer == WON else None
            case "CommitWait" | "SettlePick":
                return self.told(act, calls.WAITS)
            case "LoadPartner":
                there = word_in(answer).shows(self.phase.source)
                return None if there else self.told(calls.GONE, calls.FREED)
        return None

    def left(self, lock) -> int:
        if lock == READY:
            return 2 if self.at == "LoadFreed" else 1
        m = len(self.candidates())
        closed = self.phase.source is not None
        match self.at:
            case "LoadOwn":
                return m + 6 if m else 2 if self.phase.zero else 5 if closed else 3
            case "LoadPicking":
                return m + 7 if m else 3
            case "LoadSender":
                return m + 5
            case "FreeSender" | "LoadNext":
                return m + 6
            case "FreeNext":
                return m + 7
            case "EndPick":
                return 5
            case "AcquireReady":
                return 4
            case "LoadFreed" | "LoadPartner":
                return 3
            case "PushFreed" | "CommitGone" | "SettlePick":
                return 2
            case "CommitWait":
                return 4 if closed else 2
        return 1


class CreateSection(Section):
    """A create, under the table lock."""

    name = "Create"
    first = "AcquireTable"

    def __init__(self, caller: ThreadId, own: StateWord, phase: Create):
        super().__init__(caller, own, phase)
        self.id: Optional[ThreadId] = None
        self.full: Optional[Told] = None

    def ask(self) -> object:
        match self.at:
            case "AcquireTable":
                return Acquire(TABLE)
            case "LoadCaller":
                return load_state(self.caller.number)
            case "PlaceContext":
                return Place(self.id, self.phase.program, self.phase.priority)
            case "CommitCreate":
                new = StateWord(self.id.version, self.phase.priority, True, Run())
                return exchange_state(self.id.number, dead_word(self.id.version - 1), new)
            case "AcquireReady":
                return Acquire(READY)
            case "PushCreated":
                return Release(READY, self.hand[READY].with_last(self.id, self.phase.priority))
            case "ReleaseMade":
                numbers = self.hand[TABLE].copy()
                numbers.versions[self.id.number], numbers.present[self.id.number] = self.id.version, True
                return Release(TABLE, numbers)
            case "ReleaseDead" | "ReleaseFull":
                return Release(TABLE, self.hand[TABLE])
        raise AssertionError(self.at)

    def fullness(self) -> Optional[Told]:
        numbers = self.hand[TABLE]
        if numbers.lowest_free() is not None:
            return None
        return Told("full", alive=numbers.alive(), worn=numbers.worn())

    def go(self, answer: object) -> Went:
        match self.at:
            case "AcquireTable":
                return self.got(TABLE, answer, "LoadCaller")
            case "LoadCaller":
                if not word_in(answer).shows(self.caller):
                    return self.to("ReleaseDead")
                self.full = self.fullness()
                if self.full is not None:
                    return self.to("ReleaseFull")
                numbers = self.hand[TABLE]
                number = numbers.lowest_free()
                self.id = ThreadId(number, numbers.versions[number] + 1)
                return self.to("PlaceContext")
            case "PlaceContext":
                return self.to("CommitCreate")
            case "CommitCreate":
                assert answer == WON
                return self.to("AcquireReady")
            case "AcquireReady":
                return self.got(READY, answer, "PushCreated")
            case "PushCreated":
                del self.hand[READY]
                self.at = "ReleaseMade"
                return pushed(self.phase.priority)
        del self.hand[TABLE]
        at, self.at = self.at, "Over"
        match at:
            case "ReleaseMade":
                return ends(Told("made", id=self.id))
            case "ReleaseFull":
                return ends(self.full)
            case "ReleaseDead":
                return CALLER_DEAD
        raise AssertionError(at)

    def point(self, caller_word: StateWord, answer: object) -> Optional[Point]:
        if self.at == "LoadCaller" and word_in(answer).shows(self.caller):
            full = self.fullness()
            return self.told(self.phase, full) if full is not None else None
        if self.at == "CommitCreate":
            return self.told(self.phase, Told("made", id=self.id))
        return None

    def left(self, lock) -> int:
        if lock == READY:
            return 1
        lengths = {"LoadCaller": 6, "PlaceContext": 5, "CommitCreate": 4, "AcquireReady": 3, "PushCreated": 2}
        return lengths.get(self.at, 1)


class DestroySection(Section):
    """A destroy, under the table lock: the victim's lock first, then each other number's lock in turn."""

    name = "Destroy"
    first = "AcquireTable"

    def __init__(self, caller: ThreadId, own: StateWord, phase: Destroy, count: int):
        super().__init__(caller, own, phase)
        self.who, self.lock, self.count = phase.who, THREAD_LOCKS[phase.who.number], count
        self.loaded: Optional[StateWord] = None  # the word that was loaded last
        self.visited: Optional[int] = None
        self.absent: Optional[Told] = None
        if phase.who == caller:
            self.at = "LoadOwn"

    def others(self) -> list:
        return [number for number in range(self.count) if number != self.who.number]

    def first_sender(self):
        return self.hand[self.lock].entries[0]

    def gone_word(self) -> StateWord:
        return self.loaded.with_state(Run("gone"), True)

    def ask(self) -> object:
        victim = self.who.number
        match self.at:
            case "LoadOwn" | "LoadCaller":
                return load_state(self.caller.number)
            case "AcquireTable":
                return Acquire(TABLE)
            case "AcquireVictimLock":
                return Acquire(self.lock)
            case "LoadVictim":
                return load_state(victim)
            case "CommitKill":
                return exchange_state(victim, self.loaded, dead_word(self.who.version))
            case "LoadSender":
                return load_state(self.first_sender().who.number)
            case "FreeSender":
                return exchange_state(self.first_sender().who.number, self.loaded, self.gone_word())
            case "AcquireReadyForSender" | "AcquireReadyForVictim" | "AcquireReadyForVisited":
                return Acquire(READY)
            case "PushSender":
                return Release(READY, self.hand[READY].with_last(self.first_sender().who, self.loaded.priority))
            case "ReleaseVictimLock":
                return Release(self.lock, Senders())
            case "UnlistVictim":
                return Release(READY, self.hand[READY].without(self.who))
            case "RemoveContext":
                return Remove(self.who)
            case "AcquireVisitedLock":
                return Acquire(THREAD_LOCKS[self.visited])
            case "LoadVisited":
                return load_state(self.visited)
            case "FreeVisited":
                return exchange_state(self.visited, self.loaded, self.gone_word())
            case "PushVisited":
                return Release(READY, self.hand[READY].with_last(self.visited_id(), self.loaded.priority))
            case "ReleaseVisitedLock":
                lock = THREAD_LOCKS[self.visited]
                return Release(lock, self.hand[lock].without(self.who))
            case "ReleaseVictimLockAbsent":
                return Release(self.lock, self.hand[self.lock])
            case "ReleaseKilled":
                numbers = self.hand[TABLE].copy()
                numbers.present[victim] = False
                return Release(TABLE, numbers)
            case "ReleaseAbsent" | "ReleaseDead":
                return Release(TABLE, self.hand[TABLE])
        raise AssertionError(self.at)

    def visited_id(self) -> ThreadId:
        return ThreadId(self.visited, self.loaded.version)

    def next_sender(self) -> str:
        return "LoadSender" if self.hand[self.lock].entries else "ReleaseVictimLock"

    def drop_sender(self) -> str:
        self.hand[self.lock] = Senders(self.hand[self.lock].entries[1:])
        return self.next_sender()

    def visit_after(self, number: int) -> Went:
        later = [other for other in self.others() if other > number]
        self.visited = later[0] if later else None
        return self.to("AcquireVisitedLock" if later else "ReleaseKilled")

    def waits_for_victim(self, word: StateWord) -> bool:
        return isinstance(word.state, Receiving) and word.state.source == self.who

    def go(self, answer: object) -> Went:
        match self.at:
            case "LoadOwn":
                self.at = "Over"
                return ends(calls.OWN) if word_in(answer).shows(self.caller) else CALLER_DEAD
            case "AcquireTable":
                return self.got(TABLE, answer, "LoadCaller")
            case "LoadCaller":
                return self.to("AcquireVictimLock" if word_in(answer).shows(self.caller) else "ReleaseDead")
            case "AcquireVictimLock":
                return self.got(self.lock, answer, "LoadVictim")
            case "LoadVictim":
                self.loaded = word_in(answer)
                if self.loaded.shows(self.who):
                    return self.to("CommitKill")
                self.absent = Told("absent", found=found_of(self.who.number, self.loaded))
                return self.to("ReleaseVictimLockAbsent")
            case "CommitKill":
                return self.to(self.next_sender() if answer == WON else "LoadVictim")
            case "LoadSender":
                self.loaded = word_in(answer)
                return self.to("FreeSender")
            case "FreeSender":
                if answer != WON:
                    return self.to("LoadSender")
                return self.to(self.drop_sender() if self.loaded.on else "AcquireReadyForSender")
            case "AcquireReadyForSender":
                return self.got(READY, answer, "PushSender")
            case "PushSender":
                del self.hand[READY]
                self.at = self.drop_sender()
                return pushed(self.loaded.priority)
            case "ReleaseVictimLock":
                del self.hand[self.lock]
                return self.to("AcquireReadyForVictim")
            case "AcquireReadyForVictim":
                return self.got(READY, answer, "UnlistVictim")
            case "UnlistVictim":
                del self.hand[READY]
                return self.to("RemoveContext")
            case "RemoveContext":
                return self.visit_after(-1)
            case "AcquireVisitedLock":
                return self.got(THREAD_LOCKS[self.visited], answer, "LoadVisited")
            case "LoadVisited":
                self.loaded = word_in(answer)
                waits = self.waits_for_victim(self.loaded)
                return self.to("FreeVisited" if waits else "ReleaseVisitedLock")
            case "FreeVisited":
                if answer != WON:
                    return self.to("LoadVisited")
                return self.to("ReleaseVisitedLock" if self.loaded.on else "AcquireReadyForVisited")
            case "AcquireReadyForVisited":
                return self.got(READY, answer, "PushVisited")
            case "PushVisited":
                del self.hand[READY]
                self.at = "ReleaseVisitedLock"
                return pushed(self.loaded.priority)
            case "ReleaseVisitedLock":
                del self.hand[THREAD_LOCKS[self.visited]]
                return self.visit_after(self.visited)
            case "ReleaseVictimLockAbsent":
                del self.hand[self.lock]
                return self.to("ReleaseAbsent")
        del self.hand[TABLE]
        at, self.at = self.at, "Over"
        match at:
            case "ReleaseKilled":
                return ends(calls.KILLED)
            case "ReleaseAbsent":
                return ends(self.absent)
            case "ReleaseDead":
                return CALLER_DEAD
        raise AssertionError(at)

    def point(self, caller_word: StateWord, answer: object) -> Optional[Point]:
        match self.at:
            case "LoadOwn":
                return self.told(self.phase, calls.OWN) if word_in(answer).shows(self.caller) else None
            case "LoadVictim":
                word = word_in(answer)
                if word.shows(self.who):
                    return None
                return self.told(self.phase, Told("absent", found=found_of(self.who.number, word)))
            case "CommitKill":
                return self.told(self.phase, calls.KILLED) if answer == WON else None
            case "FreeSender":
                return Point(self.first_sender().who, calls.GONE, calls.FREED) if answer == WON else None
            case "FreeVisited":
                return Point(self.visited_id(), calls.GONE, calls.FREED) if answer == WON else None
        return None

    def left(self, lock) -> int:
        if lock == READY:
            return 1
        held = self.hand.get(self.lock)
        n = self.count - 1 if held is None else len(held.entries)
        a = 6 * (self.count - 1) + 5
        k = 0 if self.visited is None else sum(other >= self.visited for other in self.others())
        table, thread = {
            "LoadCaller": (4 * n + a + 4, 0),
            "AcquireVictimLock": (4 * n + a + 3, 0),
            "LoadVictim": (4 * n + a + 2, 4 * n + 3),
            "CommitKill": (4 * n + a + 3, 4 * n + 4),
            "LoadSender": (4 * n + a, 4 * n + 1),
            "FreeSender": (4 * n + a + 1, 4 * n + 2),
            "AcquireReadyForSender": (4 * n + a - 2, 4 * n - 1),
            "PushSender": (4 * n + a - 3, 4 * n - 2),
            "ReleaseVictimLock": (a, 1),
            "AcquireReadyForVictim": (a - 1, 0),
            "UnlistVictim": (a - 2, 0),
            "RemoveContext": (a - 3, 0),
            "AcquireVisitedLock": (6 * k + 1, 0),
            "LoadVisited": (6 * k, 5),
            "FreeVisited": (6 * k + 1, 6),
            "AcquireReadyForVisited": (6 * k - 2, 3),
            "PushVisited": (6 * k - 3, 2),
            "ReleaseVisitedLock": (6 * k - 4, 1),
            "ReleaseKilled": (1, 0),
            "ReleaseVictimLockAbsent": (2, 1),
            "ReleaseAbsent": (1, 0),
            "ReleaseDead": (1, 0),
        }[self.at]
        return table if lock == TABLE else thread


def section_for(caller: ThreadId, own: StateWord, phase: object, table: int) -> Section:
    if isinstance(phase, Send):
        return SendSection(caller, own, phase)
    if isinstance(phase, Receive):
        return ReceiveSection(caller, own, phase)
    if isinstance(phase, Create):
        return CreateSection(caller, own, phase)
    return DestroySection(caller, own, phase, table)
