"""The one-step kernel: what every call means, one event at a time. It has no lock, no word, no priority, no carrier."""

from dataclasses import dataclass, field
from typing import Optional

import calls
from calls import Create, Destroy, End, Entry, Found, Gone, Pick, Receive, Send, Told
from words import LAST_VERSION, ThreadId


class Unlawful(Exception):
    """The event isn't enabled."""


@dataclass
class Row:
    """One number of the table. `partner` is the one that a sending or receiving names; None in a receiving from any."""

    version: int
    status: str  # dead, run, sending, receiving, picking or ended
    partner: Optional[ThreadId] = None
    joined: bool = False
    serial: int = 0
    waiting: list = field(default_factory=list)  # (id, message)


class Machine:
    def __init__(self, versions: list, threads: int):
        self.rows = [Row(1, "run") if t < threads else Row(v, "dead") for t, v in enumerate(versions)]
        self.replies: dict = {}  # (id, serial) to its reply

    def shown(self, number: int) -> Found:
        row = self.rows[number]
        text = row.status
        if text == "sending":
            text = f"sending {row.partner}"
        elif text == "receiving":
            text = f"receiving {row.partner or 'any'}"
        return Found(ThreadId(number, row.version), text)

    def id(self, number: int) -> ThreadId:
        return ThreadId(number, self.rows[number].version)

    def present(self, who: ThreadId) -> bool:
        row = self.rows[who.number]
        return row.version == who.version and row.status != "dead"

    def gone_enabled(self, number: int) -> bool:
        row = self.rows[number]
        return row.status in ("sending", "receiving") and row.partner is not None and not self.present(row.partner)

    def idle(self) -> Optional[ThreadId]:
        """The id of the lowest number from which an event is to come."""
        for number, row in enumerate(self.rows):
            if row.status in ("run", "picking") or self.gone_enabled(number):
                return self.id(number)
        return None

    def reply(self, who: ThreadId, told: Told) -> None:
        self.replies[who, self.rows[who.number].serial] = told

    def run(self, who: ThreadId, told: Told) -> None:
        row = self.rows[who.number]
        row.status, row.partner, row.joined = "run", None, False
        self.reply(who, told)

    def receive_from(self, who: ThreadId, partner: Optional[ThreadId]) -> None:
        row = self.rows[who.number]
        row.status, row.partner, row.joined = "receiving", partner, False

    def step(self, who: ThreadId, serial: int, act: object) -> Told:
        row = self.rows[who.number]
        if row.version != who.version:
            raise Unlawful(f"{who} {serial} {act}: found {self.shown(who.number)}")
        if isinstance(act, Gone):
            enabled = self.gone_enabled(who.number) and serial == row.serial
        elif isinstance(act, Pick):
            enabled = row.status == "picking" and serial == row.serial
        else:
            enabled = row.status == "run" and serial == row.serial + 1
        if not enabled:
            raise Unlawful(f"{who} {serial} {act}: found {self.shown(who.number)} serial {row.serial}")
        row.serial = serial
        if isinstance(act, Gone):
            self.leave_lists(who)
            self.run(who, calls.GOT_GONE)
            return calls.FREED
        if isinstance(act, Pick):
            return self.take(who, None) or self.begin_wait(who, None)
        if isinstance(act, Send):
            return self.send(who, act)
        if isinstance(act, Receive):
            return self.receive(who, act)
        if isinstance(act, Create):
            return self.create(who)
        if isinstance(act, Destroy):
            return self.destroy(who, act.who)
        assert isinstance(act, End)
        row.status = "ended"
        return calls.ENDED_

    def refuse(self, who: ThreadId, told: Told) -> Told:
        self.reply(who, told)
        return told

    def send(self, who: ThreadId, act: Send) -> Told:
        to, row = self.rows[act.to.number], self.rows[who.number]
        if act.to == who:
            return self.refuse(who, calls.OWN)
        if not self.present(act.to):
            return self.refuse(who, Told("absent", found=self.shown(act.to.number)))
        receives = to.status == "receiving" and to.partner in (None, who)
        if receives or (to.status == "picking" and act.zero):
            self.run(act.to, calls.got(who, act.message))
            if act.manner == "plain":
                self.reply(who, calls.SENT)
            elif act.manner == "joined":
                self.receive_from(who, act.to)
            else:
                row.status = "picking"
            return calls.PASSED
        if act.zero:
            return self.refuse(who, Told("busy", found=self.shown(act.to.number)))
        row.status, row.partner, row.joined = "sending", act.to, act.manner == "joined"
        to.waiting.append((who, act.message))
        return calls.WAITS

    def take(self, who: ThreadId, source: Optional[ThreadId]) -> Optional[Told]:
        """Takes the first waiting sender that matches; None where there is none."""
        row = self.rows[who.number]
        for place, (sender, message) in enumerate(row.waiting):
            if source in (None, sender):
                del row.waiting[place]
                if self.rows[sender.number].joined:
                    self.receive_from(sender, who)
                else:
                    self.run(sender, calls.SENT)
                self.run(who, calls.got(sender, message))
                return calls.took(sender, message)
        return None

    def begin_wait(self, who: ThreadId, source: Optional[ThreadId]) -> Told:
        self.receive_from(who, source)
        return calls.WAITS

    def receive(self, who: ThreadId, act: Receive) -> Told:
        if act.source == who:
            return self.refuse(who, calls.OWN)
        taken = self.take(who, act.source)
        if taken is not None:
            return taken
        if act.zero:
            return self.refuse(who, calls.NOBODY)
        return self.begin_wait(who, act.source)

    def create(self, who: ThreadId) -> Told:
        for number, row in enumerate(self.rows):
            if row.status == "dead" and row.version < LAST_VERSION:
                self.rows[number] = Row(row.version + 1, "run")
                return self.refuse(who, Told("made", id=ThreadId(number, row.version + 1)))
        alive = sum(row.status != "dead" for row in self.rows)
        return self.refuse(who, Told("full", alive=alive, worn=len(self.rows) - alive))

    def destroy(self, who: ThreadId, victim: ThreadId) -> Told:
        if victim == who:
            return self.refuse(who, calls.OWN)
        if not self.present(victim):
            return self.refuse(who, Told("absent", found=self.shown(victim.number)))
        row = self.rows[victim.number]
        row.status, row.partner, row.joined, row.waiting = "dead", None, False, []
        self.leave_lists(victim)
        return self.refuse(who, calls.KILLED)

    def leave_lists(self, who: ThreadId) -> None:
        for row in self.rows:
            row.waiting = [pair for pair in row.waiting if pair[0] != who]


def replay(script, history: list) -> Machine:
    """The machine after these entries. Raises where one isn't enabled or its outcome isn't the machine's."""
    machine = Machine([script.aged.get(t, 0) for t in range(script.table)], len(script.threads))
    for entry in history:
        outcome = machine.step(entry.who, entry.serial, entry.act)
        if outcome != entry.outcome:
            raise Unlawful(f"{entry} differs {outcome}")
    return machine


def judge(script, history: list) -> str:
    """The verdict line on a history, read as a list of entries: legal, illegal, strange, differs or unfinished."""
    machine = Machine([script.aged.get(t, 0) for t in range(script.table)], len(script.threads))
    positions = {ThreadId(t, 1): script.start(line.program, ThreadId(t, 1)) for t, line in enumerate(script.threads)}
    for index, entry in enumerate(history):
        assert isinstance(entry, Entry)
        before = machine.shown(entry.who.number)
        try:
            outcome = machine.step(entry.who, entry.serial, entry.act)
        except Unlawful:
            return f"illegal {index} found {before} serial {machine.rows[entry.who.number].serial}"
        if calls.is_phase(entry.act):
            reply = machine.replies.get((entry.who, entry.serial - 1))
            phase = positions[entry.who].next_phase(reply)
            if phase != entry.act:
                return f"strange {index}"
        if outcome != entry.outcome:
            return f"differs {index} {outcome}"
        if outcome.kind == "made":
            positions[outcome.id] = script.start(entry.act.program, outcome.id)
    idle = machine.idle()
    return f"legal {len(history)}" if idle is None else f"unfinished {idle}"
