"""Traces: one line for each atomic step, as plain text or as JSON. FORMAT.md has both forms."""

import json

from carrier import SectionMove
from world import Record, World


def move_text(record: Record) -> str:
    if isinstance(record.move, SectionMove):
        return f"{record.owner} {record.place} {record.move}"
    return str(record.move)


def line(record: Record) -> str:
    return f"{record.number} c{record.carrier} {move_text(record)} -> {record.answer} => {record.stepped}"


def kind_of(record: Record) -> str:
    return type(record.move).__name__ if not isinstance(record.move, SectionMove) else "Section"


def json_line(world: World, record: Record, events: list) -> str:
    step = record.move.step if isinstance(record.move, SectionMove) else record.move
    names = {"Section": "section", "Look": "look", "TakeContext": "take", "GiveContext": "give"}
    fields = {
        "step": record.number,
        "events": events,
        "carrier": record.carrier,
        "move": names[kind_of(record)],
        "context": record.context,
        "owner": None if record.owner is None else str(record.owner),
        "location": record.place,
        "ask": str(step),
        "word": f"{record.word[0]} {record.word[1]}",
        "old": record.before,
        "new": record.after,
        "answer": str(record.answer),
        "stepped": str(record.stepped),
        "event": None if record.entry is None else str(record.entry),
        "standing": [None if m is None else index_of(world.waits, m) for m in world.standing],
        "carriers": [carrier.text() for carrier in world.carriers],
    }
    return json.dumps(fields, separators=(",", ":"))


def index_of(marks: list, mark: object) -> int:
    return next(i for i, other in enumerate(marks) if other is mark)
