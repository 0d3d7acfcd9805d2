"""The report of a run, as text."""

from machine import replay
from words import ThreadId
from world import World


def history_lines(world: World) -> list:
    return [str(entry) for entry in world.history]


def reply_lines(world: World) -> list:
    """Of the history, replayed by the kernel that makes one event at a time."""
    replies = replay(world.script, world.history).replies
    keys = sorted(replies, key=lambda key: (key[0].number, key[0].version, key[1]))
    return [f"reply {who} {serial} {replies[who, serial]}" for who, serial in keys]


def call_lines(world: World) -> list:
    counts: dict = {}
    for mark in world.steps:
        if isinstance(mark.owner, ThreadId):
            count = counts.setdefault((mark.owner.number, mark.owner.version, mark.serial), [0, 0])
            count[0] += 1
            count[1] += mark.runner != mark.owner
    return [f"call {n}.{v} {s} steps {counts[n, v, s][0]} helped {counts[n, v, s][1]}" for n, v, s in sorted(counts)]


def wait_lines(world: World) -> list:
    return [str(mark) for mark in world.waits]


def end_lines(world: World) -> list:
    return [f"end {world.found(t)}" for t in range(world.script.table)]


def total_line(world: World) -> str:
    helped = sum(mark.runner != mark.owner for mark in world.steps)
    return f"total events {len(world.history)} steps {world.made} helped {helped}"


def report(world: World) -> str:
    lines = ["history"] + history_lines(world) + ["replies"] + reply_lines(world)
    if world.script.show_steps:
        lines += ["calls"] + call_lines(world)
    lines += ["waits"] + wait_lines(world) + end_lines(world) + [total_line(world)]
    return "".join(line + "\n" for line in lines)
