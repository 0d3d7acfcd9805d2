"""Worked examples: scripts with what has to come of them, as the rules give it. Nothing here was printed by a program.

    python3 worked.py          all but the long one
    python3 worked.py --long   the long one too (four million steps)
    python3 worked.py --all    names those that agree too
"""

import sys
import time

import report as texts
import traces
from big import big
from machine import Unlawful, judge
from schedule import Schedule, run
from script import BadScript, TooLong, read
from words import ContextWord, Message, Picking, Receiving, Run, StateWord, ThreadId

ROWS: list = []


def row(name: str):
    def add(function):
        ROWS.append((name, function))
        return function

    return add


def slashed(text: str) -> str:
    """` / ` stands for a line feed; a script begins with `kernel 1` unless it says otherwise."""
    text = text.strip().replace(" / ", "\n")
    return text if text.startswith("kernel") else "kernel 1\n" + text


def world_of(text: str):
    return run(read(slashed(text)))


class Differs(Exception):
    pass


def same(what: str, found: object, wanted: object) -> None:
    if found != wanted:
        raise Differs(f"{what}\n  wanted {wanted!r}\n  found  {found!r}")


def has_report(text: str, wanted: str) -> None:
    same("report", texts.report(world_of(text)), wanted.strip("\n") + "\n")


def lines(text: str) -> list:
    return [line.strip() for line in text.strip().split("\n")]


def has(text: str, history=None, replies=None, calls=None, waits=None, ends=None, total=None):
    world = world_of(text)
    check(world, history, replies, calls, waits, ends, total)
    return world


def check(world, history=None, replies=None, calls=None, waits=None, ends=None, total=None) -> None:
    parts = [
        ("history", history, texts.history_lines),
        ("replies", replies, texts.reply_lines),
        ("calls", calls, texts.call_lines),
        ("waits", waits, texts.wait_lines),
    ]
    for name, wanted, found in parts:
        if wanted is not None:
            same(name, found(world), wanted if isinstance(wanted, list) else lines(wanted))
    for end in ends or []:
        if f"end {end}" not in texts.end_lines(world):
            raise Differs(f"no line end {end} in {texts.end_lines(world)}")
    if total is not None:
        same("total", texts.total_line(world), total)


CALL = (
    "table 2 / {}program cl / call #1 7 8 / end / program sv / wait / reply got0 got1{} / end"
    " / thread 10 cl / thread 20 sv"
)
CALL_SCRIPT = CALL.format("show steps / ", "")
CALL_HISTORY = """
1.1 1 wait -> waits
0.1 1 call 1.1 7 8 -> passed
1.1 2 send 0.1 7 8 -> passed
1.1 3 wait -> waits
0.1 2 end
"""
CALL_REPORT = """
history
1.1 1 wait -> waits
0.1 1 call 1.1 7 8 -> passed
1.1 2 send 0.1 7 8 -> passed
1.1 3 wait -> waits
0.1 2 end
replies
reply 0.1 1 got 1.1 7 8
reply 1.1 1 got 0.1 7 8
reply 1.1 2 sent
calls
call 0.1 1 steps 11 helped 1
call 0.1 2 steps 1 helped 0
call 1.1 1 steps 7 helped 0
call 1.1 2 steps 6 helped 0
call 1.1 3 steps 5 helped 0
waits
wait 1.1 3 thread 1 got allowed 1 used 1 chain 0.1 1 1
end 0.1 ended
end 1.1 receiving any
total events 5 steps 75 helped 1
"""


@row("smallest")
def _():
    has_report(
        "table 1 / program a / end / thread 5 a",
        """
history
0.1 1 end
replies
waits
end 0.1 ended
total events 1 steps 14 helped 0
""",
    )


@row("call, preemption, helping")
def _():
    has_report(CALL_SCRIPT, CALL_REPORT)


TRACE_OF_CALL = """
0-4 look 2, take 2, Switch.AcquireReady, Switch.ReleaseReady, give 2
5-9 look 1, take 1, Receive.AcquireOwn, Receive.LoadOwn, Receive.CommitWait
10-12 Receive.ReleaseWaits, Thread.FallAsleep left, give 1
13-17 look 2, take 2, Switch.AcquireReady, Switch.ReleaseReady, give 2
18-23 look 0, take 0, Send.AcquireReceiver, Send.LoadReceiver, Send.StoreMail, Send.CommitPass
24-26 Send.WakeReceiver, Send.AcquireReady, Send.PushReceiver
27-33 give 0, look 2, take 2, Switch.AcquireReady, Switch.LoadGoal, Switch.ReleaseReady, give 2
34-37 look 1, take 1, Thread.LookAgain, Thread.LoadMail replied
38-41 Send.AcquireReceiver, Send.LoadReceiver, Send.StoreMail, Send.CommitPass
42-43 Send.WakeReceiver, Send.ReleasePassed replied
44-47 Receive.AcquireOwn blocked, give 1, look 0, take 0
48-49 Send.ReleasePassed, give 0
50-54 look 1, take 1, Receive.AcquireOwn, Receive.LoadOwn, Receive.CommitWait
55-57 Receive.ReleaseWaits, Thread.FallAsleep left, give 1
58-62 look 2, take 2, Switch.AcquireReady, Switch.ReleaseReady, give 2
63-69 look 0, take 0, Thread.FallAsleep, Thread.LookAgain, Thread.LoadMail replied, Thread.CommitEnd left, give 0
70-74 look 2, take 2, Switch.AcquireReady, Switch.ReleaseReady, give 2 idle
"""


@row("the call, step by step")
def _():
    wanted = []
    for group in lines(TRACE_OF_CALL):
        numbers, moves = group.split(" ", 1)
        first, last = (int(n) for n in numbers.split("-"))
        moves = [move.split(" ") for move in moves.split(", ")]
        same(f"count of {numbers}", len(moves), last - first + 1)
        for move in moves:
            stepped = move.pop() if move[-1] in ("left", "replied", "blocked", "idle") else "on"
            wanted.append((" ".join(move), stepped))
    found, facts = [], {}

    def watch(world, events) -> None:
        record = world.record
        is_section = traces.kind_of(record) == "Section"
        move = record.place if is_section else " ".join(traces.move_text(record).split(" ")[:2])
        found.append((move, record.stepped.kind))
        facts[record.number] = (record, str(record.entry), world.carriers[0].text())

    schedule = Schedule(read(slashed(CALL_SCRIPT)), watch)
    schedule.world.tracing = True
    schedule.run()
    same("steps", found, wanted)
    events = {step: entry for step, (_, entry, _) in facts.items() if entry != "None"}
    same(
        "events",
        events,
        {
            9: "1.1 1 wait -> waits",
            23: "0.1 1 call 1.1 7 8 -> passed",
            41: "1.1 2 send 0.1 7 8 -> passed",
            54: "1.1 3 wait -> waits",
            68: "0.1 2 end",
        },
    )
    for step, goal in [(4, "1.1@20"), (17, "0.1@10"), (33, "1.1@20"), (62, "0.1@10"), (74, "-")]:
        same(f"goal after {step}", facts[step][2].split(" ")[1], f"goal={goal}")
    same("resched after 26", facts[26][2].split(" ")[9], "resched=1")
    same("give holds at 27", facts[27][0].after, 66)
    same("blocked at 44", str(facts[44][0].stepped), "blocked thread 1 0")
    same("0.1 is on at 42", facts[42][0].before >> 3 & 1, 1)
    same("lost at 65", str(facts[65][0].answer).split(" ")[0], "lost")
    same("got at 37", str(facts[37][0].stepped), "replied 1.1 1 got 0.1 7 8")
    same("sent at 43", str(facts[43][0].stepped), "replied 1.1 2 sent")
    same("got at 67", str(facts[67][0].stepped), "replied 0.1 1 got 1.1 7 8")


@row("busy")
def _():
    has(
        "table 2 / program a / send #1 1 2 now / end / program b / end / thread 20 a / thread 10 b",
        history=["0.1 1 send 1.1 1 2 now -> busy 1.1 run", "0.1 2 end", "1.1 1 end"],
    )


@row("reply with timeout zero")
def _():
    wanted = CALL_REPORT.replace("1.1 2 send 0.1 7 8 -> passed", "1.1 2 send 0.1 7 8 now -> passed")
    has_report(CALL.format("show steps / ", " now"), wanted)


@row("own")
def _():
    has("table 1 / program a / send #0 1 1 / end / thread 5 a", history=["0.1 1 send 0.1 1 1 -> own", "0.1 2 end"])


@row("a destroyed sender")
def _():
    senders = " / ".join(f"program s{k} / send #4 {k} {k} / end" for k in (1, 2, 3))
    has(
        f"table 5 / {senders} / program d / destroy #0 / end / program r / wait / wait / end"
        " / thread 30 s1 / thread 29 s2 / thread 28 s3 / thread 20 d / thread 10 r",
        history="""
0.1 1 send 4.1 1 1 -> waits
1.1 1 send 4.1 2 2 -> waits
2.1 1 send 4.1 3 3 -> waits
3.1 1 destroy 0.1 -> killed
3.1 2 end
4.1 1 wait -> took 1.1 2 2
1.1 2 end
4.1 2 wait -> took 2.1 3 3
2.1 2 end
4.1 3 end
""",
    )


@row("a partner dead before the wait")
def _():
    has(
        "table 3 / program d / destroy #1 / end / program s / send #2 5 6 / end / program r / receive #1 / end"
        " / thread 20 d / thread 30 s / thread 10 r",
        history="""
1.1 1 send 2.1 5 6 -> waits
0.1 1 destroy 1.1 -> killed
0.1 2 end
2.1 1 receive 1.1 -> waits
2.1 1 gone
2.1 2 end
""",
    )


@row("a reused number")
def _():
    has(
        "table 2 / program idle / end / program m / destroy #1 / create idle 5 / send #1 1 1 / end"
        " / thread 20 m / thread 10 idle",
        history="""
0.1 1 destroy 1.1 -> killed
0.1 2 create 0 5 -> made 1.2
0.1 3 send 1.1 1 1 -> absent 1.2 run
0.1 4 end
1.2 1 end
""",
    )


DEATH_PROGRAMS = "program s / send #1 5 6 / end / program r / wait / end / program d / destroy #0 / end"
DEATH = f"table 3 / {DEATH_PROGRAMS} / thread 10 s / thread 20 r / thread 30 d / at {{}} start 2"


@row("death before the deciding step")
def _():
    has_report(
        DEATH.format(23),
        """
history
1.1 1 wait -> waits
2.1 1 destroy 0.1 -> killed
2.1 2 end
replies
reply 2.1 1 killed
waits
wait 2.1 1 context 0 got allowed 5 used 2 chain 0.1 1 5
end 0.1 dead
end 1.1 receiving any
end 2.1 ended
total events 3 steps 65 helped 2
""",
    )


@row("one step later")
def _():
    has_report(
        DEATH.format(24),
        """
history
1.1 1 wait -> waits
0.1 1 send 1.1 5 6 -> passed
2.1 1 destroy 0.1 -> killed
2.1 2 end
1.1 2 end
replies
reply 0.1 1 sent
reply 1.1 1 got 0.1 5 6
reply 2.1 1 killed
waits
wait 2.1 1 context 0 got allowed 6 used 4 chain 0.1 1 6
end 0.1 dead
end 1.1 ended
end 2.1 ended
total events 5 steps 79 helped 4
""",
    )


CHAIN = (
    f"table 4 / program idle / end / {DEATH_PROGRAMS} / program c / create idle 1 / end"
    " / thread 10 s / thread 20 r / thread 30 d / thread 40 c / at 23 start 2 / at 41 start 3"
)


@row("a chain")
def _():
    world = has(
        CHAIN,
        history="""
1.1 1 wait -> waits
2.1 1 destroy 0.1 -> killed
3.1 1 create 0 1 -> made 0.2
3.1 2 end
2.1 2 end
0.2 1 end
""",
        total="total events 6 steps 114 helped 13",
    )
    wanted = "wait 3.1 1 table got allowed 25 used 13 chain 2.1 1 20 0.1 1 5"
    if wanted not in texts.wait_lines(world):
        raise Differs(f"no {wanted} in {texts.wait_lines(world)}")
    mark = next(mark for mark in world.waits if str(mark) == wanted)
    owners = [step.owner for step in mark.counted]
    counts = [owners.count(ThreadId(0, 1)), owners.count(ThreadId(2, 1)), len(owners)]
    same("used: two steps of 0.1 and eleven of 2.1", counts, [2, 11, 13])


@row("full")
def _():
    programs = "program idle / end / program a / create idle 1 / end / thread 5 a"
    has(f"table 1 / {programs}", history=["0.1 1 create 0 1 -> full alive 1 worn 0", "0.1 2 end"])
    aged = has(f"table 2 / aged 1 1048575 / {programs}")
    same("aged", texts.history_lines(aged)[0], "0.1 1 create 0 1 -> full alive 1 worn 1")
    aged = has(f"table 2 / aged 1 1048574 / {programs}")
    same("aged", texts.history_lines(aged)[0], "0.1 1 create 0 1 -> made 1.1048575")


@row("largest queue")
def _():
    threads = " / ".join(["thread 20 s"] * 63)
    wanted = [f"{t}.1 1 send 63.1 7 7 -> waits" for t in range(63)]
    for k in range(1, 64):
        wanted += [f"63.1 {k} wait -> took {k - 1}.1 7 7", f"{k - 1}.1 2 end"]
    wanted.append("63.1 64 end")
    same("events", len(wanted), 190)
    has(
        "table 64 / program s / send #63 7 7 / end / program r / repeat 63 / wait / again / end"
        f" / {threads} / thread 10 r",
        history=wanted,
    )


TWO_CARRIERS = "table 2 / carriers 2 / program s / send #1 5 6 / end / program r / wait / end / thread 10 s / thread 20 r"


@row("two carriers")
def _():
    found = []

    def watch(world, events) -> None:
        found.append(world.record)

    schedule = Schedule(read(slashed(TWO_CARRIERS + " / turns 0*8 1*10 0! 1*18")), watch)
    schedule.world.tracing = True
    world = schedule.run()
    same(
        "report",
        texts.report(world),
        """
history
1.1 1 wait -> waits
0.1 1 send 1.1 5 6 -> passed
1.1 2 end
0.1 2 end
replies
reply 0.1 1 sent
reply 1.1 1 got 0.1 5 6
waits
wait 0.1 1 thread 1 got allowed 3 used 3 chain 1.1 1 3
end 0.1 ended
end 1.1 ended
total events 4 steps 59 helped 3
""".lstrip("\n"),
    )
    of_one = [record for record in found if record.carrier == 1]
    same("the tenth step of carrier 1", str(of_one[9].stepped), "missed 1 0")
    after_park = [r for r in found if r.number > 18 and r.carrier == 1 and r.context == 1]
    same("steps of the context of thread 1", sum(traces.kind_of(r) == "Section" for r in after_park[:5]), 3)


@row("weight")
def _():
    program = "table 1 / program a / {} / end / thread 5 a"
    for body, weight in [("work 3999997", 4000001), ("repeat 65535 / repeat 65535 / again / again", 4294901764)]:
        try:
            read(slashed(program.format(body)))
        except TooLong as fault:
            same("text", str(fault), f"refused too long {weight}")
        else:
            raise Differs("not refused")
    same("weight", read(slashed(program.format("work 3999996"))).weight(), 4_000_000)


@row("weight: the run (long)")
def _():
    has("table 1 / program a / work 3999996 / end / thread 5 a", total="total events 1 steps 4000010 helped 0")


CHECKED = [
    ("legal 5", [0, 1, 2, 3, 4]),
    ("illegal 1 found 1.1 receiving any serial 1", [0, 2, 1, 3, 4]),
    ("differs 0 waits", [1, 0, 2, 3, 4]),
    ("unfinished 0.1", [0, 1, 2, 3]),
]


@row("verdicts on changed histories of the call")
def _():
    world = world_of(CALL_SCRIPT)
    for verdict, order in CHECKED:
        same(str(order), judge(world.script, [world.history[i] for i in order]), verdict)


@row("a server and three clients")
def _():
    history, waits = ["3.1 1 wait -> waits"], []
    for k in range(3):
        s, r = 2 * k + 2, 2 * k + 3
        history += [
            f"{k}.1 1 call 3.1 1 2 -> passed",
            f"3.1 {s} send {k}.1 1 2 -> passed",
            f"3.1 {r} wait -> waits",
            f"{k}.1 2 end",
        ]
        waits.append(f"wait 3.1 {r} thread 3 got allowed 1 used 1 chain {k}.1 1 1")
    has(
        "table 4 / program cl / call #3 1 2 / end / program sv / wait / repeat 3 / reply got0 got1 / again / end"
        " / thread 10 cl / thread 10 cl / thread 10 cl / thread 20 sv",
        history=history,
        waits=waits,
        total="total events 13 steps 189 helped 3",
    )


@row("time slice")
def _():
    text = "table 2 / program a / work 5 / end / thread 10 a / thread 10 a"
    has(text + " / at 9 slice 0", history=["1.1 1 end", "0.1 1 end"], total="total events 2 steps 42 helped 0")
    has(text, history=["0.1 1 end", "1.1 1 end"])


@row("words as bits")
def _():
    me, server = ThreadId(0, 1), ThreadId(1, 1)
    same("server asleep", StateWord(1, 20, False, Receiving(None)).bits(), 360287987369508899)
    same("client after its call", StateWord(1, 10, True, Receiving(server)).bits(), 180144002274705675)
    same("mail", Message(7, 8).packed(), 34359738375)
    same("clean", ContextWord("clean", 1).bits(), 65)
    same("holds", ContextWord("holds", 1).bits(), 66)
    same("taken", ContextWord("taken", 1, 1).bits(), 71)
    same("server picking and on", StateWord(1, 20, True, Picking()).bits(), 360287987369508923)
    same("a run's words", StateWord(1, 20, True, Run("delivered", me)).bits() >> 6 & 3, 2)


@row("spellings")
def _():
    import random

    from words import DEAD, ENDED, PICKING, Sending, is_state_word, read_context, read_state

    partners = [ThreadId(0, 1), ThreadId(63, 1_048_575)]
    states = [DEAD, ENDED, PICKING, Run(), Run("sent"), Run("gone"), Receiving(None)]
    for partner in partners:
        states += [Run("delivered", partner), Receiving(partner), Sending(partner, False), Sending(partner, True)]
    spelled: dict = {}
    for state in states:
        for version in (0, 1, 1_048_575):
            for priority in (0, 63):
                for on in (False, True):
                    word = StateWord(version, priority, on, state)
                    if is_state_word(word):
                        same("read", read_state(word.bits()), word)
                        same("twice", spelled.setdefault(word.bits(), word), word)
    draw = random.Random(1)
    for _ in range(20_000):
        bits = draw.choice(list(spelled)) ^ 1 << draw.randrange(64)
        word = read_state(bits)
        same("spelled back", word is None or word.bits() == bits and is_state_word(word), True)
    for bits in (1, 2, 3, 64, 68, 0b100000 | 67, 1 << 26 | 65):
        same(f"no context word {bits}", read_context(bits), None)
    for bits in (0, 65, 66, 67, 71, 95):
        same(f"context word {bits}", read_context(bits).bits(), bits)


# Examples of single rules.

SENT_SCRIPT = "table 2 / program a / send #1 7 8 / end / program b / receive #0 / end / thread 10 a / thread 20 b"


@row("send and closed receive")
def _():
    has(
        SENT_SCRIPT,
        history=["1.1 1 receive 0.1 -> waits", "0.1 1 send 1.1 7 8 -> passed", "1.1 2 end", "0.1 2 end"],
        replies=["reply 0.1 1 sent", "reply 1.1 1 got 0.1 7 8"],
        ends=["0.1 ended", "1.1 ended"],
        total="total events 4 steps 56 helped 0",
    )


@row("absent")
def _():
    has("table 2 / program a / send #1 1 1 / end / thread 5 a", history=["0.1 1 send 1.1 1 1 -> absent 1.0 dead", "0.1 2 end"])


@row("gone")
def _():
    has(
        "table 2 / program a / receive #1 / end / thread 5 a",
        history=["0.1 1 receive 1.1 -> waits", "0.1 1 gone", "0.1 2 end"],
        replies=["reply 0.1 1 gone"],
    )


@row("a second wait that is helped")
def _():
    has(
        "table 2 / program s / send #1 5 6 / end / program r / wait / wait / end / thread 10 s / thread 20 r",
        history=[
            "1.1 1 wait -> waits",
            "0.1 1 send 1.1 5 6 -> passed",
            "1.1 2 wait -> waits",
            "0.1 2 end",
        ],
        waits=["wait 1.1 2 thread 1 got allowed 1 used 1 chain 0.1 1 1"],
        ends=["0.1 ended", "1.1 receiving any"],
        total="total events 4 steps 66 helped 1",
    )


@row("start")
def _():
    has(
        "table 2 / program a / work 5 / end / thread 10 a / thread 20 a / at 9 start 1",
        history=["1.1 1 end", "0.1 1 end"],
        total="total events 2 steps 43 helped 0",
    )


@row("nobody")
def _():
    has("table 1 / program a / wait now / end / thread 5 a", history=["0.1 1 wait now -> nobody", "0.1 2 end"])


@row("create")
def _():
    has(
        "table 2 / program idle / end / program a / create idle 1 / end / thread 5 a",
        history=["0.1 1 create 0 1 -> made 1.1", "0.1 2 end", "1.1 1 end"],
        total="total events 3 steps 30 helped 0",
    )


@row("destroy oneself, and nobody")
def _():
    has(
        "table 2 / program a / destroy #0 / destroy #1 / end / thread 5 a",
        history=["0.1 1 destroy 0.1 -> own", "0.1 2 destroy 1.1 -> absent 1.0 dead", "0.1 3 end"],
    )


@row("a partner that comes into being late")
def _():
    text = (
        "table 3 / program idle / end / program r / receive #2 / end / program c / create idle 1 / end"
        " / thread 10 r / thread 20 c / at {} start 1"
    )
    has(
        text.format(11),
        history="""
0.1 1 receive 2.1 -> waits
0.1 1 gone
1.1 1 create 0 1 -> made 2.1
1.1 2 end
0.1 2 end
2.1 1 end
""",
    )
    has(
        text.format(10),
        history="""
0.1 1 receive 2.1 -> waits
1.1 1 create 0 1 -> made 2.1
1.1 2 end
2.1 1 end
""",
        ends=["0.1 receiving 2.1"],
    )


@row("turns of one carrier are refused")
def _():
    try:
        read(slashed("table 1 / carriers 1 / program a / end / thread 5 a / turns 0*1"))
    except BadScript as fault:
        same("text", str(fault), "refused line 7 order")
    else:
        raise Differs("not refused")


@row("counts of replies and steps")
def _():
    world = has(SENT_SCRIPT, replies=["reply 0.1 1 sent", "reply 1.1 1 got 0.1 7 8"])
    same("steps", world.made, 56)
    world = world_of(CALL_SCRIPT)
    same("replies", [len(texts.reply_lines(world)), world.made], [3, 75])


@row("the last version of a number")
def _():
    has(
        "table 2 / aged 1 1048574 / program idle / end / program a / create idle 1 / destroy made / create idle 1 / end"
        " / thread 5 a",
        history="""
0.1 1 create 0 1 -> made 1.1048575
0.1 2 destroy 1.1048575 -> killed
0.1 3 create 0 1 -> full alive 1 worn 1
0.1 4 end
""",
    )


@row("a park before each step of the call")
def _():
    script = read(slashed(CALL_SCRIPT))
    for k in range(75):
        world = Schedule(script).world
        kind = ""
        while kind != "idle":
            if world.made == k:
                world.park(0)
            kind = world.step(0).kind
        same(f"park before {k}", texts.history_lines(world), lines(CALL_HISTORY))


@row("a start before each step")
def _():
    for k in range(81):
        world = world_of(DEATH.format(k))
        verdict = judge(world.script, world.history)
        same(f"start at {k}", verdict, f"legal {len(world.history)}")
        found = texts.history_lines(world)
        same(f"killed at {k}", any(line.endswith("-> killed") for line in found), True)
        same(f"passed at {k}", "0.1 1 send 1.1 5 6 -> passed" in found, k >= 24)


PICK_HISTORY = """
1.1 1 wait -> waits
0.1 1 call 1.1 7 8 -> passed
1.1 2 reply 0.1 7 8 -> passed
1.1 2 pick -> waits
0.1 2 end
"""


@row("verdicts on histories with a pick")
def _():
    world = world_of("kernel 2 / " + CALL_SCRIPT)
    same("history", texts.history_lines(world), lines(PICK_HISTORY))
    same("whole", judge(world.script, world.history), "legal 5")
    without = world.history[:3] + world.history[4:]
    same("without the fourth", judge(world.script, without), "unfinished 1.1")
    same("kernel 1", judge(world_of(CALL_SCRIPT).script, world.history), "strange 2")
    old = world_of(CALL_SCRIPT).history
    same("send for reply", judge(world.script, world.history[:2] + old[2:3] + world.history[3:]), "strange 2")


@row("the call in version 2")
def _():
    has(
        "kernel 2 / " + CALL_SCRIPT,
        history=PICK_HISTORY,
        replies=["reply 0.1 1 got 1.1 7 8", "reply 1.1 1 got 0.1 7 8"],
        calls="""
call 0.1 1 steps 11 helped 1
call 0.1 2 steps 1 helped 0
call 1.1 1 steps 7 helped 0
call 1.1 2 steps 11 helped 0
""",
        waits=["wait 1.1 2 thread 1 got allowed 1 used 1 chain 0.1 1 1"],
        total="total events 5 steps 75 helped 1",
    )


GAP = (
    "kernel {} / table 3 / program cl / call #1 7 8 / end / program sv / wait / reply got0 got1 / end"
    " / program z / send #1 9 9 now / end / thread 10 cl / thread 20 sv / thread 30 z / at 44 start 2"
)


@row("a send between a reply and its pick")
def _():
    has(
        GAP.format(2),
        history="""
1.1 1 wait -> waits
0.1 1 call 1.1 7 8 -> passed
1.1 2 reply 0.1 7 8 -> passed
2.1 1 send 1.1 9 9 now -> passed
2.1 2 end
1.1 3 end
0.1 2 end
""",
        waits=["wait 2.1 1 thread 1 got allowed 1 used 1 chain 0.1 1 1"],
        total="total events 7 steps 102 helped 1",
    )
    has(
        GAP.format(1),
        history="""
1.1 1 wait -> waits
0.1 1 call 1.1 7 8 -> passed
1.1 2 send 0.1 7 8 -> passed
2.1 1 send 1.1 9 9 now -> busy 1.1 run
2.1 2 end
1.1 3 wait -> waits
0.1 2 end
""",
        total="total events 7 steps 98 helped 1",
    )


@row("a pick that takes")
def _():
    has(
        "kernel 2 / table 3 / program cl / call #2 1 2 / end / program sv / wait / reply got0 got1 / end"
        " / thread 30 cl / thread 30 cl / thread 10 sv",
        history="""
0.1 1 call 2.1 1 2 -> waits
1.1 1 call 2.1 1 2 -> waits
2.1 1 wait -> took 0.1 1 2
2.1 2 reply 0.1 1 2 -> passed
0.1 2 end
2.1 2 pick -> took 1.1 1 2
2.1 3 end
""",
        ends=["0.1 ended", "1.1 receiving 2.1", "2.1 ended"],
    )


def worst(world) -> list:
    """For each kind of want the greatest that a mark which was got allows."""
    found = {"table": 0, "thread": 0, "ready": 0, "context": 0}
    for mark in world.waits:
        if mark.got:
            kind = mark.wants.split(" ")[0]
            found[kind] = max(found[kind], mark.allowed)
    return list(found.values())


@row("worst waits")
def _():
    same("of the call", worst(world_of(CALL_SCRIPT)), [0, 1, 0, 0])
    same("of the chain", worst(world_of(CHAIN)), [25, 0, 0, 0])


@row("threads that wait for each other")
def _():
    has(
        "table 2 / program a / send #1 1 1 / end / program b / send #0 1 1 / end / thread 10 a / thread 10 b",
        ends=["0.1 sending 1.1", "1.1 sending 0.1"],
    )
    has(
        "table 3 / program a / receive #1 / end / program b / end / program c / send #0 1 1 / end"
        " / thread 10 a / thread 10 b / thread 10 c",
        ends=["0.1 receiving 1.1", "1.1 ended", "2.1 sending 0.1"],
    )


@row("the call's script, cut after each byte")
def _():
    whole = slashed(CALL_SCRIPT)
    client, server = whole.index("thread 10 cl") + 12, whole.index("thread 20 sv") + 12
    good = []
    for cut in range(len(whole) + 2):
        text = (whole + "\n")[:cut]
        try:
            script = read(text)
        except (BadScript, IndexError, ValueError):
            continue
        good.append(cut)
        if cut <= client + 1:
            history = ["0.1 1 call 1.1 7 8 -> absent 1.0 dead", "0.1 2 end"]
            same(f"cut at {cut}", texts.history_lines(run(script)), history)
    same("good cuts", sorted(set(good)), [client, client + 1, server, server + 1])
    same("lines of the report", len(texts.report(world_of(CALL_SCRIPT)).splitlines()), 21)


@row("left of a send")
def _():
    from calls import Send
    from sections import SendSection
    from steps import STORED, THREAD_LOCKS, Got, Loaded, Senders

    for on, wanted in [(False, 5), (True, 7)]:
        own = StateWord(1, 10, True, Run())
        send = SendSection(ThreadId(0, 1), own, Send(ThreadId(1, 1), Message(5, 6), False, "plain"))
        send.answer(Got(Senders()))
        send.answer(Loaded(StateWord(1, 20, on, Receiving(None)).bits()))
        send.answer(STORED)
        same("left", send.left(THREAD_LOCKS[1]), wanted)


@row("the generator, its shape")
def _():
    script = read(big(1))
    shape = [len(script.programs), len(script.threads), len(script.at_lines), script.table, script.carriers]
    same("shape", shape, [9, 12, 200, 16, 1])
    same("priorities of servers", [line.priority for line in script.threads[8:]], [16, 17, 18, 19])


def main(words: list) -> int:
    agree, differ = 0, 0
    for name, function in ROWS:
        if "(long)" in name and "--long" not in words:
            continue
        begun = time.perf_counter()
        try:
            function()
        except (Differs, Unlawful, AssertionError) as fault:
            differ += 1
            print(f"DIFFERS  {name}: {type(fault).__name__} {fault}")
        else:
            agree += 1
            if "--all" in words:
                print(f"agrees   {name} ({time.perf_counter() - begun:.2f} s)")
    print(f"reference: {agree} agree, {differ} differ")
    return int(differ > 0)


if __name__ == "__main__":
    sys.exit(main(sys.argv[1:]))
