"""The generator of large scripts: a number makes a script of eight clients and four servers with 200 slices.

    python3 big.py N          the script's text
    python3 big.py N --run    the line `big N` and the total line of its run
"""

import sys


class Draws:
    def __init__(self, seed: int):
        self.x = seed

    def draw(self, below: int) -> int:
        self.x = (self.x * 6_364_136_223_846_793_005 + 1_442_695_040_888_963_407) % 2**64
        return (self.x >> 33) % below


def big(seed: int) -> str:
    draws = Draws(seed)
    lines = ["kernel 1", "table 16", "program server", "wait", "repeat 400", "reply got0 got1", "again", "end"]
    for client in range(8):
        server = 8 + draws.draw(4)
        low = draws.draw(1000)
        high = draws.draw(1000)
        work = 1 + draws.draw(16)
        lines += [f"program c{client}", "repeat 100", f"call #{server} {low} {high}", f"work {work}", "again", "end"]
    for client in range(8):
        lines.append(f"thread {1 + draws.draw(8)} c{client}")
    lines += [f"thread {priority} server" for priority in range(16, 20)]
    step = 0
    for _ in range(200):
        step += 1 + draws.draw(256)
        lines.append(f"at {step} slice 0")
    return "\n".join(lines)


def main(words: list) -> None:
    text = big(int(words[0]))
    if "--run" not in words:
        print(text, end="")
        return
    from report import total_line
    from schedule import run
    from script import read

    print(f"big {words[0]}")
    print(total_line(run(read(text))))


if __name__ == "__main__":
    main(sys.argv[1:])
