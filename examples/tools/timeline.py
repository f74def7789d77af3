#!/usr/bin/env python3
"""Draws what a script's transactions did beside each other, as a picture that a browser shows.

    ./oe_server script SCRIPT | python3 examples/tools/timeline.py SCRIPT - > schedule.svg

Time goes from left to right, a column for each line of the script that concerns a transaction, and each terminal has a row. A box is a
stage, in the colour of the lock that it takes; a `run` is one box, however many stages it took. Pale boxes were undone, by `back` or by a
rollback. A red mark is an answer `Busy`, with a line to the terminal that was in the way; a flag is a savepoint, an arrow leads back to it;
a ring is a commit with its moment, a cross a rollback. A violet band marks a cycle that `waits` has shown. Each mark tells its line and its
answer where the mouse rests on it. In place of `-`, the answers' file may stand.
"""
import re
import sys
from dataclasses import dataclass, field
from html import escape

# The colours of locks, by the kind of their names: told apart by those who see few colours too.
COLOURS = {
    "Warehouse": "#0072b2", "District": "#56b4e9", "Customer": "#009e73", "Order": "#e69f00", "Queue": "#f0e442", "Stock": "#d55e00",
    "Names": "#cc79a7", "none": "#b8b8b8", "run": "#5f6b7a",
}
BUSY, CYCLE, INK = "#c00000", "#7b3fb5", "#222222"
LEFT, TOP, ROW, HEIGHT = 90, 76, 44, 20
# How wide a column is, by how many there are.
WIDE, NARROW, MANY = 26, 14, 120
# Answers of several lines end in a line `rows N`.
LISTS = ("dump", "waits", "locks")


@dataclass
class Stage:
    """A box: where it stands, what it is, and whether it was undone."""

    column: int
    kind: str
    tip: str
    undone: bool = False


@dataclass
class Open:
    """An open transaction: its request, its stages so far, and how many there were at its mark."""

    words: list
    begun: int
    stages: list = field(default_factory=list)
    marked: int = 0


class Mismatch(Exception):
    """The answers are not those of the script."""


def answered(script, answers):
    """Yields each line of a script with its number and the lines of its answer."""
    left = iter(answers)
    for number, line in enumerate(script, 1):
        told = []
        while True:
            try:
                told.append(next(left))
            except StopIteration:
                raise Mismatch(f"line {number} of the script has no answer: {line}") from None
            if line.split(" ")[0] not in LISTS or re.match(r"rows \d+$|error ", told[-1]):
                break
        yield number, line, told
    if next(left, None) is not None:
        raise Mismatch("there are more answers than the script has lines")


def kind_of_next(words, done):
    """Names the kind of lock that the next stage takes, of a request whose stages so far are these."""
    number = len([it for it in done if not it.undone])
    if words[0] == "payment":
        by_name = words[5].isalpha()
        plan = ["Warehouse", "District", *["Names"] * by_name, "Customer", "none"]
        return plan[number] if number < len(plan) else "none"
    if words[0] == "neworder":
        plan = ["Warehouse", "District", "Customer", "Order", "Queue"]
        return plan[number] if number < len(plan) else ("none", "Stock")[number % 2]
    if words[0] == "rename":
        return ["Customer", "Names", "Names", "none"][min(number, 3)]
    # How many lines an order has no answer tells: of a delivery the first stages alone are known.
    return ["Queue", "Order"][number] if number < 2 and len(words) == 5 else "none"


class Picture:
    """What is drawn: terminals with their stages and marks, by column."""

    def __init__(self):
        self.column, self.open, self.spans, self.stages, self.marks, self.cycles = 0, {}, [], [], [], []

    def take(self, number, line, told):
        """Takes a line and its answer."""
        words, tip, last = line.split(" "), f"line {number}: {line} — {told[-1]}", told[-1]
        if words[0] == "waits":
            cycles = [it.split(" ")[1:] for it in told if it.startswith("cycle ")]
            self.cycles += [(self.column, [int(it) for it in cycle]) for cycle in cycles]
        if words[0] not in ("begin", "next", "run", "save", "back", "rollback") or last.startswith("error 1 "):
            return
        terminal = int(words[1])
        is_open = terminal in self.open
        if words[0] == "begin":
            if last == "begun":
                self.open[terminal] = Open(words[2:], self.column)
                self.mark("begun", terminal, f"{tip}", words[2])
        elif not is_open:
            self.mark("refused", terminal, tip, "")
        else:
            self.move(terminal, words[0], last, tip)
        self.column += 1

    def mark(self, what, terminal, tip, text):
        self.marks.append((what, self.column, terminal, tip, text))

    def move(self, terminal, verb, last, tip):
        """An open transaction goes on, back, or ends."""
        tx = self.open[terminal]
        if verb in ("next", "run"):
            self.go(terminal, tx, verb, last, tip)
        elif verb == "save":
            tx.marked = len(tx.stages)
            self.mark("saved", terminal, tip, "")
        elif verb == "back":
            undone = tx.stages[tx.marked :]
            for stage in undone:
                stage.undone = True
            self.mark("back", terminal, tip, str(undone[0].column if undone else self.column))
            del tx.stages[tx.marked :]
        else:
            self.end(terminal, tx, "rolled back", tip, "")

    def go(self, terminal, tx, verb, last, tip):
        """A stage, or a `run` of several, was done, or another terminal was in the way."""
        busy = re.match(r"error 7 Busy (\S+) (\d+)$", last)
        commit = re.match(r"commit (\d+) ", last)
        if busy:
            self.mark("busy", terminal, tip, f"{busy[1]} {busy[2]}")
        if commit and verb == "next":
            self.end(terminal, tx, "committed", tip, commit[1])
            return
        if verb == "run" or last == "more":
            stage = Stage(self.column, "run" if verb == "run" else kind_of_next(tx.words, tx.stages), tip)
            tx.stages.append(stage)
            self.stages.append((terminal, stage))
        if commit:
            self.end(terminal, tx, "committed", tip, commit[1])
        elif last.startswith("error") and not re.match(r"error (7|8|9) ", last):
            self.end(terminal, tx, "rolled back", tip, "")

    def end(self, terminal, tx, how, tip, moment):
        """A transaction ends: where it was rolled back, all its stages are undone."""
        if how == "rolled back":
            for stage in tx.stages:
                stage.undone = True
        self.mark(how, terminal, tip, moment)
        self.spans.append((terminal, tx.begun, self.column))
        del self.open[terminal]

    def close(self):
        self.spans += [(terminal, tx.begun, self.column) for terminal, tx in self.open.items()]


def drawn(picture):
    """Gives the picture as SVG."""
    terminals = sorted({terminal for terminal, _, _ in picture.spans} | {mark[2] for mark in picture.marks})
    rows = {terminal: TOP + ROW * place for place, terminal in enumerate(terminals)}
    step = WIDE if picture.column <= MANY else NARROW
    x = lambda column: LEFT + step * column
    width, height = max(x(picture.column) + 30, 760), TOP + ROW * len(terminals) + 20
    out = [f'<svg xmlns="http://www.w3.org/2000/svg" width="{width}" height="{height}" viewBox="0 0 {width} {height}" font-family="sans-serif" font-size="11">',
           f'<rect width="{width}" height="{height}" fill="white"/>', *legend()]
    for column, cycle in picture.cycles:
        ends = [rows[it] for it in cycle if it in rows]
        if ends:
            out.append(f'<rect class="cycle" x="{x(column) - 4}" y="{min(ends) - 4}" width="8" height="{max(ends) - min(ends) + HEIGHT + 8}" rx="4" fill="{CYCLE}" fill-opacity="0.55"><title>a cycle of waits: {" ".join(map(str, cycle))}</title></rect>')
    for terminal, y in rows.items():
        out.append(f'<text x="8" y="{y + 15}" fill="{INK}">terminal {terminal}</text>')
        out.append(f'<line x1="{LEFT}" x2="{x(picture.column)}" y1="{y + HEIGHT / 2}" y2="{y + HEIGHT / 2}" stroke="#e4e4e4"/>')
    for terminal, begun, end in picture.spans:
        y = rows[terminal] + HEIGHT / 2
        out.append(f'<line x1="{x(begun)}" x2="{x(end) + step / 2}" y1="{y}" y2="{y}" stroke="#8a8a8a" stroke-width="2"/>')
    for terminal, stage in picture.stages:
        pale = ' fill-opacity="0.25" stroke-dasharray="2 2"' if stage.undone else ""
        out.append(f'<rect class="stage" x="{x(stage.column) + 1}" y="{rows[terminal]}" width="{step - 2}" height="{HEIGHT}" rx="2" fill="{COLOURS[stage.kind]}" stroke="#555555" stroke-width="0.5"{pale}><title>{escape(stage.tip)}</title></rect>')
    for mark in picture.marks:
        out += drawn_mark(mark, x, step, rows)
    return "\n".join([*out, "</svg>"])


def legend():
    """Says what the colours mean."""
    names = ["Warehouse", "District", "Customer", "Order", "Queue", "Stock", "Names", "none", "run"]
    texts = {"none": "no new lock", "run": "a run of stages"}
    out, at = [], 8
    for name in names:
        text = texts.get(name, name)
        out += [f'<rect x="{at}" y="10" width="14" height="14" rx="2" fill="{COLOURS[name]}" stroke="#555555" stroke-width="0.5"/>', f'<text x="{at + 18}" y="21" fill="{INK}">{text}</text>']
        at += 30 + 6.4 * len(text)
    out.append(f'<text x="8" y="44" fill="{INK}"><tspan fill="{BUSY}">●</tspan> Busy, with a line to who is in the way   ◯ commit, with its moment   ✕ rolled back   ⚑ savepoint   ↶ back to it   pale: undone   <tspan fill="{CYCLE}">▮</tspan> a cycle of waits</text>')
    return out


def drawn_mark(mark, x, step, rows):
    """Draws a mark of a terminal's row."""
    what, column, terminal, tip, text = mark
    y, middle, centre = rows[terminal], rows[terminal] + HEIGHT / 2, x(column) + step / 2
    title = f"<title>{escape(tip)}</title>"
    if what == "begun":
        return [f'<path d="M{x(column) + 6} {y} h-4 v{HEIGHT} h4" fill="none" stroke="{INK}" stroke-width="1.5">{title}</path>', f'<text x="{x(column)}" y="{y + HEIGHT + 13}" fill="{INK}">{escape(text)}</text>']
    if what == "busy":
        holder = int(text.split(" ")[1])
        line = [f'<line x1="{centre}" y1="{middle}" x2="{centre}" y2="{rows[holder] + HEIGHT / 2}" stroke="{BUSY}" stroke-width="1.5"/>'] if holder in rows else []
        return [*line, f'<circle class="busy" cx="{centre}" cy="{middle}" r="4.5" fill="{BUSY}">{title}</circle>']
    if what == "committed":
        return [f'<circle cx="{centre + step / 2}" cy="{middle}" r="8" fill="white" stroke="{INK}" stroke-width="1.5">{title}</circle>', f'<text x="{centre + step / 2}" y="{middle + 3.5}" text-anchor="middle" font-size="9" fill="{INK}">{text}</text>']
    if what == "rolled back":
        return [f'<path d="M{centre - 5} {middle - 5} l10 10 m0 -10 l-10 10" stroke="{INK}" stroke-width="2" fill="none">{title}</path>']
    if what == "saved":
        return [f'<path d="M{centre} {y + HEIGHT} v-{HEIGHT} l9 5 l-9 5" fill="{INK}" stroke="{INK}">{title}</path>']
    if what == "back":
        start = x(int(text)) + 2
        return [f'<path d="M{centre} {y - 1} C{centre} {y - 14} {start} {y - 14} {start} {y - 2} m-3 -4 l3 4 l4 -3" fill="none" stroke="{INK}" stroke-width="1.2">{title}</path>']
    return [f'<circle cx="{centre}" cy="{middle}" r="2.5" fill="{INK}">{title}</circle>']


def read(name):
    """Gives the lines of a file, or for `-` of standard input."""
    with open(0 if name == "-" else name, encoding="ascii", errors="replace") as file:
        return file.read().splitlines()


def main(words):
    if len(words) != 2:
        print("usage: timeline.py SCRIPT ANSWERS|- > FILE.svg", file=sys.stderr)
        return 2
    picture = Picture()
    try:
        for number, line, told in answered(read(words[0]), read(words[1])):
            picture.take(number, line, told)
    except OSError as error:
        print(f"timeline: {error.filename} can't be read: {error.strerror}", file=sys.stderr)
        return 2
    except Mismatch as error:
        print(f"timeline: {error}", file=sys.stderr)
        return 2
    picture.close()
    print(drawn(picture))
    return 0


if __name__ == "__main__":
    sys.exit(main(sys.argv[1:]))
