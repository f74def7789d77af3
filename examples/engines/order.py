#!/usr/bin/env python3
"""Finds an order of commits in what their replies tell, for an engine that gives none.

    python3 examples/engines/order.py FILE [--from DIR] [--program ./oe_server] > ORDERED

FILE is a file of commits (docs/SERIAL.md), whose lines may stand in any order in which each terminal's own lines follow one another. The
tables before them are those that the first line opens, or the nine files of DIR. An order's reply tells O_ID and what it leaves of each
stock, a payment's the balance that it leaves, a delivery's the order that it takes: each transaction is tried where all these are what it
would find. `oe_server serial ORDERED` is the judge of what is found, as names, totals and amounts are not looked at here.

Where there is no order, standard error has lines each of which would have to come before the next, up to the first again, and the status
is 1; it is 2 where FILE or DIR can't be read.
"""
import argparse
import re
import subprocess
import sys
from pathlib import Path


class Unread(Exception):
    """A file is not what it has to be."""


def cents(text):
    """Reads an amount."""
    return int(text.replace(".", ""))


class Commit:
    """A line: what the transaction finds and leaves, by the column that it tells of."""

    def __init__(self, number, line):
        request, arrow, reply = line.partition(" => ")
        words, told = request.split(" "), reply.split(" ")
        if not arrow or len(words) < 3 or words[1] != told[0].replace("deliveries", "delivery"):
            raise Unread(f"line {number} is no request and reply")
        self.number, self.line, self.terminal, self.steps = number, line, words[0], []
        getattr(self, words[1])(words[2:], told[1:])

    def find(self, column, found, left):
        """The column is `found` before, and `left` behind."""
        self.steps.append((column, found, left))

    def neworder(self, words, told):
        place = (words[0], words[1])
        order = int(told[0])
        self.find(("D_NEXT_O_ID", *place), order, order + 1)
        self.queued = (place, order)
        for item, line in zip(words[4:], told[4:]):
            warehouse, number, quantity = item.split(":")
            left = int(line.split(":")[1])
            # (clause 2.4.2.2: the stock falls by the quantity, or by that and rises by 91 where fewer than 10 would be left)
            found = left + int(quantity) if left + int(quantity) <= 100 else left + int(quantity) - 91
            self.find(("S_QUANTITY", warehouse, number), found, left)

    def payment(self, words, told):
        left = cents(told[3])
        self.find(("C_BALANCE", words[2], words[3], told[0]), left + cents(words[5]), left)

    def delivery(self, words, told):
        if len(words) == 4:
            parts = [(words[1], told)]
        else:
            parts = [(it.split(":")[0], it.split(":")[1:]) for it in told]
        self.taken = [((words[0], district), None if part[0] == "skipped" else (int(part[0]), part[1], cents(part[2]))) for district, part in parts]

    def rename(self, words, told):
        """A rename changes names alone."""

    queued, taken = None, ()


class Tables:
    """What is looked at of the tables, as they stand behind the commits that were put so far."""

    def __init__(self, rows):
        self.now = {("D_NEXT_O_ID", r[0], r[1]): int(r[10]) for r in rows("district")}
        self.now.update({("C_BALANCE", r[0], r[1], r[2]): cents(r[16]) for r in rows("customer")})
        self.now.update({("S_QUANTITY", r[0], r[1]): int(r[2]) for r in rows("stock")})
        self.queues = {}
        for r in rows("neworder"):
            self.queues.setdefault((r[0], r[1]), []).append(int(r[2]))
        for queue in self.queues.values():
            queue.sort()

    def misses(self, commit):
        """The first thing that the commit would not find so: a column with what it finds, or a district whose queue is another."""
        seen = {}
        for column, found, left in commit.steps:
            if seen.get(column, self.now.get(column)) != found:
                return column, found
            seen[column] = left
        for place, part in commit.taken:
            queue = self.queues.get(place, [])
            if (queue[0] if queue else None) != (part[0] if part else None):
                return ("NEW-ORDER", *place), part[0] if part else None
        return None

    def put(self, commit, forward=True):
        """Carries a commit out, or takes it back."""
        for column, found, left in commit.steps if forward else commit.steps[::-1]:
            self.now[column] = left if forward else found
        if commit.queued:
            place, order = commit.queued
            queue = self.queues.setdefault(place, [])
            queue.append(order) if forward else queue.remove(order)
        for place, part in commit.taken:
            if part:
                order, customer, amount = part
                column = ("C_BALANCE", *place, customer)
                queue = self.queues.setdefault(place, [])
                queue.pop(0) if forward else queue.insert(0, order)
                self.now[column] += amount if forward else -amount


def ordered(tables, commits):
    """Gives the commits in an order in which each finds what its reply tells, or none, and how far the furthest try came."""
    lanes = {}
    for commit in commits:
        lanes.setdefault(commit.terminal, []).append(commit)
    lanes = list(lanes.values())
    at, path, dead, furthest = [0] * len(lanes), [], set(), []
    choices = [0]
    while True:
        if len(path) == len(commits):
            return path, path
        # What has been put decides what the tables are, in whichever order it was put.
        lane = next((it for it in range(choices[-1], len(lanes)) if at[it] < len(lanes[it]) and not tables.misses(lanes[it][at[it]])), None) if tuple(at) not in dead else None
        if lane is not None:
            choices[-1] = lane + 1
            choices.append(0)
            path.append(lanes[lane][at[lane]])
            tables.put(path[-1])
            at[lane] += 1
            continue
        furthest = max(furthest, list(path), key=len)
        dead.add(tuple(at))
        choices.pop()
        if not path:
            return None, furthest
        last = path.pop()
        tables.put(last, forward=False)
        at[next(it for it, own in enumerate(lanes) if at[it] and own[at[it] - 1] is last)] -= 1


def leads_to(commit, column, wanted):
    """Tells whether a commit leaves a column as another would find it."""
    if column[0] == "NEW-ORDER":
        return (commit.queued == (column[1:], wanted)) if wanted is not None and commit.queued else any(place == column[1:] and part for place, part in commit.taken)
    return any(one == column and left == wanted for one, _, left in commit.steps) or any(part and column == ("C_BALANCE", *place, part[1]) for place, part in commit.taken)


def circle(tables, commits, put):
    """Gives lines each of which would have to come before the next, up to the first again, where the furthest try stood."""
    for commit in put:
        tables.put(commit)
    left = [it for it in commits if it not in put]
    at, seen = left[0], []
    while at not in seen:
        seen.append(at)
        missed = tables.misses(at)
        own = next(it for it in left if it.terminal == at.terminal)
        if own is not at:
            at = own
        elif missed:
            before = next((it for it in left if it is not at and leads_to(it, *missed)), None)
            if before is None:
                return [at], missed
            at = before
        else:
            return [at], None
    return seen[seen.index(at) :][::-1], None


def rows_of(opening, folder, program):
    """Gives what reads a table's rows: from a folder, or as the opening makes them."""
    def rows(table):
        if folder:
            text = Path(folder, table).read_text(encoding="ascii")
        else:
            text = subprocess.run([program, "script"], input=f"{opening}\ndump {table}\n", capture_output=True, text=True, check=True).stdout.partition("\n")[2]
        return [it.split("\t") for it in text.splitlines() if not re.match(r"rows \d+$", it)]
    return rows


def main():
    asked = argparse.ArgumentParser(description=__doc__, formatter_class=argparse.RawDescriptionHelpFormatter)
    asked.add_argument("file")
    asked.add_argument("--from", dest="folder")
    asked.add_argument("--program", default="./oe_server")
    words = asked.parse_args()
    try:
        opening, *lines = Path(words.file).read_text(encoding="ascii").splitlines()
        commits = [Commit(number, line) for number, line in enumerate(lines, 2)]
        tables = Tables(rows_of(opening, words.folder, words.program))
    except (OSError, ValueError, IndexError, Unread, subprocess.CalledProcessError) as error:
        print(f"order: {error}", file=sys.stderr)
        return 2
    found, put = ordered(tables, commits)
    if found is None:
        lines, missed = circle(tables, commits, put)
        print(f"no order: {len(put)} of {len(commits)} commits can be put behind one another", file=sys.stderr)
        if missed:
            print(f"line {lines[0].number} finds {' '.join(missed[0])} {missed[1]}, which no other line leaves", file=sys.stderr)
        else:
            print("\n".join(f"line {it.number}, before line {after.number}: {it.line}" for it, after in zip(lines, [*lines[1:], lines[0]])), file=sys.stderr)
        return 1
    print("\n".join([opening, *[it.line for it in found]]))
    return 0


if __name__ == "__main__":
    sys.exit(main())
