#!/usr/bin/env python3
"""Runs a load of `oe_server` on another engine, each terminal in a connection of its own.

    python3 examples/engines/run.py sqlite|postgresql|mariadb PLACE LOAD TABLES OUT [--isolation LEVEL]

PLACE is where the engine is (see the engine's file beside this one). LOAD is a flat load; TABLES has the nine tables of
its population, a file each, as `dump` prints them. The folder OUT gets `commits`, the input of `serial`, and the nine
tables afterwards by the engine's own export, the input of `audit`. The load's queries are left out.
"""
import argparse
import importlib
import sys
import threading
from pathlib import Path

from schema import TABLES, definition
from transactions import TRANSACTIONS


class Session:
    """A terminal's connection, which carries out its requests. SQL is written with `?` for a value."""

    def __init__(self, args, terminal):
        self.engine, self.terminal, self.retries = args.engine, terminal, 0
        self.connection = self.engine.connect(args.place, args.isolation)
        self.cursor = self.connection.cursor()

    def run(self, sql, *values):
        self.cursor.execute(sql.replace("?", self.engine.MARK), values)

    def rows(self, sql, *values):
        self.run(sql, *values)
        return self.cursor.fetchall()

    def row(self, sql, *values):
        return self.rows(sql, *values)[0]

    def transact(self, words):
        """Carries a request out until it commits: gives its place in the order of commits, and its reply. The last
        statement draws the place. Whoever waits for a row of this transaction draws later, since the row is free only
        after the commit."""
        while True:
            try:
                self.engine.begin(self.cursor)
                reply = TRANSACTIONS[words[0]](self, words[1:])
                place = self.engine.draw(self.cursor)
                self.connection.commit()
                return place, reply
            except Exception as error:
                self.connection.rollback()
                if not self.engine.is_refused(error):
                    raise
                self.retries += 1

    def carry_out(self, requests, done, failed):
        """Carries out a terminal's requests one after another."""
        try:
            for words in requests:
                place, reply = self.transact(words)
                done.append((place, f"{self.terminal} {' '.join(words)} => {reply}"))
        except Exception as error:
            failed.append(error)
        finally:
            self.connection.close()


def fill(args):
    """Makes the nine tables anew, and has the engine load them. In a dump a null is `-`, a last line counts the rows,
    and HISTORY has three columns of the server's own in front."""
    session = Session(args, 0)
    for name, table, keys, words in TABLES:
        session.run(f"drop table if exists {table}")
        session.run(definition(table, keys, words, args.engine.TYPES))
        session.connection.commit()
        count = len(words.split())
        rows = [line.split("\t") for line in (args.tables / name).read_text().splitlines()]
        file = args.out / "rows"
        file.write_text("".join("\t".join("\\N" if it == "-" else it for it in row[-count:]) + "\n"
                                for row in rows if len(row) >= count))
        args.engine.load(args.place, session.connection, table, file.resolve())
        file.unlink()
    for statement in args.engine.ORDER:
        session.run(statement)
    session.connection.commit()
    session.connection.close()


def export(args):
    """Has the engine write the nine tables."""
    session = Session(args, 0)
    for name, table, *_ in TABLES:
        (args.out / name).unlink(missing_ok=True)
        args.engine.export(args.place, session.connection, table, (args.out / name).resolve())
    session.connection.close()


def main():
    parser = argparse.ArgumentParser(description=__doc__.splitlines()[0])
    parser.add_argument("engine", choices=["sqlite", "postgresql", "mariadb"])
    parser.add_argument("place")
    parser.add_argument("load", type=Path)
    parser.add_argument("tables", type=Path)
    parser.add_argument("out", type=Path)
    parser.add_argument("--isolation", default="serializable")
    args = parser.parse_args()
    args.engine = importlib.import_module(args.engine)
    if args.isolation not in args.engine.ISOLATIONS:
        sys.exit(f"run.py: the isolation is one of {', '.join(args.engine.ISOLATIONS)}")
    # (an engine's server, which has a user of its own, may write there)
    args.out.mkdir(parents=True, exist_ok=True)
    args.out.chmod(0o777)
    fill(args)
    opening, *lines = args.load.read_text().splitlines()
    requests = {}
    for number, *words in (line.split(" ") for line in lines):
        if words[0] in TRANSACTIONS:
            requests.setdefault(int(number), []).append(words)
    sessions, done, failed = [Session(args, terminal) for terminal in sorted(requests)], [], []
    threads = [threading.Thread(target=it.carry_out, args=(requests[it.terminal], done, failed)) for it in sessions]
    for step in (threading.Thread.start, threading.Thread.join):
        for thread in threads:
            step(thread)
    if failed:
        sys.exit(f"run.py: {failed[0]}")
    (args.out / "commits").write_text("\n".join([opening] + [line for _, line in sorted(done)]) + "\n")
    export(args)
    print(f"{len(done)} commits, {sum(it.retries for it in sessions)} retries")


if __name__ == "__main__":
    main()
