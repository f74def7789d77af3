"""SQLite by Python's own module; its command `sqlite3` loads and exports the tables. PLACE is the file."""
import sqlite3
import subprocess
from decimal import Decimal

ISOLATIONS = ["serializable"]
MARK = "?"
# It has no exact decimals: an amount is a text.
TYPES = {"i": "integer", "m": "text", "r": "text", "t": "text", "text": "text"}
# One transaction writes at a time, so a row that each raises tells their order.
ORDER = ["drop table if exists commit_order", "create table commit_order as select 0 as n"]

sqlite3.register_adapter(Decimal, str)


def connect(place, isolation):
    return sqlite3.connect(place, isolation_level=None, timeout=60, check_same_thread=False)


def begin(cursor):
    """From here on no other transaction writes."""
    cursor.execute("begin immediate")


def is_refused(error):
    return isinstance(error, sqlite3.OperationalError) and "locked" in str(error)


def draw(cursor):
    cursor.execute("update commit_order set n = n + 1")
    cursor.execute("select n from commit_order")
    return cursor.fetchone()[0]


def load(place, connection, name, file):
    subprocess.run(["sqlite3", place, ".mode tabs", f".import {file} {name}"], check=True)
    may_be_null = f"select name from pragma_table_info('{name}') where not \"notnull\""
    for (column,) in connection.execute(may_be_null).fetchall():
        connection.execute(f"update {name} set {column} = null where {column} = '\\N'")


def export(place, connection, name, file):
    with open(file, "wb") as rows:
        words = ["sqlite3", "-list", "-separator", "\t", "-nullvalue", "\\N", place, f"select * from {name}"]
        subprocess.run(words, stdout=rows, check=True)
