"""PostgreSQL by psycopg2. PLACE is a connection's string, as `host=/tmp/server port=5499 user=postgres`."""
import psycopg2

ISOLATIONS = ["read-committed", "repeatable-read", "serializable"]
MARK = "%s"
# A text is compared by its bytes.
TYPES = {"i": "bigint", "m": "numeric(12, 2)", "r": "numeric(4, 4)", "t": "timestamp", "text": 'varchar({}) collate "C"'}
# A serialization failure, a deadlock, and a key that another transaction has just inserted.
REFUSED = ("40001", "40P01", "23505")
# A sequence is of no transaction: whoever draws from it has the next number at once.
ORDER = ["drop sequence if exists commit_order", "create sequence commit_order"]


def connect(place, isolation):
    connection = psycopg2.connect(place)
    connection.set_session(isolation_level=isolation.replace("-", " "))
    return connection


def begin(cursor):
    """A transaction begins with its first statement."""


def is_refused(error):
    return getattr(error, "pgcode", None) in REFUSED


def draw(cursor):
    cursor.execute("select nextval('commit_order')")
    return cursor.fetchone()[0]


def load(place, connection, name, file):
    with open(file, encoding="ascii") as rows:
        connection.cursor().copy_expert(f"copy {name} from stdin", rows)
    connection.commit()


def export(place, connection, name, file):
    with open(file, "w", encoding="ascii") as rows:
        connection.cursor().copy_expert(f"copy {name} to stdout", rows)
