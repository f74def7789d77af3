"""MariaDB by pymysql. PLACE is the server's socket; the user is root, the database tpcc, which is made anew."""
import pymysql

ISOLATIONS = ["read-committed", "repeatable-read", "serializable"]
MARK = "%s"
# A text is compared by its bytes.
TYPES = {"i": "bigint", "m": "decimal(12, 2)", "r": "decimal(4, 4)", "t": "datetime",
         "text": "varchar({}) character set ascii collate ascii_bin"}
# A deadlock, a lock that was waited for too long, a key that another transaction has just inserted, and a row that has
# changed since the snapshot.
REFUSED = (1213, 1205, 1062, 1020)
# A sequence is of no transaction: whoever draws from it has the next number at once.
ORDER = ["drop sequence if exists commit_order", "create sequence commit_order nocache"]


def connect(place, isolation):
    connection = pymysql.connect(unix_socket=place, user="root", local_infile=True, autocommit=False)
    cursor = connection.cursor()
    cursor.execute("create database if not exists tpcc")
    cursor.execute("use tpcc")
    cursor.execute(f"set session transaction isolation level {isolation.replace('-', ' ')}")
    return connection


def begin(cursor):
    """A transaction begins with its first statement."""


def is_refused(error):
    return isinstance(error, pymysql.MySQLError) and error.args[0] in REFUSED


def draw(cursor):
    cursor.execute("select nextval(commit_order)")
    return cursor.fetchone()[0]


def load(place, connection, name, file):
    connection.cursor().execute(f"load data local infile '{file}' into table {name}")
    connection.commit()


def export(place, connection, name, file):
    """The server itself writes the file, so its folder has to be open to it."""
    connection.cursor().execute(f"select * from {name} into outfile '{file}'")
