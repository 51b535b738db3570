#!/usr/bin/env python3
"""Puts a database behind `blockaid decide`. A query's own words never reach the database: what is
put to it is `send`, which the service prints of what it judged. No row reaches the user before the
service has taken it as told.

    examples/proxy/proxy.py PROGRAM DATABASE <queries

DATABASE is a file of SQLite, or where it has a `=` the words that psycopg2 connects with. Each line
of standard input is a query, or `as NUMBER`, which begins a request of that user. What the user
would see goes to standard output.
"""
import contextlib
import itertools
import json
import subprocess
import sys
import time
from decimal import Decimal

SCHEMA, POLICY = "examples/clinic/schema.sql", "examples/clinic/policy.sql"
MOST_BYTES, MOST_ROWS, MOST_SECONDS = 1_000_000, 100_000, 5


class Blocked(Exception):
    """Why there are no rows: what the user sees in their place."""


class Proxy:
    """A process that decides, and a database; one request at a time."""

    def __init__(self, program, database):
        words = [program, "decide", "--schema", SCHEMA, "--policy", POLICY, *database.words]
        self.process = subprocess.Popen(words, stdin=subprocess.PIPE, stdout=subprocess.PIPE)
        self.database, self.name = database, None

    def say(self, line):
        """The service's answer to a line."""
        with contextlib.suppress(BrokenPipeError):  # (then no answer comes either)
            self.process.stdin.write(json.dumps(line).encode() + b"\n")
            self.process.stdin.flush()
        return json.loads(self.process.stdout.readline() or sys.exit("the service has ended"))

    def begin(self, name, context):
        self.end()
        self.database.begin()
        self.name = name
        begun = self.say({"begin": name, "context": context})
        if "begin" not in begun:
            raise Blocked(begun)

    def end(self):
        if self.name:
            self.say({"end": self.name})
        self.name = None

    def query(self, text):
        """The rows that the user sees, and how many more there are."""
        if not self.name:
            raise Blocked("no request is open")
        decision = self.say({"ask": self.name, "query": text})
        if "allowed" not in decision:  # a block, a fault, or want of memory, which blocks as well
            raise self.refusal(decision)
        rows = self.database.rows(decision["send"])
        shown = as_many_as_fit(rows)
        if rows and not shown:
            raise Blocked("the first row of the answer is too long for a line that tells it")
        told = self.say({"rows": shown, "told": decision["line"]})
        # Rows that weren't taken may be of another question, or of no database that can be. An
        # empty answer has none to take: it may be shown, also where there was no memory for that.
        if "told" not in told and (shown or "fault" in told):
            raise self.refusal(told)
        return shown, len(rows) - len(shown)

    def refusal(self, answer):
        """What the user sees where the service's answer isn't yes. It may end the request."""
        if answer.get("fault") not in ("contradiction", "closed"):
            return Blocked(answer)
        self.end()
        return Blocked("no one database has all rows that were told: the request has ended")


class Database:
    """A connection, of which a transaction, and so a request, sees one state."""

    def __init__(self, connection, kind, namespace):
        self.connection, self.until = connection, 0
        self.words = ["--database", kind, "--namespace", namespace]

    def begin(self):
        self.connection.rollback()
        self.connection.cursor().execute("SAVEPOINT request")

    def rows(self, text):
        """The rows of a query as they are told: a set, in an order that goes by them alone."""
        self.until = time.monotonic() + MOST_SECONDS
        cursor = self.connection.cursor()
        try:
            cursor.execute(text)
            rows, names = cursor.fetchall(), [column[0] for column in cursor.description]
        except (self.connection.Error, ValueError, OverflowError) as error:
            self.connection.cursor().execute("ROLLBACK TO SAVEPOINT request")
            print(error, file=sys.stderr)  # (not for the user: it may have a value in it)
            raise Blocked(f"the database has no answer: {type(error).__name__}")
        return sorted({tuple(map(told_value, row, names)) for row in rows}, key=in_order)


def told_value(value, column):
    """A value as the service is told it, of the types that can be told one to one."""
    if isinstance(value, Decimal) and value.is_finite() and value == value.to_integral_value():
        value = int(value)
    if value is None or isinstance(value, str):
        return value
    if isinstance(value, int) and -(2**63) <= value < 2**63:
        return int(value)  # (of a truth value 0 or 1)
    what = "a number past 64 bits" if isinstance(value, int) else type(value).__name__
    raise Blocked(f"the column {column} has a value that can't be told: {what}")


def in_order(row):
    """NULL comes first, then numbers, then texts, column by column."""
    return [(value is not None, isinstance(value, str), value or type(value)()) for value in row]


def as_many_as_fit(rows):
    """Rows from the first on, as many as a line may tell."""
    sizes = itertools.accumulate(len(json.dumps(row)) + 2 for row in rows[:MOST_ROWS])
    return rows[: sum(size <= MOST_BYTES for size in sizes)]


def connect(words):
    """The database. A query may take MOST_SECONDS."""
    if "=" in words:
        import psycopg2

        connection = psycopg2.connect(words)
        connection.set_client_encoding("UTF8")
        connection.set_session(isolation_level="REPEATABLE READ", readonly=True)
        connection.cursor().execute(f"SET statement_timeout = '{MOST_SECONDS}s'")
        connection.commit()
        return Database(connection, "postgresql", "public")
    import sqlite3

    database = Database(sqlite3.connect(words, isolation_level=None), "sqlite", "main")
    database.connection.set_progress_handler(lambda: time.monotonic() > database.until, 10_000)
    return database


def main(program, words):
    proxy = Proxy(program, connect(words))
    for number, text in enumerate(map(str.strip, sys.stdin)):
        try:
            if text.startswith("as "):
                print(f"user {text[3:]}")
                proxy.begin(f"r{number}", {"Me": int(text[3:]), "Today": 120})
                continue
            rows, left = proxy.query(text)
            more = f" and {left} more, which no line can tell" if left else ""
            print(f"  {text} {rows}{more}")
        except Blocked as blocked:
            print(f"  {text} {blocked}")


if __name__ == "__main__":
    main(*sys.argv[1:])
