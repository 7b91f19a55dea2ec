"""The cloud of the story: a store that is a table, chains judged once for each tree, readings that wait until theirs is."""
import pathlib
import sqlite3
import sys

HERE = pathlib.Path(__file__).resolve().parent
sys.path.insert(0, str(HERE.parent.parent / "tool"))

import sheets  # noqa: E402
import stores  # noqa: E402
import text  # noqa: E402
import words  # noqa: E402

TABLES = ["store_row", "chain", "logger_chain", "zero", "reading"]


def sheet_of(name):
    """The bytes of the sheet that a text file has."""
    (rows, _), = text.parse((HERE.parent / name).read_bytes(), name)
    return sheets.lay_out(rows)


def done(inserted):
    if inserted.number:
        raise SystemExit(f"refused {inserted.number}: {words.NUMBERS[inserted.number][0]}")
    return inserted


class Logger:
    """A logger has a store of its own, in its memory; it sends its number and the chain's key."""

    def __init__(self, asks, name):
        self.asks, self.name = asks, name
        self.store = stores.empty(64)

    def load(self, sheet):
        """A release: the chain's number here, the rows that it added, and its key."""
        inserted = done(self.asks.insert(self.store, sheet))
        self.store = inserted.store
        number = inserted.answers[0]
        return number, inserted.added, self.asks.write_key(self.store, number)[1]

    def readings(self, number, counts):
        """What a chain makes of the counts of channel 1, a reading a tick. Nothing is connected to channel 0."""
        refusal, outputs = self.asks.run(self.store, number, 2, [value for count in counts for value in (0, count)])
        if refusal:
            raise SystemExit(f"refused {refusal}: {words.NUMBERS[refusal][0]}")
        return outputs


class Cloud:
    def __init__(self, asks, path):
        self.asks = asks
        self.base = sqlite3.connect(path, isolation_level=None)
        self.base.execute("PRAGMA foreign_keys = ON")

    def build(self):
        self.base.executescript((HERE / "schema.sql").read_text())

    def rows(self):
        return self.base.execute(
            "SELECT label, inputs, input0, input1, input2, input3 FROM store_row ORDER BY number"
        ).fetchall()

    def words(self):
        """The store's words, made from the table for each request."""
        rows = self.rows()
        run = [len(rows)] + [word for row in rows for word in row]
        return run + stores.empty()[len(run) :]

    def start(self):
        """Every request checks that the store is sound. A changed label it cannot see; the keys can."""
        run = self.words()
        for number, key_hex in self.base.execute("SELECT number, key_hex FROM chain").fetchall():
            if self.asks.write_key(run, number)[1].hex() != key_hex:
                raise SystemExit(f"chain {number} is not the chain that it was: its key is another")

    def insert(self, key):
        """The number of a key here, and the rows added. Of two writers the table's primary key refuses the second, who tries again."""
        while True:
            inserted = done(self.asks.insert(self.words(), key))
            number, count = inserted.answers[0], inserted.store[0]
            self.base.execute("BEGIN")
            try:
                for at in range(count - inserted.added, count):
                    row = inserted.store[1 + 6 * at : 7 + 6 * at]
                    self.base.execute("INSERT INTO store_row VALUES (?, ?, ?, ?, ?, ?, ?)", [at, *row])
                self.base.execute(
                    "INSERT INTO chain VALUES (?, ?, ?) ON CONFLICT DO NOTHING", [number, self.judged(inserted.store, number), key.hex()]
                )
                self.base.execute("COMMIT")
                return number, inserted.added
            except sqlite3.IntegrityError:
                self.base.execute("ROLLBACK")

    def judged(self, run, number):
        """1 if a difference of a channel and a constant is part of the chain, 0 if no constant is, else nobody knows."""
        operations = [words.operation_of(run[1 + 6 * at]) for at in range(run[0])]
        for at, operation in enumerate(operations):
            inputs = run[3 + 6 * at : 3 + 6 * at + run[2 + 6 * at]]
            kinds = [operations[entry] for entry in inputs]
            if operation == words.DIFFERENCE and kinds == [words.CHANNEL, words.CONSTANT] and self.part(run, number, at):
                return 1
        constants = [at for at, operation in enumerate(operations) if operation == words.CONSTANT]
        return None if any(self.part(run, number, at) for at in constants) else 0

    def part(self, run, whole, piece):
        return self.asks.part_of(run, whole, piece)[1]

    def take(self, logger, its_number, key):
        """A logger's message: its number for a chain, and the chain's key."""
        number, added = self.insert(key)
        self.base.execute("INSERT INTO logger_chain VALUES (?, ?, ?) ON CONFLICT DO NOTHING", [logger, its_number, number])
        return number, added

    def zeroed(self, number):
        return self.base.execute("SELECT zeroed FROM chain WHERE number = ?", [number]).fetchone()[0]

    def readings(self, logger, number, first, counts):
        rows = [(logger, first + tick, number, value) for tick, value in enumerate(counts)]
        self.base.execute("BEGIN")
        self.base.executemany("INSERT INTO reading VALUES (?, ?, ?, ?)", rows)
        self.base.execute("COMMIT")

    def zero(self, logger, counts):
        self.base.execute("INSERT INTO zero VALUES (?, ?)", [logger, counts])

    def report(self):
        return self.base.execute((HERE / "report.sql").read_text()).fetchall()

    def contents(self):
        """Each table's rows, in an order in which they can be loaded."""
        return [(table, self.base.execute(f"SELECT * FROM {table}").fetchall()) for table in TABLES]
