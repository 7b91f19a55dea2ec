"""Round trips: every readable sheet of seeded bundles to text and back, both ways; stores to text and back."""
import collections
import random
import subprocess

from bench import SECOND, chain, environment, equal, folder, good, need

SEEDS, SHEETS, WANTED = 200, 24, 3000


def bundle(seed, count):
    return subprocess.run([SECOND, "bundle", str(seed), str(count)], capture_output=True, check=True).stdout


def split(speaker, data):
    parts, place = [], 0
    while place < len(data):
        lengths = speaker.lengths(data[place : place + 65536])
        if not lengths:
            break
        for length in lengths:
            parts.append(data[place : place + length])
            place += length
    return parts


def there_and_back(data, what):
    """write (read b) is b, and read (write t) is t for the text that comes of it."""
    import sheets
    import text

    normal = text.normal(sheets.rows_of(data))
    (rows, _), = text.parse(normal.encode(), "again")
    equal(sheets.lay_out(rows), data, f"{what}: written again")
    equal(text.normal(rows), normal, f"{what}: read again")


def sheets_there_and_back():
    import asks

    speaker, done = asks.Asks(), 0
    with environment(None):
        for seed in range(1, SEEDS + 1):
            for at, data in enumerate(split(speaker, bundle(seed, SHEETS)), 1):
                if speaker.read_sheet(data)[0] == 0:
                    there_and_back(data, f"seed {seed}, sheet {at}")
                    done += 1
    speaker.close()
    need(done >= WANTED, f"only {done} sheets could be read")
    return f"{done:,} readable sheets of {SEEDS} seeds"


def bundles_through_the_commands():
    """chain write (chain read b) is b where every sheet of b can be read."""
    done = 0
    with folder() as room:
        for seed in range(1, 200):
            data = bundle(seed, 3)
            (room / "b").write_bytes(data)
            status, text, _ = chain(room, "read", "b")
            if status == 0 and data:
                equal(good(room, "write", "-", data=text), data, f"seed {seed}")
                done += 1
                if done == 12:
                    return "12 bundles"
    return need(False, f"only {done} bundles could be read whole")


def stores_there_and_back():
    """chain show S | chain insert T -: T is S byte for byte."""
    dice = random.Random(7)
    with folder() as room:
        for turn in range(4):
            rows = dice.choice([200, 1024])
            good(room, "new", f"s{turn}", "--rows", rows)
            while good(room, "show", f"s{turn}") == b"":
                (room / "b").write_bytes(bundle(dice.randrange(1, 500), 10))
                chain(room, "insert", f"s{turn}", "b", "--keep-going")
            good(room, "new", f"t{turn}", "--rows", rows)
            good(room, "insert", f"t{turn}", "-", data=good(room, "show", f"s{turn}"))
            equal((room / f"t{turn}").read_bytes(), (room / f"s{turn}").read_bytes(), f"store {turn}")
    return "4 stores"


def texts_by_chance():
    """Texts that are not normal: the sheet is that of their normal text."""
    import sheets
    import text
    import words

    dice = random.Random(11)
    for turn in range(600):
        names = dice.sample(["a", "b-1", "größe", "x_", "Y9", "raw", "r7", "n0"], dice.randrange(1, 8))
        lines = []
        for name in names:
            operation = dice.choice([words.operation_name(dice.randrange(14)), f"op{dice.randrange(65536)}"])
            number = int(operation[2:]) if operation[:2] == "op" else words.NAMED[operation]
            low = -32768 if number == words.CONSTANT else 0
            setting = dice.choice(["", hex(dice.randrange(65536)), str(dice.randrange(low, 65536))])
            if number in words.WITH_SETTING and not setting:
                setting = "7"
            inputs = [dice.choice(names + [f"%{dice.randrange(32768)}", f"@{dice.randrange(32768)}"]) for _ in range(dice.randrange(5))]
            gap = dice.choice([" ", "  ", "\t"])
            lines.append(gap.join(filter(None, [name, "=", operation, setting, *inputs])) + dice.choice(["", " # so", "\n", "\r"]))
        (rows, _), = text.parse("\n".join(lines).encode(), "chance")
        there_and_back(sheets.lay_out(rows), f"text {turn}")
    return "600 texts"


def row_is_meant(data, number, row):
    """Whether a row is a wire that has not one input (14), one from which wires lead back to it (15), or has a store number (19)."""
    import loops
    import sheets

    if number not in (14, 15, 19):
        return True
    rows = sheets.rows_of(data)
    if number == 19:
        return max(rows[row].inputs, default=0) >= sheets.STORE
    if number == 14:
        return loops.is_wire(rows[row]) and len(rows[row].inputs) != 1
    at = row
    for _ in rows:
        if not loops.is_wire(rows[at]):
            return False
        at = rows[at].inputs[0]
        if at == row:
            return True
    return False


def refusals_by_chance():
    """What is said beside every refusal of seeded sheets: the row that asks means is found, with 14 and 15 such a wire, with 19 such a row."""
    import asks
    import explain
    import stores
    from sheets import Sheet

    speaker, seen = asks.Asks(), collections.Counter()
    with environment(None):
        for seed in range(1, 41):
            run = stores.empty(64)
            for at, data in enumerate(split(speaker, bundle(seed, SHEETS)), 1):
                plain, strict = speaker.insert(run, data), speaker.insert(run, data, True)
                for done in [done for done in (plain, strict) if done.number]:
                    what = f"seed {seed}, sheet {at}, refused {done.number}"
                    said = explain.refused(Sheet("sheet", data, "sheet"), done.number, done.place, run, "store")
                    need(not any("plain to see" in line for line in said.lines), f"{what}: it said {said.lines}")
                    need(row_is_meant(data, done.number, said.members.get("row")), f"{what}: it said {said.lines}")
                    seen[done.number] += 1
                run = plain.store
    speaker.close()
    need({5, 6, 12, 13, 14, 15, 19} <= set(seen), f"only the refusals {sorted(seen)} were seen")
    return ", ".join(f"{count} of {number}" for number, count in sorted(seen.items()))


def old_sheet(dice, used):
    """A few rows whose inputs are rows of the sheet or, as often, of a store of so many."""
    from sheets import STORE, Row

    count = dice.randrange(1, 9)
    entries = [dice.randrange(count) for _ in range(4)] + [STORE + dice.randrange(used) for _ in range(4)]
    return [Row(dice.choice([3, 4, 6, 8]) << 16 | at, tuple(dice.choice(entries) for _ in range(dice.randrange(5)))) for at in range(count)]


def placed_again(rows, stored):
    """What an old sheet is converted to: its rows, and behind them the rows of the store that they lead to, by rising number."""
    import loops
    from sheets import STORE, Row

    named = [entry - STORE for row in rows for entry in row.inputs if entry >= STORE]
    behind = sorted(loops.reached(named, [row.inputs for row in stored]))
    place = {number: len(rows) + at for at, number in enumerate(behind)}
    own = [Row(row.label, tuple(entry if entry < STORE else place[entry - STORE] for entry in row.inputs)) for row in rows]
    return own + [Row(stored[number].label, tuple(place[entry] for entry in stored[number].inputs)) for number in behind], behind


def old_sheets_converted():
    """Old sheets over seeded stores: what they are converted to, that inserts take only that, and that appended rows get their old numbers."""
    import asks
    import sheets
    import stores

    dice, speaker, done, appended = random.Random(17), asks.Asks(), 0, 0
    with environment(None):
        for seed in range(1, 31):
            run = stores.empty()
            for data in split(speaker, bundle(seed, 6)):
                run = speaker.insert(run, data).store
            for turn in range(6 if run[0] else 0):
                rows = old_sheet(dice, run[0])
                old = sheets.lay_out(rows)
                wanted, behind = placed_again(rows, stores.rows_in(run, run[0]))
                number, _, new = speaker.convert(run, old)
                what = f"seed {seed}, sheet {turn}"
                equal((number, new), (0, sheets.lay_out(wanted)), what) if len(wanted) <= stores.MOST_ROWS else equal(number, 20, what)
                names = any(entry >= sheets.STORE for row in rows for entry in row.inputs)
                need((speaker.insert(run, old).number == 19) == names, f"{what}: store numbers are refused, and nothing else")
                inserted = speaker.insert(run, new)
                if inserted.number == 0:
                    equal(inserted.answers[len(rows) : len(wanted)], behind, f"{what}: numbers of appended rows")
                done, appended = done + 1, appended + len(behind)
    speaker.close()
    need(done >= 100 and appended >= 300, f"only {done} sheets with {appended} rows appended")
    return f"{done} sheets, {appended:,} rows appended"


TESTS = [refusals_by_chance, old_sheets_converted, sheets_there_and_back, bundles_through_the_commands, stores_there_and_back, texts_by_chance]
