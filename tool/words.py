"""The tables: operations, the register's numbers in words, the tool's own statuses."""

# The operations that have a name in text, with the inputs that each takes.
OPERATIONS = {
    1: ("channel", 0),
    2: ("constant", 0),
    3: ("difference", 2),
    4: ("sum", 2),
    5: ("scale", 1),
    6: ("hold", 1),
    7: ("wire", 1),
    8: ("greater", 2),
    9: ("lesser", 2),
    10: ("choose", 3),
    11: ("mean4", 4),
    12: ("negate", 1),
    13: ("mean8", 8),
}
NAMED = {name: operation for operation, (name, _) in OPERATIONS.items()}
CHANNEL, CONSTANT, DIFFERENCE, SCALE, HOLD, WIRE = 1, 2, 3, 5, 6, 7
# These mean nothing without their setting, so it is always written.
WITH_SETTING = {CHANNEL, CONSTANT, SCALE}
# What the strict insert knows; 13 is named in text and comes into the catalogue later.
CATALOGUE = {operation: inputs for operation, (_, inputs) in OPERATIONS.items() if operation != 13}

# Numbers given back: the header's words, and what to do about each.
NUMBERS = {
    0: ("done", "nothing is wrong"),
    1: ("the store has no words", "a store needs at least one word, its count: make one with chain new"),
    2: (
        "the store is not sound: its count, a row's shape, a wire, or two rows of one tree",
        "go back to a copy from before, or let chain mend make a sound store of it; chain show --anyway shows what can be seen",
    ),
    3: (
        "the sheet has under 7 bytes, or its length field is not its bytes less 4",
        "the file was cut, or something was added to it: fetch it again",
    ),
    4: ("the sheet's version is not 1", "the file was made for another register, or is no sheet"),
    5: (
        "row count over 1,024, a row with over 4 inputs, rows ending past the file or before its end",
        "the byte named is where the first bad row starts: draw that row again, or fetch the file again",
    ),
    6: (
        "an input points to no row of sheet or store",
        "the byte named is the input: a row was left out of the drawing; or an old sheet, to be converted, was drawn against another store",
    ),
    7: ("the answer list has fewer entries than the sheet has rows", "lend a list with an entry for each row"),
    8: (
        "used rows plus new distinct trees exceed the capacity",
        "nothing is ever deleted: make a larger store and insert chain show's text into it",
    ),
    9: ("the number asked for is not in use", "chain check says how many rows are in use; numbers start at 0"),
    10: (
        "the buffer is shorter than the key, or than the converted sheet",
        "lend 13,319 bytes, the length of the longest key and of the longest sheet",
    ),
    12: (
        "a row's operation is not in the catalogue, or its input count is not the catalogue's",
        "a strict insert and a run take only the catalogue's operations with their inputs: an input was left off, or the operation is unknown",
    ),
    13: (
        "a loop passes no hold",
        "a strict insert and a run take only loops that pass a hold: put one where the value of one tick before is meant",
    ),
    14: (
        "a wire of the sheet has not exactly one input",
        "a wire is nothing but the row that it leads to: give it that one input, or draw the operation that was meant",
    ),
    15: (
        "wires of the sheet alone lead round in a loop",
        "such wires lead to no row: draw between them what was left out, a hold where the value of one tick before is meant",
    ),
    16: (
        "the mender's list has fewer entries than rows are taken",
        "lend a list with an entry for each row of the store; 1,024 are always enough",
    ),
    17: (
        "channel count outside 1 to 8, values not whole ticks, or a channel reached that is not there",
        "a tick has a count for each of its 1 to 8 channels, and a channel of setting 3 needs four of them: 0, 1, 2 and 3",
    ),
    18: (
        "the output has fewer entries than there are ticks",
        "lend an entry for each tick; as many as there are values are always enough",
    ),
    19: (
        "an input of the sheet is 32,768 or more: it names a row of a store",
        "such inputs mean another row in another store, and are retired: chain convert draws the rows meant into the sheet, from the store that"
        " it was drawn against",
    ),
    20: (
        "the converted sheet would have over 1,024 rows",
        "the sheet's rows and the store rows that they lead to are too many for one sheet: convert it in parts",
    ),
}

STATUSES = {
    0: "done, or yes",
    1: "no",
    2: "wrong use",
    3: "refused by the register",
    4: "a file or text that cannot be used",
    5: "asks is missing or broken, or the tool itself",
    6: "the store is busy",
}


def operation_of(label):
    return label >> 16


def setting_of(label):
    return label & 0xFFFF


def operation_name(operation):
    return OPERATIONS[operation][0] if operation in OPERATIONS else f"op{operation}"


def shown_setting(label):
    """A setting as a person reads it: constants have a sign."""
    setting = setting_of(label)
    if operation_of(label) == CONSTANT and setting > 32767:
        return setting - 65536
    return setting


def label_words(label):
    """Operation and setting as text has them, a setting of 0 left out where it may be."""
    operation = operation_of(label)
    name = operation_name(operation)
    if setting_of(label) or operation in WITH_SETTING:
        return f"{name} {shown_setting(label)}"
    return name


def counted(count, noun):
    """A number and its noun: `1 row`, `1,024 rows`."""
    return f"{count:,} {noun}" if count == 1 else f"{count:,} {noun}s"
