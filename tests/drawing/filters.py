"""Filters: which rows of a table they keep."""
FILTERS = ("image", "device", "path", "paths-online", "unit")
SOME_ROW = "0   1  0   0000 1000 C0  C0  50 51"
DEVICE = 6  # the kind of a device's key


def try_filter(case, words, head, rows, records):
    """A command with filters prints its head, and of its rows just those that they keep."""
    more, right = [], []
    for name in case.dice.sample(FILTERS, case.dice.choice((1, 1, 2))):
        text, keeps = drawn_filter(case.dice, name, case.dice.choice(rows or [SOME_ROW]), records)
        more, right = more + [f"--{name}", text], right + [keeps]
    kept = [row for row in rows if all(keeps(row) for keeps in right)]
    printed = case.run(*words, *more).out.decode("latin-1").splitlines()
    case.agree("filters", printed, head + kept)


def drawn_filter(dice, name, row, records):
    """The word of a filter that keeps a row, and whether it keeps others."""
    if name == "image":
        return f"{row[0]}.{row[4]}", lambda it: (it[0], it[4]) == (row[0], row[4])
    if name == "device":
        first, last = int(row[16:20], 16), min(int(row[16:20], 16) + dice.choice((0, 1, 40)), 0xFFFF)
        text = f"{row[7]}.{first:04X}-{last:04X}" if last > first else f"{row[7]}.{first:04X}"
        return text, lambda it: it[7] == row[7] and first <= int(it[16:20], 16) <= last
    if name == "path":
        path = dice.choice(row[29:].split(" "))
        return f"{row[0]}.{path}", lambda it: it[0] == row[0] and path in it[29:].split(" ")
    if name == "unit":
        return unit_filter(dice, records, row)
    most = dice.randint(0, 8)
    return str(most), lambda it: int(it[25:27], 16).bit_count() <= most


def unit_filter(dice, records, row):
    """Only devices on a control unit of the row's device."""
    units = {(key[1], key[2]): record.units for key, record in records.items() if key[0] == DEVICE}
    unit = dice.choice(units.get((int(row[7]), int(row[16:20], 16))) or (0x1000,))
    on_it = {key for key, numbers in units.items() if unit in numbers}
    return f"{unit:04X}", lambda it: (int(it[7]), int(it[16:20], 16)) in on_it
