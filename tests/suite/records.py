"""Regular records: rows, and texts of runs of them."""
from .model import Row


def fan(count, cowns_of=lambda number: (), ticks_of=lambda number: 1, main_ticks=None):
    """Main and its children, which it spawns at the ticks 1, 2, .. in turn; so many rows in all."""
    main = Row(0, 0, (), main_ticks or max(1, count - 1))
    return [main] + [Row(0, number, tuple(cowns_of(number)), ticks_of(number)) for number in range(1, count)]


def tower(count, ticks=3):
    """Each row but main is the child of the one before, and all of them have the cown 0."""
    return [Row(0, 0, (), ticks)] + [Row(number - 1, 2, (0,), ticks) for number in range(1, count)]


def spawn_line(number, row):
    return " ".join(map(str, ["+", number, row.parent, row.offset, *row.cowns])) + "\n"


def end_line(number, row):
    return f"< {number} {row.ticks} 0\n"


def fan_text(cowns, rows):
    """The record of a run in which main spawns all rows, and these run one after the other."""
    lines = [f"boc 1 {cowns}\n", spawn_line(0, rows[0]), "> 0\n"]
    lines += [spawn_line(number, row) for number, row in enumerate(rows) if number]
    lines.append(end_line(0, rows[0]))
    for number, row in enumerate(rows):
        if number:
            lines += [f"> {number}\n", end_line(number, row)]
    return "".join(lines + [".\n"]).encode()


def tower_text(rows):
    """The record of a run in which each row spawns the next and ends."""
    lines = ["boc 1 1\n", spawn_line(0, rows[0])]
    for number, row in enumerate(rows):
        lines.append(f"> {number}\n")
        if number + 1 < len(rows):
            lines.append(spawn_line(number + 1, rows[number + 1]))
        lines.append(end_line(number, row))
    return "".join(lines + [".\n"]).encode()


def fan_of_length(length):
    """Rows of a fan without cowns whose text has exactly so many bytes: their ticks have as many digits as it takes."""
    count, above = 1, length
    while count + 1 < above:
        middle = (count + above) // 2
        if len(fan_text(0, fan(middle))) <= length:
            count = middle
        else:
            above = middle
    rows = fan(count)
    missing = length - len(fan_text(0, rows))
    for number in range(1, count):
        digits = min(missing, 6)
        missing -= digits
        rows[number] = rows[number]._replace(ticks=10 ** digits)
    assert len(fan_text(0, rows)) == length
    return rows


# The record of a run of examples/transfer.boc in version 1, line by line without the line feeds.
TRANSFER = ["boc 1 2", "+ 0 0 0", "> 0", "+ 1 0 2 0", "+ 2 0 3 0 1", "+ 3 0 4 1", "< 0 4 0", "> 1", "< 1 2 0", "> 2",
            "< 2 3 0", "> 3", "< 3 2 0", "."]

# The same in version 2: row 1 wrote the cown 0, row 2 both cowns, and row 3 the cown 1.
WRITTEN = ["boc 2 2"] + TRANSFER[1:8] + ["< 1 2 0 0", "> 2", "< 2 3 0 0 1", "> 3", "< 3 2 0 1", "."]


def lines_text(lines):
    return "".join(line + "\n" for line in lines).encode()


def with_line(number, line):
    """The text of the transfer's record with another line in this place, counted from 1."""
    return lines_text(TRANSFER[:number - 1] + [line] + TRANSFER[number:])


# A run in which main spawns the rows 1 to 3, and row 2 the rows 4 and 5. No row has the cown 2.
FAMILY = lines_text(["boc 2 3", "+ 0 0 0", "> 0", "+ 1 0 2 0", "+ 2 0 4 0 1", "+ 3 0 9 1", "< 0 12 0", "> 1", "< 1 5 0 0", "> 2", "+ 4 2 3 0",
                     "+ 5 2 4 1", "< 2 7 0 1", "> 3", "< 3 4 0", "> 4", "< 4 6 0 0", "> 5", "< 5 1 0 1", "."])
