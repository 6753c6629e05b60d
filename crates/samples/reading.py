#!/usr/bin/env python3
"""Writes what the program prints for an input, from docs/input.md, not from the program: `reading.py <NAME.txt >NAME.out`.

The book, with its calls and settles, is that of ../book_cases.
"""
import sys
from pathlib import Path

sys.dont_write_bytecode = True
sys.path.insert(0, str(Path(__file__).parent.parent / "book_cases"))
import charging  # noqa: E402
import settling  # noqa: E402
from cases import FULL, Book  # noqa: E402

# the other names of a block by its first one, in the order in which the book's call takes their values
BLOCKS = {
    b"area": (b"kind",),
    b"party": (b"area",),
    b"resource": (b"owner", b"kind", b"net", b"exempt"),
    b"energy": (
        *(b"interval", b"lmp", b"mss", b"resprice", b"edprice", b"iie", b"oa", b"mssiie", b"res", b"above", b"edqty"),
        *(b"resflag", b"ed"),
    ),
    b"tag": (b"interval", b"kw", b"telemetry", b"curtailed"),
    b"election": (b"in", b"cap", b"up", b"nopay"),
    b"test": (b"quarter", b"capacity", b"ramp", b"nopay"),
    b"transfer": (b"interval", b"to", b"baseto", b"from", b"basefrom"),
    b"demand": (b"interval", b"units"),
    b"given": (b"interval", b"code", b"cents"),
    b"settle": (),
}
# the names under which words stand
OF_WORDS = (b"kind", b"ed", b"settle")

DIGITS = b"0123456789"
LETTERS = b"ABCDEFGHIJKLMNOPQRSTUVWXYZabcdefghijklmnopqrstuvwxyz"
LONGEST_LINE, MOST_DIGITS = 200, 10


def word_of(value):
    """None where it is no word."""
    if value == b"" or value[0] not in LETTERS or any(byte not in LETTERS + DIGITS for byte in value):
        return None
    return value.decode("ascii")


def number_of(value):
    """None where it is no number."""
    digits = value.removeprefix(b"-")
    if not 1 <= len(digits) <= MOST_DIGITS or any(byte not in DIGITS for byte in digits):
        return None
    size = 0
    for byte in digits:
        size = 10 * size + DIGITS.index(byte)
    return size if digits == value else -size


def names_of(line):
    """None where they cannot be read."""
    first, *others = names = line.split(b" ")
    if len(line) > LONGEST_LINE or first not in BLOCKS or len(set(names)) < len(names):
        return None
    return names if all(name in BLOCKS[first] for name in others) else None


def values_of(line, names):
    """The values by their names, and None where they cannot be read."""
    values = line.split(b" ")
    if len(line) > LONGEST_LINE or len(values) != len(names):
        return None
    read = {name: word_of(value) if name in OF_WORDS else number_of(value) for name, value in zip(names, values)}
    if None in read.values() or read.get(b"settle", "L") not in charging.RULES:
        return None
    return read


def answer(book, block, values):
    """What the book answers to a line of a block."""
    if block == b"settle":
        hour = book.hour()
        return book.statement.settle(hour, charging.work_out(hour, charging.RULES[values[block]]))
    arguments = [values.get(name, None if name in OF_WORDS else 0) for name in (block, *BLOCKS[block])]
    return book.take(block.decode("ascii"), arguments)[1]


def fault(book, line, names):
    """The number and the part by which a line of values is refused; None where it is done."""
    values = values_of(line, names)
    if values is None:
        return "1 5"
    refused, *words = answer(book, names[0], values).split(" ")
    return f"{words[0]} {words[2]}" if refused == "refused" else None


def printed(data):
    book = Book(*FULL.values(), lines=settling.FULL)
    lines = data.split(b"\n")
    if lines[-1] == b"":
        lines.pop()
    # empty between two blocks, None where the block is skipped
    names = []
    for place, line in enumerate(lines, 1):
        reason = None
        if line == b"":
            names = []
        elif names == []:
            names = names_of(line)
            reason = "1 5" if names is None else None
        elif names is not None:
            reason = fault(book, line, names)
        if reason:
            yield f"refused {reason} {place}"
    settling.assert_promises(book.statement, book.hour())
    yield "run interval account code cents"
    yield from (" ".join(map(str, line)) for line in book.statement.lines)


def main():
    for line in printed(sys.stdin.buffer.read()):
        sys.stdout.buffer.write(line.encode("ascii") + b"\n")


if __name__ == "__main__":
    main()
