#!/usr/bin/env python3
"""Writes the longer sample inputs into a folder: `making.py samples`. The others are written by hand."""
import sys
from pathlib import Path

INTERVALS, QUARTERS = range(1, 13), range(1, 5)
# what the program reads at once
BLOCK = 65_536


def block(names, *lines):
    """With the empty line that ends it."""
    return "".join(f"{line}\n" for line in (names, *lines, ""))


def tables():
    """Each table is filled, and asked for a row more. Then something is posted for the first and the last row of each."""
    areas = [f"{id} {'C' if id == 9 else 'W'}" for id in range(1, 17)]
    parties = {id: id - 100 if id <= 116 else 9 for id in range(101, 165)}
    owners = [id for id, area in parties.items() if area == 9]
    resources = [f"{1_001 + n} {owners[n % 49]} {'PSD'[n % 3]} {n // 3 % 2} {int(n % 5 == 3)}" for n in range(128)]
    return (
        block("area kind", *areas, "17 W", "17 C", "9 W", "17 X", "0 W", "65535 W")
        + block("party area", *(f"{id} {area}" for id, area in parties.items()))
        + block("party area", "165 9", "165 1", "101 9", "101 1", "165 17", "0 9", "65535 9")
        + block("resource owner kind net exempt", *resources)
        + block("resource owner kind", "1129 109 P", "1129 101 P", "1001 109 P", "1001 101 P")
        + block("resource owner kind", "1129 165 P", "1129 109 X", "0 109 P")
        + block("energy interval lmp iie oa", "1001 1 12000000 5 3", "1128 12 12000000 7 -11", "1129 1 1 1 1")
        + block("tag interval kw", "1128 12 40", "1128 1 9", "1129 1 1")
        + block("demand interval units", *(f"{id} {interval} {id}" for id in (109, 164) for interval in (1, 5, 12)), "165 1 1")
        + block("given interval code cents", "109 5 6474 10", "164 5 6475 -23", "165 5 6475 1")
        + block("election in cap", "1 1 12000000", "16 1 6000000", "9 1 12000000", "17 1 1")
        + block("test quarter capacity", *(f"{id} {quarter} 50" for id in (1, 16, 9) for quarter in (1, 4)), "17 1 1")
        + block("transfer interval to", "1 1 3", "16 12 11", "9 12 17", "17 1 1")
        + block("settle", "L", "R")
    )


def largest():
    """A line for each account, code and interval in one settle, 3,852 in all. By the other rule there are too many."""
    keys = [(party, interval) for party in range(1, 65) for interval in INTERVALS]
    resources = range(1, 129)
    energies = [f"{id} {interval} {3_000_000 + 7_919 * id} {100 * (id + interval)}" for id in resources for interval in INTERVALS]
    unaccounted = [f"{party} {interval} 6474 {party - 1_000 * interval}" for party, interval in keys]
    uninstructed = [f"{party} {interval} 6475 {12 * party + interval}" for party, interval in keys]
    return (
        block("area kind", "1 C", *(f"{id} W" for id in range(2, 17)))
        + block("party area", *(f"{id} 1" for id in range(1, 65)))
        + block("resource owner kind", *(f"{id} {(id + 1) // 2} P" for id in resources))
        + block("energy interval lmp iie", *energies)
        + block("given interval code cents", *unaccounted)
        + block("given interval code cents", *uninstructed)
        + block("demand interval units", *(f"{party} {interval} {100 * party + 37 * interval}" for party, interval in keys))
        + block("election in cap up", "1 1 100000000 300")
        + block("test quarter ramp", *(f"1 {quarter} 100000" for quarter in QUARTERS))
        + block("transfer interval to", *(f"1 {interval} {5_000 * interval}" for interval in INTERVALS))
        + block("settle", "L", "R")
        + block("given interval code cents", "64 12 6475 779")
        + block("settle", "L", "R", "L")
    )


def lines():
    """Settles by both rules in turn, each of which bills or gives back a cent to every party, until four places are left. Then
    what still fits and what does not, until there is no place."""
    return (
        block("area kind", "1 C")
        + block("party area", *(f"{id} 1" for id in range(1, 9)))
        + block("demand interval units", *(f"{id} {interval} {2 + id % 2}" for interval in range(1, 7) for id in range(1, 9)))
        + block("given interval code cents", *(f"1 {interval} 6474 -4" for interval in range(1, 7)))
        + block("election in cap up", "1 1 12000000 4")
        + block("test quarter capacity", "1 1 1", "1 2 1")
        + block("settle", *22 * ("L", "R"), "L")
        # two lines, of the four that fit
        + block("demand interval units", "1 12 1")
        + block("given interval code cents", "1 12 6474 7")
        + block("settle", "L", "R")
        # three are one too many, and two are not
        + block("demand interval units", "2 12 1")
        + block("given interval code cents", "1 12 6475 2")
        + block("settle", "L", "L")
        + block("demand interval", "2 12")
        + block("settle", "L", "L", "R")
        # 9 comes first
        + block("demand interval", "1 12")
        + block("settle", "L")
    )


def runs():
    """The last run that there can be has two lines. Behind it every settle is refused, also where another reason fits."""
    return (
        block("settle", *65_534 * "L")
        + block("area kind", "1 C")
        + block("party area", "7 1")
        + block("given interval code cents", "7 1 6474 5")
        + block("demand interval units", "7 1 1")
        + block("settle", "L", "L", "R")
        + block("resource owner kind", "40 7 D")
        + block("tag interval kw curtailed", "40 1 5 1")
        # more than 65,536 bytes are printed
        + block("settle", *4_000 * "R")
    )


def bytewise():
    """Every byte but a line feed, alone and beside others."""

    def each(before, after=b""):
        return b"".join(before + bytes([byte]) + after + b"\n" for byte in range(256) if byte != 10)

    return (
        # in names; each of these blocks is skipped, but for the one with a space
        each(b"settle", b"\nL\n")
        + each(b"area", b"kind\n7 W\n")
        # in words
        + b"settle\n" + each(b"") + b"\n"
        + b"energy interval ed\n" + each(b"7 1 ") + each(b"7 1 T", b"0") + b"\n"
        # in numbers, and between two values
        + b"area\n" + each(b"") + each(b"9") + each(b"-") + b"\n"
        + b"area kind\n" + each(b"8", b"W") + b"\n"
    )


def odd_ends():
    """Carriage returns, zero bytes, tabs, and what is no ASCII. Where a line among them can be read, it enters an area."""
    return (
        b"area kind\r\n1 C\r\n\r\nparty area\r\n1 1\r\n\n"
        b"\r\narea kind\n1 C\n\n"
        b"\rarea kind\n1 C\n\n"
        b"area kind\r1 C\r\rsettle\rL\n\n"
        b"area kind\n1 C\r\n\r\n\r\r\n1\r C\n1 \rC\n\r1 C\n2 W\n\n"
        b"settle\nL\r\nR\r\n\rL\nL\n\n\n\n"
        b"area kind\0\n1 C\n\n"
        b"area\0kind\n1 C\n\n"
        b"\0\n1 C\n\n"
        b"area kind\n1 C\0\n1\0 C\n1\0C\n\0001 C\n\0\n3 W\n\n"
        b"area\tkind\n1\tC\n\n"
        b"area kind\t\n1 C\n\n"
        b"area kind\n1\tC\n1 \tC\n1 C\t\n\t1 C\n\t\n4 W\n\n"
        # UTF-8, whole and broken
        b"\xc3\xa4rea kind\n1 C\n\n"
        b"area kind\n1 \xc3\x87\n1 C\xcc\xa7\n1 \xd0\xa1\n1 \xef\xbc\xa3\n\xef\xbc\x91 C\n\xd9\xa1 C\n\xe2\x88\x921 C\n5 W\n\n"
        b"area kind\n1\xc2\xa0C\n1\xe2\x80\xa8C\n1\x85C\n1 \xc3\n1 \x87\n\xed\xa0\x80 C\n\xf4\x90\x80\x80 C\n\xc0\xb1 C\n6 W\n\n"
        b"\xff\xfearea kind\n1 C\n\n"
        # a block that is skipped, with no empty line but the last
        b"area kind\xff\n\xff\0\r\t\n \n1 C\n\r\n1 C\n\n"
    )


def lengths():
    """Lines of 200 and of 201 bytes, and longer ones."""
    names = b"resource" + 24 * b" exempt" + 6 * b" net"
    parts = (
        b"area kind\n1 " + 198 * b"W" + b"\n1 " + 199 * b"W" + b"\n1 " + 998 * b"W" + b"\n9 W\n",
        b"area\n" + 200 * b"9" + b"\n" + 201 * b"9" + b"\n",
        b"energy ed interval\n1 " + 196 * b"z" + b" 1\n1 " + 197 * b"z" + b" 1\n1 TEST 1\n",
        b"settle\n" + 200 * b"L" + b"\n" + 201 * b"L" + b"\nL\n",
        names + b"\n1 0\n",
        names + b"s\n1 0\n",
        b"area" + 200 * b" kind" + b"\n1 C\n",
    )
    return b"".join(part + b"\n" for part in parts)


def at_block_ends(made):
    """Made longer, up to the end of a block of bytes. Long lines lead to the ends of those before, and to what stands there."""
    # a settle without a line feed; before it, which areas are entered
    last = block("area kind", *(f"{id} W" for id in range(1, 13))) + block("party area", "1 1")
    last += block("election in cap", "1 1 12000000") + block("test quarter ramp", "1 4 9")
    last += block("transfer interval to", "1 12 3") + "settle\nL"
    # which block, the start of the long line, what follows on it, and how much of this is still inside the block
    parts = (
        (2, b"area kind\n", b"11 W\n10 W\n\n", 0),
        (3, b"areas", b"\narea kind\n11 W\n\n", 0),
        (4, b"area kind\n", b"\n11 " + 197 * b"W" + b"\n\n", 100),
        (5, b"area kind\n", b"\n11 " + 198 * b"W" + b"\n\n", 100),
        (6, b"area kind\n", b"\n\n" + last.encode("ascii"), 2 + len(last)),
    )
    for blocks, start, behind, inside in parts:
        made += start
        made += (blocks * BLOCK - len(made) - inside) * b"1" + behind
    return made


def odd():
    """It begins with the mark that some editors put before UTF-8."""
    return at_block_ends(b"\xef\xbb\xbfarea kind\n1 C\n\n" + bytewise() + odd_ends() + lengths())


def main():
    folder = Path(sys.argv[1])
    for sample in (tables, largest, lines, runs):
        (folder / f"{sample.__name__}.txt").write_bytes(sample().encode("ascii"))
    (folder / "odd.txt").write_bytes(odd())


if __name__ == "__main__":
    main()
