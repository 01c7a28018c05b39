#!/usr/bin/env python3
"""Writes sheets for crates/vectors that try the orders on a book, into crates/vectors/data; what each must print is worked out by hand.

The grid is a game: a player pushes a block about nine fields, three by three, and can never pull it. The block is to reach the upper middle field.
It is lost as soon as it stands anywhere but there or in the middle, since from the rim it can only be pushed along the rim, and from a corner not
at all: seven of the nine rows that give the block's field alone are dead, and a settle of the nine must find them.
"""
import pathlib

DATA = pathlib.Path(__file__).resolve().parent.parent / "crates" / "vectors" / "data"


def name(text):
    return text.encode().ljust(8)


def variable(size, text):
    return bytes([0x56, size]) + name(text)


def move(text, conditions, effects):
    lines = bytes([0x41]) + name(text)
    for kind, entries in ((0x50, conditions), (0x45, effects)):
        for entry in entries:
            lines += bytes([kind, *entry])
    return lines


def entries(kind, pairs):
    return b"".join(bytes([kind, *pair]) for pair in pairs)


def row(pairs, end):
    return entries(0x52, pairs) + end


def grid():
    block, player, clear = 0, 1, 2  # the field f is free of the block where the variable clear + f is 1
    sheet = variable(9, "block") + variable(9, "player")
    sheet += b"".join(variable(2, f"clear{field}") for field in range(9))
    moves = b""
    for field in range(9):
        x, y = field % 3, field // 3
        for dx, dy in ((1, 0), (-1, 0), (0, 1), (0, -1)):
            if not (0 <= x + dx < 3 and 0 <= y + dy < 3):
                continue
            to = x + dx + 3 * (y + dy)
            moves += move(f"go {field} {to}", [(player, field), (clear + to, 1)], [(player, to)])
            if not (0 <= x + 2 * dx < 3 and 0 <= y + 2 * dy < 3):
                continue
            behind = x + 2 * dx + 3 * (y + 2 * dy)
            moves += move(
                f"push {field} {to}",
                [(player, field), (block, to), (clear + behind, 1)],
                [(player, to), (block, behind), (clear + to, 1), (clear + behind, 0)],
            )
    start = [(block, 4), (player, 7)] + [(clear + field, int(field != 4)) for field in range(9)]
    sheet += moves + entries(0x53, start) + entries(0x47, [(block, 1)]) + b"\x5a" + bytes([0x44, 0, 255, 255, 255])
    sheet += b"".join(row([(block, field)], b"N") for field in range(9)) + b"T"
    sheet += b"".join(row([(block, field)], b"J") for field in range(9)) + b"W"
    dead = [field for field in range(9) if field not in (1, 4)]
    lines = ["model 11 36", "settle 7 2"]
    lines += ["judge dead" if field in dead else "judge silent" for field in range(9)]
    lines += ["write" + "".join(f" 52 00 {field:02x} 4e" for field in dead) + " 4f", "end"]
    return sheet, lines


def key():
    """A gate that opens only with the key: a row that leaves the key open is not dead, since the move may be made with it."""
    gate, held = 0, 1
    sheet = variable(2, "GATE") + variable(2, "KEY")
    sheet += move("open", [(held, 1)], [(gate, 1)])
    sheet += entries(0x53, [(gate, 0), (held, 0)]) + entries(0x47, [(gate, 1)]) + b"\x5a" + bytes([0x44, 0, 255, 255, 255])
    without = [(gate, 0), (held, 0)]
    sheet += row([(gate, 0)], b"N") + b"O"
    sheet += row(without, b"N") + row(without, b"N") + b"O"
    sheet += row(without, b"J") + row([(gate, 0), (held, 1)], b"J") + row([(gate, 0)], b"J")
    sheet += row([(gate, 0)], b"N") + row([(gate, 1)], b"N") + row(without, b"N") + b"T" + b"W"
    lines = ["model 2 1", "refused 13 0 0", "offer 1", "judge dead", "judge silent", "judge silent", "settle 0 2"]
    return sheet, lines + ["write 52 00 00 52 01 00 4e 4f", "end"]


def main():
    for label, made in (("block-on-a-grid", grid), ("key-offers", key)):
        sheet, lines = made()
        (DATA / f"{label}.sheet").write_bytes(sheet)
        (DATA / f"{label}.out").write_text("".join(line + "\n" for line in lines))


main()
