#!/usr/bin/env python3
"""Writes the sheets of crates/verdicts/data: small models under each detector, and the detectors' worst cases at the limits.

    python3 tools/detector_sheets.py crates/verdicts/data

A sheet's format is told by docs/SHEET.md. Each sheet ends behind its detector; the program asks that for its verdict on the start.
"""
import sys
from pathlib import Path

NONE = 255


def sheet(sizes, moves, start, goal, kind, operands=()):
    """A sheet's bytes. Moves are pairs of conditions and effects; these, start and goal are dicts from variables to values."""
    out = bytearray()
    for i, size in enumerate(sizes):
        out += bytes([0x56, size]) + b"var%-5d" % i
    for i, (conditions, effects) in enumerate(moves):
        out += b"A" + b"move%-4d" % i
        for code, row in ((b"P", conditions), (b"E", effects)):
            for variable, value in sorted(row.items()):
                out += code + bytes([variable, value])
    for code, row in ((b"S", start), (b"G", goal)):
        for variable, value in sorted(row.items()):
            out += code + bytes([variable, value])
    out += b"Z" + b"D" + bytes([kind] + (list(operands) + [NONE] * 3)[:3])
    return bytes(out)


# Two variables of size 3: the move that brings the one to its goal sets the other back.
LANE = (
    [3, 3],
    [({0: 0}, {0: 1}), ({0: 1}, {0: 2, 1: 0}), ({1: 0}, {1: 1}), ({1: 1}, {1: 2, 0: 0})],
    {0: 0, 1: 0},
    {0: 2, 1: 2},
)

# The same, but that bringing the lane to its goal leaves the dock alone.
FREE = (LANE[0], [LANE[1][0], ({0: 1}, {0: 2})] + LANE[1][2:], LANE[2], LANE[3])

# The goal is of a variable that the only move does not touch.
SPLIT = ([2, 2, 2], [({0: 0}, {0: 1})], {0: 0, 1: 0, 2: 0}, {2: 1})

# A gate that opens to whoever has the key, and nobody has it.
KEY = ([2, 2], [({1: 1}, {0: 1})], {0: 0, 1: 0}, {0: 1})


def chain():
    """32 variables of size 16 and 128 moves, of which each round of the relaxed detector can do one more, the last of them first.

    Step k makes true what step k + 1 asks for, of one of the highest variables, so that a move that cannot be done yet is found out
    late; all other entries are given and true from the start, so that conditions and effects are as long as they can be. The moves
    stand in falling order of the steps. The goal is what the last step would make true with one step more: it is not reached.
    """
    facts = [(31 - k // 15, 1 + k % 15) for k in range(129)]
    moves = []
    for k in range(128):
        conditions = {v: 0 for v in range(32)}
        effects = {v: 0 for v in range(32)}
        if k > 0:
            variable, value = facts[k - 1]
            conditions[variable] = value
        variable, value = facts[k]
        effects[variable] = value
        moves.append((conditions, effects))
    moves.reverse()
    variable, value = facts[128]
    return [16] * 32, moves, {v: 0 for v in range(32)}, {variable: value}


def cube(given):
    """Three variables of size 8 and 29 of size 16, and 128 moves that can always be done, which give so many values of the third.

    With 8 the walk of a pattern over the three reaches all its 512 cuts, the goal among them; with 7 it reaches 448, and not the goal.
    """
    values = (8, 8, given)
    moves = [({}, {v: x}) for v in range(3) for x in range(values[v])]
    while len(moves) < 128:
        n = len(moves)
        moves.append(({}, {0: n % 8, 1: n // 8 % 8, 2: n // 64 % given}))
    return [8] * 3 + [16] * 29, moves, {v: 0 for v in range(32)}, {0: 7, 1: 7, 2: 7}


SHEETS = {
    "lane-bare": sheet(*LANE, 0),
    "lane-relaxed": sheet(*LANE, 1),
    "lane-pattern-of-both": sheet(*LANE, 2, [0, 1]),
    "lane-pattern-of-lane": sheet(*LANE, 2, [0]),
    "free-relaxed": sheet(*FREE, 1),
    "free-pattern-of-both": sheet(*FREE, 2, [0, 1]),
    "split-relaxed": sheet(*SPLIT, 1),
    "split-pattern-of-first-two": sheet(*SPLIT, 2, [0, 1]),
    "split-pattern-of-third": sheet(*SPLIT, 2, [2]),
    "key-relaxed": sheet(*KEY, 1),
    "key-pattern-of-gate": sheet(*KEY, 2, [0]),
    "chain-relaxed": sheet(*chain(), 1),
    "cube-pattern": sheet(*cube(8), 2, [0, 1, 2]),
    "cube-pattern-cut-off": sheet(*cube(7), 2, [0, 1, 2]),
}

folder = Path(sys.argv[1])
for name, content in SHEETS.items():
    (folder / (name + ".sheet")).write_bytes(content)
(folder / "table.txt").write_text("".join(name + "\n" for name in SHEETS))
