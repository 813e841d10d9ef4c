#!/usr/bin/env python3
"""Writes the three synthetic records: steps of current, plus noise from a fixed sequence of whole numbers."""
import os

os.chdir(os.path.dirname(os.path.abspath(__file__)))


def noise(seed):
    """Whole numbers from -4 to 4, most of them near 0."""
    while True:
        total = -4
        for _ in range(4):
            seed = (1103515245 * seed + 12345) % 2**31
            total += (seed >> 16) % 3
        yield total


def record(seed, steps, count, lone):
    """Readings 1 to count: the level of the last step at or before each, plus noise, plus what lone readings add."""
    sequence = noise(seed)
    levels = [[level for first, level in steps if first <= i][-1] for i in range(1, count + 1)]
    return [level + next(sequence) + lone.get(i, 0) for i, level in enumerate(levels, 1)]


def write(name, lines):
    with open(name, "w") as file:
        file.writelines(line + "\n" for line in lines)


# A belt that wears in two steps and is replaced, and a second one that starts to wear. A dropped pack at reading 40.
belt = record(1, [(1, 31), (97, 42), (151, 49), (187, 30), (226, 41)], 240, {40: 12})
write("belt.csv", ["day,shift,current"] + [f"{i // 3 + 1},{i % 3 + 1},{z}" for i, z in enumerate(belt)])

# Three pads that leak, the second one faintly, and a test with heavy packs from reading 104 to 112.
pad = record(2, [(1, 22), (31, 33), (48, 23), (70, 27), (80, 22), (104, 30), (113, 22), (131, 31)], 160, {})
write("pad.csv", ["pick;pump current"] + [f"{50 * i};{z}" for i, z in enumerate(pad, 1)])

# A board whose idle current drifts below zero in three steps until the board is replaced. Reading 150 lies below the grid.
board = record(3, [(1, 1), (61, -18), (101, -37), (141, -54), (171, -2)], 200, {150: -16})
write("board.csv", [f"{10 * i},{z}" for i, z in enumerate(board, 1)])
