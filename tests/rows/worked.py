"""Levels 0 to 2, worked by hand: each of their boards has at most one legal move."""
from common import boards_of


def across(low, high):
    """The entry of a board whose mover has a stone in pit `low`, and the opponent one in pit `high`."""
    facing = high - 6
    if low > facing:
        return -2, low, 11 - 2 * low
    return (2, low, 12 - 2 * facing) if facing > low + 1 else (0, low, 0)


def entry_of_level_2(pits):
    """The entry of a board of level 2, by the lower and the higher pit of its two stones."""
    low, *_, high = [pit for pit in range(12) for _ in range(pits[pit])]
    if low > 5:
        return -2, None, 0
    if low == high and low > 3:
        return -2, low, 1 if low == 5 else 3
    if high == 5:
        return (0, 5, 0) if low < 2 else (-2, 5, 13 - 2 * low)
    return (2, None, 0) if high < 5 else across(low, high)


LEVEL_1 = [(-1, None, 0)] * 6 + [(-1, 5, 1)] + [(1, None, 0)] * 5
# the limit of each level, and its entries by rank: a value, a plan or none, and a distance
LEVELS = [(0, [(0, None, 0)]), (1, LEVEL_1), (9, [entry_of_level_2(pits) for pits in boards_of(2)])]
