"""Compares the arrays of the Python module with its entries: arrays.py FOLDER. It wants numpy."""
import sys
import time

import awari
import numpy

FIELDS = ("value", "plan", "distance")
LEAST_A_SECOND = 3_000_000


def refused(call):
    try:
        call()
    except awari.Refused as fault:
        return fault.number
    return 0


def compare(levels, mapped, level):
    boards = awari.boards(level, numpy.arange(awari.size(level)))
    found, ranks = awari.rank_many(boards)
    assert (found == level).all() and (ranks == numpy.arange(len(boards))).all(), level
    entries, told, read = mapped.entries(level), levels.probe_many(boards), mapped.probe_many(boards)
    for field in FIELDS:
        assert (told[field] == entries[field]).all() and (read[field] == entries[field]).all(), (level, field)
    assert (mapped.values(level) == entries["value"]).all(), level
    for rank in range(0, len(boards), 97):
        entry = levels.entry(boards[rank])
        assert entry == mapped.entry(boards[rank]), (level, rank)
        plan = awari.NO_PLAN if entry.plan is None else entry.plan
        assert (entry.value, plan, entry.distance) == tuple(map(int, entries[rank])), (level, rank)
    counts, (values, distances) = mapped.counts(level), mapped.tally(level)
    assert counts == levels.counts(level) and counts.boards == awari.size(level), level
    assert sum(times for value, times in values.items() if value > 0) == counts.won, level
    assert sum(values.values()) == sum(distances.values()) == counts.boards and max(distances) == counts.limit, level
    return boards


def rate(probe_many, boards):
    """How many boards a second, by the best of five runs."""
    best = 0
    for _ in range(5):
        begun = time.perf_counter()
        probe_many(boards)
        best = max(best, len(boards) / (time.perf_counter() - begun))
    return best


def main(folder):
    with awari.Levels(folder) as levels, awari.Levels.mapped(folder) as mapped:
        for level in range(len(levels)):
            boards = compare(levels, mapped, level)
        assert rate(levels.probe_many, boards) > LEAST_A_SECOND, "too slow"
        assert refused(lambda: levels.probe_many([[9] * 12])) == 3
        assert refused(lambda: levels.probe_many([[2] * 12])) == 59
        assert refused(lambda: levels.probe_many([[1, 2, 3]])) == 1
        assert refused(lambda: levels.probe_many([[-1] + [0] * 11])) == 2
        assert refused(lambda: awari.rank_many([[3] * 12])) == 59
        assert refused(lambda: mapped.entries(25)) == 59
    print(f"arrays of all boards of levels 0 to {level}, as their entries are")


if __name__ == "__main__":
    main(sys.argv[1])
