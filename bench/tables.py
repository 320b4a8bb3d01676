"""The tables of the benchmark, in three groups: those of document 000, others, and a series that grows."""

from collections import namedtuple

Bench = namedtuple("Bench", "name policy m tasks expected")  # expected: (kind, L, N), or None where only the engines must agree

SAFE, UNSAFE = 1, 2
POLICIES = ["NP-GFP", "P-GFP", "NP-EDF", "P-EDF", "P-LST"]


def document(n, policy, expected):
    """Document 000: task i of n has C = i and D = P = 2(i + 1)."""
    tasks = [(i, 2 * (i + 1), 2 * (i + 1)) for i in range(1, n + 1)]
    return Bench(f"000, {n} tasks, {policy}/3", policy, 3, tasks, expected)


DOCUMENT = [
    document(5, 0, (SAFE, 0, 23881)),
    document(5, 1, (SAFE, 0, 23800)),
    document(5, 2, (SAFE, 0, 23881)),
    document(5, 3, (SAFE, 0, 23885)),
    document(5, 4, (SAFE, 0, 23776)),
    document(6, 0, (SAFE, 0, 435379)),
    document(6, 1, (UNSAFE, 14, 397270)),
    document(6, 2, (SAFE, 0, 435106)),
    document(6, 3, (SAFE, 0, 427413)),
    document(6, 4, (SAFE, 0, 406235)),
]


def other(letter, policy, m, *tasks):
    return Bench(f"{letter}, {len(tasks)} tasks, {policy}/{m}", policy, m, list(tasks), None)


OTHERS = [
    other("A", 0, 2, (2, 3, 3), (2, 6, 6), (3, 6, 11), (2, 7, 7), (1, 9, 12), (2, 10, 14)),
    other("B", 0, 4, (2, 3, 4), (2, 4, 4), (1, 5, 5), (3, 5, 5), (1, 5, 5), (1, 7, 7), (1, 7, 7), (4, 7, 7)),
    other("C", 1, 2, (1, 3, 3), (1, 7, 11), (4, 9, 10), (1, 10, 14), (3, 11, 11), (3, 14, 14)),
    other("D", 1, 2, (1, 4, 4), (6, 10, 14), (1, 11, 11), (6, 19, 19), (9, 22, 22)),
    other("E", 1, 4, (5, 7, 7), (2, 9, 9), (6, 9, 9), (8, 11, 11), (7, 11, 14), (4, 11, 11)),
    other("F", 2, 2, (1, 2, 3), (1, 3, 3), (1, 5, 7), (1, 6, 6), (2, 6, 6), (3, 7, 7), (2, 8, 8)),
    other("G", 2, 2, (1, 3, 4), (3, 4, 9), (1, 4, 4), (2, 5, 5), (2, 6, 9), (1, 6, 6), (2, 8, 8)),
    other("H", 3, 2, (2, 3, 3), (2, 4, 4), (2, 6, 6), (1, 13, 15), (6, 18, 18)),
    other("I", 3, 3, (6, 7, 11), (5, 8, 8), (2, 9, 9), (2, 9, 9), (3, 9, 12), (2, 11, 11)),
    other("J", 4, 3, (2, 3, 3), (3, 5, 5), (2, 7, 10), (3, 10, 10), (6, 12, 13), (6, 12, 12)),
    other("K", 4, 2, (1, 3, 5), (1, 5, 5), (1, 5, 5), (2, 5, 5), (2, 6, 6), (2, 6, 6), (3, 9, 9)),
]


def grown(by):
    """Four tasks on two cores under P-EDF, every gap longer by the same number."""
    return Bench(f"series, 3/2, gaps + {by}", 3, 2, [(c, p + by, p + by) for c, p in ((1, 3), (2, 4), (2, 5), (3, 6))], None)


SERIES = [grown(by) for by in (1, 3, 6, 9, 14, 19, 23, 27)]


def sheet(table):
    """The sheet of a table as bytes."""
    numbers = [3, table.policy, table.m, len(table.tasks)] + [v for task in table.tasks for v in task]
    return b"".join(bytes([v]) if v < 128 else bytes([v & 127 | 128, v >> 7]) for v in numbers)
