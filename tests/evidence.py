"""Files of states, evidence of `safe` or not: what the definition says of a file, and files for run-tool.

The definition is document 02's, in tests/reference.py: a file is closed when the start state is in it, every
state in it is proper, and every legal mask from each leads, without a miss, to a state in it.
"""
from itertools import product
from math import prod
from random import Random
from typing import Iterator

import reference
from reference import START, State, Table, file_of, state_of

BYTES = reference.STATE


def pieces(file: bytes) -> list[bytes]:
    return [file[at : at + BYTES] for at in range(0, len(file), BYTES)]


def leads_within(table: Table, state: State, states: set[State]) -> bool:
    """Every legal mask from a proper state leads, without a miss, to one of these states."""
    return all(not missed and after in states for _, missed, after in reference.successors(table, state))


def line(table: Table, file: bytes) -> str:
    """What `evidence` prints for a file, by the definition."""
    try:
        closed = reference.closed(table, file)
    except reference.Refused as refused:
        return f"refused {refused.number}\n"
    return f"accepted {len(file) // BYTES}\n" if closed else "no\n"


# Files of a safe search, changed.

def led_to(table: Table, found: list[bytes], chance: Random) -> bytes | None:
    """One of the states found that another of them leads to; None where there is but one state."""
    for piece in chance.sample(found, min(len(found), 20)):
        for _, _, after in reference.successors(table, state_of(piece)):
            if reference.state_bytes(after) != piece:
                return reference.state_bytes(after)
    return None


def changed(found: list[bytes], gone: bytes, chance: Random) -> Iterator[tuple[str, bytes]]:
    """The file without one of its states, and with one byte of it changed."""
    at = found.index(gone)
    byte, value = chance.randrange(BYTES), chance.randrange(1, 256)
    other = bytes(b ^ value if i == byte else b for i, b in enumerate(gone))
    yield f"state {at} removed", b"".join(found[:at] + found[at + 1 :])
    yield f"state {at}, byte {byte} ^ {value}", b"".join(found[:at] + [other] + found[at + 1 :])


def variants(table: Table, file: bytes, chance: Random) -> Iterator[tuple[str, bytes, str]]:
    """The file of a safe search, whose states all differ, made over and damaged, with the line that `evidence` prints.

    The lines follow from the definition without a walk through the whole file, which would take minutes for the largest. Order and
    repeats do not matter to it. A file from which the start state is gone is not closed, whatever stands in its stead; nor is one from
    which another state is gone, since the state that leads to it is still there. No file with an improper state is closed; for a small
    table there is one for each rule, and all that it leads to comes with it, so that nothing else is wrong.
    """
    found = pieces(file)
    count = len(found)
    yield "shuffled, three repeats", b"".join(chance.sample(found + chance.choices(found, k=3), count + 3)), f"accepted {count + 3}\n"
    for gone in (bytes(BYTES), led_to(table, found, chance)):
        for name, bad in changed(found, gone, chance) if gone else []:
            yield name, bad, "no\n" if bad else "refused 14\n"
    wrongs = list(improper(table))
    for name, wrong in wrongs if is_small(table) else [chance.choice(wrongs)]:
        at = chance.randrange(count + 1) * BYTES
        more = reached_from(table, {wrong}) if is_small(table) else {wrong}
        yield name, file[:at] + file_of(more) + file[at:], "no\n"
    yield "a byte short", file[:-1], "refused 14\n"
    yield "a byte more", file + b"\0", "refused 14\n"


def improper(table: Table) -> Iterator[tuple[str, State]]:
    """A state for each rule of proper ones that a table lets it break: c, p, the slack, tasks after the last, started jobs."""
    C, D, P = table.C[0], table.D[0], table.P[0]
    wrong = {"c above C": [(C + 1, P)], "p above P": [(0, P + 1)], "slack -1": [(C, P - D + C - 1)]}
    if table.n < reference.TASKS:
        wrong["a task too many"] = [(0, 0)] * table.n + [(0, 1)]
    started = [(1, table.P[i]) if table.C[i] > 1 else (0, 0) for i in range(table.n)]
    if not reference.is_preempted(table) and sum(c for c, _ in started) > table.m:
        wrong["too many started"] = started
    for name, tasks in wrong.items():
        yield name, State(*zip(*tasks, *[(0, 0)] * (reference.TASKS - len(tasks))))


# Files that no search made.

def is_small(table: Table) -> bool:
    return prod((table.C[i] + 1) * (table.P[i] + 1) for i in range(table.n)) <= 3000


def proper_states(table: Table) -> list[State]:
    """All of them, for a small table."""
    each = [product(range(table.C[i] + 1), range(table.P[i] + 1)) for i in range(table.n)]
    all_states = (State(*zip(*tasks, *[(0, 0)] * (reference.TASKS - table.n))) for tasks in product(*each))
    return [state for state in all_states if reference.is_proper(table, state)]


def largest_within(table: Table, states: list[State]) -> set[State]:
    """The largest part of some proper states from which every legal mask leads, without a miss, to a state of that part."""
    kept: set[State] = set(states)
    while True:
        left = {state for state in kept if leads_within(table, state, kept)}
        if left == kept:
            return kept
        kept = left


def reached_from(table: Table, states: set[State]) -> set[State]:
    """These states and all that legal masks lead to from them, proper or not."""
    reached, newest = set(states), set(states)
    while newest:
        masks = {state: [mask for mask in range(2**table.n) if reference.is_legal(table, state, mask)] for state in newest}
        released = {reference.release(table, state, mask) for state in newest for mask in masks[state]}
        newest = {reference.run(state, reference.choose(table, state)) for state in released} - reached
        reached |= newest
    return reached


def by_anyone(table: Table, chance: Random) -> Iterator[bytes]:
    """Files for a small table: all proper states; the states that lists reach, if the table is unsafe those before the first miss; and if
    it is safe, the largest closed file, and closed files with states that no list reaches, each also with one state fewer and one more."""
    proper = proper_states(table)
    *_, last = reference.levels(table)
    yield file_of(proper)
    yield file_of(last.reached)
    largest = sorted(largest_within(table, proper))
    if not largest:  # unsafe: every proper state leads to the start state, and that to a miss
        return
    yield file_of(chance.sample(largest, len(largest)))
    for _ in range(3):
        closed = sorted(reached_from(table, {START, *chance.choices(largest, k=2)}))
        chance.shuffle(closed)
        yield file_of(closed)
        yield file_of(closed[1:])
        yield file_of([*closed, chance.choice(proper)])
