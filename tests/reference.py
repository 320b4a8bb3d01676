"""An independent implementation of the verdict engine's paper (document 01), in plain Python, and of
eight changes of document 02: its closed lists (§1), its policy 4, least slack first (§3), its order of
jobs that are equal otherwise, by age (§4), its totals of where the core time went (§5), its columns of
the work space (§6), its practice tables (§7), its sessions with marks (§8), and its cut of a table at a
priority with its joined lists (§9).

It is written from the papers alone and shares nothing with the library: it is slow, direct, and
meant to be read beside them. Each function's docstring names the section that it follows.
`tests/make_vectors.py` makes the outside vectors from it.

A sheet and an output are `bytes`. Tasks are counted from 0 here and from 1 in the paper, so task i
of this file is the paper's task i + 1 and has bit i of a mask.
"""
from functools import lru_cache
from itertools import chain, combinations, islice, product
from operator import le
from typing import Callable, Iterable, Iterator, NamedTuple

TASKS = 8  # entries of a table and of a state

# ----------------------------------------------------------------------
# The task table


class Table(NamedTuple):
    """Section "The task table": a policy, m processors, n tasks, and eight entries of work C,
    deadline D and least gap P each."""

    policy: int
    m: int
    n: int
    C: tuple[int, ...]
    D: tuple[int, ...]
    P: tuple[int, ...]


POLICIES = range(5)
NP_GFP, P_GFP, NP_EDF, P_EDF, P_LST = POLICIES


def is_preempted(table: Table) -> bool:
    """Section "The task table": P policies are 1 and 3; document 02, §3: so is policy 4."""
    return table.policy in (P_GFP, P_EDF, P_LST)


def by_deadline(table: Table) -> bool:
    """Section "The task table": EDF policies are 2 and 3."""
    return table.policy in (NP_EDF, P_EDF)


def by_slack(table: Table) -> bool:
    """Document 02, §3, "Least slack first": policy 4 alone."""
    return table.policy == P_LST


def table_of(policy: int, m: int, tasks: list[tuple[int, int, int]]) -> Table:
    """A table from its tasks (C, D, P), as "Benchmark tables" writes it: policy/m: (C,D,P), .. The
    entries after the last are 0."""
    rows = list(tasks) + [(0, 0, 0)] * (TASKS - len(tasks))
    works, deadlines, gaps = zip(*rows)
    return Table(policy, m, len(tasks), works, deadlines, gaps)


def head_fault(policy: int, m: int, n: int) -> int:
    """Section "Refusals by cause", 4 to 6, in that order; 0 where none applies. Document 02, §3: 4
    means a policy above 4."""
    if policy > 4:
        return 4
    if not 1 <= m <= 8:
        return 5
    if not 1 <= n <= 8:
        return 6
    return 0


def table_fault(table: Table) -> int:
    """Section "Refusals by cause", 4 to 7 for a table in memory, in that order; 0 for a valid
    table."""
    fault = head_fault(table.policy, table.m, table.n)
    if fault:
        return fault
    for i in range(TASKS):
        C, D, P = table.C[i], table.D[i], table.P[i]
        if i < table.n:
            if not 1 <= C <= D <= P <= 200:
                return 7
        elif (C, D, P) != (0, 0, 0):
            return 7
    return 0


# ----------------------------------------------------------------------
# The sheet as bytes


class Refused(Exception):
    """A refusal, with its number ("Refusals by cause")."""

    def __init__(self, number: int) -> None:
        super().__init__(number)
        self.number = number


def refusal(call, *arguments) -> int:
    """The number that a call refuses with, and 0 where it does not refuse."""
    try:
        call(*arguments)
    except Refused as refused:
        return refused.number
    return 0


def read_number(sheet: bytes, at: int) -> tuple[int, int]:
    """Section "The sheet as bytes": the number that starts at a place, and the place after it.
    Groups of seven bits, low group first, top bit set when another follows; one or two bytes, a
    second byte is 1 to 127. Refusal 1: the bytes end before the number is complete. 2: a second
    byte 0 or above 127."""
    if at >= len(sheet):
        raise Refused(1)
    first = sheet[at]
    if first < 128:
        return first, at + 1
    if at + 1 >= len(sheet):
        raise Refused(1)
    second = sheet[at + 1]
    if second == 0 or second > 127:
        raise Refused(2)
    return (first - 128) + 128 * second, at + 2


def read_sheet(sheet: bytes) -> Table:
    """Section "The sheet as bytes", and the order of "Refusals by cause": a sheet is judged in
    reading order, each number 1, 2, then its own rule; 7 after a task's three numbers; 8 at the
    end. A rule is about the whole number, which goes up to 16,383. Document 02, §3: 4 means a policy
    above 4."""
    fields, at = read_number(sheet, 0)
    if fields != 3:
        raise Refused(3)
    policy, at = read_number(sheet, at)
    if policy > 4:
        raise Refused(4)
    m, at = read_number(sheet, at)
    if not 1 <= m <= 8:
        raise Refused(5)
    n, at = read_number(sheet, at)
    if not 1 <= n <= 8:
        raise Refused(6)
    tasks = []
    for _ in range(n):
        C, at = read_number(sheet, at)
        D, at = read_number(sheet, at)
        P, at = read_number(sheet, at)
        if not 1 <= C <= D <= P <= 200:
            raise Refused(7)
        tasks.append((C, D, P))
    if at != len(sheet):
        raise Refused(8)
    return table_of(policy, m, tasks)


def number_bytes(number: int) -> bytes:
    """Section "The sheet as bytes": a number of at most 16,383 as one or two groups. So 200 is C8
    01."""
    if number < 128:
        return bytes([number])
    return bytes([128 + number % 128, number // 128])


def sheet_bytes(table: Table) -> bytes:
    """Section "The sheet as bytes", the order: fields for each task (3), policy, m, n, then C, D, P
    for each task, and the end."""
    numbers = [3, table.policy, table.m, table.n]
    for i in range(table.n):
        numbers += [table.C[i], table.D[i], table.P[i]]
    return b"".join(number_bytes(x) for x in numbers)


def write_sheet(table: Table, output: bytes) -> tuple[int, bytes]:
    """Section "The sheet as bytes", the writer: the sheet at the front of the output, its length is
    returned, later bytes stay. "Refusals by cause": 4 to 7, then 12 for an output shorter than the
    sheet. The output handed in is not changed: what it becomes is returned."""
    fault = table_fault(table)
    if fault:
        raise Refused(fault)
    sheet = sheet_bytes(table)
    if len(output) < len(sheet):
        raise Refused(12)
    return len(sheet), sheet + output[len(sheet) :]


def sheet_call(output: bytes, make: Callable[..., Table], *given) -> tuple[int, bytes]:
    """A call for C that writes the sheet of a table which it makes: kind x 2^48 + N, with kind 1 and N the
    length of the sheet, which stands at the front of the output; or kind 0 and N the refusal, that of the
    making or 12, which leaves every byte. The output handed in is not changed: what it becomes is
    returned."""
    try:
        length, output = write_sheet(make(*given), output)
    except Refused as refused:
        return refused.number, output
    return 2**48 + length, output


# ----------------------------------------------------------------------
# Practice tables


def draws(s: int) -> Iterator[int]:
    """Document 02, §7: from a 16-bit s, each draw is s = (25173 x s + 13849) mod 65536, giving the new
    s."""
    while True:
        s = (25173 * s + 13849) % 65536
        yield s


def practice(policy: int, m: int, n: int, s: int) -> Table:
    """Document 02, §7, "Practice tables from a number": each task draws three times, P = 1 + (draw mod
    200), D = 1 + (draw mod P), C = 1 + (draw mod D). Refusals 4, 5 and 6 apply."""
    fault = head_fault(policy, m, n)
    if fault:
        raise Refused(fault)
    drawn, tasks = draws(s), []
    for _ in range(n):
        P = 1 + next(drawn) % 200
        D = 1 + next(drawn) % P
        C = 1 + next(drawn) % D
        tasks.append((C, D, P))
    return table_of(policy, m, tasks)


def practice_call(policy: int, m: int, n: int, s: int, output: bytes) -> tuple[int, bytes]:
    """The call for C, with refusals 4, 5, 6 and 12."""
    return sheet_call(output, practice, policy, m, n, s)


# ----------------------------------------------------------------------
# State


class State(NamedTuple):
    """Section "State": for each of eight tasks c, the work left, and p, the ticks until it may be
    released again."""

    c: tuple[int, ...]
    p: tuple[int, ...]


START = State((0,) * TASKS, (0,) * TASKS)


def time_left(table: Table, state: State, i: int) -> int:
    """Section "State": d = D - (P - p), a signed number. It is spoken of where c > 0."""
    return table.D[i] - (table.P[i] - state.p[i])


def slack(table: Table, state: State, i: int) -> int:
    """Section "State": the slack is the signed number d - c."""
    return time_left(table, state, i) - state.c[i]


def age(table: Table, state: State, i: int) -> int:
    """Document 02, §4: P - p, the ticks since the release. It is spoken of where c > 0."""
    return table.P[i] - state.p[i]


def is_started(table: Table, state: State, i: int) -> bool:
    """Section "State": started means 0 < c < C."""
    return 0 < state.c[i] < table.C[i]


def is_late(table: Table, state: State) -> bool:
    """Sections "State" and "One tick", step 5: some task has c > 0 and slack below 0."""
    return any(state.c[i] > 0 and slack(table, state, i) < 0 for i in range(TASKS))


def is_proper(table: Table, state: State) -> bool:
    """Section "State": c <= C and p <= P, every task with c > 0 has slack 0 or more, tasks after
    the nth are 0, and, under policies 0 and 2, at most m jobs are started. Under 1, 3 and 4 any
    number may be."""
    for i in range(table.n):
        if state.c[i] > table.C[i] or state.p[i] > table.P[i]:
            return False
    for i in range(table.n, TASKS):
        if state.c[i] != 0 or state.p[i] != 0:
            return False
    if is_late(table, state):
        return False
    if not is_preempted(table):
        started = [i for i in range(table.n) if is_started(table, state, i)]
        if len(started) > table.m:
            return False
    return True


# ----------------------------------------------------------------------
# One tick


def mask_tasks(mask: int) -> list[int]:
    """Section "One tick": a release mask is a byte; a bit stands for a task."""
    return [i for i in range(TASKS) if mask >> i & 1]


def is_legal(table: Table, state: State, mask: int) -> bool:
    """Section "One tick", step 1: every bit set must belong to a task of the table with p = 0."""
    return all(i < table.n and state.p[i] == 0 for i in mask_tasks(mask))


def release(table: Table, state: State, mask: int) -> State:
    """Section "One tick", step 1: each task of the mask gets c = C, p = P."""
    c, p = list(state.c), list(state.p)
    for i in mask_tasks(mask):
        c[i], p[i] = table.C[i], table.P[i]
    return State(tuple(c), tuple(p))


def rank(table: Table, state: State, i: int) -> tuple[int, int, int]:
    """Section "One tick", step 2, what a ready task is ordered by: GFP by task number; EDF by smaller
    d. Document 02, §3: policy 4 by smaller slack. Document 02, §4: equal d, or equal slack, is
    settled first by the greater P - p, then by task number."""
    if by_deadline(table):
        return time_left(table, state, i), -age(table, state, i), i
    if by_slack(table):
        return slack(table, state, i), -age(table, state, i), i
    return 0, 0, i


def choose(table: Table, state: State) -> list[int]:
    """Section "One tick", steps 2 and 3: the tasks that run. Ready tasks have c > 0. Under P the
    first m of their order run. Under NP every started job runs, then the unstarted ready ones in
    order until m run. The state is that of this tick, after its releases: document 02, §3, has the
    choice made anew at every tick."""
    ready = [i for i in range(TASKS) if state.c[i] > 0]
    ready.sort(key=lambda i: rank(table, state, i))
    if is_preempted(table):
        return ready[: table.m]
    running = [i for i in ready if is_started(table, state, i)]
    for i in ready:
        if i not in running and len(running) < table.m:
            running.append(i)
    return running


def run(state: State, running: list[int]) -> State:
    """Section "One tick", step 4: each running task's c falls by 1. Every p above 0 falls by 1."""
    c = tuple(x - 1 if i in running else x for i, x in enumerate(state.c))
    p = tuple(x - 1 if x > 0 else x for x in state.p)
    return State(c, p)


def tick(table: Table, state: State, mask: int) -> tuple[bool, State]:
    """Section "One tick": whether the tick missed (step 5), and the state after step 4. "Refusals
    by cause": 4 to 7, then 13 for a state that is not proper, then 11 for the mask."""
    fault = table_fault(table)
    if fault:
        raise Refused(fault)
    if not is_proper(table, state):
        raise Refused(13)
    if not is_legal(table, state, mask):
        raise Refused(11)
    released = release(table, state, mask)
    after = run(released, choose(table, released))
    return is_late(table, after), after


# ----------------------------------------------------------------------
# Replay


class Replayed(NamedTuple):
    """Section "Replay": the answer is "kept", "missed" or "refused". `tick` is the number of the
    tick that missed or was refused, first tick 1; 0 when the list was kept, or the table itself or the
    state to play from was refused. The state is the last one, the one missed with, or the one that the
    refused tick was given."""

    answer: str
    refusal: int
    tick: int
    state: State


def play_after(table: Table, state: State, before: int, masks: bytes) -> Replayed:
    """Document 02, §9: a byte list played from a state, with tick numbers raised by the number of ticks
    before. Section "Replay": one mask a tick. Kept with the last state; Missed with the tick's number and
    state, later masks unread; refusal 11 with the tick's number. The empty list keeps the state.
    "Refusals by cause": a call given a table applies 4 to 7 first, then 13 for the state, also when the
    list is empty."""
    fault = table_fault(table) or (0 if is_proper(table, state) else 13)
    if fault:
        return Replayed("refused", fault, 0, state)
    for number, mask in enumerate(masks, start=before + 1):
        try:
            missed, after = tick(table, state, mask)
        except Refused as refused:
            return Replayed("refused", refused.number, number, state)
        if missed:
            return Replayed("missed", 0, number, after)
        state = after
    return Replayed("kept", 0, 0, state)


def replay(table: Table, masks: bytes) -> Replayed:
    """Section "Replay": a byte list is played from the start state, which is proper, and its first tick
    is 1."""
    return play_after(table, START, 0, masks)


def joins(table: Table, first: bytes, second: bytes) -> bool:
    """Document 02, §9: playing two joined lists is playing the second from the state where the first was
    Kept, with tick numbers raised by the first's length. Where the first is Missed or refused the masks
    after that tick are unread, and the answer is the first's."""
    played = replay(table, first)
    if played.answer == "kept":
        played = play_after(table, played.state, len(first), second)
    return replay(table, first + second) == played


def reaches(table: Table, masks: bytes, state: State) -> bool:
    """Section "Replay": a list reaches a state when its answer is Kept with that state."""
    return replay(table, masks) == ("kept", 0, 0, state)


def replay_number(played: Replayed) -> int:
    """The call for C: kind x 2^56 + number x 2^48 + tick, with kind 1 Kept, 2 Missed, 0 refused, where
    the number is the refusal."""
    kind = {"refused": 0, "kept": 1, "missed": 2}[played.answer]
    return kind * 2**56 + played.refusal * 2**48 + played.tick


# ----------------------------------------------------------------------
# Where the core time went


class Totals(NamedTuple):
    """Document 02, §5: for each of eight tasks the number of its releases, the ticks in which it ran,
    and the work left at the end."""

    releases: tuple[int, ...]
    ran: tuple[int, ...]
    left: tuple[int, ...]


class Account(NamedTuple):
    """Document 02, §5: a replay, with the totals of the ticks played."""

    played: Replayed
    totals: Totals


def ticks_played(played: Replayed, masks: bytes) -> int:
    """Document 02, §5: a tick that misses is played, one that is refused with 11 is not. Of a list that
    is kept all are, and of a table that is refused none."""
    if played.answer == "kept":
        return len(masks)
    if played.answer == "missed":
        return played.tick
    return max(played.tick - 1, 0)


def service(table: Table, masks: bytes) -> Account:
    """Document 02, §5, "Where the core time went": the replay of a list, and the three totals of each
    task. The ticks in which a task ran are read off the choices of the ticks played, not off c. Those
    of refusal 11 are of the ticks before, and those of a table refused with 4 to 7 are 0."""
    played = replay(table, masks)
    releases, ran = [0] * TASKS, [0] * TASKS
    state = START
    for mask in masks[: ticks_played(played, masks)]:
        released = release(table, state, mask)
        running = choose(table, released)
        for i in mask_tasks(mask):
            releases[i] += 1
        for i in running:
            ran[i] += 1
        state = run(released, running)
    return Account(played, Totals(tuple(releases), tuple(ran), played.state.c))


def is_balanced(table: Table, totals: Totals) -> bool:
    """Document 02, §5, of each task: number of releases x C = ticks in which it ran + work left."""
    return all(releases * C == ran + left for C, releases, ran, left in zip(table.C, *totals))


def totals_bytes(totals: Totals) -> bytes:
    """The call for C: the three totals of task 1, then of task 2 and so on, of 8 bytes each, low byte
    first."""
    return b"".join(x.to_bytes(8, "little") for task in zip(*totals) for x in task)


def service_call(sheet: bytes, masks: bytes, space: bytes) -> tuple[int, bytes]:
    """The call for C, given a sheet: the number of its replay, with the totals at the front of the
    space under Kept, Missed and refusal 11; later bytes stay. "Refusals by cause": 1 to 8 by the sheet,
    11, then 12 for a space shorter than the totals. So under 11 a shorter one stays as it was. The
    space handed in is not changed: what it becomes is returned."""
    try:
        played, totals = service(read_sheet(sheet), masks)
    except Refused as refused:
        return refused.number * 2**48, space
    written = totals_bytes(totals)
    if len(space) >= len(written):
        return replay_number(played), written + space[len(written) :]
    return replay_number(played) if played.refusal == 11 else 12 * 2**48, space


# ----------------------------------------------------------------------
# The search

SLOT = 21  # bytes of a slot: those of its state, 4 of its parent, 1 of its mask
MOST_SLOTS = 1_000_000


def slots(work_length: int) -> int:
    """Document 02, §6: K is the length divided by 21, rounded down, same cap; section "The search": at
    most 1,000,000."""
    return min(work_length // SLOT, MOST_SLOTS)


@lru_cache(maxsize=None)
def successors(table: Table, state: State) -> tuple[tuple[int, bool, State], ...]:
    """Every legal mask from a proper state of a valid table, with whether its tick misses, and the
    state after it. An illegal mask is refused, and a refused list neither misses nor reaches; masks
    from 2^n on have a bit for no task. What was found is kept: tables are searched several times."""
    masks = [mask for mask in range(2**table.n) if is_legal(table, state, mask)]
    return tuple((mask, *tick(table, state, mask)) for mask in masks)


class Level(NamedTuple):
    """What lists of at most `ticks` ticks reach without a miss (`reached`; their number is
    N(ticks)), and whether some list of `ticks` + 1 ticks misses with its last tick."""

    ticks: int
    reached: frozenset[State]
    misses_next: bool


def levels(table: Table) -> Iterator[Level]:
    """Demand 3, N(d) for d = 0, 1, 2 .., up to the first d where a list misses at the next tick, or
    where one tick more reaches no new state (N(d) is then the greatest). Breadth first: only a
    state that was first reached at d ticks can lead to a state first reached at d + 1, or to a
    first miss."""
    reached = {START}
    newest = {START}
    ticks = 0
    while True:
        after = [step for state in newest for step in successors(table, state)]
        misses = any(missed for _, missed, _ in after)
        yield Level(ticks, frozenset(reached), misses)
        newest = {state for _, _, state in after} - reached
        if misses or not newest:
            return
        reached |= newest
        ticks += 1


def by_every_list(table: Table, ticks: int) -> tuple[set[State], int]:
    """Demand 3 to the letter, for small tables: the states that lists of at most so many ticks
    reach, and the least number of ticks that a list among them has that misses, 0 where none does.
    Of the masks with a bit for no task, which are all refused, one stands for all."""
    reached, least = set(), 0
    for length in range(ticks + 1):
        for masks in product(range(2**table.n + 1), repeat=length):
            played = replay(table, bytes(masks))
            if played.answer == "kept":
                reached.add(played.state)
            elif played.answer == "missed" and least == 0:
                least = length
    return reached, least


class Verdict(NamedTuple):
    """Section "The search": kind is "safe", "unsafe", "room" or "refused". L is 0 unless unsafe. N
    is the count, and under "refused" the refusal's number."""

    kind: str
    L: int
    N: int


def verdict(table: Table, K: int) -> Verdict:
    """Demand 3, for a valid table and K slots. Unsafe exactly when some list misses and N(L - 1) is
    at most K, with L and N(L - 1); Safe exactly when no list misses and N(d) is at most K for every
    d, with the greatest N(d); No room in every other case, with K. Since N(d) never falls, no level
    after one with N(d) above K can alter the answer."""
    for level in levels(table):
        count = len(level.reached)
        if count > K:
            return Verdict("room", 0, K)
        if level.misses_next:
            return Verdict("unsafe", level.ticks + 1, count)
    return Verdict("safe", 0, count)


def search(table: Table, work_length: int, trace_length: int) -> Verdict:
    """Section "The search" given a table. "Refusals by cause": 4 to 7, then 9 when K is 0, then 10
    when the trace space is shorter than K."""
    fault = table_fault(table)
    if fault:
        return Verdict("refused", 0, fault)
    K = slots(work_length)
    if K == 0:
        return Verdict("refused", 0, 9)
    if trace_length < K:
        return Verdict("refused", 0, 10)
    return verdict(table, K)


def search_sheet(sheet: bytes, work_length: int, trace_length: int) -> Verdict:
    """Section "The search" given a sheet. "Refusals by cause": 1 to 8 by the sheet, then 9 and
    10."""
    try:
        table = read_sheet(sheet)
    except Refused as refused:
        return Verdict("refused", 0, refused.number)
    return search(table, work_length, trace_length)


def stored_states(table: Table, found: Verdict) -> frozenset[State]:
    """Section "The search": the states of the first N slots, under Safe all that lists reach without
    a miss, under Unsafe those reached in at most L - 1 ticks. Under No room they are free."""
    for level in levels(table):
        if found.kind == "unsafe" and level.ticks == found.L - 1:
            break
    return level.reached


def verdict_number(found: Verdict) -> int:
    """Section "The search", the call for C: kind x 2^48 + L x 2^24 + N, with kind 1 Safe, 2 Unsafe,
    3 No room, 0 refused; L is 0 unless Unsafe; under 0, N is the refusal number."""
    kind = {"refused": 0, "safe": 1, "unsafe": 2, "room": 3}[found.kind]
    return kind * 2**48 + found.L * 2**24 + found.N


# ----------------------------------------------------------------------
# The work space

STATE = 2 * TASKS  # bytes of a state


def state_bytes(state: State) -> bytes:
    """Section "The search": the 16 state bytes of a slot: c, p of task 1, then task 2 and so on."""
    return bytes(x for pair in zip(state.c, state.p) for x in pair)


def state_of(piece: bytes) -> State:
    """Section "The search": the state of 16 bytes."""
    return State(tuple(piece[::2]), tuple(piece[1::2]))


class Slot(NamedTuple):
    """Section "The search": a state, the parent slot, and the mask."""

    state: State
    parent: int
    mask: int


def columns(work: bytes) -> tuple[bytes, bytes, bytes, bytes]:
    """Document 02, §6: K states of 16 bytes, then K parents of 4, then K masks; and the bytes after the
    third column."""
    K = slots(len(work))
    parents, masks, end = STATE * K, STATE * K + 4 * K, SLOT * K
    return work[:parents], work[parents:masks], work[masks:end], work[end:]


def write_slots(work: bytes, written: list[Slot]) -> bytes:
    """Section "The search", document 02, §6: a work space with its first slots written, each part at the
    front of its column, the parent low byte first. Work bytes that stay are those of unwritten slots in
    each column and those after the third. The work space handed in is not changed: what it becomes is
    returned."""
    assert len(written) <= slots(len(work))
    states, parents, masks, after = columns(work)
    fronts = (
        b"".join(state_bytes(slot.state) for slot in written),
        b"".join(slot.parent.to_bytes(4, "little") for slot in written),
        bytes(slot.mask for slot in written),
    )
    return b"".join(front + column[len(front) :] for front, column in zip(fronts, (states, parents, masks))) + after


def read_slots(work: bytes, count: int) -> list[Slot]:
    """Section "The search", document 02, §6: the first slots of a work space."""
    states, parents, masks, _ = columns(work)
    return [
        Slot(
            state_of(states[STATE * i : STATE * i + STATE]),
            int.from_bytes(parents[4 * i : 4 * i + 4], "little"),
            masks[i],
        )
        for i in range(count)
    ]


def leading(table: Table, written: list[Slot], state: State) -> list[tuple[int, int]]:
    """Section "The search": the parents, with a mask each, that a next slot with this state may have:
    earlier slots whose tick under the mask gives it."""
    return [
        (parent, mask)
        for parent, slot in enumerate(written)
        for mask, missed, after in successors(table, slot.state)
        if not missed and after == state
    ]


def keeps_rule(table: Table, written: list[Slot]) -> bool:
    """Section "The search": slot 0 is the start state, parent 0, mask 0; any other slot's parent is an
    earlier slot whose tick under the mask gives its state. No two are the same."""
    ruled = all(slot[1:] in leading(table, written[:i], slot.state) for i, slot in enumerate(written) if i)
    return written[0] == (START, 0, 0) and ruled and len({slot.state for slot in written}) == len(written)


# ----------------------------------------------------------------------
# Files of states


def file_states(file: bytes) -> list[State]:
    """Document 02, "A closed list as evidence of Safe": states of 16 bytes each, in any sequence,
    repeats allowed. Refusal 14: the file is empty or not a whole number of states."""
    if not file or len(file) % STATE:
        raise Refused(14)
    return [state_of(file[at : at + STATE]) for at in range(0, len(file), STATE)]


def file_of(states: Iterable[State]) -> bytes:
    """The file of these states, in their order."""
    return b"".join(state_bytes(state) for state in states)


def closed(table: Table, file: bytes) -> bool:
    """Document 02, "A closed list as evidence of Safe": the file contains the start state, every
    state in it is proper, and every legal mask from each leads, without a miss, to a state in it.
    "Refusals by cause": 4 to 7, then 14."""
    fault = table_fault(table)
    if fault:
        raise Refused(fault)
    states = set(file_states(file))
    if START not in states or not all(is_proper(table, state) for state in states):
        return False
    after = [step for state in states for step in successors(table, state)]
    return all(not missed and state in states for _, missed, state in after)


def closed_number(sheet: bytes, file: bytes) -> int:
    """The call for C, given a sheet: kind x 2^48 + N, with kind 1 accepted and 2 no, where N is 0,
    and kind 0 refused, where N is the refusal: 1 to 8 by the sheet, then 14."""
    try:
        return (1 if closed(read_sheet(sheet), file) else 2) * 2**48
    except Refused as refused:
        return refused.number


# ----------------------------------------------------------------------
# Marks in a session

MARKS = 8
SESSION = 1 + STATE * (1 + MARKS)  # bytes of a session


class Session(NamedTuple):
    """Document 02, §8: a present state and eight marks, each empty (None) or a state."""

    present: State
    marks: tuple[State | None, ...]


FRESH = Session(START, (None,) * MARKS)


class Call(NamedTuple):
    """Document 02, §8: "step" with a mask, "mark", which sets a mark, or "return" to one. Marks are
    counted from 1, as in the paper."""

    name: str
    given: int


class Answer(NamedTuple):
    """Document 02, §8: a step answers as the tick from the present state does, "next" or "missed" with
    the tick's state; the other calls are "done". Or "refused", with the present state. And the session
    after the call."""

    answer: str
    refusal: int
    state: State
    session: Session


def judge_session(table: Table, session: Session) -> None:
    """Section "Refusals by cause", 4 to 7. Document 02, §8: then 13 for a session with an improper
    state, present or marked."""
    fault = table_fault(table)
    if fault:
        raise Refused(fault)
    marked = [state for state in session.marks if state is not None]
    if not all(is_proper(table, state) for state in (session.present, *marked)):
        raise Refused(13)


def judge_mark(mark: int) -> None:
    """Document 02, §8, refused after 13: 15, a mark outside 1 to 8."""
    if not 1 <= mark <= MARKS:
        raise Refused(15)


def session_step(table: Table, session: Session, mask: int) -> Answer:
    """Document 02, §8: the tick from the present state; after a miss the session stays where it was."""
    judge_session(table, session)
    missed, after = tick(table, session.present, mask)
    if missed:
        return Answer("missed", 0, after, session)
    return Answer("next", 0, after, session._replace(present=after))


def session_mark(table: Table, session: Session, mark: int) -> Answer:
    """Document 02, §8: set mark, also one that was set before."""
    judge_session(table, session)
    judge_mark(mark)
    marks = session.marks[: mark - 1] + (session.present,) + session.marks[mark:]
    return Answer("done", 0, session.present, session._replace(marks=marks))


def session_return(table: Table, session: Session, mark: int) -> Answer:
    """Document 02, §8: return to mark, which stays set. Refusal 16, judged after 15: a mark never set."""
    judge_session(table, session)
    judge_mark(mark)
    state = session.marks[mark - 1]
    if state is None:
        raise Refused(16)
    return Answer("done", 0, state, session._replace(present=state))


def answered(table: Table, session: Session, call: Call) -> Answer:
    """Document 02, §8: one of the calls. A refused one alters nothing."""
    calls = {"step": session_step, "mark": session_mark, "return": session_return}
    try:
        return calls[call.name](table, session, call.given)
    except Refused as refused:
        return Answer("refused", refused.number, session.present, session)


class Record(NamedTuple):
    """Document 02, §8: the release list on record, and for each mark the list stored under it, or None."""

    masks: bytes
    marks: tuple[bytes | None, ...]


BLANK = Record(b"", (None,) * MARKS)


def recorded(record: Record, call: Call, answer: str) -> Record:
    """Document 02, §8: a step accepted without a miss adds its mask, set stores the list under the
    mark, return brings that list back. A miss or a refusal alters nothing."""
    if answer in ("missed", "refused"):
        return record
    if call.name == "step":
        return record._replace(masks=record.masks + bytes([call.given]))
    if call.name == "return":
        return record._replace(masks=record.marks[call.given - 1])
    return record._replace(marks=record.marks[: call.given - 1] + (record.masks,) + record.marks[call.given :])


def is_on_record(table: Table, session: Session, record: Record) -> bool:
    """Document 02, §8: the present state is the replay of the release list on record, and the state
    under each mark that of the list stored under it."""
    lists, states = (record.masks, *record.marks), (session.present, *session.marks)
    return all(
        state is None if masks is None else reaches(table, masks, state)
        for masks, state in zip(lists, states)
    )


def session_of(space: bytes) -> Session:
    """The calls for C: a byte whose bit i - 1 is set where mark i is, then the present state, then the
    state under each mark, of 16 bytes each. Those of a mark that is not set are not read, nor is what
    comes later."""
    states = [state_of(space[at : at + STATE]) for at in range(1, SESSION, STATE)]
    marks = [state if space[0] >> i & 1 else None for i, state in enumerate(states[1:])]
    return Session(states[0], tuple(marks))


def with_session(space: bytes, session: Session) -> bytes:
    """The calls for C: a space with a session at its front. The bytes of a mark that is not set stay, and
    so do later ones. The space handed in is not changed: what it becomes is returned."""
    flags = sum(1 << i for i, state in enumerate(session.marks) if state is not None)
    pieces = [space[at : at + STATE] for at in range(1, SESSION, STATE)]
    states = zip(pieces, (session.present, *session.marks))
    written = b"".join(piece if state is None else state_bytes(state) for piece, state in states)
    return bytes([flags]) + written + space[SESSION:]


def session_call(sheet: bytes, space: bytes, call: Call) -> tuple[int, bytes]:
    """The calls for C, given a sheet: kind x 2^48 + N, with kind 1 done and 2 missed, where N is 0, and
    kind 0 refused, where N is the refusal: 1 to 8 by the sheet, 12 for a space shorter than a session,
    which is then not read, 13, then 15 and 16, or 11. The space handed in is not changed: what it becomes
    is returned."""
    fault = refusal(read_sheet, sheet) or (12 if len(space) < SESSION else 0)
    if fault:
        return fault, space
    answer = answered(read_sheet(sheet), session_of(space), call)
    kind = {"next": 1, "done": 1, "missed": 2, "refused": 0}[answer.answer]
    return kind * 2**48 + answer.refusal, with_session(space, answer.session)


# ----------------------------------------------------------------------
# Cutting the table at a priority


def first_tasks(values: tuple[int, ...], k: int) -> tuple[int, ...]:
    """The first k of eight values, and 0 for the others."""
    return values[:k] + (0,) * (TASKS - k)


def cut_table(table: Table, k: int) -> Table:
    """Document 02, §9: a table cut to its first k tasks, same policy and m. "Refusals by cause", 4 to 7;
    judged after the table: 6 for k outside 1 to n."""
    fault = table_fault(table) or (0 if 1 <= k <= table.n else 6)
    if fault:
        raise Refused(fault)
    entries = (first_tasks(values, k) for values in (table.C, table.D, table.P))
    return Table(table.policy, table.m, k, *entries)


def cut_state(state: State, k: int) -> State:
    """Document 02, §9: the numbers of the first k tasks, and those after them 0; any k, any state."""
    return State(first_tasks(state.c, k), first_tasks(state.p, k))


def cut_mask(mask: int, k: int) -> int:
    """Document 02, §9: the low k bits of a mask; of eight or more all that it has."""
    return mask % 2**k


def cut_list(masks: bytes, k: int) -> bytes:
    """Document 02, §9: every mask cut."""
    return bytes(cut_mask(mask, k) for mask in masks)


def cut_call(sheet: bytes, k: int, output: bytes) -> tuple[int, bytes]:
    """The call for C, given a sheet, with refusals 1 to 8 by the sheet, then 6, then 12."""
    return sheet_call(output, lambda: cut_table(read_sheet(sheet), k))


def cut_replay(table: Table, k: int, masks: bytes) -> Replayed:
    """Document 02, §9: the cut list in the cut table."""
    return replay(cut_table(table, k), cut_list(masks, k))


def agrees(table: Table, k: int, masks: bytes) -> bool:
    """Document 02, §9: if the whole list is Kept, the cut list is Kept in the cut table, with the cut
    state."""
    whole = replay(table, masks)
    return whole.answer != "kept" or cut_replay(table, k, masks) == ("kept", 0, 0, cut_state(whole.state, k))


# ----------------------------------------------------------------------
# What is known without the library


def every_file(table: Table) -> Iterator[set[State]]:
    """Every set of proper states of a small table, but the empty one."""
    numbers = [range(x + 1) for x in (*table.C, *table.P)]
    states = [State(both[:TASKS], both[TASKS:]) for both in product(*numbers)]
    proper = [state for state in states if is_proper(table, state)]
    return map(set, chain.from_iterable(combinations(proper, k + 1) for k in range(len(proper))))


def check_files() -> None:
    """Document 02, of every file of some small tables: whoever made it, an accepted one means that
    no list misses, and the states of a Safe search are accepted. Then files in another order, with
    repeats, without a state, with an improper one; and the refusals."""
    for policy, tasks in product(POLICIES, ([(1, 1, 2)], [(2, 2, 3)], [(1, 1, 1), (1, 1, 1)])):
        table = table_of(policy, 1, tasks)
        accepted = [states for states in every_file(table) if closed(table, file_of(states))]
        found = verdict(table, MOST_SLOTS)
        own, safe = stored_states(table, found), found.kind == "safe"
        assert safe == (own in accepted) and all(safe and own <= states for states in accepted)
    two = table_of(P_GFP, 1, [(1, 2, 2), (1, 2, 2)])
    own = sorted(stored_states(two, verdict(two, 4)))
    late = State((1,) + START.c[1:], START.p)
    assert closed(two, file_of(own)) and closed(two, file_of(own[::-1] + own[:2]))
    assert not any(closed(two, file_of(own[:i] + own[i + 1 :])) for i in range(4))
    assert not is_proper(two, late) and not closed(two, file_of(own + [late]))
    assert refusal(closed, two, b"") == 14 and refusal(closed, two, file_of(own)[:-1]) == 14
    assert refusal(closed, two._replace(m=0), b"") == 5 and closed_number(b"\x04", b"") == 3
    assert closed_number(sheet_bytes(two), bytes(16)) == 2 * 2**48


def check_columns() -> None:
    """Document 02, §6: where each part stands, byte by byte, in spaces of 21 K to 21 K + 20 bytes that held
    others before; which bytes stay; and that any slots that are written are read back. Then the columns at
    the cap, a table of the benchmark, whose first 16 N bytes are accepted, and slots that break the rule."""
    assert [slots(length) for length in (0, 20, 21, 41, 42, 65_520)] == [0, 0, 1, 1, 2, 3_120]
    assert [slots(SLOT * MOST_SLOTS + x) for x in (-1, 0, SLOT)] == [MOST_SLOTS - 1, MOST_SLOTS, MOST_SLOTS]
    any_slots = [Slot(State((9 + i,) * TASKS, (i,) * TASKS), 0x04030201 + i, 250 - i) for i in range(3)]
    for K, N, rest in product((3, 4, 7), range(4), range(SLOT)):
        before = bytes((100 + 7 * i + rest) % 256 for i in range(SLOT * K + rest))
        after, expected = write_slots(before, any_slots[:N]), bytearray(before)
        for i in range(N):
            expected[16 * i : 16 * i + 16] = bytes([9 + i, i]) * 8
            expected[16 * K + 4 * i : 16 * K + 4 * i + 4] = bytes([1 + i, 2, 3, 4])
            expected[20 * K + i] = 250 - i
        assert after == expected and read_slots(after, N) == any_slots[:N]
    past = bytes(SLOT * MOST_SLOTS + 50)
    assert list(map(len, columns(past))) == [16 * MOST_SLOTS, 4 * MOST_SLOTS, MOST_SLOTS, 50]
    two = table_of(P_GFP, 1, [(1, 2, 2), (1, 2, 2)])
    states = START, with_jobs((0, 1)), with_jobs((0, 0), (0, 1)), with_jobs((0, 1), (1, 1))
    own = [Slot(state, 0, mask) for mask, state in enumerate(states)]
    assert keeps_rule(two, own) and closed(two, write_slots(bytes(200), own)[: STATE * len(own)])
    wrong = [[*own[:3], own[3]._replace(mask=1)], [*own[:3], own[3]._replace(parent=3)], [*own, own[1]], own[1:]]
    assert not any(keeps_rule(two, slots) for slots in wrong)


def chosen(table: Table, masks: bytes) -> list[list[int]]:
    """The tasks that run in each tick of a list that is kept."""
    states = [replay(table, masks[:ticks]).state for ticks in range(len(masks))]
    return [choose(table, release(table, state, mask)) for state, mask in zip(states, masks)]


def check_least_slack() -> None:
    """Document 02, §3: the refusals; any number of started jobs; a choice that changes from tick to
    tick, as the slack of waiting jobs falls, with jobs of one age by task number; and three tasks on
    two cores that are Safe under 4 alone."""
    one = table_of(P_LST, 1, [(3, 9, 9), (2, 7, 7), (2, 7, 7)])
    assert table_fault(one) == 0 and read_sheet(sheet_bytes(one)) == one
    assert table_fault(one._replace(policy=5)) == 4
    assert refusal(read_sheet, sheet_bytes(one._replace(policy=5))) == 4
    started = State((2, 1, 1) + START.c[3:], (9, 7, 7) + START.p[3:])
    assert is_proper(one, started) and not is_proper(one._replace(policy=NP_EDF), started)
    assert chosen(one, bytes([7] + [0] * 6)) == [[1], [2], [0], [1], [2], [0], [0]]
    assert chosen(one._replace(policy=P_EDF), bytes([7] + [0] * 6)) == [[1], [1], [2], [2], [0], [0], [0]]
    tight = table_of(P_LST, 2, [(1, 2, 2), (1, 1, 2), (2, 2, 2)])
    kinds = [verdict(tight._replace(policy=policy), MOST_SLOTS).kind for policy in POLICIES]
    assert verdict(tight, 9) == ("safe", 0, 9) and kinds == ["unsafe"] * 4 + ["safe"]


def with_jobs(*jobs: tuple[int, int]) -> State:
    """A state from c and p of its first tasks."""
    c, p = zip(*jobs, *[(0, 0)] * (TASKS - len(jobs)))
    return State(c, p)


def check_age() -> None:
    """Document 02, §4: of equal d, and of equal slack, the greater P - p runs first, whatever the task
    number; with that equal too the number decides, and under GFP it alone. Under NP a started job keeps
    its processor from an older one. Then three tasks on two cores, for which task numbers alone had
    given Safe 22 and Unsafe 3 13."""
    for policy in POLICIES:
        by_number = policy in (NP_GFP, P_GFP)
        for tasks, jobs, runs in (
            ([(3, 7, 12), (3, 9, 9)], [(3, 12), (3, 7)], 0 if by_number else 1),  # d 7, slack 4; P - p 0, 2
            ([(3, 9, 9), (3, 7, 12)], [(3, 7), (3, 12)], 0),  # the same; P - p 2, 0
            ([(3, 9, 9), (3, 9, 12)], [(3, 7), (3, 10)], 0),  # the same; P - p 2, 2
            ([(2, 6, 9), (4, 9, 12)], [(2, 9), (4, 11)], 1 if policy == P_LST else 0),  # d 6, 8, slack 4; P - p 0, 1
            ([(3, 7, 12), (3, 9, 9)], [(2, 12), (3, 7)], 0 if policy == NP_EDF or by_number else 1),  # d 7, started
        ):
            assert choose(table_of(policy, 1, tasks), with_jobs(*jobs)) == [runs]
    late = table_of(P_EDF, 2, [(1, 2, 2), (2, 2, 2), (2, 4, 4)])
    assert verdict(late, MOST_SLOTS) == ("unsafe", 3, 15)
    kept = table_of(P_EDF, 2, [(1, 2, 2), (1, 2, 2), (3, 4, 4)])
    assert verdict(kept, MOST_SLOTS) == ("safe", 0, 22)


def check_service() -> None:
    """Document 02, §5: the totals of every short list of some small tables balance, and of a list that
    is kept they count its choices. Then a tick that misses, which counts, and refused ones, which do
    not; a job that ran and waited in turn; and the call for C, with spaces too short and longer."""
    tables = [(1, [(1, 2, 2), (1, 2, 2)]), (1, [(1, 1, 2), (2, 4, 4)]), (2, [(2, 3, 3), (1, 2, 2), (3, 4, 4)])]
    for policy, (m, tasks) in product(POLICIES, tables):
        table = table_of(policy, m, tasks)
        for masks in product(range(2**table.n + 1), repeat=3):
            played, totals = service(table, bytes(masks))
            assert played == replay(table, bytes(masks)) and is_balanced(table, totals)
            if played.answer == "kept":
                running = list(chain.from_iterable(chosen(table, bytes(masks))))
                assert totals.ran == tuple(map(running.count, range(TASKS)))
    urgent, rest = table_of(NP_GFP, 1, [(1, 1, 2), (2, 4, 4)]), (0,) * 6
    missed = Totals((1, 1, *rest), (0, 2, *rest), (1, 0, *rest))
    assert service(urgent, bytes([2, 1, 255])) == (replay(urgent, bytes([2, 1])), missed)
    first = Totals((0, 1, *rest), (0, 1, *rest), (0, 1, *rest))
    assert service(urgent, bytes([2, 3])) == (("refused", 11, 2, with_jobs((0, 0), (1, 3))), first)
    none = Totals(*[(0,) * TASKS] * 3)
    assert [service(urgent, masks).totals for masks in (b"", b"\4", b"\5")] == [none] * 3
    assert service(urgent._replace(m=9), b"\1") == (("refused", 5, 0, START), none)
    turns = table_of(P_LST, 1, [(3, 9, 9), (2, 7, 7), (2, 7, 7)])
    assert service(turns, bytes([7, 0, 0, 0])).totals[1:] == ((1, 2, 1, *rest[1:]), (2, 0, 1, *rest[1:]))
    sheet, space = sheet_bytes(urgent), b"\xff" * 193
    for masks, number, totals in (([2], 2**56, first), ([2, 1], 2 * 2**56 + 2, missed), ([2, 4], 11 * 2**48 + 2, first)):
        assert service_call(sheet, bytes(masks), space) == (number, totals_bytes(totals) + b"\xff")
        short = number if masks == [2, 4] else 12 * 2**48
        assert service_call(sheet, bytes(masks), space[:191]) == (short, space[:191])
    assert totals_bytes(first)[24:48] == bytes([1, *[0] * 7] * 3) and len(totals_bytes(first)) == 192
    assert service_call(sheet[:-1], b"\4", b"") == (2**48, b"")


def check_practice() -> None:
    """Document 02, §7: the kth draw is a^k s + c (1 + a + .. + a^(k-1)) mod 65536; all 65,536 draws from a
    number are different, the last one that number; and every table made is valid, and is read back from
    its sheet."""
    for s in (0, 1, 13849, 40000, 65535):
        drawn = list(islice(draws(s), 65536))
        for k in range(1, 25):
            assert drawn[k - 1] == (25173**k * s + 13849 * sum(25173**i for i in range(k))) % 65536
        assert len(set(drawn)) == 65536 and drawn[-1] == s
    for s in range(0, 65536, 61):
        table = practice(s % 5, 1 + s % 8, 1 + s // 8 % 8, s)
        assert table_fault(table) == 0 and read_sheet(sheet_bytes(table)) == table


def every_session(table: Table, calls: list[Call], length: int) -> set[tuple[str, str, int]]:
    """Document 02, §8, of every list of so many of these calls from a fresh session: its states are on
    record. What the calls answered."""
    reached, met = {(FRESH, BLANK)}, set()
    for _ in range(length):
        later = set()
        for (session, record), call in product(reached, calls):
            answer = answered(table, session, call)
            record = recorded(record, call, answer.answer)
            assert is_on_record(table, answer.session, record)
            met.add((call.name, answer.answer, answer.refusal))
            later.add((answer.session, record))
        reached = later
    return met


def check_session_faults() -> None:
    """Document 02, §8: the refusals and their order, of the present state and of each mark, by value and
    for C, where the bytes of a mark that is not set are neither read nor changed."""
    urgent, late = table_of(NP_GFP, 1, [(1, 1, 2), (2, 4, 4)]), with_jobs((1, 0))
    calls = [Call(name, given) for name in ("step", "mark", "return") for given in (0, 255, 1, 8)]
    none = [0, 11, 0, 11, 15, 15, 0, 0, 15, 15, 16, 16]
    assert [answered(urgent, FRESH, call).refusal for call in calls] == none
    sheet, garbage = sheet_bytes(urgent), bytes(1 + STATE) + b"\xff" * 129
    for place in range(1 + MARKS):
        states = [late if i == place else START for i in range(1 + MARKS)]
        wrong = Session(states[0], tuple(states[1:]))
        space = with_session(garbage, wrong)
        assert not is_proper(urgent, late) and session_of(space) == wrong and space[SESSION:] == b"\xff"
        for call in calls:
            assert answered(urgent, wrong, call) == ("refused", 13, wrong.present, wrong)
            assert answered(urgent._replace(m=0), wrong, call).refusal == 5
            for given, number in ((space, 13), (space[:-1], 13), (space[:-2], 12), (b"", 12)):
                assert session_call(sheet, given, call) == (number, given)
                assert session_call(sheet + b"\0", given, call) == (8, given)
    written = {
        Call("step", 1): bytes([0, 0, 1, *[0] * 14]) + garbage[17:],
        Call("mark", 1): b"\x01" + bytes(2 * STATE) + garbage[33:],
        Call("mark", 8): b"\x80" + garbage[1:129] + bytes(STATE) + garbage[145:],
    }
    for call, number in zip(calls, none):
        assert session_call(sheet, garbage, call) == (number or 2**48, written.get(call, garbage))


def check_sessions() -> None:
    """Document 02, §8: every short list of calls; a walk with a miss, after which the session stays where
    it was, a mark that is set anew, and returns; and the bytes of a session."""
    calls = [Call("step", mask) for mask in (0, 1, 2, 3, 4)]
    calls += [Call(name, mark) for name in ("mark", "return") for mark in (0, 1, 8)]
    every = {("step", "next", 0), ("step", "missed", 0), ("step", "refused", 11)}
    every |= {("mark", "done", 0), ("mark", "refused", 15)}
    every |= {("return", "done", 0), ("return", "refused", 15), ("return", "refused", 16)}
    for policy in POLICIES:
        assert every_session(table_of(policy, 1, [(2, 2, 3), (1, 2, 2)]), calls, 4) == every
    urgent = table_of(NP_GFP, 1, [(1, 1, 2), (2, 4, 4)])
    started, later = with_jobs((0, 0), (1, 3)), with_jobs((0, 0), (0, 2))
    session, space = FRESH, bytes(1 + STATE) + b"\xee" * 130
    for call, answer, state, marks in (
        (Call("mark", 8), "done", START, {8: START}),
        (Call("step", 2), "next", started, {8: START}),
        (Call("mark", 1), "done", started, {1: started, 8: START}),
        (Call("step", 1), "missed", started, {1: started, 8: START}),
        (Call("step", 0), "next", later, {1: started, 8: START}),
        (Call("mark", 8), "done", later, {1: started, 8: later}),
        (Call("return", 1), "done", started, {1: started, 8: later}),
        (Call("step", 3), "refused", started, {1: started, 8: later}),
        (Call("return", 8), "done", later, {1: started, 8: later}),
    ):
        given = answered(urgent, session, call)
        session = given.session
        assert given.answer == answer and session == Session(state, tuple(marks.get(i + 1) for i in range(MARKS)))
        number, space = session_call(sheet_bytes(urgent), space, call)
        assert number == {"missed": 2**49, "refused": 11}.get(answer, 2**48) and session_of(space) == session
    first, last = bytes([0, 0, 1, 3, *[0] * 12]), bytes([0, 0, 0, 2, *[0] * 12])
    assert space == b"\x81" + last + first + b"\xee" * 96 + last + b"\xee" * 2


def check_cut() -> None:
    """Document 02, §9: what a cut keeps, cuts of cuts, the refusals and their order, by value and for C."""
    three, rest = table_of(P_GFP, 2, [(1, 2, 3), (4, 5, 6), (7, 8, 200)]), (0,) * 7
    assert cut_table(three, 3) == three and cut_table(three, 1) == (P_GFP, 2, 1, (1, *rest), (2, *rest), (3, *rest))
    for table in (three, *(table_of(policy, 8, [(i, 20 * i, 25 * i) for i in range(1, 9)]) for policy in POLICIES)):
        for k, j in product(range(1, table.n + 1), repeat=2):
            cut, tasks = cut_table(table, k), list(zip(table.C, table.D, table.P))
            assert table_fault(cut) == 0 and cut == table_of(table.policy, table.m, tasks[:k])
            assert cut_table(cut, j) == cut_table(table, j) if j <= k else refusal(cut_table, cut, j) == 6
    state, masks = State(tuple(range(201, 209)), tuple(range(1, 9))), bytes(range(256))
    for k, j in product((*range(10), 255), repeat=2):
        assert cut_state(cut_state(state, k), j) == cut_state(state, min(k, j))
        assert cut_list(cut_list(masks, k), j) == cut_list(masks, min(k, j))
        assert all(mask_tasks(cut_mask(mask, k)) == [i for i in mask_tasks(mask) if i < k] for mask in masks)
    assert cut_state(state, 2) == with_jobs((201, 1), (202, 2)) and cut_state(state, 0) == START
    for k in (0, 4, 255):
        assert [refusal(cut_table, table, k) for table in (three, three._replace(m=9))] == [6, 5]
        assert cut_call(sheet_bytes(three), k, b"") == (6, b"") and cut_call(b"\4", k, b"") == (3, b"")
    assert cut_call(sheet_bytes(three), 1, b"\xff" * 8) == (2**48 + 7, bytes([3, 1, 2, 1, 1, 2, 3, 255]))
    assert cut_call(sheet_bytes(three), 1, b"\xff" * 6) == (12, b"\xff" * 6)


def check_cut_lists() -> None:
    """Document 02, §9, of every short list of some small tables: under P-GFP cutting agrees with play, and a
    table's cut is Safe where it is, with no more states; under each other policy some list is Kept whole
    whose cut is not Kept with the cut state. Under P it is Kept nevertheless, with no more work left; under
    NP it may miss, where what a low job held back starts and holds back another. And for every policy, of any
    two lists joined."""
    tables = [(1, [(1, 2, 2), (1, 2, 2)]), (1, [(1, 2, 2), (2, 4, 4)]), (2, [(2, 3, 3), (1, 2, 2), (2, 4, 4)])]
    for policy in POLICIES:
        agreed = set()
        for m, tasks in tables:
            table = table_of(policy, m, tasks)
            for masks in map(bytes, product(range(2**table.n + 1), repeat=5 - table.n)):
                assert all(joins(table, masks[:ticks], masks[ticks:]) for ticks in range(len(masks) + 1))
                for k in range(1, table.n + 1):
                    agreed.add(agrees(table, k, masks))
                    whole, part = replay(table, masks), cut_replay(table, k, masks)
                    if is_preempted(table) and whole.answer == "kept":
                        assert part.answer == "kept" and all(map(le, part.state.c, whole.state.c))
        assert agreed == ({True} if policy == P_GFP else {True, False})
    for table in (table_of(P_GFP, m, tasks) for m, tasks in tables):
        kind, _, count = verdict(table, MOST_SLOTS)
        cuts = [verdict(cut_table(table, k), MOST_SLOTS) for k in range(1, table.n + 1)]
        assert kind == "safe" and all(found.kind == "safe" and found.N <= count for found in cuts)
    held, masks = table_of(NP_GFP, 1, [(2, 2, 2), (5, 7, 7), (2, 3, 3)]), bytes([1, 4, 0, 2, 1])
    assert replay(held, masks) == ("kept", 0, 0, with_jobs((1, 1), (5, 5)))
    assert cut_replay(held, 2, masks) == ("missed", 0, 5, with_jobs((2, 1), (3, 5)))


def check_after() -> None:
    """Document 02, §9: a list played from a state, reached or not, with raised tick numbers; the refusals
    and their order, also of the empty list; and that a list is played from the state alone."""
    full, started = table_of(P_GFP, 1, [(2, 2, 2), (1, 2, 2)]), with_jobs((1, 1))
    late = with_jobs((1, 0))
    for before in (0, 1, 7, 2**32 - 1):
        assert play_after(full, started, before, b"") == ("kept", 0, 0, started)
        assert play_after(full, started, before, b"\0") == ("kept", 0, 0, START)
        assert play_after(full, started, before, b"\0\3\0\0") == ("missed", 0, before + 3, with_jobs((0, 0), (1, 0)))
        assert play_after(full, started, before, b"\0\4") == ("refused", 11, before + 2, START)
        assert play_after(full, started, before, b"\1") == ("refused", 11, before + 1, started)
        for masks in (b"", b"\0", b"\4"):
            assert play_after(full, late, before, masks) == ("refused", 13, 0, late)
            assert play_after(full._replace(n=9), late, before, masks) == ("refused", 6, 0, late)
    for state in with_jobs((2, 2)), with_jobs((0, 2), (1, 2)), started:
        played = play_after(full, state, 0, b"\0")
        assert (played.answer == "missed", played.state) == tick(full, state, 0)


def check_beside_deadlines() -> None:
    """Policy 4 beside 3, on every table of two tasks with P at most 3. On one core each of them keeps
    whatever can be kept, so neither is Safe without the other. With C = 1 for both tasks the slack is
    d - 1, so that the two choose alike."""
    tasks = [(C, D, P) for P in (1, 2, 3) for D in range(1, P + 1) for C in range(1, D + 1)]
    for two in product(tasks, repeat=2):
        least, earliest = table_of(P_LST, 1, two), table_of(P_EDF, 1, two)
        assert verdict(least, MOST_SLOTS).kind == verdict(earliest, MOST_SLOTS).kind
        if two[0][0] == two[1][0] == 1:
            assert list(levels(least)) == list(levels(earliest))


def self_check() -> None:
    """Section "Benchmark tables": every entry, starred or not. Then demand 3: the levels are those
    that replaying every list gives. Then files of states, policy 4, the age, the totals, the columns,
    practice tables, sessions, cuts, and joined lists."""
    big = MOST_SLOTS
    two = table_of(P_GFP, 1, [(1, 2, 2), (1, 2, 2)])
    assert verdict(two, big) == ("safe", 0, 4) and verdict(two, 3) == ("room", 0, 3)
    assert verdict(two, 4) == ("safe", 0, 4)
    urgent = table_of(NP_GFP, 1, [(1, 1, 2), (2, 4, 4)])
    assert verdict(urgent, big) == ("unsafe", 2, 4) and verdict(urgent, 3) == ("room", 0, 3)
    assert replay(urgent, bytes([2, 1]))[:3] == ("missed", 0, 2)
    assert read_sheet(bytes.fromhex("03000102010102020404")) == urgent
    assert search_sheet(bytes.fromhex("03000102010102020404"), 65_520, 8_192) == ("unsafe", 2, 4)
    full = table_of(P_GFP, 1, [(2, 2, 2), (1, 2, 2)])
    assert replay(full, bytes([3, 0]))[:3] == ("missed", 0, 2)
    assert verdict(table_of(P_GFP, 1, [(1, 1, 1)]), big) == ("safe", 0, 1)
    both = table_of(P_GFP, 1, [(1, 1, 2), (1, 1, 2)])
    assert verdict(both, 1) == ("unsafe", 1, 1) and replay(both, bytes([3]))[:3] == ("missed", 0, 1)
    assert read_number(bytes.fromhex("c801"), 0) == (200, 2)
    assert refusal(read_number, bytes.fromhex("8000"), 0) == 2
    assert refusal(read_number, bytes.fromhex("80"), 0) == 1
    long_gap = table_of(P_GFP, 1, [(1, 1, 200)])
    assert verdict(long_gap, big) == ("safe", 0, 200) and verdict(long_gap, 199) == ("room", 0, 199)
    assert refusal(read_sheet, bytes.fromhex("04010101010101")) == 3
    assert refusal(read_sheet, bytes.fromhex("03010101c901c901c901")) == 7
    for policy in POLICIES:
        for tasks in ([(1, 2, 2), (1, 2, 2)], [(1, 1, 2), (2, 4, 4)], [(2, 3, 4), (2, 5, 5)]):
            table = table_of(policy, 1, tasks)
            for level in list(levels(table))[:4]:
                reached, _ = by_every_list(table, level.ticks)
                _, least = by_every_list(table, level.ticks + 1)
                assert level.reached == reached
                assert level.misses_next == (least == level.ticks + 1)
    check_files()
    check_least_slack()
    check_beside_deadlines()
    check_age()
    check_service()
    check_columns()
    check_practice()
    check_sessions()
    check_session_faults()
    check_cut()
    check_cut_lists()
    check_after()


if __name__ == "__main__":
    self_check()
    print("reference: the paper's benchmark entries hold")
