#!/usr/bin/env python3
"""Makes the outside vectors of the program `vectors` from tests/reference.py alone.

    tests/make_vectors.py           write crates/vectors/stdin and crates/vectors/stdout
    tests/make_vectors.py --check   exit 1 if the stored files are not what this script makes

`stdin` is a series of records: the kind (one ASCII letter), the length of the body in 2 bytes, low
byte first, and the body. `stdout` has a line for each record. Before each vector stands a record of
kind #, whose line is the vector's label. The kinds:

    n  a place, bytes           number VALUE NEXT, or number refused R
    s  a sheet                  sheet accepted POLICY M N and C D P of all eight, or sheet refused R
    t  a table                  table R, 0 for a valid one
    w  a table, a length        write LENGTH, or write refused R; then the whole output in hexadecimal
    r  a sheet                  read and written into 64 bytes: round as write, or round refused R
    d  four numbers             practice as sheet: the practice table of policy, m, n and s
    m  four numbers, a length   made, the number that the call for C programs returns, and the whole output in
                                hexadecimal
    k  a table, a state, a mask tick next, tick missed or tick refused R; then the state
    p  a table, masks           replay kept, replay missed TICK or replay refused R TICK; then the state
    v  a sheet, two spaces      search safe N, search unsafe L N, search room K or search refused R; then
                                the fields below
    q  a sheet, two spaces      call, and the number that the call for C programs returns
    l  a sheet, two spaces      layout, that number, and the whole work space in hexadecimal
    e  a sheet, two spaces      evidence, and the length of the states that the search wrote, at the front of the
                                work space; then, as a file, judged as by c
    c  a sheet, a file          closed accepted, closed no or closed refused R; then the number that the call
                                for C programs returns
    f  a table, a file          file accepted, file no or file refused R
    u  a table, masks           service kept, service missed TICK or service refused R TICK; then the state, then
                                totals, and releases, ran and left of each of eight tasks
    z  a sheet, a length, masks totals, the number that the call for C programs returns, and the whole totals
                                space in hexadecimal
    x  a table, session, calls  session, and for each call next, missed, done or refused R, after a step's the state
                                in hexadecimal; then the session in hexadecimal
    y  a sheet, a space, calls  calls, and for each the number that the call for C programs returns; then the whole
                                space in hexadecimal
    a  a table, k               cut as sheet: the table cut to k
    b  k, a state, masks        cuts, the state cut to k, and the cut list in hexadecimal
    g  a sheet, k, a length     cut sheet, the number that the call for C programs returns, and the whole output in
                                hexadecimal
    h  a table, k, masks        whole, as replay of the list; then part, as replay of the cut list in the cut table, or
                                part refused R where the cut is refused
    j  a table, a state, a      after as replay: the list played from the state, with a number of ticks before in 4
       number, masks            bytes, low byte first

A table is 27 bytes: policy, m, n, eight C, eight D, eight P. A state is 16 bytes: c and p of each of
eight tasks, printed in that order. An output is filled with (i * 37 + 11) mod 256 at place i before
the writer has it. Four numbers are policy, m and n in a byte each and s in 2 bytes, low byte first.

A sheet and two spaces are the sheet's length in a byte, the sheet, the length of the work space and that
of the trace space in 4 bytes each, low byte first, and a byte f. Both spaces are filled with
(i * 29 + f) mod 256 at place i before the search has them. Which shortest list is given, the order of
the slots, their parents and masks, and the states stored under room are free: so the fields after the
search's answer are counts of what is not as it has to be, a digest that is the same in any order, and a
replay. Only for tables of which nothing of that is free there are vectors with the whole work space.

    later X    bytes of the work space changed: of the states, of the parents and of the masks of the slots after
               the first N (of all if refused), and after the third column, a number each
    trace X    bytes of the trace space changed after the first L (after none unless unsafe)
    wrong X    of the first N slots those with an earlier slot's state, or with a parent or a mask that
               do not lead to their state (not if refused)
    digest X   the sum modulo 2^32 of a hash of the 16 bytes of each stored state (safe, unsafe)
    replay X   what replaying the first L bytes of the trace space answers (unsafe)

A file is states of 16 bytes each, or other bytes, up to the body's end; before it stands a table, or a
sheet after its length in a byte.

A sheet, a length and masks are the sheet's length in a byte, the sheet, the length of the totals space in a
byte, and the masks up to the body's end. The totals space is filled as the writer's output, and so is that of a cut
sheet: the sheet's length in a byte, the sheet, k in a byte, and the length of the output in a byte.

A session is 145 bytes: a byte whose bit i - 1 is set where mark i is, the present state, and the state under each of
eight marks, also under those that are not set, whose bytes stay. A session by value has no state there: its line (x)
has those of the record; that calls leave the bytes is seen in the lines of calls on bytes (y). A sheet and a space are
the sheet's length in a byte, the sheet, the length of the space in a byte, and its bytes, at whose front a session
stands. Calls are 2 bytes each up to the body's end: 0 step, 1 mark or 2 return, and the mask or the mark. The state
after a step's answer is the tick's: the next state, the state of the miss, or the present state where the step is
refused.
"""
import sys
from contextlib import contextmanager
from functools import lru_cache
from itertools import islice, product
from pathlib import Path
from typing import Callable, Iterable, Iterator, NamedTuple

sys.dont_write_bytecode = True

import reference as ref
from reference import START, Call, Session, State, Table, number_bytes, sheet_bytes, table_of

# The kinds whose vectors are made.
KINDS = "nstwrdmkpvqlecfuzxyabghj"

FOLDER = Path(__file__).resolve().parent.parent / "crates" / "vectors"
LONGEST_BODY = 4096  # what the program has room for
WORK, TRACE = 65_520, 8_192  # the longest spaces that the program has


class Vector(NamedTuple):
    kind: str
    label: str
    body: bytes
    line: str


# ----------------------------------------------------------------------
# A vector of each kind: its body, and the line that the reference gives for it


def numbers(values) -> str:
    return " ".join(str(x) for x in values)


def table_bytes(table: Table) -> bytes:
    return bytes([table.policy, table.m, table.n, *table.C, *table.D, *table.P])


def number_vector(label: str, data: str, at: int = 0) -> Vector:
    sheet = bytes.fromhex(data)
    try:
        line = "number " + numbers(ref.read_number(sheet, at))
    except ref.Refused as refused:
        line = f"number refused {refused.number}"
    return Vector("n", label, bytes([at]) + sheet, line)


def table_line(call: Callable[..., Table], *given) -> str:
    """The table that a call gives, or its refusal."""
    try:
        table = call(*given)
    except ref.Refused as refused:
        return f"refused {refused.number}"
    tasks = [x for task in zip(table.C, table.D, table.P) for x in task]
    return "accepted " + numbers([table.policy, table.m, table.n, *tasks])


def sheet_vector(label: str, sheet: bytes) -> Vector:
    return Vector("s", label, sheet, "sheet " + table_line(ref.read_sheet, sheet))


def table_vector(label: str, table: Table) -> Vector:
    return Vector("t", label, table_bytes(table), f"table {ref.table_fault(table)}")


def filled(length: int, first: int, step: int) -> bytes:
    """What a space holds before it is lent."""
    return bytes((i * step + first) % 256 for i in range(length))


def written(table: Table, length: int) -> str:
    """The writer's answer, and its output of some length."""
    output = filled(length, 11, 37)
    try:
        size, output = ref.write_sheet(table, output)
        answer = f"{size}"
    except ref.Refused as refused:
        answer = f"refused {refused.number}"
    return f"{answer} {output.hex() or 'empty'}"


def write_vector(label: str, table: Table, length: int) -> Vector:
    return Vector("w", label, table_bytes(table) + bytes([length]), "write " + written(table, length))


def round_vector(label: str, sheet: bytes) -> Vector:
    try:
        line = "round " + written(ref.read_sheet(sheet), 64)
    except ref.Refused as refused:
        line = f"round refused {refused.number}"
    return Vector("r", label, sheet, line)


class Practice(NamedTuple):
    """What a practice table is made of."""

    policy: int
    m: int
    n: int
    s: int


def practice_body(given: Practice) -> bytes:
    return bytes(given[:3]) + given.s.to_bytes(2, "little")


def practice_vector(label: str, given: Practice) -> Vector:
    return Vector("d", label, practice_body(given), "practice " + table_line(ref.practice, *given))


def made_vector(label: str, given: Practice, length: int) -> Vector:
    number, output = ref.practice_call(*given, filled(length, 11, 37))
    return Vector("m", label, practice_body(given) + bytes([length]), f"made {number} {output.hex() or 'empty'}")


def tick_vector(label: str, table: Table, state: State, mask: int) -> Vector:
    try:
        missed, after = ref.tick(table, state, mask)
        answer = "missed" if missed else "next"
    except ref.Refused as refused:
        answer, after = f"refused {refused.number}", state
    body = table_bytes(table) + ref.state_bytes(state) + bytes([mask])
    return Vector("k", label, body, f"tick {answer} {numbers(ref.state_bytes(after))}")


def outcome(played: ref.Replayed) -> str:
    """The answer of a replay, and its state."""
    answer = {
        "kept": "kept",
        "missed": f"missed {played.tick}",
        "refused": f"refused {played.refusal} {played.tick}",
    }[played.answer]
    return f"{answer} {numbers(ref.state_bytes(played.state))}"


def replay_vector(label: str, table: Table, masks: bytes) -> Vector:
    return Vector("p", label, table_bytes(table) + masks, f"replay {outcome(ref.replay(table, masks))}")


def state_hash(state: State) -> int:
    """FNV-1a of the 16 bytes that a slot has for the state."""
    value = 2166136261
    for byte in ref.state_bytes(state):
        value = (value ^ byte) * 16777619 % 2**32
    return value


def search_body(sheet: bytes, work: int, trace: int, fill: int) -> bytes:
    assert work <= WORK and trace <= TRACE and len(sheet) < 256
    return bytes([len(sheet)]) + sheet + work.to_bytes(4, "little") + trace.to_bytes(4, "little") + bytes([fill])


def search_vector(label: str, sheet: bytes, work: int, trace: int, fill: int) -> Vector:
    found = ref.search_sheet(sheet, work, trace)
    line = f"search {found.kind} " + (f"{found.L} " if found.kind == "unsafe" else "") + f"{found.N} later 0 0 0 0 trace 0"
    if found.kind != "refused":
        line += " wrong 0"
    if found.kind in ("safe", "unsafe"):
        stored = ref.stored_states(ref.read_sheet(sheet), found)
        assert len(stored) == found.N
        line += f" digest {sum(map(state_hash, stored)) % 2**32}"
    if found.kind == "unsafe":
        line += f" replay missed {found.L}"
    return Vector("v", label, search_body(sheet, work, trace, fill), line)


def call_vector(label: str, sheet: bytes, work: int, trace: int, fill: int) -> Vector:
    number = ref.verdict_number(ref.search_sheet(sheet, work, trace))
    return Vector("q", label, search_body(sheet, work, trace, fill), f"call {number}")


def only_slots(table: Table, found: ref.Verdict) -> list[ref.Slot]:
    """The slots that a search writes, of a table that leaves nothing of them free: each level has one state, to which
    one slot leads under one mask."""
    written = [ref.Slot(START, 0, 0)]
    for level in ref.levels(table):
        if len(written) < found.N and level.ticks:
            (state,) = level.reached - {slot.state for slot in written}
            ((parent, mask),) = ref.leading(table, written, state)
            written.append(ref.Slot(state, parent, mask))
    assert len(written) == found.N and ref.keeps_rule(table, written)
    return written


def layout_vector(label: str, sheet: bytes, work: int, trace: int, fill: int) -> Vector:
    found, space = ref.search_sheet(sheet, work, trace), filled(work, fill, 29)
    if found.kind != "refused":
        slots = only_slots(ref.read_sheet(sheet), found)
        space = ref.write_slots(space, slots)
        assert ref.read_slots(space, found.N) == slots
    line = f"layout {ref.verdict_number(found)} {space.hex() or 'empty'}"
    return Vector("l", label, search_body(sheet, work, trace, fill), line)


def judged(table: Table, file: bytes) -> str:
    try:
        return "accepted" if ref.closed(table, file) else "no"
    except ref.Refused as refused:
        return f"refused {refused.number}"


def judged_for(sheet: bytes, file: bytes) -> str:
    fault = ref.refusal(ref.read_sheet, sheet)
    return f"refused {fault}" if fault else judged(ref.read_sheet(sheet), file)


def closed_vector(label: str, sheet: bytes, file: bytes) -> Vector:
    line = f"closed {judged_for(sheet, file)} {ref.closed_number(sheet, file)}"
    return Vector("c", label, bytes([len(sheet)]) + sheet + file, line)


def file_vector(label: str, table: Table, file: bytes) -> Vector:
    return Vector("f", label, table_bytes(table) + file, f"file {judged(table, file)}")


def by_level(table: Table) -> list[State]:
    """The states that lists reach, up to the level before a miss, in the order of the ticks that they take."""
    states: list[State] = []
    for level in ref.levels(table):
        states += sorted(level.reached - set(states))
    return states


def evidence_vector(label: str, sheet: bytes, work: int, trace: int, fill: int) -> Vector:
    """The states that a search writes are a closed file under safe alone. Under room they are free, but lack one that
    lists reach."""
    found = ref.search_sheet(sheet, work, trace)
    if found.kind == "refused":
        length, line = 0, f"{judged_for(sheet, b'')} {ref.closed_number(sheet, b'')}"
    elif found.kind == "room":
        length, line = 16 * found.N, f"no {2 * 2**48}"
    else:
        file = ref.file_of(ref.stored_states(ref.read_sheet(sheet), found))
        assert ref.closed(ref.read_sheet(sheet), file) == (found.kind == "safe")
        length, line = len(file), f"{judged_for(sheet, file)} {ref.closed_number(sheet, file)}"
    return Vector("e", label, search_body(sheet, work, trace, fill), f"evidence {length} {line}")


@lru_cache(maxsize=None)
def balanced(table: Table, masks: bytes) -> ref.Account:
    """A replay with its totals, which balance: a vector whose totals do not is not made. Long lists are
    asked for several times."""
    account = ref.service(table, masks)
    assert ref.is_balanced(table, account.totals), (table, masks)
    return account


def service_vector(label: str, table: Table, masks: bytes) -> Vector:
    played, totals = balanced(table, masks)
    line = f"service {outcome(played)} totals {numbers(x for task in zip(*totals) for x in task)}"
    return Vector("u", label, table_bytes(table) + masks, line)


def totals_vector(label: str, sheet: bytes, masks: bytes, length: int) -> Vector:
    if not ref.refusal(ref.read_sheet, sheet):
        balanced(ref.read_sheet(sheet), masks)
    number, after = ref.service_call(sheet, masks, filled(length, 11, 37))
    body = bytes([len(sheet)]) + sheet + bytes([length]) + masks
    return Vector("z", label, body, f"totals {number} {after.hex() or 'empty'}")


CALLS = ("step", "mark", "return")  # by the first byte of a call


def call_bytes(calls: list[Call]) -> bytes:
    return bytes(x for call in calls for x in (CALLS.index(call.name), call.given))


def call_line(table: Table, session: Session, call: Call) -> tuple[str, Session]:
    """The answer of a call, with the state beside a step's; and the session after it."""
    answer = ref.answered(table, session, call)
    line = f" refused {answer.refusal}" if answer.refusal else f" {answer.answer}"
    if call.name == "step":
        line += f" {ref.state_bytes(answer.state).hex()}"
    return line, answer.session


def session_vector(label: str, table: Table, space: bytes, calls: list[Call]) -> Vector:
    assert len(space) == ref.SESSION, label
    session, line = ref.session_of(space), "session"
    for call in calls:
        answer, session = call_line(table, session, call)
        line += answer
    body = table_bytes(table) + space + call_bytes(calls)
    return Vector("x", label, body, f"{line} {ref.with_session(space, session).hex()}")


def session_call_vector(label: str, sheet: bytes, space: bytes, calls: list[Call]) -> Vector:
    body = bytes([len(sheet)]) + sheet + bytes([len(space)]) + space + call_bytes(calls)
    line = "calls"
    for call in calls:
        number, space = ref.session_call(sheet, space, call)
        line += f" {number}"
    return Vector("y", label, body, f"{line} {space.hex() or 'empty'}")


LONGEST_CUT = 256  # masks that the program has room for when it cuts a list


def cut_vector(label: str, table: Table, k: int) -> Vector:
    return Vector("a", label, table_bytes(table) + bytes([k]), "cut " + table_line(ref.cut_table, table, k))


def cuts_vector(label: str, k: int, state: State, masks: bytes) -> Vector:
    assert len(masks) <= LONGEST_CUT, label
    line = f"cuts {numbers(ref.state_bytes(ref.cut_state(state, k)))} {ref.cut_list(masks, k).hex() or 'empty'}"
    return Vector("b", label, bytes([k]) + ref.state_bytes(state) + masks, line)


def cut_sheet_vector(label: str, sheet: bytes, k: int, length: int) -> Vector:
    number, output = ref.cut_call(sheet, k, filled(length, 11, 37))
    body = bytes([len(sheet)]) + sheet + bytes([k, length])
    return Vector("g", label, body, f"cut sheet {number} {output.hex() or 'empty'}")


def part_vector(label: str, table: Table, k: int, masks: bytes) -> Vector:
    assert len(masks) <= LONGEST_CUT, label
    try:
        part = outcome(ref.cut_replay(table, k, masks))
    except ref.Refused as refused:
        part = f"refused {refused.number}"
    line = f"whole {outcome(ref.replay(table, masks))} part {part}"
    return Vector("h", label, table_bytes(table) + bytes([k]) + masks, line)


def after_vector(label: str, table: Table, state: State, before: int, masks: bytes) -> Vector:
    body = table_bytes(table) + ref.state_bytes(state) + before.to_bytes(4, "little") + masks
    return Vector("j", label, body, f"after {outcome(ref.play_after(table, state, before, masks))}")


# ----------------------------------------------------------------------
# Sheet numbers, sheets, tables, the writer

PAPER = bytes.fromhex("03000102010102020404")  # the sheet of "Benchmark tables"
TWO = [(1, 2, 2), (1, 2, 2)]
LONGEST = sheet_bytes(table_of(3, 8, [(200, 200, 200)] * 8))  # 52 bytes


def sheet_of(*values: int) -> bytes:
    """The numbers of a sheet, whatever they are."""
    return b"".join(number_bytes(x) for x in values)


def number_vectors() -> Iterator[Vector]:
    for value in (0, 1, 127, 128, 200, 201, 255, 256, 257, 16382, 16383):
        yield number_vector(f"the number {value}", number_bytes(value).hex())
    yield number_vector("the least second byte", "8001")
    yield number_vector("the greatest second byte", "807f")
    yield number_vector("second byte 0", "8000")
    yield number_vector("second byte 0, first FF", "ff00")
    yield number_vector("second byte 128", "8080")
    yield number_vector("second byte 129 and more bytes", "818101")
    yield number_vector("second byte 255", "ffff")
    yield number_vector("no bytes", "")
    yield number_vector("the end after 80", "80")
    yield number_vector("the end after FF", "ff")
    yield number_vector("bytes after the number are not read", "0580")
    yield number_vector("bytes after two groups are not read", "c80180")
    yield number_vector("from place 1", "05c801", 1)
    yield number_vector("from the second byte of a number", "05c801", 2)
    yield number_vector("from the end", "05c801", 3)
    yield number_vector("from past the end", "05c801", 4)
    yield number_vector("from far past the end", "05c801", 255)
    yield number_vector("the last byte, at 255", "00" * 255 + "07", 255)
    yield number_vector("the end after a first byte at 255", "00" * 255 + "87", 255)
    yield number_vector("two bytes at 255", "00" * 255 + "ff7f", 255)


def sheet_vectors() -> Iterator[Vector]:
    # accepted
    yield sheet_vector("the paper's sheet", PAPER)
    for policy in ref.POLICIES:
        yield sheet_vector(f"two tasks, policy {policy}", sheet_bytes(table_of(policy, 1, TWO)))
    yield sheet_vector("the least numbers", sheet_of(3, 0, 1, 1, 1, 1, 1))
    yield sheet_vector("m 8, n 1", sheet_of(3, 1, 8, 1, 1, 2, 3))
    yield sheet_vector("C, D, P 127, 128, 200", sheet_of(3, 2, 2, 1, 127, 128, 200))
    yield sheet_vector("n 8, all different", sheet_bytes(table_of(2, 3, [(i, 20 * i, 25 * i) for i in range(1, 9)])))
    yield sheet_vector("the longest sheet, 52 bytes", LONGEST)
    yield sheet_vector("the longest sheet, policy 4", LONGEST[:1] + b"\x04" + LONGEST[2:])
    # 1: the bytes end
    for length in range(len(PAPER)):
        yield sheet_vector(f"1: the paper's sheet, its first {length} bytes", PAPER[:length])
    yield sheet_vector("1: the longest sheet less its last byte", LONGEST[:-1])
    yield sheet_vector("1: the longest sheet less a number", LONGEST[:-2])
    yield sheet_vector("1: one task of two", sheet_of(3, 1, 1, 2, 1, 2, 2))
    yield sheet_vector("1: the end within the field count", bytes.fromhex("83"))
    yield sheet_vector("1: the end after policy 4", sheet_of(3, 4))
    yield sheet_vector("1: the end within the policy, which is above 4", bytes.fromhex("0385"))
    # 2: a second byte 0 or above 127, at each place
    for place in range(10):
        for second, name in ((0, "0"), (128, "128")):
            if second and place % 3:
                continue
            parts = [number_bytes(x) for x in PAPER]
            parts[place] = bytes([PAPER[place] + 128, second])
            yield sheet_vector(f"2: number {place + 1} with second byte {name}", b"".join(parts))
    # 3: field count
    for fields in (0, 2, 4, 5, 131, 259):
        yield sheet_vector(f"3: field count {fields}", sheet_of(fields, *PAPER[1:]))
    # 4: policy
    for policy in (5, 6, 127, 128, 132, 255, 256, 257, 260):
        yield sheet_vector(f"4: policy {policy}", sheet_of(3, policy, *PAPER[2:]))
    # 5: m
    for m in (0, 9, 129, 255, 256, 257):
        yield sheet_vector(f"5: m {m}", sheet_of(3, 0, m, *PAPER[3:]))
    # 6: n
    for n in (0, 9, 130, 255, 256, 257, 258):
        yield sheet_vector(f"6: n {n}", sheet_of(3, 0, 1, n, *PAPER[4:]))
    # 7: a task
    for task in (
        (0, 1, 1),
        (0, 0, 0),
        (2, 1, 2),
        (1, 2, 1),
        (3, 2, 1),
        (1, 1, 201),
        (201, 201, 201),
        (200, 201, 200),
        (201, 200, 200),
        (257, 2, 2),
        (1, 258, 2),
        (1, 2, 258),
        (257, 257, 257),
        (256, 256, 256),
        (1, 1, 255),
        (1, 1, 16383),
        (129, 130, 131 + 128),
    ):
        yield sheet_vector(f"7: task 1 {task}", sheet_of(3, 1, 1, 1, *task))
    yield sheet_vector("7: task 2 of 3", sheet_of(3, 1, 1, 3, 1, 1, 1, 1, 2, 201, 1, 1, 1))
    yield sheet_vector("7: task 8 of 8", sheet_of(3, 1, 1, 8, *[1] * 21, 2, 1, 1))
    # 8: bytes after the last task
    yield sheet_vector("8: a byte 0 more", PAPER + b"\x00")
    yield sheet_vector("8: a byte 80 more, no whole number", PAPER + b"\x80")
    yield sheet_vector("8: a task more", sheet_of(3, 1, 1, 1, 1, 2, 2, 1, 2, 2))
    yield sheet_vector("8: the longest sheet and a byte, 53 bytes", LONGEST + b"\x01")
    yield sheet_vector("8: 300 bytes more", PAPER + b"\xff" * 300)
    # several faults at once: the order
    yield sheet_vector("order: every number wrong", sheet_of(4, 5, 0, 0, 0, 0, 0))
    yield sheet_vector("order: field count 4 and the end", sheet_of(4))
    yield sheet_vector("order: field count not whole, 84 00", bytes.fromhex("840004"))
    yield sheet_vector("order: policy, m and n wrong", sheet_of(3, 5, 0, 0, 0, 0, 0))
    yield sheet_vector("order: policy 5 and the end", sheet_of(3, 5))
    yield sheet_vector("order: policy second byte 0, and above 4", bytes.fromhex("0385000000"))
    yield sheet_vector("order: m and n wrong", sheet_of(3, 3, 9, 9, 0, 0, 0))
    yield sheet_vector("order: policy 4, m and n wrong", sheet_of(3, 4, 0, 0, 0, 0, 0))
    yield sheet_vector("order: m 0 and the end", sheet_of(3, 3, 0))
    yield sheet_vector("order: n 0 and the end", sheet_of(3, 3, 1, 0))
    yield sheet_vector("order: n 0 and bytes more", sheet_of(3, 3, 1, 0, 1, 1, 1))
    yield sheet_vector("order: n 9 and the end", sheet_of(3, 3, 1, 9))
    yield sheet_vector("order: the end after C 201", sheet_of(3, 1, 1, 1, 201))
    yield sheet_vector("order: the end after C 0 and D 0", sheet_of(3, 1, 1, 1, 0, 0))
    yield sheet_vector("order: C 0, then D with second byte 0", sheet_of(3, 1, 1, 1, 0) + b"\x81\x00\x01")
    yield sheet_vector("order: C above D, then the end within P", sheet_of(3, 1, 1, 1, 2, 1) + b"\x81")
    yield sheet_vector("order: task 1 wrong, the end", sheet_of(3, 1, 1, 2, 0, 1, 1))
    yield sheet_vector("order: task 1 wrong, then a second byte 0", sheet_of(3, 1, 1, 2, 2, 1, 1) + b"\x81\x00")
    yield sheet_vector("order: task 1 wrong, then the end within C", sheet_of(3, 1, 1, 2, 1, 2, 1) + b"\x81")
    yield sheet_vector("order: task 1 wrong, bytes more", sheet_of(3, 1, 1, 1, 1, 2, 201, 1))
    yield sheet_vector("order: task 2 wrong, bytes more", sheet_of(3, 1, 1, 2, 1, 1, 1, 0, 1, 1, 1))
    yield sheet_vector("order: 255 bytes FF", b"\xff" * 255)
    yield sheet_vector("order: 255 bytes 0", b"\x00" * 255)


def changed(table: Table, **parts) -> Table:
    """A table with some parts others."""
    return table._replace(**parts)


def entry(values: tuple[int, ...], place: int, value: int) -> tuple[int, ...]:
    """Eight values with one of them another."""
    return (*values[:place], value, *values[place + 1 :])


def table_vectors() -> Iterator[Vector]:
    two = table_of(1, 1, TWO)
    full = table_of(3, 8, [(200, 200, 200)] * 8)
    yield table_vector("two tasks", two)
    yield table_vector("every number at its greatest", full)
    yield table_vector("every number at its least", table_of(0, 1, [(1, 1, 1)]))
    for policy in (2, 3, 4, 5, 6, 132, 255):
        yield table_vector(f"policy {policy}", changed(two, policy=policy))
    for m in (0, 8, 9, 255):
        yield table_vector(f"m {m}", changed(two, m=m))
    for n in (0, 9, 255):
        yield table_vector(f"n {n}", changed(two, n=n))
    yield table_vector("n 1 before two tasks", changed(two, n=1))
    yield table_vector("n 3 before two tasks", changed(two, n=3))
    for task in ((0, 1, 1), (2, 1, 2), (1, 2, 1), (1, 1, 201), (201, 201, 201), (1, 1, 255), (255, 255, 255)):
        yield table_vector(f"task 1 {task}", table_of(1, 1, [task, (1, 1, 1)]))
    yield table_vector("task 2 wrong", table_of(1, 1, [(1, 1, 1), (2, 1, 1)]))
    yield table_vector("task 8 of 8 wrong", changed(full, C=entry(full.C, 7, 0)))
    yield table_vector("entry 3 of 2: C 1", changed(two, C=entry(two.C, 2, 1)))
    yield table_vector("entry 3 of 2: D 1", changed(two, D=entry(two.D, 2, 1)))
    yield table_vector("entry 3 of 2: P 1", changed(two, P=entry(two.P, 2, 1)))
    yield table_vector("entry 8 of 2: P 255", changed(two, P=entry(two.P, 7, 255)))
    yield table_vector("order: all wrong", Table(5, 0, 0, (1,) * 8, (0,) * 8, (0,) * 8))
    yield table_vector("order: all wrong but policy 4", Table(4, 0, 0, (1,) * 8, (0,) * 8, (0,) * 8))
    yield table_vector("order: m, n and tasks wrong", Table(3, 9, 9, (1,) * 8, (0,) * 8, (0,) * 8))
    yield table_vector("order: n and tasks wrong", Table(3, 8, 9, (1,) * 8, (0,) * 8, (0,) * 8))
    yield table_vector("order: n 0 and no tasks", Table(0, 1, 0, (0,) * 8, (0,) * 8, (0,) * 8))


def refused_tables() -> tuple[tuple[str, Table], ...]:
    """Tables with each of 4 to 7, made of one with two tasks."""
    two = table_of(0, 1, TWO)
    return (
        ("policy 5", changed(two, policy=5)),
        ("m 0", changed(two, m=0)),
        ("m 9", changed(two, m=9)),
        ("n 0", changed(two, n=0)),
        ("n 9", changed(two, n=9)),
        ("C above D", changed(two, C=entry(two.C, 1, 3))),
        ("an entry after the nth", changed(two, P=entry(two.P, 7, 1))),
        ("all wrong", Table(5, 0, 0, (1,) * 8, (0,) * 8, (0,) * 8)),
    )


def write_vectors() -> Iterator[Vector]:
    two = table_of(0, 1, [(1, 1, 2), (2, 4, 4)])
    for length in (0, 1, 9, 10, 11, 64, 255):
        yield write_vector(f"the paper's table into {length} bytes", two, length)
    longest = table_of(3, 8, [(200, 200, 200)] * 8)
    for length in (51, 52, 53):
        yield write_vector(f"the longest sheet into {length} bytes", longest, length)
    short = table_of(0, 1, [(1, 1, 1)])
    for length in (6, 7, 8):
        yield write_vector(f"the shortest sheet into {length} bytes", short, length)
    yield write_vector("numbers around 128 into 16 bytes", table_of(2, 8, [(126, 127, 128), (129, 130, 200)]), 16)
    yield write_vector("n 8, all different, into 64 bytes", table_of(2, 3, [(i, 20 * i, 25 * i) for i in range(1, 9)]), 64)
    for length in (9, 10, 11):
        yield write_vector(f"policy 4 into {length} bytes", changed(two, policy=4), length)
    for length in (0, 20):
        yield write_vector(f"policy 5 into {length} bytes", changed(two, policy=5), length)
        yield write_vector(f"m 0 into {length} bytes", changed(two, m=0), length)
        yield write_vector(f"n 9 into {length} bytes", changed(two, n=9), length)
        yield write_vector(f"C above D into {length} bytes", changed(two, C=entry(two.C, 0, 2)), length)
        yield write_vector(f"an entry after the nth into {length} bytes", changed(two, D=entry(two.D, 2, 1)), length)


def round_vectors() -> Iterator[Vector]:
    yield round_vector("the paper's sheet", PAPER)
    yield round_vector("the longest sheet", LONGEST)
    yield round_vector("the shortest sheet", sheet_of(3, 0, 1, 1, 1, 1, 1))
    yield round_vector("n 8, all different", sheet_bytes(table_of(2, 3, [(i, 20 * i, 25 * i) for i in range(1, 9)])))
    yield round_vector("numbers around 128", sheet_of(3, 3, 8, 2, 126, 127, 128, 129, 130, 200))
    yield round_vector("policy 4", sheet_of(3, 4, *PAPER[2:]))
    yield round_vector("policy 5", sheet_of(3, 5, *PAPER[2:]))
    yield round_vector("a byte more", PAPER + b"\x00")
    yield round_vector("a byte less", PAPER[:-1])
    yield round_vector("a number in two bytes that one holds", bytes.fromhex("0300010281000102020404"))
    yield round_vector("P 201", sheet_of(3, 0, 1, 1, 1, 1, 201))


# ----------------------------------------------------------------------
# Ticks and replays


SEEDS = (0, 1, 2, 7, 255, 256, 1000, 13849, 25173, 32767, 32768, 40000, 65534, 65535)


def refused_practices() -> Iterator[tuple[str, Practice]]:
    """Policy, m and n at their limits and outside them: 4 before 5 before 6."""
    for policy, m, n in product((0, 4, 5, 255), (0, 1, 8, 9, 255), (0, 1, 8, 9, 255)):
        given = Practice(policy, m, n, 1000)
        if ref.head_fault(policy, m, n):
            yield f"policy {policy}, m {m}, n {n}", given


def practice_vectors() -> Iterator[Vector]:
    for place, s in enumerate(SEEDS):
        for n in range(1, 9):
            policy, m = (place + n) % 5, 1 + (place + 3 * n) % 8
            yield practice_vector(f"policy {policy}, m {m}, n {n}, s {s}", Practice(policy, m, n, s))
    for s in range(0, 65536, 4099):
        yield practice_vector(f"eight tasks, s {s}", Practice(3, 2, 8, s))
    for label, given in refused_practices():
        yield practice_vector(label, given)


def made_vectors() -> Iterator[Vector]:
    for policy, name in enumerate(NAMES):
        for place, s in enumerate(SEEDS):
            m, n = 1 + (place + policy) % 8, 1 + (3 * place + policy) % 8
            yield made_vector(f"{name}, m {m}, n {n}, s {s}", Practice(policy, m, n, s), 64)
    for n, s in ((1, 0), (3, 7), (8, 65535)):
        given = Practice(1, 2, n, s)
        length = len(sheet_bytes(ref.practice(*given)))
        for space in (0, 1, length - 1, length, length + 1, 52, 255):
            yield made_vector(f"n {n}, s {s}, a space of {space} bytes", given, space)
    # 4, 5 and 6 come before 12, and leave every byte
    for label, given in refused_practices():
        for space in (0, 64):
            yield made_vector(f"{label}, a space of {space} bytes", given, space)


class Dice:
    """Numbers that look random and are the same on every machine (a linear congruence)."""

    def __init__(self, seed: int) -> None:
        self.seed = seed

    def below(self, limit: int) -> int:
        self.seed = (self.seed * 6364136223846793005 + 1442695040888963407) % 2**64
        return (self.seed >> 33) % limit

    def between(self, least: int, most: int) -> int:
        return least + self.below(most - least + 1)

    def table(self, greatest_gap: int) -> Table:
        tasks = []
        load = self.between(1, 4)  # the greater, the less work
        for _ in range(self.between(1, 8)):
            P = self.between(1, greatest_gap)
            D = self.between(1, P)
            tasks.append((self.between(1, (D + load - 1) // load), D, P))
        return table_of(self.below(len(ref.POLICIES)), self.between(1, 4), tasks)

    def proper_state(self, table: Table) -> State:
        """A proper state, reached or not; the start state if none was found."""
        for _ in range(1000):
            c, p = [0] * 8, [0] * 8
            for i in range(table.n):
                p[i] = self.below(table.P[i] + 1) if self.below(3) else 0
                most = table.D[i] - table.P[i] + p[i]  # the slack of c is most - c
                if most > 0 and self.below(3):
                    c[i] = self.between(1, min(most, table.C[i]))
            state = State(tuple(c), tuple(p))
            if ref.is_proper(table, state):
                return state
        return START

    def tied_jobs(self) -> tuple[Table, State]:
        """A table and a proper state in which all jobs have the same d, or the same slack, and few ages."""
        while True:
            by_slack, level, tasks, jobs = self.below(2), self.between(2, 9), [], []
            for _ in range(self.between(2, 8)):
                age, c = self.below(4), self.between(1, level)
                D = level + age + c * by_slack
                P = self.between(D, D + 5)
                tasks.append((self.between(c, min(c + 1, D)), D, P))
                jobs.append((c, P - age))
            table = table_of(self.below(len(ref.POLICIES)), self.between(1, 4), tasks)
            if ref.is_proper(table, state_of(*jobs)):
                return table, state_of(*jobs)

    def legal_mask(self, table: Table, state: State) -> int:
        mask = 0
        for i in range(table.n):
            if state.p[i] == 0 and self.below(3):
                mask |= 1 << i
        return mask


def state_of(*tasks: tuple[int, int]) -> State:
    """A state from (c, p) of its tasks."""
    rows = list(tasks) + [(0, 0)] * (8 - len(tasks))
    return State(tuple(c for c, _ in rows), tuple(p for _, p in rows))


NAMES = ("NP-GFP", "P-GFP", "NP-EDF", "P-EDF", "P-LST")


def choice_vectors(policy: int, name: str) -> Iterator[Vector]:
    """The choice alone: ticks that release nothing."""
    one, two = table_of(policy, 1, [(3, 9, 9)] * 4), table_of(policy, 2, [(3, 9, 9)] * 4)
    yield tick_vector(f"{name}: nothing ready", two, state_of((0, 5), (0, 0)), 0)
    yield tick_vector(f"{name}: four unstarted, two cores", two, state_of(*[(3, 9)] * 4), 0)
    yield tick_vector(f"{name}: the last one started, two cores", two, state_of(*[(3, 9)] * 3, (2, 9)), 0)
    yield tick_vector(f"{name}: the last two started, two cores", two, state_of(*[(3, 9)] * 2, (2, 9), (1, 9)), 0)
    yield tick_vector(f"{name}: the last one started, one core", one, state_of(*[(3, 9)] * 3, (2, 9)), 0)
    yield tick_vector(f"{name}: all four started, one core", one, state_of(*[(2, 9)] * 4), 0)
    spread = table_of(policy, 1, [(1, 100, 100), (1, 50, 50), (1, 50, 100), (1, 50, 200), (1, 200, 200)])
    yield tick_vector(f"{name}: d 100 and 200", spread, state_of((1, 100), (0, 0), (0, 0), (0, 0), (1, 200)), 0)
    yield tick_vector(f"{name}: d 100 and 50", spread, state_of((1, 100), (1, 50)), 0)
    yield tick_vector(f"{name}: d 1 and 200", spread, state_of((0, 0), (0, 0), (0, 0), (1, 151), (1, 200)), 0)
    yield tick_vector(f"{name}: d 100 and 99", spread, state_of((1, 100), (0, 0), (0, 0), (0, 0), (1, 99)), 0)
    yield tick_vector(f"{name}: d 50 three times", spread, state_of((0, 0), (1, 50), (1, 100), (1, 200)), 0)


def slack_vectors(policy: int, name: str) -> Iterator[Vector]:
    """The choice where least slack and the other orders part, and where slacks are equal."""
    two = table_of(policy, 1, [(5, 9, 9), (5, 9, 9)])
    for label, first, second in (
        ("slack 2 with d 3, slack 1 with d 6", (1, 3), (5, 6)),
        ("slack 1 with d 6, slack 2 with d 3", (5, 6), (1, 3)),
        ("slack 3 twice, d 8 and 4", (5, 8), (1, 4)),
        ("slack 3 twice, d 4 and 8", (1, 4), (5, 8)),
        ("slack 0 twice", (2, 2), (1, 1)),
        ("slack 1 and 0, d equal", (2, 3), (3, 3)),
        ("slack 0 and 1, d equal", (3, 3), (2, 3)),
    ):
        yield tick_vector(f"{name}: {label}", two, state_of(first, second), 0)
    five = table_of(policy, 2, [(4, 9, 9)] * 5)
    ties = state_of((4, 9), (2, 7), (1, 6), (3, 5), (2, 4))
    yield tick_vector(f"{name}: slacks 5, 5, 5, 2, 2, two cores", five, ties, 0)
    yield tick_vector(f"{name}: slacks 5, 5, 5, 2, 2, three cores", changed(five, m=3), ties, 0)
    yield tick_vector(f"{name}: slacks 5, 5, 5, 2, 2, four cores", changed(five, m=4), ties, 0)
    # a job that is released now, beside one that waits: the slack is that after the release
    fresh = table_of(policy, 1, [(2, 6, 9), (4, 9, 12)])
    for p, label in ((12, "more than"), (11, "equal to"), (10, "less than")):
        yield tick_vector(f"{name}: the slack of a waiting job {label} a new one's", fresh, state_of((0, 0), (4, p)), 1)
    late = table_of(policy, 1, [(4, 9, 12), (2, 6, 9)])
    for p, label in ((12, "more than"), (11, "equal to"), (10, "less than")):
        yield tick_vector(f"{name}: the slack of a lower number {label} a new one's", late, state_of((4, p), (0, 0)), 2)
    # slacks that a signed byte does not hold
    wide = table_of(policy, 1, [(1, 200, 200), (72, 200, 200), (73, 200, 200), (199, 200, 200)])
    for mask in (3, 5, 6, 9, 15):
        yield tick_vector(f"{name}: slacks 199, 128, 127, 1, mask {mask}", wide, START, mask)
    # more jobs with slack 0 than cores: those that wait are late
    tight = table_of(policy, 2, [(3, 5, 5), (2, 2, 4), (1, 1, 3), (2, 6, 6)])
    none_left = state_of((3, 3), (2, 4), (1, 3), (1, 6))
    yield tick_vector(f"{name}: three of slack 0, two cores", tight, none_left, 0)
    yield tick_vector(f"{name}: three of slack 0, three cores", changed(tight, m=3), none_left, 0)
    yield tick_vector(f"{name}: three of slack 0, one core", changed(tight, m=1), none_left, 0)


def age_vectors(policy: int, name: str) -> Iterator[Vector]:
    """Document 02, §4: the choice where d, or the slack, is equal, by the greater P - p and then by task number."""
    for label, tasks, jobs in (
        ("d 7 and slack 4 twice, the second older", [(3, 7, 12), (3, 9, 9)], [(3, 12), (3, 7)]),
        ("d 7 and slack 4 twice, the first older", [(3, 9, 9), (3, 7, 12)], [(3, 7), (3, 12)]),
        ("d 7 and slack 4 twice, of one age", [(3, 9, 12), (3, 9, 9)], [(3, 10), (3, 7)]),
        ("d 7 twice, the older with more slack", [(4, 7, 12), (3, 9, 9)], [(4, 12), (3, 7)]),
        ("d 7 twice, the newer started", [(4, 7, 12), (3, 9, 9)], [(3, 12), (3, 7)]),
        ("slack 4 twice, the older with more time left", [(2, 6, 9), (4, 9, 12)], [(2, 9), (4, 11)]),
        ("slack 4 twice, the older with less time left", [(4, 8, 12), (2, 9, 9)], [(4, 12), (2, 6)]),
        ("slack 4 twice, of one age", [(4, 8, 12), (2, 6, 9)], [(4, 12), (2, 9)]),
        ("d 5 twice, the older with more p", [(1, 6, 10), (1, 7, 200)], [(1, 9), (1, 198)]),
        ("d 5 twice, the older with less p", [(1, 7, 200), (1, 10, 10)], [(1, 198), (1, 5)]),
        ("d 1 twice, ages 0 and 199", [(1, 1, 1), (1, 200, 200)], [(1, 1), (1, 1)]),
        ("d 2 twice, ages 127 and 128", [(1, 129, 200), (1, 130, 200)], [(1, 73), (1, 72)]),
        ("d 3 with age 197, d 2 with age 0", [(1, 200, 200), (1, 2, 200)], [(1, 3), (1, 200)]),
        ("d 2 with age 0, d 3 with age 197", [(1, 2, 200), (1, 200, 200)], [(1, 200), (1, 3)]),
    ):
        yield tick_vector(f"{name}: {label}", table_of(policy, 1, tasks), state_of(*jobs), 0)
    for label, tasks, jobs, cores in (
        ("d 6 and slack 4", [(2, 7, 7), (2, 9, 9), (2, 6, 6), (2, 9, 12), (2, 8, 8)], [(2, 6), (2, 6), (2, 6), (2, 9), (2, 6)], 4),
        ("slack 4", [(3, 8, 8), (1, 8, 8), (4, 8, 8), (2, 9, 9), (1, 7, 7)], [(3, 7), (1, 5), (4, 8), (2, 6), (1, 5)], 4),
        ("d 6, the third started", [(2, 7, 7), (2, 9, 9), (3, 6, 6), (2, 9, 12), (2, 8, 8)], [(2, 6), (2, 6), (2, 6), (2, 9), (2, 6)], 3),
    ):
        for m in range(1, cores + 1):
            yield tick_vector(f"{name}: {label}, ages 1, 3, 0, 3, 2, m {m}", table_of(policy, m, tasks), state_of(*jobs), 0)
    for label, ages in (("0 to 7", range(8)), ("7 to 0", range(7, -1, -1))):
        eight = table_of(policy, 3, [(1, 4 + age, 20) for age in ages])
        yield tick_vector(f"{name}: d 4 eight times, ages {label}", eight, state_of(*[(1, 20 - age) for age in ages]), 0)


def turn_vectors(policy: int, name: str) -> Iterator[Vector]:
    """Ticks one after the other: the slack of a job that waits falls until it has another's processor."""
    for label, table, mask in (
        ("three jobs, one core", table_of(policy, 1, [(3, 9, 9), (2, 7, 7), (2, 7, 7)]), 7),
        ("four jobs, two cores", table_of(policy, 2, [(2, 8, 8), (4, 9, 9), (3, 7, 7), (2, 6, 6)]), 15),
    ):
        state = START
        for number in range(1, 7):
            yield tick_vector(f"{name}: {label}, tick {number}", table, state, mask)
            (missed, state), mask = ref.tick(table, state, mask), 0
            assert not missed


def tick_vectors() -> Iterator[Vector]:
    for policy, name in enumerate(NAMES):
        yield from choice_vectors(policy, name)
        yield from slack_vectors(policy, name)
        yield from age_vectors(policy, name)
        yield from turn_vectors(policy, name)
        table = table_of(policy, 1, TWO)
        yield tick_vector(f"{name}: nothing to do", table, START, 0)
        yield tick_vector(f"{name}: C = D = P = 1 released", table_of(policy, 1, [(1, 1, 1)]), START, 1)
        yield tick_vector(f"{name}: C = D = P = 200 released", table_of(policy, 1, [(200, 200, 200)]), START, 1)
        yield tick_vector(f"{name}: two jobs, one core", table, START, 3)
        yield tick_vector(f"{name}: C = D, the second has no core", table_of(policy, 1, [(2, 2, 2), (2, 2, 3)]), START, 3)
        yield tick_vector(f"{name}: slack 0 runs on", table_of(policy, 1, [(3, 5, 9)]), state_of((2, 6)), 0)
        yield tick_vector(f"{name}: p alone falls", table_of(policy, 2, [(3, 5, 9), (1, 2, 4)]), state_of((0, 6), (0, 1)), 0)
        yield tick_vector(f"{name}: a gap that has passed", table_of(policy, 2, [(3, 5, 9), (1, 2, 4)]), state_of((0, 0), (0, 4)), 1)
        # a started long job, and an urgent one released: under NP it waits and misses
        urgent = table_of(policy, 1, [(1, 1, 2), (4, 9, 9)])
        yield tick_vector(f"{name}: an urgent job beside a started one", urgent, state_of((0, 0), (3, 8)), 1)
        unstarted = table_of(policy, 1, [(1, 2, 2), (4, 9, 9)])
        yield tick_vector(f"{name}: an urgent job beside an unstarted one", unstarted, state_of((0, 0), (4, 7)), 1)
        # the order: by number, or by deadline, then by age and by number
        late_first = table_of(policy, 1, [(2, 9, 9), (2, 5, 5)])
        yield tick_vector(f"{name}: the second has the earlier deadline", late_first, START, 3)
        tie = table_of(policy, 1, [(2, 5, 9), (2, 5, 7), (2, 5, 8)])
        yield tick_vector(f"{name}: equal deadlines, three jobs", tie, START, 7)
        yield tick_vector(f"{name}: equal deadlines, without the first", tie, START, 6)
        aged = table_of(policy, 1, [(3, 9, 9), (3, 7, 12)])
        yield tick_vector(f"{name}: d equal after waiting", aged, state_of((3, 7), (0, 0)), 2)
        younger = table_of(policy, 1, [(3, 7, 12), (3, 9, 9)])
        yield tick_vector(f"{name}: d equal, the first released later", younger, state_of((0, 0), (3, 7)), 1)
        yield tick_vector(f"{name}: d one more than the other's", aged, state_of((3, 8), (0, 0)), 2)
        yield tick_vector(f"{name}: d one less than the other's", aged, state_of((3, 6), (3, 12)), 0)
        # a finished job whose d is negative takes no part
        done = table_of(policy, 1, [(1, 2, 20), (2, 6, 6)])
        yield tick_vector(f"{name}: a finished job with d below 0", done, state_of((0, 3), (0, 0)), 2)
        far = table_of(policy, 1, [(1, 200, 200), (1, 5, 5)])
        yield tick_vector(f"{name}: d 200 beside d 5", far, START, 3)
        # many cores
        eight = table_of(policy, 8, [(i, 34 - 2 * i, 42 - i) for i in range(1, 9)])
        yield tick_vector(f"{name}: eight jobs, eight cores", eight, START, 255)
        yield tick_vector(f"{name}: eight jobs, three cores", changed(eight, m=3), START, 255)
        yield tick_vector(f"{name}: eight jobs with C = D = 1, one core", table_of(policy, 1, [(1, 1, 5)] * 8), START, 255)
        yield tick_vector(f"{name}: more cores than tasks", table_of(policy, 8, [(2, 2, 2), (3, 3, 3)]), START, 3)
        # started jobs at the bound and beyond it
        three = table_of(policy, 2, [(2, 9, 9), (4, 9, 9), (4, 9, 9)])
        yield tick_vector(f"{name}: two started on two cores, one waits", three, state_of((2, 9), (3, 8), (3, 8)), 0)
        yield tick_vector(f"{name}: one started, two wait, two cores", three, state_of((2, 9), (4, 8), (3, 8)), 0)
        yield tick_vector(f"{name}: three started on two cores", three, state_of((1, 8), (3, 8), (3, 8)), 0)
        # a state that is not proper, by each cause
        yield tick_vector(f"{name}: c above C", three, state_of((3, 9)), 0)
        yield tick_vector(f"{name}: p above P", three, state_of((0, 10)), 0)
        yield tick_vector(f"{name}: slack -1", three, state_of((2, 1)), 0)
        yield tick_vector(f"{name}: d 0", three, state_of((1, 0)), 0)
        yield tick_vector(f"{name}: d below 0", done, state_of((1, 0)), 0)
        yield tick_vector(f"{name}: d below -127", table_of(policy, 1, [(1, 1, 200)]), state_of((1, 0)), 0)
        yield tick_vector(f"{name}: c after the nth", three, state_of((0, 0), (0, 0), (0, 0), (1, 0)), 0)
        yield tick_vector(f"{name}: p after the nth", three, state_of(*[(0, 0)] * 7, (0, 1)), 0)
        # masks
        yield tick_vector(f"{name}: a bit for no task", three, START, 8)
        yield tick_vector(f"{name}: the highest bit, n 7", table_of(policy, 2, [(1, 9, 9)] * 7), START, 128)
        yield tick_vector(f"{name}: a bit with p 1", three, state_of((0, 0), (0, 1)), 2)
        yield tick_vector(f"{name}: one bit of three with p above 0", three, state_of((0, 0), (0, 0), (1, 9)), 7)
    yield tick_vector("c 255", table_of(1, 1, TWO), state_of((255, 2)), 0)
    yield tick_vector("p 255, and c within the time left", table_of(1, 1, TWO), state_of((1, 255)), 0)
    # the order of refusals
    bad_state, bad_mask = state_of((9, 9)), 128
    table = table_of(0, 1, TWO)
    for policy, m, n in ((5, 0, 0), (4, 0, 0), (0, 0, 0), (0, 1, 0), (4, 1, 0), (0, 1, 3)):
        wrong = changed(table, policy=policy, m=m, n=n)
        yield tick_vector(f"order: policy {policy}, m {m}, n {n}, state and mask wrong", wrong, bad_state, bad_mask)
    yield tick_vector("order: an entry after the nth, state and mask wrong", changed(table, P=entry(table.P, 7, 1)), bad_state, bad_mask)
    yield tick_vector("order: state and mask wrong", table, bad_state, bad_mask)
    yield tick_vector("order: mask wrong", table, START, bad_mask)
    # drawn ones
    dice = Dice(1)
    for number in range(75):
        table = dice.table((4, 12, 200)[number % 3])
        state = dice.proper_state(table)
        mask = dice.below(256) if number % 10 == 9 else dice.legal_mask(table, state)
        if number % 12 == 11:
            place = dice.below(8)
            state = changed(state, c=entry(state.c, place, dice.below(256)))
        yield tick_vector(f"drawn {number + 1}", table, state, mask)
    for number in range(40):
        yield tick_vector(f"drawn {number + 1} of equal jobs", *dice.tied_jobs(), 0)


def drawn_masks(dice: Dice, table: Table, length: int, state: State = START) -> bytes:
    """Masks that are legal one after the other, up to a miss, with a stray one now and then."""
    masks = []
    for _ in range(length):
        mask = dice.below(256) if dice.below(40) == 0 else dice.legal_mask(table, state)
        masks.append(mask)
        if not ref.is_legal(table, state, mask):
            break
        missed, state = ref.tick(table, state, mask)
        if missed:
            break
    return bytes(masks)


# Tables that tell least slack from earliest deadline: the cores, the tasks, and how policies 3 and 4 answer.
PARTED = [
    (2, [(1, 2, 2), (1, 1, 2), (2, 2, 2)], "unsafe 1 1", "safe 9"),
    (3, [(1, 2, 2), (2, 2, 2), (1, 1, 2), (1, 1, 1)], "unsafe 1 1", "safe 10"),
    (2, [(2, 3, 3), (1, 1, 3), (1, 2, 2), (1, 1, 2)], "unsafe 3 41", "safe 44"),
    (2, [(1, 2, 3), (2, 3, 3), (3, 5, 6), (1, 2, 3)], "safe 231", "unsafe 5 173"),
    (2, [(2, 3, 4), (1, 2, 2), (1, 1, 2), (3, 6, 7)], "safe 202", "unsafe 7 190"),
    (3, [(1, 2, 3), (2, 3, 3), (3, 5, 6), (1, 2, 3), (1, 1, 1)], "safe 299", "unsafe 5 232"),
    (2, [(2, 3, 3), (1, 2, 2), (1, 1, 2)], "safe 14", "safe 12"),
    (2, [(2, 3, 3), (1, 2, 3), (3, 4, 4)], "safe 44", "safe 46"),
    (2, [(2, 3, 4), (1, 2, 2), (2, 4, 4), (1, 1, 2)], "safe 102", "safe 100"),
    (2, [(2, 4, 4), (2, 4, 4), (2, 4, 4), (2, 3, 4)], "safe 256", "safe 375"),
    (2, [(1, 2, 2), (2, 2, 2), (1, 1, 1)], "unsafe 1 1", "unsafe 2 5"),
    (2, [(1, 2, 3), (2, 3, 3), (1, 2, 3), (3, 5, 5)], "unsafe 8 212", "unsafe 5 173"),
    (2, [(2, 3, 3), (2, 4, 4), (1, 1, 1)], "unsafe 8 31", "unsafe 8 30"),
    (1, [(1, 3, 3), (3, 4, 4)], "unsafe 12 21", "unsafe 12 21"),
    (1, [(3, 7, 7), (2, 5, 5)], "safe 35", "safe 35"),
]


# Tables that tell the age from the task number among equal jobs: the policy, the cores, the tasks, how they are answered where
# the number alone settles equal d, or equal slack, as in 01, and how by the age first, as document 02, §4 has it.
AGED = [
    (2, 2, [(2, 2, 2), (2, 2, 3), (1, 3, 3)], "safe 22", "unsafe 3 21"),
    (2, 2, [(1, 1, 2), (1, 2, 2), (1, 2, 3), (2, 3, 3)], "unsafe 5 50", "safe 56"),
    (2, 1, [(2, 2, 2), (1, 4, 4)], "unsafe 4 12", "unsafe 3 8"),
    (2, 1, [(1, 2, 2), (2, 3, 3)], "unsafe 5 9", "unsafe 6 10"),
    (2, 2, [(1, 1, 1), (1, 2, 2), (1, 2, 2), (1, 3, 3)], "unsafe 4 26", "unsafe 4 25"),
    (2, 2, [(1, 1, 1), (2, 3, 3), (1, 4, 4), (1, 3, 3)], "unsafe 6 89", "unsafe 6 91"),
    (2, 2, [(2, 3, 3), (3, 4, 4), (2, 5, 5)], "safe 94", "safe 82"),
    (2, 2, [(2, 4, 4), (3, 5, 5), (4, 6, 6)], "safe 201", "safe 205"),
    (2, 1, [(2, 3, 3), (2, 4, 5)], "unsafe 8 23", "unsafe 8 23"),
    (3, 2, [(1, 2, 2), (2, 2, 2), (2, 4, 4)], "safe 22", "unsafe 3 15"),
    (3, 2, [(1, 2, 2), (1, 2, 2), (3, 4, 4)], "unsafe 3 13", "safe 22"),
    (3, 2, [(2, 2, 5), (2, 3, 3), (2, 4, 4), (1, 2, 3)], "safe 240", "unsafe 3 81"),
    (3, 3, [(1, 2, 3), (2, 3, 3), (3, 5, 6), (1, 2, 3), (1, 1, 1)], "unsafe 5 229", "safe 299"),
    (3, 1, [(2, 2, 2), (1, 4, 4)], "unsafe 4 12", "unsafe 3 8"),
    (3, 1, [(1, 2, 2), (2, 3, 3)], "unsafe 5 9", "unsafe 6 10"),
    (3, 2, [(3, 3, 4), (1, 3, 4), (5, 6, 6)], "unsafe 9 128", "unsafe 9 127"),
    (3, 2, [(1, 1, 1), (2, 3, 3), (2, 4, 4)], "unsafe 8 30", "unsafe 8 31"),
    (3, 2, [(1, 2, 2), (1, 3, 3), (3, 4, 4)], "safe 29", "safe 28"),
    (3, 2, [(1, 2, 2), (2, 3, 3), (2, 4, 4)], "safe 31", "safe 32"),
    (3, 2, [(2, 3, 3), (1, 2, 3), (3, 4, 4)], "safe 44", "safe 44"),
    (4, 2, [(2, 2, 3), (3, 4, 6), (2, 3, 3)], "safe 67", "unsafe 5 56"),
    (4, 2, [(1, 2, 2), (3, 3, 4), (3, 5, 5)], "unsafe 10 63", "safe 55"),
    (4, 2, [(2, 2, 3), (3, 4, 4), (2, 3, 3)], "unsafe 8 58", "unsafe 5 48"),
    (4, 2, [(1, 2, 2), (4, 4, 5), (4, 6, 6)], "unsafe 7 93", "unsafe 9 99"),
    (4, 2, [(1, 2, 3), (2, 2, 3), (3, 4, 4)], "unsafe 8 46", "unsafe 8 45"),
    (4, 2, [(1, 1, 1), (1, 2, 2), (2, 3, 3)], "unsafe 6 12", "unsafe 6 13"),
    (4, 2, [(1, 2, 2), (1, 2, 3), (3, 4, 4)], "safe 29", "safe 28"),
    (4, 2, [(2, 3, 3), (2, 3, 3), (1, 1, 3)], "safe 28", "safe 29"),
    (4, 1, [(1, 2, 2), (2, 3, 3)], "unsafe 6 10", "unsafe 6 10"),
]


@contextmanager
def by_number_alone() -> Iterator[None]:
    """Within it equal d, or equal slack, is settled by task number alone, as in 01."""
    rank = ref.rank
    ref.rank = lambda table, state, i: (rank(table, state, i)[0], i)
    ref.successors.cache_clear()
    try:
        yield
    finally:
        ref.rank = rank
        ref.successors.cache_clear()


def shortest_miss(table: Table) -> bytes:
    """A shortest list that misses, for a table that is Unsafe."""
    lists, reached = {START: b""}, [START]
    for state in reached:  # which grows meanwhile
        for mask, missed, after in ref.successors(table, state):
            if missed:
                return lists[state] + bytes([mask])
            if after not in lists:
                lists[after] = lists[state] + bytes([mask])
                reached.append(after)
    raise AssertionError(table)


class Play(NamedTuple):
    """A list of masks, and the table that it is played with."""

    label: str
    table: Table
    masks: bytes


def parted_plays() -> Iterator[Play]:
    """Lists that miss under one of earliest deadline and least slack, played under both."""
    for m, tasks, *answers in PARTED:
        tables = [table_of(policy, m, tasks) for policy in (ref.P_EDF, ref.P_LST)]
        for table, found in zip(tables, answers):
            if not found.startswith("unsafe"):
                continue
            masks = shortest_miss(table)
            played = ref.replay(table, masks)
            assert (played.answer, played.tick, len(masks)) == ("missed", *[int(found.split()[1])] * 2)
            for other in tables:
                label = f"{tasks} on {m}, a list that misses under {NAMES[table.policy]}"
                yield Play(f"{NAMES[other.policy]}: {label}", other, masks)


def aged_plays() -> Iterator[Play]:
    """Lists that miss in one order of equal jobs; of those that another order answers with another kind, under each policy."""
    for policy, m, tasks, was, now in AGED:
        table, lists = table_of(policy, m, tasks), {}
        if now.startswith("unsafe"):
            lists["by age"] = shortest_miss(table)
        if was.startswith("unsafe"):
            with by_number_alone():
                lists["by number"] = shortest_miss(table)
        turned = was.split()[0] != now.split()[0]
        for (order, masks), judge in product(lists.items(), ref.POLICIES if turned else (policy,)):
            label = f"{tasks} on {m}, a list that misses under {NAMES[policy]} {order}"
            yield Play(f"{NAMES[judge]}: {label}", changed(table, policy=judge), masks)


def replay_vectors() -> Iterator[Vector]:
    for policy, name in enumerate(NAMES):
        two = table_of(policy, 1, TWO)
        yield replay_vector(f"{name}: the empty list", two, b"")
        yield replay_vector(f"{name}: both, every second tick", two, bytes([3, 0] * 3))
        yield replay_vector(f"{name}: one at a time", two, bytes([1, 2] * 3))
        yield replay_vector(f"{name}: C = D, masks 3, 0", table_of(policy, 1, [(2, 2, 2), (1, 2, 2)]), bytes([3, 0]))
        yield replay_vector(f"{name}: after the miss nothing is read", table_of(policy, 1, [(2, 2, 2), (1, 2, 2)]), bytes([3, 0, 255, 255]))
        yield replay_vector(f"{name}: masks 2, 1, an urgent job", table_of(policy, 1, [(1, 1, 2), (2, 4, 4)]), bytes([2, 1]))
        yield replay_vector(f"{name}: a miss at the first tick", table_of(policy, 1, [(1, 1, 2), (1, 1, 2)]), bytes([3]))
        yield replay_vector(f"{name}: C = D = P = 1, released at every tick", table_of(policy, 1, [(1, 1, 1)]), bytes([1] * 5))
        yield replay_vector(f"{name}: a gap is a least gap", table_of(policy, 1, [(1, 2, 3), (2, 4, 5)]), bytes([3, 0, 0, 0, 1, 2, 0, 0, 1]))
        yield replay_vector(f"{name}: a mask too early, at tick 4", two, bytes([1, 0, 3, 1]))
        yield replay_vector(f"{name}: a bit for no task, at tick 1", two, bytes([4]))
        yield replay_vector(f"{name}: released again too early, at tick 2", table_of(policy, 1, [(1, 1, 2)]), bytes([1, 1]))
        yield replay_vector(f"{name}: eight tasks on eight cores", table_of(policy, 8, [(i, i, i + 1) for i in range(1, 9)]), bytes([255, 0, 1, 2, 5, 8, 16, 32]))
        yield replay_vector(f"{name}: D below P, waiting after the finish", table_of(policy, 1, [(1, 2, 10), (1, 3, 10)]), bytes([3] + [0] * 9 + [3]))
        yield replay_vector(f"{name}: m above n", table_of(policy, 5, [(3, 3, 3), (2, 2, 2)]), bytes([3, 0, 2, 1, 2]))
        turns = table_of(policy, 1, [(3, 9, 9), (2, 7, 7), (2, 7, 7)])
        yield replay_vector(f"{name}: three jobs whose slacks cross, three ticks", turns, bytes([7, 0, 0]))
        yield replay_vector(f"{name}: three jobs whose slacks cross, one of them twice", turns, bytes([7] + [0] * 6 + [2, 0]))
    for plays in (parted_plays, aged_plays):
        yield from (replay_vector(*play) for play in plays())
    # a tick number that one byte does not hold
    full = table_of(3, 1, [(2, 3, 3), (2, 3, 3)])
    yield replay_vector("a miss at tick 258", full, bytes(256) + b"\x03" + bytes(10))
    table = table_of(0, 1, TWO)
    for masks, name in ((b"", "the empty list"), (b"\x04", "a bit for no task")):
        yield replay_vector(f"policy 4, {name}", changed(table, policy=4), masks)
        yield replay_vector(f"policy 5, {name}", changed(table, policy=5), masks)
        yield replay_vector(f"m 9, {name}", changed(table, m=9), masks)
        yield replay_vector(f"n 0, {name}", changed(table, n=0), masks)
        yield replay_vector(f"an entry after the nth, {name}", changed(table, C=entry(table.C, 7, 1)), masks)
    dice = Dice(2)
    for number in range(15):
        table = dice.table((4, 12, 200)[number % 3])
        yield replay_vector(f"drawn {number + 1}", table, drawn_masks(dice, table, 12))


# ----------------------------------------------------------------------
# Searches

# Tables on one core whose shortest list that misses has L ticks: policy, L and the tasks.
MISSES = [
    (0, 2, [(2, 4, 5), (1, 2, 4)]),
    (0, 4, [(9, 15, 15), (4, 7, 7)]),
    (0, 6, [(4, 4, 4), (1, 6, 9)]),
    (0, 7, [(2, 3, 3), (2, 4, 4)]),
    (0, 8, [(11, 11, 11), (1, 8, 8)]),
    (0, 9, [(1, 8, 9), (9, 10, 13)]),
    (1, 3, [(1, 1, 2), (2, 3, 3)]),
    (1, 5, [(1, 2, 2), (3, 5, 5)]),
    (1, 6, [(3, 7, 10), (2, 5, 5), (2, 7, 8)]),
    (1, 8, [(1, 7, 7), (15, 16, 17)]),
    (1, 10, [(3, 5, 7), (22, 27, 30)]),
    (1, 11, [(5, 5, 7), (6, 14, 16)]),
    (1, 13, [(1, 2, 2), (7, 13, 15)]),
    (2, 2, [(2, 7, 8), (1, 1, 2)]),
    (2, 4, [(1, 3, 3), (4, 6, 9)]),
    (2, 5, [(1, 4, 4), (13, 14, 14)]),
    (2, 6, [(5, 5, 5), (1, 10, 12)]),
    (2, 7, [(1, 6, 6), (10, 14, 15)]),
    (2, 8, [(2, 3, 3), (2, 4, 5)]),
    (2, 10, [(10, 15, 15), (1, 9, 10)]),
    (3, 3, [(9, 10, 14), (1, 1, 2)]),
    (3, 6, [(4, 6, 7), (1, 2, 2)]),
    (3, 9, [(9, 14, 15), (3, 6, 6)]),
    (3, 10, [(1, 2, 3), (1, 1, 3), (4, 10, 13)]),
    (3, 12, [(4, 4, 4), (4, 15, 18)]),
    (3, 13, [(1, 1, 2), (7, 13, 16)]),
    (4, 2, [(6, 6, 11), (3, 4, 10)]),
    (4, 4, [(1, 2, 2), (9, 10, 11)]),
    (4, 5, [(1, 2, 3), (4, 5, 9)]),
    (4, 6, [(1, 2, 2), (2, 3, 3)]),
    (4, 8, [(1, 2, 3), (3, 4, 4)]),
    (4, 10, [(1, 2, 2), (3, 5, 5)]),
    (4, 12, [(1, 3, 3), (3, 4, 4)]),
    (4, 13, [(4, 6, 7), (2, 3, 5)]),
]


class Search(NamedTuple):
    """A sheet and two spaces."""

    label: str
    sheet: bytes
    work: int = WORK
    trace: int = TRACE
    fill: int = 90

    def with_slots(self, K: int) -> "Search":
        """The same with K slots, and no byte more than it takes."""
        return self._replace(label=f"{self.label}, K {K}", work=ref.SLOT * K, trace=K)

    def with_rest(self, rest: int) -> "Search":
        """The same with some bytes more of work, which make no slot, and other bytes there before."""
        return self._replace(label=f"{self.label} and {rest} bytes", work=self.work + rest, fill=(self.fill + 11 * rest) % 256)


def of_table(label: str, policy: int, m: int, tasks: list[tuple[int, int, int]]) -> Search:
    return Search(label, sheet_bytes(table_of(policy, m, tasks)), fill=(37 * policy + m) % 256)


def count_of(search: Search) -> int:
    """N of a search that is Safe or Unsafe."""
    found = ref.search_sheet(search.sheet, search.work, search.trace)
    assert found.kind in ("safe", "unsafe"), search.label
    return found.N


def benchmark_searches() -> Iterator[Search]:
    """Section "Benchmark tables", starred or not."""
    two = of_table("benchmark 1/1 (1,2,2),(1,2,2)", 1, 1, TWO)
    yield from (two, two.with_slots(3))
    urgent = Search("benchmark 0/1 (1,1,2),(2,4,4)", PAPER)
    yield from (urgent, urgent.with_slots(3))
    yield of_table("benchmark 1/1 (2,2,2),(1,2,2)", 1, 1, [(2, 2, 2), (1, 2, 2)])
    yield of_table("benchmark 1/1 (1,1,1)", 1, 1, [(1, 1, 1)])
    yield of_table("benchmark 1/1 (1,1,2),(1,1,2)", 1, 1, [(1, 1, 2)] * 2).with_slots(1)
    long_gap = of_table("benchmark 1/1 (1,1,200)", 1, 1, [(1, 1, 200)])
    yield from (long_gap, long_gap.with_slots(200), long_gap.with_slots(199))
    yield Search("benchmark: field count 4", sheet_of(4, *PAPER[1:]))
    yield Search("benchmark: C 201", sheet_of(3, 1, 1, 1, 201, 201, 201))
    yield Search("benchmark: a number 80 00", bytes.fromhex("8000"))
    yield Search("benchmark: a number 80 and the end", bytes.fromhex("80"))


def space_searches() -> Iterator[Search]:
    """The lengths of the spaces, and what they held before."""
    paper = Search("the paper's sheet", PAPER)
    two = of_table("two tasks", 1, 1, TWO)
    for work, trace in ((0, 0), (0, TRACE), (1, 1), (20, 5), (21, 0), (21, 1), (41, 1), (42, 1), (42, 2)):
        yield two._replace(label=f"two tasks, work {work}, trace {trace}", work=work, trace=trace)
    for work, trace in ((83, 3), (83, 4), (84, 3), (84, 4), (84, 5), (85, 4), (104, 4), (104, 100), (105, 4), (105, 5)):
        yield paper._replace(label=f"the paper's sheet, work {work}, trace {trace}", work=work, trace=trace)
    yield paper._replace(label="the paper's sheet, a trace one too short for K", trace=3119)
    yield paper._replace(label="the paper's sheet, a trace just long enough for K", trace=3120)
    for fill in (0, 1, 128, 255):
        yield paper._replace(label=f"the paper's sheet, spaces filled from {fill}", fill=fill)
        yield two._replace(label=f"two tasks, spaces filled from {fill}", fill=fill, work=5 * 21 + 7, trace=9)


def rest_searches() -> Iterator[Search]:
    """Every number of bytes that the slots leave: one slot, fewer than there are states, as many, one more, many."""
    both = of_table("two urgent jobs", 1, 1, [(1, 1, 2)] * 2)
    paper, two = Search("the paper's sheet", PAPER), of_table("two tasks", 1, 1, TWO)
    for search, slots in ((both, (1, 2)), (paper, (1, 3, 4, 5)), (two, (1, 3, 4, 5, 40))):
        for K, rest in product(slots, range(ref.SLOT)):
            yield search.with_slots(K).with_rest(rest)


# Tables whose states fill most of the longest work space, or more than it has: the policy, the cores, the tasks, and how they are
# answered there; the first three are one of each kind. In 01 the same space had 2,730 slots, too few for each of them.
FILLING = [
    (0, 1, [(1, 37, 37), (37, 38, 38)], "unsafe 1370 2739"),
    (3, 1, [(2, 9, 52), (3, 9, 56)], "safe 2912"),
    (4, 2, [(1, 1, 53), (1, 1, 59)], "room 3120"),
    (0, 1, [(1, 39, 39), (39, 40, 40)], "unsafe 1522 3043"),
    (0, 1, [(1, 40, 40), (40, 41, 41)], "room 3120"),
    (1, 2, [(1, 1, 48), (1, 1, 57)], "safe 2736"),
    (2, 2, [(1, 1, 54), (1, 1, 55)], "safe 2970"),
    (3, 2, [(1, 1, 52), (1, 1, 60)], "safe 3120"),
]


def filling_searches() -> Iterator[Search]:
    for policy, m, tasks, expected in FILLING:
        search = of_table(f"{NAMES[policy]} {tasks} on {m}", policy, m, tasks)
        assert answer(ref.search_sheet(search.sheet, WORK, TRACE)) == expected, search.label
        assert ref.search_sheet(search.sheet, 2730 * ref.SLOT, TRACE).kind == "room", search.label
        yield search


def refused_sheets(sheet: bytes) -> tuple[tuple[int, bytes], ...]:
    """Sheets with each refusal, made of one with two tasks whose numbers have a byte each."""
    return (
        (1, sheet[:-1]),
        (2, sheet[:-1] + b"\x84\x00"),
        (3, sheet_of(2, *sheet[1:])),
        (4, sheet_of(3, 5, *sheet[2:])),
        (5, sheet_of(*sheet[:2], 9, *sheet[3:])),
        (6, sheet_of(*sheet[:3], 0, *sheet[4:])),
        (7, sheet_of(*sheet[:-1], sheet[-1] - 1)),
        (8, sheet + b"\x00"),
    )


def refused_searches() -> Iterator[Search]:
    """A sheet's refusal comes before 9 and 10."""
    for number, sheet in refused_sheets(PAPER):
        yield Search(f"{number} before 9: empty spaces", sheet, 0, 0)
        yield Search(f"{number} before 10: no trace", sheet, 240 + number, 0, 17 * number)
    yield Search("no sheet and empty spaces", b"", 0, 0)
    yield Search("8: 255 bytes", PAPER + bytes(245))


def policy_searches() -> Iterator[Search]:
    """Each kind of answer under each policy."""
    for policy, name in enumerate(NAMES):
        for tasks in ([(1, 2, 3), (2, 4, 5)], [(1, 1, 2), (2, 4, 4)]):
            search = of_table(f"{name} {tasks}", policy, 1, tasks)
            N = count_of(search)
            yield from (search.with_slots(K) for K in (N - 1, N, N + 1, 1))
        three = of_table(f"{name}, three tasks on two cores", policy, 2, [(2, 3, 4), (1, 4, 5), (1, 5, 6)])
        N = count_of(three)
        yield three
        yield three.with_slots(N - 1).with_rest(ref.SLOT - 1)
        yield of_table(f"{name}, a task that fits a slot", policy, 1, [(1, 1, 1)]).with_slots(1)
        # C = i, D = P = 2(i + 1)
        steps = [(i, 2 * i + 2, 2 * i + 2) for i in range(1, 5)]
        yield of_table(f"{name}, three tasks of document 000", policy, 1, steps[:3])
        yield of_table(f"{name}, four tasks of document 000", policy, 2, steps)
        # many tasks, many cores
        yield of_table(f"{name}, eight tasks, five cores", policy, 5, [(1, 1, 1)] * 2 + [(1, 2, 2)] * 6)
        yield of_table(f"{name}, eight tasks, seven cores", policy, 7, [(1, 1, 2)] * 8)
        yield of_table(f"{name}, more cores than tasks", policy, 8, [(3, 4, 6), (2, 2, 5)])
    yield of_table("eight tasks, eight cores", 3, 8, [(1, 1, 2)] * 8)
    yield of_table("eight tasks that fit a slot", 0, 8, [(1, 1, 1)] * 8).with_slots(1)


def miss_searches() -> Iterator[Search]:
    """Shortest lists of 1 to 14 ticks. A task that is released at every tick starves another."""
    starved = [(policy, L, [(1, 1, 1), (1, L, L)]) for L in (1, 11, 14) for policy in ref.POLICIES]
    for policy, L, tasks in MISSES + starved:
        search = of_table(f"{NAMES[policy]} {tasks}, L {L}", policy, 1, tasks)
        assert ref.search_sheet(search.sheet, WORK, TRACE).L == L, search.label
        yield search.with_slots(count_of(search))


def answer(found: ref.Verdict) -> str:
    return f"{found.kind} {found.L} {found.N}" if found.kind == "unsafe" else f"{found.kind} {found.N}"


def parted_searches() -> Iterator[Search]:
    """Least slack and earliest deadline on tables that tell them apart: in the verdict, L, the count or the states."""
    for m, tasks, *answers in PARTED:
        states = []
        for policy, expected in zip((ref.P_EDF, ref.P_LST), answers):
            search = of_table(f"{NAMES[policy]} {tasks} on {m}", policy, m, tasks)
            found = ref.search_sheet(search.sheet, WORK, TRACE)
            assert answer(found) == expected, search.label
            states.append(ref.stored_states(table_of(policy, m, tasks), found))
            yield search
            yield from (search.with_slots(K) for K in (found.N - 1, found.N) if K)
        assert states[0] != states[1], tasks


def aged_searches() -> Iterator[Search]:
    """Tables on which the age and the task number among equal jobs differ: in the verdict, L, the count or the states."""
    for policy, m, tasks, was, now in AGED:
        table = table_of(policy, m, tasks)
        with by_number_alone():
            before = ref.verdict(table, ref.MOST_SLOTS)
            states = ref.stored_states(table, before)
        found = ref.verdict(table, ref.MOST_SLOTS)
        assert (answer(before), answer(found)) == (was, now) and states != ref.stored_states(table, found), tasks
        search = of_table(f"{NAMES[policy]} {tasks} on {m}, by age", policy, m, tasks)
        yield from (search, search.with_slots(found.N - 1))


# Tables that are Safe under P-GFP: the cores, the tasks, and how many states each cut has, the whole last.
SAFE_CUTS = [
    (1, [(1, 2, 2), (1, 4, 4), (1, 8, 8)], [2, 8, 70]),
    (2, [(2, 3, 3), (1, 2, 2), (2, 4, 4)], [3, 6, 27]),
    (2, [(1, 2, 3), (2, 3, 3), (2, 4, 4), (1, 4, 4)], [3, 9, 37, 151]),
    (5, [(1, 1, 1)] * 2 + [(1, 1, 2)] * 2 + [(1, 2, 2)] * 3 + [(1, 3, 3)], [1, 1, 2, 4, 8, 17, 39, 132]),
]


def cut_searches() -> Iterator[Search]:
    """Document 02, §9: under P-GFP a table's cut is Safe where it is, for the same number of slots, with no more states."""
    for m, tasks, counts in SAFE_CUTS:
        table, label = table_of(ref.P_GFP, m, tasks), f"P-GFP {tasks} on {m}"
        K = ref.verdict(table, ref.MOST_SLOTS).N
        cuts = [ref.cut_table(table, k) for k in range(1, len(tasks) + 1)]
        assert [ref.verdict(cut, K) for cut in cuts] == [("safe", 0, count) for count in counts], label
        assert counts[-1] == K == max(counts), label
        for cut in cuts:
            yield Search(f"{label}, cut to {cut.n}", sheet_bytes(cut)).with_slots(K)


def search_vectors() -> Iterator[Vector]:
    by_table = (policy_searches, miss_searches, parted_searches, aged_searches, cut_searches)
    for searches in (benchmark_searches, space_searches, rest_searches, refused_searches, *by_table):
        yield from (search_vector(*search) for search in searches())
    # few of them, since the program compares the state of each slot with that of each earlier one
    yield from (search_vector(*search) for search in islice(filling_searches(), 3))


def call_searches() -> Iterator[Search]:
    yield from benchmark_searches()
    yield from (search for search in refused_searches() if not search.work)
    paper = Search("the paper's sheet", PAPER)
    for work, trace in ((0, 0), (20, 1), (21, 0), (21, 1), (83, 3), (84, 4)):
        yield paper._replace(label=f"the paper's sheet, work {work}, trace {trace}", work=work, trace=trace)
    for policy, name in enumerate(NAMES):
        yield of_table(f"{name}, four tasks of document 000", policy, 2, [(i, 2 * i + 2, 2 * i + 2) for i in range(1, 5)])
        yield of_table(f"{name}, L 14", policy, 1, [(1, 1, 1), (1, 14, 14)])
    for policy, m, tasks, was, now in AGED:
        if was.split()[0] != now.split()[0]:
            yield of_table(f"{NAMES[policy]} {tasks} on {m}, by age", policy, m, tasks)
    for search in filling_searches():
        yield from (search, search.with_slots(2730))


def call_vectors() -> Iterator[Vector]:
    yield from (call_vector(*search) for search in call_searches())


def layout_searches() -> Iterator[Search]:
    """Tables that leave nothing free: one task, whose states follow each other, and jobs that miss at the first tick. With
    fewer slots than states, as many, and more; with no byte that makes no slot, and with each number of them."""
    for policy, name in enumerate(NAMES):
        short = of_table(f"{name}, a task of 3 states", policy, 1, [(1, 1, 3)])
        started = of_table(f"{name}, a task of 7 states", policy, 2, [(3, 5, 7)])
        both = of_table(f"{name}, two urgent jobs", policy, 1, [(1, 1, 2)] * 2)
        for search, slots in ((short, (1, 2, 3, 4, 9)), (started, (6, 7, 8)), (both, (1, 2, 5))):
            yield from (search.with_slots(K).with_rest((4 * K + policy) % ref.SLOT) for K in slots)
    short = of_table("a task of 3 states", 0, 1, [(1, 1, 3)])
    for K, rest in product((1, 2, 3, 5), range(ref.SLOT)):
        yield short.with_slots(K).with_rest(rest)
    for fill in (0, 1, 128, 255):
        yield short.with_slots(6)._replace(label=f"a task of 3 states, spaces filled from {fill}", fill=fill)
    long_gap = of_table("a task of 200 states", 3, 1, [(1, 1, 200)])
    yield from (long_gap.with_slots(K).with_rest(17) for K in (199, 200, 230))
    # refused: every byte stays
    for work, trace in ((0, 0), (20, 9), (21, 0), (64, 2), (83, 0)):
        yield short._replace(label=f"a task of 3 states, work {work}, trace {trace}", work=work, trace=trace)
    yield from (Search(f"refusal {number}", sheet, 50 + number, 9, 17 * number) for number, sheet in refused_sheets(PAPER))


def layout_vectors() -> Iterator[Vector]:
    yield from (layout_vector(*search) for search in layout_searches())


# ----------------------------------------------------------------------
# Files of states


def safe_states(table: Table) -> list[State]:
    """The states of a Safe search."""
    verdict = ref.verdict(table, ref.MOST_SLOTS)
    assert verdict.kind == "safe", table
    return sorted(ref.stored_states(table, verdict))


def next_states(table: Table, states: Iterable[State]) -> set[State]:
    """Where legal masks lead from these states, proper or not, with a miss or without."""
    released = {ref.release(table, s, mask) for s in states for mask in range(2**table.n) if ref.is_legal(table, s, mask)}
    return {ref.run(state, ref.choose(table, state)) for state in released}


def with_steps(table: Table, states: Iterable[State]) -> list[State]:
    """These states, and all that legal masks lead to from them without a miss."""
    reached, newest = set(states), set(states)
    while newest:
        newest = {state for state in next_states(table, newest) if not ref.is_late(table, state)} - reached
        reached |= newest
    return sorted(reached)


def misses(table: Table, states: Iterable[State]) -> bool:
    return any(ref.is_late(table, state) for state in next_states(table, states))


class File(NamedTuple):
    """A file, and the table that it is judged for."""

    label: str
    table: Table
    data: bytes


def file_of(label: str, table: Table, states: Iterable[State]) -> File:
    return File(label, table, ref.file_of(states))


def order_files() -> Iterator[File]:
    """Files of Safe searches: in several orders, with repeats, without a state."""
    for (policy, name), tasks in product(enumerate(NAMES), (TWO, [(1, 2, 3), (2, 4, 5)])):
        table = table_of(policy, 1, tasks)
        own, label = safe_states(table), f"{name} {tasks}"
        yield file_of(f"{label}, in order", table, own)
        yield file_of(f"{label}, reversed", table, own[::-1])
        yield file_of(f"{label}, from the third state on", table, own[2:] + own[:2])
        yield file_of(f"{label}, a state twice", table, own + own[1:2])
        yield file_of(f"{label}, every state twice", table, own + own[::-1])
        yield file_of(f"{label}, the last state twice, without the first", table, own[1:] + own[-1:])
        for i in range(len(own)):
            yield file_of(f"{label}, without state {i + 1}", table, own[:i] + own[i + 1 :])
    # many states, and eight tasks
    for policy, name in enumerate(NAMES):
        three = table_of(policy, 2, [(2, 3, 4), (1, 4, 5), (1, 5, 6)])
        yield file_of(f"{name}, three tasks on two cores", three, safe_states(three)[::-1])
        eight = table_of(policy, 8, [(1, 1, 1)] * 6 + [(1, 1, 2)] * 2)
        yield file_of(f"{name}, eight tasks", eight, safe_states(eight))
        yield file_of(f"{name}, eight tasks, without the last state", eight, safe_states(eight)[:-1])
    long_gap = table_of(1, 1, [(1, 1, 200)])
    own = safe_states(long_gap)
    yield file_of("200 states", long_gap, own)
    yield file_of("200 states, without state 100", long_gap, own[:99] + own[100:])
    yield file_of("200 states, state 2 in the place of the last", long_gap, own[:199] + own[1:2])


def changed_files() -> Iterator[File]:
    """One byte changed, at each place of a state, in one state and another; and bytes out of their places."""
    table = table_of(1, 1, TWO)
    data = ref.file_of(safe_states(table))
    for place, value in product(range(16), (1, 128)):
        at = 16 * ((place + value) % 4) + place
        yield File(f"two tasks, byte {at} ^ {value}", table, data[:at] + bytes([data[at] ^ value]) + data[at + 1 :])
    yield File("two tasks, two bytes swapped", table, data[:16] + data[17:18] + data[16:17] + data[18:])
    yield File("two tasks, moved by a byte", table, data[1:] + data[:1])
    yield File("two tasks, moved by two bytes", table, data[2:] + data[:2])
    yield File("two tasks, each state backwards", table, b"".join(data[at : at + 16][::-1] for at in range(0, 64, 16)))


def improper_files() -> Iterator[File]:
    """A state that is improper, by each rule, and nothing else that is wrong: all that it leads to is there, and
    nothing misses. Two started jobs on one core are improper under NP alone."""
    for policy, name in enumerate(NAMES):
        one, two = table_of(policy, 2, [(2, 4, 5)]), table_of(policy, 1, [(2, 4, 4), (2, 4, 4)])
        for fault, table, wrong in (
            ("c above C", one, state_of((3, 5))),
            ("p above P", one, state_of((0, 6))),
            ("p above P, c above 0", one, state_of((2, 6))),
            ("slack -1", one, state_of((1, 1))),
            ("p after the nth", one, state_of((0, 0), (0, 1))),
            ("c and p after the nth", one, state_of((0, 0), (1, 1))),
            ("p of task 8, n 1", one, state_of(*[(0, 0)] * 7, (0, 1))),
            ("two started on one core", two, state_of((1, 3), (1, 3))),
        ):
            states = with_steps(table, [*safe_states(table), wrong])
            improper = [state for state in states if not ref.is_proper(table, state)]
            assert improper == ([] if table == two and ref.is_preempted(table) else [wrong])
            assert not misses(table, states)
            yield file_of(f"{name}, {fault}", table, states)
            yield file_of(f"{name}, {fault}, as the last state", table, [*(x for x in states if x != wrong), wrong])


def reached_by(table: Table, is_given: Callable[[int, int], bool]) -> list[State]:
    """What is reached by some of the legal masks, told by the mask and that of all tasks that may be released."""
    reached, newest = {START}, {START}
    while newest:
        after = [(step, max(ref.successors(table, state))[0]) for state in newest for step in ref.successors(table, state)]
        newest = {state for (mask, _, state), free in after if is_given(mask, free)} - reached
        reached |= newest
    return sorted(reached)


def mask_files() -> Iterator[File]:
    """Files that are closed for some of the legal masks, and not for all."""
    rules: list[tuple[str, Callable[[int, int], bool]]] = [
        ("only 0", lambda mask, free: mask == 0),
        ("0 and all that may be released", lambda mask, free: mask in (0, free)),
        ("at most one task", lambda mask, free: mask & (mask - 1) == 0),
    ]
    for number in range(1, 8):
        rules.append((f"all but {number}", lambda mask, free, number=number: mask != number))
    tables = [(f"{name}, three tasks", table_of(policy, 1, [(1, 3, 3)] * 3), rules) for policy, name in enumerate(NAMES)]
    seven = ("all but 127", lambda mask, free: mask != 127), ("all but 64", lambda mask, free: mask != 64)
    tables.append(("seven tasks", table_of(2, 7, [(1, 1, 2)] * 7), [*seven]))
    for label, table, some in tables:
        own = safe_states(table)
        yield file_of(f"{label}, every mask", table, own)
        for rule, is_given in some:
            states = reached_by(table, is_given)
            assert set(states) < set(own)
            yield file_of(f"{label}, of masks {rule}", table, states)


def superset_files() -> Iterator[File]:
    """Proper states that no list reaches: with all that they lead to, without a part of it, and with a miss."""
    for policy, name in enumerate(NAMES):
        table = table_of(policy, 1, [(1, 2, 3), (2, 4, 5)])
        own = safe_states(table)
        for label, extra in (("p = P", state_of((0, 3), (0, 5))), ("c = 1, p = P", state_of((1, 3), (1, 5)))):
            states = with_steps(table, [*own, extra])
            more = [state for state in states if state not in own]
            assert extra in more and len(more) > 1 and not misses(table, states)
            yield file_of(f"{name}, {label} and what it leads to", table, states)
            yield file_of(f"{name}, {label} alone", table, [*own, extra])
            yield file_of(f"{name}, what {label} leads to, without the start state", table, [x for x in states if x != START])
            for i, state in enumerate(more):
                yield file_of(f"{name}, {label}, without state {i + 1} of those", table, [x for x in states if x != state])
        late = state_of((1, 2), (2, 3))
        assert ref.is_proper(table, late) and misses(table, [late])
        yield file_of(f"{name}, a state that misses, and what else it leads to", table, with_steps(table, [*own, late]))


def unsafe_files() -> Iterator[File]:
    """The states of Unsafe searches, and all that is reached without a miss: proper, and nothing wrong but misses."""
    paper = [(policy, [(2, 2, 2), (1, 2, 2)]) for policy in ref.POLICIES] + [(0, [(1, 1, 2), (2, 4, 4)])]
    for policy, tasks in paper + [(policy, tasks) for policy, _, tasks in MISSES]:
        table = table_of(policy, 1, tasks)
        kept = with_steps(table, [START])
        assert misses(table, kept) and all(ref.is_proper(table, state) for state in kept)
        if len(kept) > 60:
            continue
        yield file_of(f"{NAMES[policy]} {tasks}, unsafe", table, by_level(table))
        yield file_of(f"{NAMES[policy]} {tasks}, unsafe, all without a miss", table, kept)


def length_files() -> Iterator[File]:
    """14, and the shortest files."""
    two, one = table_of(1, 1, TWO), table_of(0, 1, [(1, 1, 1)])
    data = ref.file_of(safe_states(two))
    for length in (0, 1, 15, 16, 17, 31, 32, 33, 48, 63, 64):
        yield File(f"two tasks, the first {length} bytes", two, data[:length])
    yield File("two tasks, a byte more", two, data + b"\x00")
    yield File("two tasks, a start state more", two, data + bytes(16))
    yield File("two tasks, a state of bytes 255 more", two, data + b"\xff" * 16)
    for length in (0, 1, 15, 16, 17, 32, 4000):
        yield File(f"a task with one state, {length} bytes 0", one, bytes(length))


def foreign_files() -> Iterator[File]:
    """The file of one table judged for another: of each policy for each, whose states all differ, and with one number
    of the table another."""
    tables = [table_of(policy, 1, [(3, 7, 7), (2, 5, 5)]) for policy in ref.POLICIES]
    assert len({tuple(safe_states(table)) for table in tables}) == len(NAMES)
    for maker, judge in product(tables, repeat=2):
        yield file_of(f"the file of {NAMES[maker.policy]} for {NAMES[judge.policy]}", judge, safe_states(maker))
    table = table_of(3, 1, [(1, 2, 3), (2, 4, 5)])
    for label, other in (
        ("two cores", changed(table, m=2)),
        ("one task", table_of(3, 1, [(1, 2, 3)])),
        ("a third task", table_of(3, 1, [(1, 2, 3), (2, 4, 5), (1, 6, 6)])),
        ("the tasks swapped", table_of(3, 1, [(2, 4, 5), (1, 2, 3)])),
        ("C more", table_of(3, 1, [(2, 2, 3), (2, 4, 5)])),
        ("D less", table_of(3, 1, [(1, 2, 3), (2, 3, 5)])),
        ("D less, the same states", table_of(3, 1, [(1, 1, 3), (2, 4, 5)])),
        ("D less, unsafe", table_of(3, 1, [(1, 2, 3), (2, 2, 5)])),
        ("D more", table_of(3, 1, [(1, 3, 3), (2, 4, 5)])),
        ("D more, the same states", table_of(3, 1, [(1, 2, 3), (2, 5, 5)])),
        ("P less", table_of(3, 1, [(1, 2, 3), (2, 4, 4)])),
        ("P more", table_of(3, 1, [(1, 2, 3), (2, 4, 6)])),
    ):
        yield file_of(f"the file of another table: {label}", other, safe_states(table))


def parted_files() -> Iterator[File]:
    """The file of a table under earliest deadline or least slack, judged for both; of 240 states at most, for a body."""
    for m, tasks, *answers in PARTED:
        for policy, found in zip((ref.P_EDF, ref.P_LST), answers):
            if not found.startswith("safe") or int(found.split()[1]) > 240:
                continue
            own = safe_states(table_of(policy, m, tasks))
            for judge in (ref.P_EDF, ref.P_LST):
                label = f"{tasks} on {m}, the file of {NAMES[policy]} for {NAMES[judge]}"
                yield file_of(label, table_of(judge, m, tasks), own)


def aged_files() -> Iterator[File]:
    """The file of a table, and the one that it has where the task number alone settles equal jobs; of 240 states at most."""
    for policy, m, tasks, was, now in AGED:
        table, label = table_of(policy, m, tasks), f"{NAMES[policy]} {tasks} on {m}"
        kept = {found: found.startswith("safe") and int(found.split()[1]) <= 240 for found in (was, now)}
        if kept[now]:
            yield file_of(f"{label}, the file by age", table, safe_states(table)[::-1])
        if kept[was]:
            with by_number_alone():
                own = safe_states(table)
            assert not ref.closed(table, ref.file_of(own))
            yield file_of(f"{label}, the file by number", table, own)


def drawn_files() -> Iterator[File]:
    """Files of drawn tables: shuffled, then without a state, with a byte changed, or with states that none reaches."""
    dice, number = Dice(3), 0
    while number < 30:
        table = dice.table(8)
        if not 2 <= (verdict := ref.verdict(table, 40)).N <= 40 or verdict.kind != "safe":
            continue
        number += 1
        states = safe_states(table)
        if number % 4 == 1:
            states = with_steps(table, [*states, dice.proper_state(table)])
        for i in range(len(states) - 1, 0, -1):
            j = dice.below(i + 1)
            states[i], states[j] = states[j], states[i]
        data = ref.file_of(states[number % 4 == 2 :])
        if number % 4 == 3:
            at = dice.below(len(data))
            data = data[:at] + bytes([dice.below(256)]) + data[at + 1 :]
        yield File(f"drawn {number}", table, data)


def closed_vectors() -> Iterator[Vector]:
    by_state = (order_files, mask_files, changed_files, improper_files, superset_files, unsafe_files)
    for files in (*by_state, length_files, foreign_files, parted_files, aged_files, drawn_files):
        yield from (closed_vector(label, sheet_bytes(table), data) for label, table, data in files())
    # a sheet's refusal comes before 14
    two = table_of(1, 1, TWO)
    own = ref.file_of(safe_states(two))
    for number, sheet in refused_sheets(sheet_bytes(two)):
        assert ref.refusal(ref.read_sheet, sheet) == number
        for data, name in ((own, "a closed file"), (own[16:], "another file"), (b"", "no file"), (own[:15], "15 bytes")):
            yield closed_vector(f"{number}: {name}", sheet, data)
    yield closed_vector("no sheet, no file", b"", b"")


def file_vectors() -> Iterator[Vector]:
    two = table_of(1, 1, TWO)
    own = ref.file_of(safe_states(two))
    for data, name in ((own, "a closed file"), (own[16:], "another file"), (b"", "no file"), (own[:17], "17 bytes")):
        yield file_vector(f"two tasks, {name}", two, data)
        yield file_vector(f"policy 4, {name}", changed(two, policy=4), data)
        yield file_vector(f"policy 5, {name}", changed(two, policy=5), data)
        yield file_vector(f"m 0, {name}", changed(two, m=0), data)
        yield file_vector(f"m 9, {name}", changed(two, m=9), data)
        yield file_vector(f"n 0, {name}", changed(two, n=0), data)
        yield file_vector(f"n 9, {name}", changed(two, n=9), data)
        yield file_vector(f"C above D, {name}", changed(two, C=entry(two.C, 1, 3)), data)
        yield file_vector(f"n 1 before two tasks, {name}", changed(two, n=1), data)
        yield file_vector(f"an entry after the nth, {name}", changed(two, P=entry(two.P, 7, 1)), data)
        yield file_vector(f"order: all wrong, {name}", Table(5, 0, 0, (1,) * 8, (0,) * 8, (0,) * 8), data)
    for label, table, data in improper_files():
        yield file_vector(label, table, data)


def evidence_searches() -> Iterator[Search]:
    """Safe with as many slots as states and with more, so that the other columns stand after them or further on; then Unsafe, No
    room and refusals."""
    for policy, name in enumerate(NAMES):
        two = of_table(f"{name}, two tasks", policy, 1, TWO)
        more = of_table(f"{name}, (2,6,6),(2,4,4)", policy, 1, [(2, 6, 6), (2, 4, 4)])
        unsafe = of_table(f"{name}, unsafe", policy, 1, [(2, 2, 2), (1, 2, 2)])
        one = of_table(f"{name}, one state", policy, 1, [(1, 1, 1)])
        for search in (two, more, unsafe, one):
            N = count_of(search)
            yield from (search.with_slots(K).with_rest((7 * K) % ref.SLOT) for K in (N - 1, N, N + 1, N + 150) if K)
        yield of_table(f"{name}, three tasks on two cores", policy, 2, [(2, 3, 4), (1, 4, 5), (1, 5, 6)])
    for policy, m, tasks, _, now in AGED:
        if now.startswith("safe") and int(now.split()[1]) <= 60:
            aged = of_table(f"{NAMES[policy]} {tasks} on {m}, by age", policy, m, tasks)
            yield from (aged, aged.with_slots(count_of(aged)))
    paper, long_gap = Search("the paper's sheet, unsafe", PAPER), of_table("200 states", 1, 1, [(1, 1, 200)])
    yield from (paper, paper.with_slots(3), paper.with_slots(4))
    yield from (long_gap, long_gap.with_slots(200), long_gap.with_slots(199))
    yield from filling_searches()
    for number, sheet in refused_sheets(PAPER):
        yield Search(f"refusal {number}", sheet, 90, 9, number)
    two = of_table("two tasks", 1, 1, TWO)
    for work, trace in ((0, 0), (20, 1), (21, 0), (21, 1), (84, 3)):
        yield two._replace(label=f"two tasks, work {work}, trace {trace}", work=work, trace=trace)


def evidence_vectors() -> Iterator[Vector]:
    yield from (evidence_vector(*search) for search in evidence_searches())


# ----------------------------------------------------------------------
# Where the core time went

# Four tasks on two cores that miss under each policy.
LOADED = [(1, 2, 3), (2, 3, 3), (1, 2, 3), (3, 5, 5)]


def short_plays(policy: int, name: str) -> Iterator[Play]:
    """Lists of a few ticks: kept, missed and refused, at the first tick and later."""
    two, full = table_of(policy, 1, TWO), table_of(policy, 1, [(2, 2, 2), (1, 2, 2)])
    yield Play(f"{name}: the empty list", two, b"")
    yield Play(f"{name}: nothing released", two, bytes(5))
    yield Play(f"{name}: both, every second tick", two, bytes([3, 0] * 3))
    yield Play(f"{name}: one at a time", two, bytes([1, 2] * 3))
    yield Play(f"{name}: the second alone, of three", table_of(policy, 1, [(1, 2, 2), (2, 3, 4), (1, 5, 5)]), bytes([2, 0, 0, 0, 2]))
    yield Play(f"{name}: a miss at the first tick, bytes after it", table_of(policy, 1, [(1, 1, 2), (1, 1, 2)]), bytes([3, 0, 3, 255]))
    yield Play(f"{name}: a miss at the first tick, three of four", table_of(policy, 2, [(2, 2, 3)] * 4), bytes([13]))
    yield Play(f"{name}: a miss at tick 2, bytes after it", full, bytes([3, 0, 3, 255]))
    yield Play(f"{name}: a miss at tick 6", full, bytes([1, 0, 2, 0, 3, 0]))
    yield Play(f"{name}: masks 2, 1, an urgent job", table_of(policy, 1, [(1, 1, 2), (2, 4, 4)]), bytes([2, 1]))
    yield Play(f"{name}: a bit for no task, at tick 1", two, bytes([4, 1]))
    yield Play(f"{name}: a bit for no task beside two tasks, at tick 1", two, bytes([7]))
    yield Play(f"{name}: a bit for no task beside a task, at tick 2", two, bytes([1, 6, 1]))
    yield Play(f"{name}: the highest bit, at tick 4", two, bytes([3, 0, 1, 128]))
    yield Play(f"{name}: too early, at tick 2", table_of(policy, 1, [(1, 1, 2)]), bytes([1, 1]))
    yield Play(f"{name}: too early beside a task that may, at tick 2", two, bytes([1, 3]))
    yield Play(f"{name}: too early, a tick before it may", table_of(policy, 2, [(2, 5, 9), (3, 6, 7)]), bytes([3] + [0] * 6 + [3]))
    yield Play(f"{name}: too early, with work left", full, bytes([1, 3]))


def turn_plays(policy: int, name: str) -> Iterator[Play]:
    """Jobs that run and wait in turn, started ones, and many of them, in lists of more and more masks."""
    turns = table_of(policy, 1, [(3, 9, 9), (2, 7, 7), (2, 7, 7)])
    for ticks in range(1, 9):
        yield Play(f"{name}: three jobs whose slacks cross, up to mask {ticks}", turns, bytes([7, *[0] * 6, 2][:ticks]))
    started = table_of(policy, 1, [(1, 4, 4), (3, 9, 9)])
    for ticks in range(2, 6):
        yield Play(f"{name}: a started job and a new one, up to mask {ticks}", started, bytes([2, 1, 0, 0, 0][:ticks]))
    two_started = table_of(policy, 2, [(1, 4, 4), (3, 8, 8), (4, 9, 9), (2, 3, 6)])
    for ticks in (2, 3, 5, 9):
        yield Play(f"{name}: two started jobs and two new ones, up to mask {ticks}", two_started, bytes([6, 9, *[0] * 7][:ticks]))
    eight = table_of(policy, 3, [(i, 34 - 2 * i, 42 - i) for i in range(1, 9)])
    for ticks in (1, 7, 12):
        yield Play(f"{name}: eight jobs, three cores, up to mask {ticks}", eight, bytes([255, *[0] * 11][:ticks]))
    yield Play(f"{name}: more cores than tasks", table_of(policy, 8, [(2, 2, 2), (3, 3, 3)]), bytes([3, 0, 1, 2, 1, 0]))


def wide_plays(policy: int, name: str) -> Iterator[Play]:
    """Totals of one byte at their greatest, and of two."""
    most = table_of(policy, 2, [(200, 200, 200), (199, 200, 200), (1, 1, 1)])
    yield Play(f"{name}: C 200, 1 tick", most, bytes([1]))
    yield Play(f"{name}: C 200, 199 ticks", most, bytes([3] + [0] * 198))
    yield Play(f"{name}: C 200, twice, 255 ticks", most, bytes([1] + [0] * 199 + [1] + [0] * 54))
    yield Play(f"{name}: C 200, twice, 256 ticks", most, bytes([1] + [0] * 199 + [1] + [0] * 55))
    every = table_of(policy, 1, [(1, 1, 1)])
    for ticks in (255, 256, 257, 600):
        yield Play(f"{name}: C = D = P = 1, {ticks} ticks", every, bytes([1] * ticks))
    yield Play(f"{name}: C = D = P = 1, refused at tick 513", every, bytes([1] * 512 + [2, 1]))


def is_calm(table: Table, state: State) -> bool:
    """Whether nothing is late where nothing more is released."""
    while any(state.c):
        _, missed, state = ref.successors(table, state)[0]  # mask 0
        if missed:
            return False
    return True


def kept_masks(dice: Dice, table: Table, length: int) -> bytes:
    """A list that is kept, drawn: where a mask leads to a miss sooner or later, 0 takes its place."""
    masks, state = [], START
    for _ in range(length):
        drawn = dice.legal_mask(table, state)
        after = {mask: later for mask, missed, later in ref.successors(table, state) if not missed}
        mask = drawn if drawn in after and is_calm(table, after[drawn]) else 0
        masks.append(mask)
        state = after[mask]
    return bytes(masks)


@lru_cache(maxsize=None)
def long_plays(policy: int) -> tuple[Play, ...]:
    """Lists of some thousand ticks, as long as a body allows: kept, missed late, and refused late for either cause. Since 200
    ticks without a release lead to the start state, a list that misses does so after them too."""
    table, name = table_of(policy, 2, LOADED), f"{NAMES[policy]} {LOADED}"
    kept, miss = kept_masks(Dice(40 + policy), table, LONGEST_BODY - 27), shortest_miss(table)
    last, plays = max(i for i in range(2500) if kept[i]), []
    for label, masks, answer, tick in (
        ("kept", kept, "kept", 0),
        ("missed late", kept[:2600] + bytes(200) + miss + b"\xff\x01", "missed", 2800 + len(miss)),
        ("too early late", kept[: last + 1] + kept[last : last + 1] + b"\x01", "refused", last + 2),
        ("a bit for no task late", kept[:2300] + b"\x1f", "refused", 2301),
    ):
        played, totals = balanced(table, masks)
        assert (played.answer, played.tick) == (answer, tick) and max(totals.ran) > 256
        plays.append(Play(f"{name}: {label}, {len(masks)} masks", table, masks))
    return tuple(plays)


def refused_plays() -> Iterator[Play]:
    """Tables that are refused, whatever the list: totals of 0."""
    two = table_of(0, 1, TWO)
    for masks, name in ((b"", "the empty list"), (b"\x01", "a task released"), (b"\x04", "a bit for no task")):
        yield Play(f"policy 5, {name}", changed(two, policy=5), masks)
        yield Play(f"m 0, {name}", changed(two, m=0), masks)
        yield Play(f"m 9, {name}", changed(two, m=9), masks)
        yield Play(f"n 0, {name}", changed(two, n=0), masks)
        yield Play(f"n 9, {name}", changed(two, n=9), masks)
        yield Play(f"C above D, {name}", changed(two, C=entry(two.C, 0, 3)), masks)
        yield Play(f"an entry after the nth, {name}", changed(two, C=entry(two.C, 7, 1)), masks)


def service_plays() -> Iterator[Play]:
    for policy, name in enumerate(NAMES):
        for plays in (short_plays, turn_plays, wide_plays):
            yield from plays(policy, name)
        yield from long_plays(policy)
    yield from refused_plays()
    yield from parted_plays()
    yield from aged_plays()
    dice = Dice(4)
    for number in range(30):
        table = dice.table((4, 12, 200)[number % 3])
        yield Play(f"drawn {number + 1}", table, drawn_masks(dice, table, 60))


def service_vectors() -> Iterator[Vector]:
    yield from (service_vector(*play) for play in service_plays())


def as_soon_as_may_be(table: Table, length: int) -> bytes:
    """Each task released at the first tick, and whenever its gap has passed."""
    return bytes(sum(1 << i for i in range(table.n) if tick % table.P[i] == 0) for tick in range(length))


def totals_vectors() -> Iterator[Vector]:
    for policy, name in enumerate(NAMES):
        sheet = sheet_bytes(table_of(policy, 1, [(2, 2, 2), (1, 2, 2)]))
        for (label, masks), length in product(
            (
                ("the empty list", []),
                ("kept", [1]),
                ("missed at tick 2", [3, 0, 255]),
                ("a bit for no task, at tick 1", [4]),
                ("too early, at tick 4", [1, 0, 2, 3]),
            ),
            (0, 1, 191, 192, 193, 255),
        ):
            yield totals_vector(f"{name}: {label}, a space of {length} bytes", sheet, bytes(masks), length)
        eight = table_of(policy, 8, [(i, 2 * i, 2 * i + 1) for i in range(1, 9)])
        for masks, label in ((b"", "kept"), (b"\xff", "refused")):
            masks = as_soon_as_may_be(eight, 900 + policy) + masks
            yield totals_vector(f"{name}: eight tasks on eight cores, {label}", sheet_bytes(eight), masks, 200)
        label, table, masks = long_plays(policy)[policy % 4]
        yield totals_vector(label, sheet_bytes(table), masks, 192)
    # a sheet's refusal comes before 11 and 12, and leaves every byte
    for number, sheet in refused_sheets(PAPER):
        for masks, length in ((b"\x02", 0), (b"\x02", 192), (b"\x02\x04", 255)):
            yield totals_vector(f"{number}: a space of {length} bytes", sheet, masks, length)
    yield totals_vector("no sheet, no list, no space", b"", b"", 0)
    yield totals_vector("the longest sheet", LONGEST, bytes([255] + [0] * 199 + [170]), 192)


# ----------------------------------------------------------------------
# Sessions

BLANK = bytes(ref.SESSION)  # a fresh session

# Four tasks on two cores that miss under each policy, most of whose lists do after a few ticks.
STRAINED = [(1, 1, 2), (2, 3, 4), (2, 2, 3), (3, 5, 6)]

# Three tasks, and for them states that are improper by causes other than a late job.
THREE = [(2, 9, 9), (4, 9, 9), (4, 9, 9)]
IMPROPER = {
    "c above C": state_of((3, 9)),
    "p above P": state_of((0, 10)),
    "c after the nth": state_of((0, 0), (0, 0), (0, 0), (1, 0)),
    "p after the nth": state_of(*[(0, 0)] * 7, (0, 1)),
}

# From a fresh session: every refusal of a mark, both causes of 11, and each call done.
EACH_CALL = [Call(name, given) for name in ("return", *CALLS) for given in (255, 0, 1, 1, 8, 9)]


class Walk(NamedTuple):
    """Calls on a session, whose bytes are given, and the table that they are called with."""

    label: str
    table: Table
    space: bytes
    calls: list[Call]


def drawn_call(dice: Dice, table: Table, session: Session, unset: int) -> Call:
    """Most are done. A mark is set where nothing is late if nothing more is released, so that a walk can go on from it;
    one mark is never set."""
    stray, kind = dice.below(6) == 0, dice.below(20)
    if kind < 3 and is_calm(table, session.present):
        mark = dice.between(1, 8)
        return Call("mark", (0, 9, 255)[dice.below(3)] if stray or mark == unset else mark)
    if kind < 6:
        return Call("return", (0, 9, 255, unset)[dice.below(4)] if stray else dice.between(1, 8))
    return Call("step", dice.below(256) if stray else dice.legal_mask(table, session.present))


def drawn_calls(dice: Dice, table: Table, session: Session, length: int) -> list[Call]:
    calls, unset = [], dice.between(1, 8)
    for _ in range(length):
        calls.append(drawn_call(dice, table, session, unset))
        session = ref.answered(table, session, calls[-1]).session
    return calls


def met_on_record(table: Table, calls: list[Call]) -> set[tuple[str, str, int]]:
    """What calls from a fresh session answer. The list on record reaches the present state after each call, and the list stored
    under each mark the state there at the end: a vector for which they do not is not made."""
    session, record, met = ref.FRESH, ref.BLANK, set()
    for call in calls:
        answer = ref.answered(table, session, call)
        session, record = answer.session, ref.recorded(record, call, answer.answer)
        assert ref.reaches(table, record.masks, session.present), (table, calls, call)
        met.add((call.name, answer.answer, answer.refusal))
    assert ref.is_on_record(table, session, record), (table, calls)
    return met


@lru_cache(maxsize=None)
def long_walk(policy: int) -> Walk:
    """300 calls from a fresh session: returns to marks that there are not, or that are not set, a list that misses, from a mark
    and back to it, and then drawn ones, with marks set anew."""
    table = table_of(policy, 2, STRAINED)
    calls = [Call("return", mark) for mark in (0, 9, 255, 1)] + [Call("mark", 1)]
    calls += [Call("step", mask) for mask in shortest_miss(table)] + [Call("return", 1)]
    marked = Session(START, (START, *ref.FRESH.marks[1:]))  # what these lead to
    calls += drawn_calls(Dice(60 + policy), table, marked, 300 - len(calls))
    assert met_on_record(table, calls) == {
        *(("step", "next", 0), ("step", "missed", 0), ("step", "refused", 11)),
        *(("mark", "done", 0), ("mark", "refused", 15)),
        *(("return", "done", 0), ("return", "refused", 15), ("return", "refused", 16)),
    }
    marks = [call for call in calls if call.name == "mark" and 1 <= call.given <= 8]
    assert len(set(marks)) < len(marks)
    return Walk(f"{NAMES[policy]} {STRAINED}, 300 calls", table, BLANK, calls)


def every_mark(policy: int) -> Walk:
    """A task more released at each tick, with a mark after it; then from each mark on, the last one first, and back."""
    table = table_of(policy, 3, [(i, 34 - 2 * i, 42 - i) for i in range(1, 9)])
    there = [call for i in range(1, 9) for call in (Call("step", 1 << (i - 1)), Call("mark", i))]
    back = [call for i in range(8, 0, -1) for call in (Call("return", i), Call("step", 0), Call("return", 9 - i))]
    walk = Walk(f"{NAMES[policy]}: all eight marks", table, BLANK, there + back)
    assert met_on_record(table, walk.calls) == {("step", "next", 0), ("mark", "done", 0), ("return", "done", 0)}
    return walk


def answers_of(walk: Walk) -> list[str]:
    """What the calls of a walk answer, without the bytes of the session after them."""
    return session_vector(*walk).line.split()[:-1]


def garbage_walk(policy: int) -> Walk:
    """Bytes under marks that are not set, which are no proper states: they change no answer."""
    label, table, _, calls = long_walk(policy)
    garbage = BLANK[:17] + filled(ref.SESSION - 17, 201, 37)
    assert not any(ref.is_proper(table, state) for state in ref.session_of(b"\xff" + garbage[1:]).marks)
    walk = Walk(f"{label}, the first 60, on garbage", table, garbage, calls[:60])
    assert answers_of(walk) == answers_of(walk._replace(space=BLANK))
    return walk


def with_states(flags: int, states: list[State], others: bytes = BLANK) -> bytes:
    """A session of a present state and eight more, of which those that the flags name are under set marks; the bytes of the
    others are those of another session."""
    marks = tuple(state if flags >> i & 1 else None for i, state in enumerate(states[1:]))
    return ref.with_session(others, Session(states[0], marks))


def improper_walks() -> Iterator[Walk]:
    """13, for the present state and for each mark, by each cause; before 11, 15 and 16."""
    three, late = table_of(1, 2, THREE), state_of((2, 1))
    proper = [state_of((2, 9), (4 - i % 4, 9 - i % 2)) for i in range(9)]
    for place, name in enumerate(("the present state", *(f"mark {i}" for i in range(1, 9)))):
        states = proper[:place] + [late] + proper[place + 1 :]
        yield Walk(f"13: {name}", three, with_states(255, states), EACH_CALL)
    yield Walk("13: the present state, no mark set", three, with_states(0, [late] * 9), EACH_CALL)
    yield Walk("13: mark 8, no other set", three, with_states(128, [START] + [late] * 8), EACH_CALL)
    unset = b"\x55" + with_states(0xAA, [START] + [late] * 8)[1:]
    yield Walk("states that are not proper under marks that are not set", three, unset, EACH_CALL)
    for place, (cause, wrong) in enumerate(IMPROPER.items()):
        states = [wrong if i == 2 * place else START for i in range(9)]
        yield Walk(f"13: {cause}", three, with_states(255, states), EACH_CALL)
    started = state_of((1, 8), (3, 8), (3, 8))
    for policy, name in enumerate(NAMES):
        space = with_states(4, [*[START] * 3, started, *[START] * 5])
        yield Walk(f"{name}: three started on two cores, under mark 3", changed(three, policy=policy), space, EACH_CALL)


def drawn_walks(seed: int, count: int) -> Iterator[Walk]:
    """From drawn sessions of proper states, reached or not, with some marks set, and bytes under the others."""
    dice = Dice(seed)
    for number in range(count):
        table = dice.table((4, 12, 200)[number % 3])
        states = [dice.proper_state(table) for _ in range(9)]
        space = with_states(dice.below(256), states, filled(ref.SESSION, dice.below(256), 91))
        yield Walk(f"drawn {number + 1}", table, space, drawn_calls(dice, table, ref.session_of(space), 40))


def session_vectors() -> Iterator[Vector]:
    for policy in ref.POLICIES:
        yield from (session_vector(*walk) for walk in (long_walk(policy), every_mark(policy), garbage_walk(policy)))
    yield from (session_vector(*walk) for walk in improper_walks())
    # 4 to 7 come before 13
    two, wrong = table_of(0, 1, TWO), with_states(255, [state_of((9, 9))] * 9)
    for label, table in refused_tables():
        yield session_vector(f"{label}, and no state proper", table, wrong, EACH_CALL)
    yield session_vector("no calls", two, wrong, [])
    yield session_vector("each call", two, BLANK, EACH_CALL)
    yield from (session_vector(*walk) for walk in drawn_walks(6, 9))


def session_call_vectors() -> Iterator[Vector]:
    for policy in ref.POLICIES:
        for label, table, space, calls in (long_walk(policy), every_mark(policy), garbage_walk(policy)):
            yield session_call_vector(label, sheet_bytes(table), space, calls)
    for label, table, space, calls in (*islice(improper_walks(), 12), *drawn_walks(7, 6)):
        yield session_call_vector(label, sheet_bytes(table), space, calls)
    # 12 comes before 13: a session that is too short is not read. Bytes after the 145th stay
    wrong, garbage = with_states(255, [state_of((9, 9))] * 9), filled(255, 11, 37)
    for length in (0, 1, 17, 144):
        yield session_call_vector(f"a space of {length} bytes, and no state proper", PAPER, wrong[:length], EACH_CALL)
    for length in (145, 146, 200, 255):
        yield session_call_vector(f"a space of {length} bytes", PAPER, (BLANK[:17] + garbage[17:])[:length], EACH_CALL)
    yield session_call_vector("146 bytes, and no state proper", PAPER, wrong + b"\0", EACH_CALL)
    # a sheet's refusal comes before 12 and 13
    for number, sheet in refused_sheets(PAPER):
        for space, name in ((wrong[:144], "144 bytes"), (wrong, "no state proper")):
            yield session_call_vector(f"{number}: {name}", sheet, space, EACH_CALL)
    yield session_call_vector("no sheet, no space, no calls", b"", b"", [])


# ----------------------------------------------------------------------
# Cuts

CUTS = (*range(10), 255)  # outside 1 to 8 at both ends


def cut_vectors() -> Iterator[Vector]:
    for (policy, name), n in product(enumerate(NAMES), (1, 2, 5, 8)):
        table = table_of(policy, 1 + (n + policy) % 8, [(i + policy, 20 * i, 25 * i - policy) for i in range(1, n + 1)])
        yield from (cut_vector(f"{name}, n {n}, k {k}", table, k) for k in CUTS)
    # the table's refusal comes before 6, whatever k
    for (label, table), k in product(refused_tables(), (0, 1, 255)):
        yield cut_vector(f"{label}, k {k}", table, k)


def cuts_vectors() -> Iterator[Vector]:
    for k in CUTS:
        yield cuts_vector(f"k {k}: a state of any bytes, every mask", k, ref.state_of(filled(16, 11, 37)), bytes(range(256)))
        yield cuts_vector(f"k {k}: a proper state, eight masks", k, state_of((2, 9), (0, 4), (4, 8)), filled(8, 255, 91))
    for k in (0, 1, 8, 9):
        yield cuts_vector(f"k {k}: no byte of the state 0, the empty list", k, State((255,) * 8, (200,) * 8), b"")


def cut_sheet_vectors() -> Iterator[Vector]:
    different = sheet_bytes(table_of(2, 3, [(i, 20 * i, 25 * i) for i in range(1, 9)]))
    for label, sheet, some in (("the paper's sheet", PAPER, (1, 2)), ("the longest sheet", LONGEST, (1, 7, 8)), ("n 8", different, (5, 6))):
        for k in some:
            length = len(sheet_bytes(ref.cut_table(ref.read_sheet(sheet), k)))
            for space in (length - 1, length, length + 1):
                yield cut_sheet_vector(f"{label}, k {k}, a space of {space} bytes", sheet, k, space)
    for policy, name in enumerate(NAMES):
        sheet = sheet_bytes(table_of(policy, 1 + policy, [(126, 127, 128), (129, 130, 200), (1, 1, 1)]))
        yield from (cut_sheet_vector(f"{name}, n 3, k {k}", sheet, k, 64) for k in (1, 2, 3, 4))
    # 6 comes before 12
    for (label, sheet, n), space in product((("the paper's sheet", PAPER, 2), ("the longest sheet", LONGEST, 8)), (0, 64)):
        for k in (0, n + 1, 255):
            yield cut_sheet_vector(f"{label}, k {k}, a space of {space} bytes", sheet, k, space)
    yield cut_sheet_vector("the paper's sheet, k 1, no space", PAPER, 1, 0)
    yield cut_sheet_vector("the paper's sheet, k 1, a space of 255 bytes", PAPER, 1, 255)
    # a sheet's refusal comes before 6 and 12, and leaves every byte
    for number, sheet in refused_sheets(PAPER):
        for k, space in ((1, 64), (0, 64), (1, 0)):
            yield cut_sheet_vector(f"{number}: k {k}, a space of {space} bytes", sheet, k, space)


class Part(NamedTuple):
    """A list, the table that it is played with, k, and the answers of the whole list and of the cut one."""

    label: str
    policy: int
    m: int
    tasks: list[tuple[int, int, int]]
    k: int
    masks: list[int]
    whole: str
    part: str


# Under P-GFP, lists that are not Kept whole: of them the cut list says what its own tasks do.
LATE = [
    Part("a low task late", 1, 1, [(1, 1, 1), (1, 2, 2)], 1, [3, 1], "missed 2", "kept"),
    Part("a low task late, more masks", 1, 1, [(1, 1, 1), (1, 2, 2)], 1, [3, 1, 1, 0, 1], "missed 2", "kept"),
    Part("a task of both late", 1, 1, [(1, 1, 1), (1, 2, 2), (1, 9, 9)], 2, [7, 1], "missed 2", "missed 2"),
    Part("a low task late, then one of the cut", 1, 1, [(1, 1, 1), (1, 3, 3), (1, 1, 9)], 2, [7, 1, 1], "missed 1", "missed 3"),
    Part("a low task late, then a mask too early", 1, 1, [(1, 1, 2), (1, 1, 9)], 1, [3, 1], "missed 1", "refused 11 2"),
    Part("a low task too early", 1, 1, [(1, 2, 2), (1, 4, 4)], 1, [3, 2, 1], "refused 11 2", "kept"),
    Part("a bit for no task", 1, 1, [(1, 2, 2), (1, 4, 4)], 2, [4, 3], "refused 11 1", "kept"),
    Part("a task of both too early", 1, 1, [(1, 2, 2), (1, 4, 4)], 1, [1, 3], "refused 11 2", "refused 11 2"),
    Part("a low task too early, then one of the cut late", 1, 1, [(1, 1, 1), (1, 2, 2), (1, 9, 9)], 2, [4, 7, 1], "refused 11 2", "missed 3"),
    Part("a bit for no task, then a mask too early", 1, 1, [(1, 3, 3), (1, 4, 4)], 1, [1, 128, 1], "refused 11 2", "refused 11 3"),
]

# Under the other policies, lists that are Kept whole and whose cut is not Kept with the cut state. Under NP it may miss: what a low job
# held back starts, and holds back another. Under P it never does, since no job of the cut has more work left than in the whole; but under
# P-EDF and P-LST some has less. First the shortest lists that a search of small tables found, each of the smallest of its tables.
PARTS = [
    Part("a low job held back the second", 0, 1, [(1, 1, 1), (2, 4, 4), (2, 2, 2)], 2, [4, 2, 1], "kept", "missed 3"),
    Part("a low job held back the second, two ticks", 0, 1, [(2, 2, 2), (5, 7, 7), (2, 3, 3)], 2, [1, 4, 0, 2, 1], "kept", "missed 5"),
    Part("a low job held back the third", 0, 2, [(1, 1, 1), (1, 1, 1), (2, 4, 4), (2, 2, 2)], 3, [8, 5, 3], "kept", "missed 3"),
    Part("a low job held back the first", 0, 1, [(1, 2, 2), (2, 2, 2)], 1, [2, 1], "kept", "kept"),
    Part("an urgent low job held back the second", 2, 1, [(1, 1, 1), (2, 4, 4), (1, 1, 1)], 2, [6, 1], "kept", "missed 2"),
    Part("an urgent low job held back the third", 2, 2, [(1, 1, 1), (1, 1, 1), (2, 4, 4), (1, 1, 1)], 3, [13, 3], "kept", "missed 2"),
    Part("an urgent low job held back the first", 2, 1, [(1, 2, 2), (1, 1, 1)], 1, [3], "kept", "kept"),
    Part("an urgent low job held back the first", 3, 1, [(1, 2, 2), (1, 1, 1)], 1, [3], "kept", "kept"),
    Part("an urgent low job held back the second", 3, 2, [(1, 1, 1), (1, 2, 2), (1, 1, 1)], 2, [7], "kept", "kept"),
    Part("an urgent low job held back the first", 4, 1, [(1, 2, 2), (1, 1, 1)], 1, [3], "kept", "kept"),
    Part("an urgent low job held back the second", 4, 2, [(1, 1, 1), (1, 2, 2), (1, 1, 1)], 2, [7], "kept", "kept"),
]


def checked_part(case: Part) -> Vector:
    table, masks = table_of(case.policy, case.m, case.tasks), bytes(case.masks)
    whole, part = ref.replay(table, masks), ref.cut_replay(table, case.k, masks)
    assert outcome(whole).startswith(case.whole + " ") and outcome(part).startswith(case.part + " "), case
    if case.whole == "kept":
        assert not ref.agrees(table, case.k, masks) and (case.part == "kept" or not ref.is_preempted(table)), case
    return part_vector(f"{NAMES[case.policy]} {case.tasks} on {case.m}, cut to {case.k}: {case.label}", table, case.k, masks)


def busy_masks(dice: Dice, table: Table) -> bytes:
    """A list of 20 to 60 masks that is kept, up to where most jobs are left; the empty list where those are less than two."""
    masks = kept_masks(dice, table, 60)
    jobs, length = max((sum(c > 0 for c in ref.replay(table, masks[:ticks]).state.c), ticks) for ticks in range(20, 61))
    return masks[:length] if jobs > 1 else b""


def agreeing_vectors() -> Iterator[Vector]:
    """Under P-GFP a list that is Kept, and every cut of it, which is Kept with the cut state."""
    dice, number = Dice(8), 0
    tables = [table_of(ref.P_GFP, 2, LOADED), table_of(ref.P_GFP, 2, STRAINED)]
    tables += [changed(dice.table((4, 12, 200)[i % 3]), policy=ref.P_GFP) for i in range(20)]
    for table in tables:
        masks = busy_masks(dice, table)
        if not masks:
            continue
        number += 1
        for k in range(1, table.n + 1):
            assert ref.replay(table, masks).answer == "kept" and ref.agrees(table, k, masks)
            yield part_vector(f"P-GFP: list {number} of {len(masks)} masks, kept, cut to {k}", table, k, masks)


def part_vectors() -> Iterator[Vector]:
    yield from agreeing_vectors()
    yield from map(checked_part, LATE + PARTS)
    for policy, name in enumerate(NAMES):
        dice, loaded = Dice(80 + policy), table_of(policy, 2, LOADED)
        for k in (1, 2, 3):
            yield part_vector(f"{name} {LOADED} on 2: a drawn list cut to {k}", loaded, k, drawn_masks(dice, loaded, 20))
    # a cut that is refused, with the whole list played
    for k, masks in product((0, 3, 255), (b"", b"\x03\x00")):
        yield part_vector(f"two tasks, k {k}, {len(masks)} masks", table_of(1, 1, TWO), k, masks)
    for label, table in refused_tables():
        yield part_vector(f"{label}, k 3", table, 3, b"\x04")


# ----------------------------------------------------------------------
# Joined lists


def joined_vector(label: str, table: Table, masks: bytes, ticks: int) -> Vector:
    """The masks after the first ones, played from the state where those were Kept: it answers as the whole list does."""
    first = ref.replay(table, masks[:ticks])
    assert first.answer == "kept" and ref.joins(table, masks[:ticks], masks[ticks:]), label
    vector = after_vector(f"{label}, after {ticks} of {len(masks)} masks", table, first.state, ticks, masks[ticks:])
    assert vector.line == f"after {outcome(ref.replay(table, masks))}", label
    return vector


def joined_vectors() -> Iterator[Vector]:
    """Lists that are kept, missed and refused, each split at several places."""
    for policy, name in enumerate(NAMES):
        table = table_of(policy, 2, LOADED)
        kept, miss = kept_masks(Dice(90 + policy), table, 40), shortest_miss(table)
        last = max(i for i in range(40) if kept[i])
        for label, masks, answer, most in (
            ("kept", kept, "kept", 40),
            ("missed", kept[:30] + bytes(5) + miss + b"\xff\x01", f"missed {35 + len(miss)}", 34 + len(miss)),
            ("refused", kept[: last + 1] + kept[last : last + 1] + b"\x01", f"refused 11 {last + 2}", last + 1),
        ):
            assert outcome(ref.replay(table, masks)).startswith(answer + " "), (name, label)
            yield from (joined_vector(f"{name}: {label}", table, masks, ticks) for ticks in (0, 13, most))


BEFORE = (0, 1, 65_536, 2**32 - 1)  # numbers of ticks before a list


def raised_vectors() -> Iterator[Vector]:
    """A number before the list that is not that of any list: it raises the tick's number alone."""
    full, started = table_of(1, 1, [(2, 2, 2), (1, 2, 2)]), state_of((1, 1))
    for before, (label, masks) in product(
        BEFORE,
        (("the empty list", []), ("kept", [0, 1]), ("missed at its third", [0, 3, 0, 255]), ("refused at its second", [0, 4])),
    ):
        yield after_vector(f"{label}, {before} before", full, started, before, bytes(masks))


def improper_vectors() -> Iterator[Vector]:
    """13, by each cause, before 11 and also of the empty list; and 4 to 7 before it."""
    three = table_of(1, 2, THREE)
    for (cause, state), masks in product({**IMPROPER, "slack -1": state_of((2, 1)), "d 0": state_of((1, 0))}.items(), (b"", b"\x08")):
        yield after_vector(f"13: {cause}, {len(masks)} masks", three, state, 7, masks)
    for policy, name in enumerate(NAMES):
        started, table = state_of((1, 8), (3, 8), (3, 8)), changed(three, policy=policy)
        yield after_vector(f"{name}: three started on two cores", table, started, 1, b"\x00\x01")
    for (label, table), masks in product(refused_tables(), (b"", b"\x04")):
        yield after_vector(f"{label}, no proper state, {len(masks)} masks", table, state_of((9, 9)), 2**32 - 1, masks)


def after_vectors() -> Iterator[Vector]:
    yield from joined_vectors()
    yield from raised_vectors()
    yield from improper_vectors()
    dice = Dice(9)
    for number in range(15):
        table = dice.table((4, 12, 200)[number % 3])
        state, before = dice.proper_state(table), dice.below(2**32)
        yield after_vector(f"drawn {number + 1}", table, state, before, drawn_masks(dice, table, 12, state))


# ----------------------------------------------------------------------
# The files

MAKERS = {
    "n": number_vectors,
    "s": sheet_vectors,
    "t": table_vectors,
    "w": write_vectors,
    "r": round_vectors,
    "d": practice_vectors,
    "m": made_vectors,
    "k": tick_vectors,
    "p": replay_vectors,
    "v": search_vectors,
    "q": call_vectors,
    "l": layout_vectors,
    "e": evidence_vectors,
    "c": closed_vectors,
    "f": file_vectors,
    "u": service_vectors,
    "z": totals_vectors,
    "x": session_vectors,
    "y": session_call_vectors,
    "a": cut_vectors,
    "b": cuts_vectors,
    "g": cut_sheet_vectors,
    "h": part_vectors,
    "j": after_vectors,
}


def record(kind: str, body: bytes) -> bytes:
    assert len(body) <= LONGEST_BODY, kind
    return kind.encode("ascii") + len(body).to_bytes(2, "little") + body


def make() -> tuple[bytes, bytes, int]:
    """The two files, and how many vectors they have."""
    given, expected, count = b"", "", 0
    for kind in KINDS:
        for vector in MAKERS[kind]():
            given += record("#", vector.label.encode("ascii")) + record(kind, vector.body)
            expected += f"# {vector.label}\n{vector.line}\n"
            count += 1
    return given, expected.encode("ascii"), count


def main() -> int:
    ref.self_check()
    given, expected, count = make()
    files = {FOLDER / "stdin": given, FOLDER / "stdout": expected}
    if sys.argv[1:] == ["--check"]:
        stale = [path.name for path, data in files.items() if not path.is_file() or path.read_bytes() != data]
        if stale:
            print(f"make_vectors: crates/vectors/{' and '.join(stale)} not as tests/make_vectors.py makes it: run it")
            return 1
        print(f"make_vectors: the stored files have the {count} vectors")
        return 0
    if sys.argv[1:]:
        print("usage: tests/make_vectors.py [--check]")
        return 1
    for path, data in files.items():
        path.write_bytes(data)
    print(f"make_vectors: wrote {count} vectors")
    return 0


if __name__ == "__main__":
    sys.exit(main())
