"""What run-tool and run-verdict share: the corpus, programs with what they print, and the end of a run."""
import os
import subprocess
import sys
from pathlib import Path
from typing import Iterator, NamedTuple

import reference

ROOT = Path(__file__).resolve().parent.parent
OUT = ROOT / "target" / "outside"
TOOL = str(ROOT / "tools" / "ronchhek")
EXAMPLE = ROOT / "examples" / "two-tasks.sheet"
DEFAULT_SPACES = 65520, 8192  # work and trace that `verdict` lends


class Differs(Exception):
    """Something printed, or a status, that is not the one expected."""


class Printed(NamedTuple):
    status: int
    out: bytes
    err: bytes


def run(command: list, given: bytes = b"", **options) -> Printed:
    options = {"stdout": subprocess.PIPE, "timeout": 120, **({} if "stdin" in options else {"input": given}), **options}
    done = subprocess.run([str(part) for part in command], stderr=subprocess.PIPE, **options)
    return Printed(done.returncode, done.stdout or b"", done.stderr)


def build(*command) -> None:
    """Runs something that builds, for as long as it takes, and shows the end of what it says where it fails."""
    built = run(list(command), timeout=None)
    if built.status:
        raise Differs(f"{command}: status {built.status}\n{(built.out + built.err).decode()[-3000:]}")


def expect(what, got, wanted) -> None:
    if got != wanted:
        raise Differs(f"{what}: {got!r}, expected {wanted!r}")


def expect_answer(command: list, wanted: str, given: bytes = b"") -> None:
    """An answer: status 0, exactly these lines, and nothing on standard error."""
    expect(command, run(command, given), Printed(0, wanted.encode(), b""))


def must_differ(what: str, check, *arguments) -> None:
    """Shows that a check can fail: it must, with these arguments."""
    try:
        check(*arguments)
    except Differs:
        return
    raise Differs(f"{what}: not found")


def wrong_program(name: str, text: str) -> Path:
    """A program made wrong, for must_differ."""
    path = OUT / name
    path.write_text(f"#!/bin/sh\n{text}\n")
    path.chmod(0o755)
    return path


class Case(NamedTuple):
    """A line of tests/corpus/cases.txt: the sheet, the slots (None for the spaces of `verdict`) and the first line expected."""

    name: str
    slots: int | None
    first: str

    @property
    def path(self) -> Path:
        return ROOT / "tests" / "corpus" / f"{self.name}.sheet"

    @property
    def sheet(self) -> bytes:
        return self.path.read_bytes()


def corpus() -> list[Case]:
    lines = (ROOT / "tests" / "corpus" / "cases.txt").read_text().splitlines()
    words = [line.split(" ", 2) for line in lines if not line.startswith("#")]
    return [Case(name, None if slots == "-" else int(slots), first) for name, slots, first in words]


def accepted() -> Iterator[tuple[Case, reference.Table]]:
    """The accepted sheets of the corpus, once each."""
    for case in {case.name: case for case in corpus()}.values():
        if not reference.refusal(reference.read_sheet, case.sheet):
            yield case, reference.read_sheet(case.sheet)


def expect_verdict(what, printed: Printed, first: str, sheet: bytes) -> None:
    """The lines of a verdict: the first one, then, where it is unsafe, L masks that miss at tick L by the reference's replay."""
    expect(what, printed[::2], (0, b""))
    lines = printed.out.decode().split("\n")
    expect(what, (lines[0], lines[-1]), (first, ""))
    masks = [int(line) for line in lines[1:-1]]
    if first.startswith("unsafe"):
        played, ticks = reference.replay(reference.read_sheet(sheet), bytes(masks)), int(first.split()[1])
        expect(what, (len(masks), played.answer, played.tick), (ticks, "missed", ticks))
    else:
        expect(what, masks, [])


def main(name: str, body) -> None:
    """Runs a test; the last line says how it went."""
    for named in ("LIB", "VERDICT"):
        if os.environ.get(named):
            os.environ[named] = os.path.abspath(os.environ[named])
    os.chdir(ROOT)
    OUT.mkdir(parents=True, exist_ok=True)
    try:
        body()
    except Differs as differs:
        print(f"{name}: FAILED, {differs}")
        sys.exit(1)
    print(f"{name}: all passed")
