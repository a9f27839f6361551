"""Shift programs: up to 1,024 statements over 64 variables, run under a budget of steps; conditions on the paths through them; and marks,
which propose rewrites of them.

The calls are those of a library that is proved to meet its contracts, by ctypes over the shared object librewrites.so, which `python/build`
makes. This file is all that is needed beside it, and is itself tested and not proved. The shared object is looked for where the environment
variable REWRITES_SO says (a file's path), then beside this file, then in target/python of the repository.

Texts are str or bytes. Texts in answers are str: what is taken is ASCII. Read files as bytes: Python's text mode hides carriage returns, which
are refused. Values are told signed, -2147483648 to 2147483647, and taken signed or unsigned. Statements are counted from 1; parts, tables,
lines and variables from 0.

The library has no state: any number of calls may be under way at once, on any threads, each of which needs 512 KiB of stack beside Python's
own. Python runs other threads during a call.

>>> P = '''\\
... read i0
... i1 := i0
... i2 := 7
... i3 := i1 + i2
... if i0 goto 6 else 8
... i0 := i0 - 1
... if i0 goto 4 else 8
... write i3
... '''
>>> run(P, [0] * VARIABLES, 2, MOST_STEPS)
Ended(value=9, steps=12, kept=(0, 0, 0, 0, 0, 0, 0, 0), ticks=36)
>>> answer = tabulate(P, 'E[!def(i2) U use(i2)]')
>>> answer.parts, answer.satisfied, answer.first
(4, 4, 4)
>>> answer.table.statements_of(3)
(4, 5, 6, 7)
>>> answer = judge(P, '4: mark(rpl, i2, 7)\\n3: mark(rm, i2, 7)\\n')
>>> answer.accepted, [verdict.name for verdict in answer.verdicts]
(1, ['ACCEPTED', 'UNMET'])
>>> answer.text.splitlines()[3]
'i3 := i1 + 7'

A refused call raises an exception that says whose mistake it is.

>>> run(P.replace('goto 4', 'goto 9'), [0] * VARIABLES, 2, MOST_STEPS)
Traceback (most recent call last):
    ...
rewrites.Refused: run: program: the author of the shift program: a target outside 2 to N; expected targets from 2 to the number of lines (refusal 5)
"""

from __future__ import annotations

import ctypes
import enum
import functools
import os
import pathlib
from dataclasses import dataclass, field
from typing import Optional, Sequence, Tuple, Union

__version__ = "0.1.0"

# The header's sizes.
STATEMENTS = 1024
TEXT_BYTES = 34816
VARIABLES = 64
FIRST_KEPT = 24
KEPT = 8
MOST_STEPS = 1000000
KINDS = 11
MOST_PRICE = 65535
CONDITION_BYTES = 1024
PARTS = 64
PART_WORDS = 16
TABLE_WORDS = 1024
PATH_WORDS = 1025
REVIEW_LINES = 32
REVIEW_TABLES = 128
REVIEW_WORDS = 2048
LIST_WORDS = 2048
MARKS = 1024
VERDICT_BYTES = 1024
PLACES = 8
PLACE_BYTES = 35000
STAGES_BYTES = 280000
NAME_BYTES = 8
STACK_BYTES = 524288
UNFORCED = 4294967295

Text = Union[str, bytes, bytearray, memoryview]


class Refusal(enum.IntEnum):
    """Why a call is refused, by the library's number.

    >>> Refusal(9).name, Refusal(9).whose
    ('MARK_MISSPELLED', 'the optimiser')
    """

    BUFFER = 1
    MISSPELLED = 2
    LINE_COUNT = 3
    PLACEMENT = 4
    TARGET = 5
    CONDITION_LENGTH = 6
    CONDITION_MISSPELLED = 7
    CONDITION_PARTS = 8
    MARK_MISSPELLED = 9
    MARK_COUNT = 10
    BUDGET = 15
    REVIEW_LINE_COUNT = 16
    REVIEW_PARTS = 17
    PRICE_MISSPELLED = 19
    PRICE_COUNT = 20
    JOINED_COUNT = 21
    DRIVER = 22
    STAGE_NAME = 23
    STAGES_FULL = 24
    STAGE_UNKNOWN = 25

    @property
    def whose(self) -> str:
        """Whose mistake it is."""
        return _REFUSALS[self][0]

    @property
    def argument(self) -> str:
        """What is refused."""
        return _REFUSALS[self][1]

    @property
    def words(self) -> str:
        """What is wrong."""
        return _REFUSALS[self][2]

    @property
    def expected(self) -> str:
        """What was expected."""
        return _REFUSALS[self][3]


_AUTHOR = "the author of the shift program"
_CONDITION = "the author of the condition"
_REVIEW = "the author of the review"
_STAGES = "who names stages"

# Whose mistake it is, what is refused, why, and what was expected.
_REFUSALS = {
    Refusal.BUFFER: ("the host program", "stages", "too few bytes are lent", "280,000 bytes"),
    Refusal.MISSPELLED: (
        _AUTHOR,
        "program",
        "some line isn't spelled as a statement, or the last lacks its byte 10",
        "`read X`, `write X`, `X := A`, `X := A o A`, `if X goto n else m` or `skip`, and byte 10",
    ),
    Refusal.LINE_COUNT: (_AUTHOR, "program", "under 2 or over 1,024 lines", "2 to 1,024 lines"),
    Refusal.PLACEMENT: (
        _AUTHOR,
        "program",
        "`read` or `write` missing from its place or standing elsewhere",
        "`read X` on the first line, `write X` on the last, and neither elsewhere",
    ),
    Refusal.TARGET: (_AUTHOR, "program", "a target outside 2 to N", "targets from 2 to the number of lines"),
    Refusal.CONDITION_LENGTH: (_CONDITION, "condition", "longer than 1,024 bytes", "at most 1,024 bytes"),
    Refusal.CONDITION_MISSPELLED: (
        _CONDITION,
        "condition",
        "misspelled",
        "`!p`, `(p & q)`, `(p | q)`, `EX p` and the like, `E[p U q]` and the like, or an atom; in a review byte 10 behind each",
    ),
    Refusal.CONDITION_PARTS: (_CONDITION, "condition", "over 64 parts", "at most 64 parts"),
    Refusal.MARK_MISSPELLED: (
        "the optimiser",
        "marks",
        "some line misspelled, or the last without its byte 10",
        "`n: mark(rm, X, E)`, `n: mark(rpl, X, A)` or `n: mark(cse, T, E)`, and byte 10",
    ),
    Refusal.MARK_COUNT: ("the optimiser", "marks", "over 1,024 lines", "at most 1,024 lines"),
    Refusal.BUDGET: ("the host program", "budget", "over 1,000,000", "at most 1,000,000"),
    Refusal.REVIEW_LINE_COUNT: (_REVIEW, "conditions", "no line or over 32 lines", "1 to 32 lines"),
    Refusal.REVIEW_PARTS: (_REVIEW, "conditions", "over 128 differing parts", "at most 128 differing parts"),
    Refusal.PRICE_MISSPELLED: (
        "the buyer",
        "prices",
        "some line isn't such a price, or the last lacks its byte 10",
        "a whole number from 1 to 65535 without leading zeros, and byte 10",
    ),
    Refusal.PRICE_COUNT: (
        "the buyer",
        "prices",
        "other than eleven lines",
        "the prices of `read`, `write`, `skip`, `if`, `X := A`, `+`, `-`, `*`, `<`, `=` and `/`, one a line",
    ),
    Refusal.JOINED_COUNT: (_AUTHOR, "road and creeper", "over 1,024 statements together", "at most 1,025 statements of both programs"),
    Refusal.DRIVER: (
        "the author of the driver's list",
        "driver",
        "a misspelled or repeated variable",
        "variables, `i0` to `i63`, with single spaces between, none twice, or nothing",
    ),
    Refusal.STAGE_NAME: (_STAGES, "name", "not 1 to 8 lower-case letters", "1 to 8 lower-case letters"),
    Refusal.STAGES_FULL: (_STAGES, "name", "new, and all eight places hold others", "a name that a place holds"),
    Refusal.STAGE_UNKNOWN: (_STAGES, "name", "no place holds it", "a name that a place holds"),
}


class Refused(Exception):
    """A call is refused; nothing that it was handed has changed.

    >>> try:
    ...     judge('read i0\\nwrite i0\\n', '1: mark(rm, i0)\\n')
    ... except Refused as refused:
    ...     refused.call, refused.refusal.name, refused.whose, refused.argument
    ('judge', 'MARK_MISSPELLED', 'the optimiser', 'marks')
    """

    def __init__(self, call: str, refusal: Refusal, whose: Optional[str] = None, argument: Optional[str] = None):
        self.call = call
        self.refusal = refusal
        self.whose = whose or refusal.whose
        self.argument = argument or refusal.argument
        super().__init__(
            f"{call}: {self.argument}: {self.whose}: {refusal.words}; expected {refusal.expected} (refusal {refusal.value})"
        )


class LibraryError(OSError):
    """The shared object isn't there, or isn't the one that this file belongs to."""


class Verdict(enum.IntEnum):
    """What a mark on statement n gets: the first that applies. MAY_FAULT is tested before UNMET.

    >>> Verdict(14).name, Verdict(14).words
    ('UNMET', 'its condition is false at n')
    """

    ACCEPTED = 0
    MISSING = 11
    REPEATED = 12
    UNFIT = 13
    UNMET = 14
    MAY_FAULT = 18

    @property
    def words(self) -> str:
        """The verdict in words."""
        return _VERDICTS[self]


_VERDICTS = {
    Verdict.ACCEPTED: "accepted",
    Verdict.MISSING: "n is 0 or above N",
    Verdict.REPEATED: "an earlier line names n, accepted or not",
    Verdict.UNFIT: "the mark doesn't fit",
    Verdict.UNMET: "its condition is false at n",
    Verdict.MAY_FAULT: "it drops a division by anything but a constant other than 0",
}


class Culprit(enum.IntEnum):
    """What the last statement of a path does that speaks against a mark.

    >>> Culprit(5).name, Culprit(5).words
    ('NOTHING_COPIED', 'statement 1: nothing was copied yet')
    """

    USED = 1
    USED_BY_CSE = 2
    REDEFINED = 3
    OPERAND_REDEFINED = 4
    NOTHING_COPIED = 5

    @property
    def words(self) -> str:
        """The culprit in words."""
        return _CULPRITS[self]


_CULPRITS = {
    Culprit.USED: "the last statement uses the variable",
    Culprit.USED_BY_CSE: "an accepted cse makes the last statement use the variable",
    Culprit.REDEFINED: "the last statement defines the variable",
    Culprit.OPERAND_REDEFINED: "the last statement defines a variable of the right side",
    Culprit.NOTHING_COPIED: "statement 1: nothing was copied yet",
}


class Arm(enum.IntEnum):
    """An arm of an `if`."""

    GOTO = 1
    ELSE = 2


class Kind(enum.IntEnum):
    """Where in a table of prices that of a statement stands."""

    READ = 0
    WRITE = 1
    SKIP = 2
    IF = 3
    COPY = 4
    PLUS = 5
    MINUS = 6
    TIMES = 7
    LESS = 8
    EQUAL = 9
    DIVIDE = 10


@dataclass(frozen=True)
class Prices:
    """Eleven prices in ticks, in the order of Kind. An entry outside 1 to 65,535 counts as our price of that kind, at each use.

    >>> our_prices().entries[Kind.DIVIDE]
    24
    """

    entries: Tuple[int, ...]

    def __post_init__(self):
        entries = _numbers("prices", self.entries, KINDS, 0, 2**32 - 1)
        object.__setattr__(self, "entries", entries)


@dataclass(frozen=True)
class Ended:
    """A run that ended within the budget: what `write` wrote, the steps taken, the values of i24 to i31, and the price of the steps."""

    value: int
    steps: int
    kept: Tuple[int, ...]
    ticks: int


@dataclass(frozen=True)
class Spent:
    """A run that took all steps of the budget: the statement that would be next, the values of i0 to i63, and the price of the steps."""

    statement: int
    values: Tuple[int, ...] = field(repr=False)
    ticks: int


@dataclass(frozen=True)
class Fault:
    """A run that a division by 0 ended: the statement that divided, the steps taken and their price, its own included."""

    statement: int
    steps: int
    ticks: int


@dataclass(frozen=True)
class Table:
    """Parts of a condition, tables of a review, or sets of a list: 16 words each, a bit for each of the most statements.

    >>> table = tabulate('read i0\\nif i0 goto 2 else 3\\nwrite i0\\n', 'AF exit').table
    >>> table.part_at(0, 3), table.part_at(1, 3), table.part_at(1, 2)
    (True, True, False)
    >>> len(table), table.statements_of(1)
    (2, (3,))
    """

    words: Tuple[int, ...] = field(repr=False)

    def __len__(self) -> int:
        return len(self.words) // PART_WORDS

    def part_at(self, part: int, statement: int) -> bool:
        """Whether a part, counted from 0, is true at a statement, counted from 1."""
        _within("part", part, 0, len(self) - 1)
        _within("statement", statement, 1, STATEMENTS)
        word, bit = divmod(statement - 1, 64)
        return self.words[PART_WORDS * part + word] >> bit & 1 == 1

    def statements_of(self, part: int) -> Tuple[int, ...]:
        """The statements at which a part, counted from 0, is true."""
        return tuple(statement for statement in range(1, STATEMENTS + 1) if self.part_at(part, statement))


@dataclass(frozen=True)
class Tabulated:
    """The parts of a condition, how many statements satisfy the whole, and the first of them, 0 if none. Its last part is the whole."""

    parts: int
    satisfied: int
    first: int
    table: Table = field(repr=False)


@dataclass(frozen=True)
class Path:
    """The statements that a path comes by, and where it goes round for ever the entry of them, counted from 1, to which the last one steps back.
    Where turn is None it goes on by any steps that exist."""

    statements: Tuple[int, ...]
    turn: Optional[int]

    @property
    def round(self) -> Tuple[int, ...]:
        """The statements that the path goes round by, none where it has no turn."""
        return self.statements[self.turn - 1 :] if self.turn else ()


@dataclass(frozen=True)
class NoPath:
    """No path shows what is asked for; and whether it is true."""

    truth: bool


@dataclass(frozen=True)
class Reviewed:
    """The number of tables and of lines; for each line its table, its number of parts, how many statements satisfy it, and the first of
    them, 0 if none."""

    tables: int
    lines: int
    table_of: Tuple[int, ...]
    parts: Tuple[int, ...]
    satisfied: Tuple[int, ...]
    first: Tuple[int, ...]
    table: Table = field(repr=False)


@dataclass(frozen=True)
class Forced:
    """As Tabulated; and for each statement, statement 1 first, the least number of steps within which the driver can be sure of the
    condition, None where the unit can avoid it for ever, and the arm that does so, None where none is told."""

    parts: int
    satisfied: int
    first: int
    number: Tuple[Optional[int], ...]
    arm: Tuple[Optional[Arm], ...]
    table: Table = field(repr=False)

    def number_at(self, statement: int) -> Optional[int]:
        """The number of a statement, counted from 1."""
        _within("statement", statement, 1, len(self.number))
        return self.number[statement - 1]

    def arm_at(self, statement: int) -> Optional[Arm]:
        """The arm of a statement, counted from 1."""
        _within("statement", statement, 1, len(self.arm))
        return self.arm[statement - 1]


@dataclass(frozen=True)
class Judged:
    """The number of marks and of accepted ones, the number of bytes of the new program, the verdict of each mark, and the new program."""

    marks: int
    accepted: int
    bytes: int
    verdicts: Tuple[Verdict, ...]
    text: str


@dataclass(frozen=True)
class Because:
    """The verdict of a mark, and with UNMET the statements of a path that speaks against it, the mark's own first, and what the last of them does."""

    verdict: Verdict
    path: Tuple[int, ...]
    culprit: Optional[Culprit]


@dataclass(frozen=True)
class Report:
    """The number of statements; the price of each before and after, statement 1 first; both sums, and the first less the second."""

    statements: int
    before: Tuple[int, ...]
    after: Tuple[int, ...]
    given: int
    rewritten: int
    saved: int


@dataclass(frozen=True)
class Listing:
    """Readers and writers: for each variable how many statements define it and how many use it; and which."""

    defined: Tuple[int, ...]
    used: Tuple[int, ...]
    table: Table = field(repr=False)

    def defining(self, variable: int) -> Tuple[int, ...]:
        """The statements that define a variable."""
        _within("variable", variable, 0, VARIABLES - 1)
        return self.table.statements_of(2 * variable)

    def using(self, variable: int) -> Tuple[int, ...]:
        """The statements that use a variable."""
        _within("variable", variable, 0, VARIABLES - 1)
        return self.table.statements_of(2 * variable + 1)


@dataclass(frozen=True)
class Joined:
    """The number of statements and of bytes of the joined program, and its text."""

    statements: int
    bytes: int
    text: str


def run(
    program: Text, values: Sequence[int], input: int, budget: int = MOST_STEPS, prices: Optional[Prices] = None
) -> Union[Ended, Spent, Fault]:
    """Runs a program from 64 values and one input, for at most `budget` steps; by our prices where none are handed in.

    >>> program = 'read i0\\ni1 := -7 / i0\\nwrite i1\\n'
    >>> run(program, [0] * 64, 2)
    Ended(value=-3, steps=3, kept=(0, 0, 0, 0, 0, 0, 0, 0), ticks=32)
    >>> run(program, [0] * 64, 0)
    Fault(statement=2, steps=2, ticks=28)
    >>> spent = run(program, [5] * 64, -2, 1)
    >>> spent, spent.values[:2]
    (Spent(statement=2, ticks=4), (-2, 5))
    >>> run(program, [0] * 64, 2, MOST_STEPS + 1)
    Traceback (most recent call last):
        ...
    rewrites.Refused: run: budget: the host program: over 1,000,000; expected at most 1,000,000 (refusal 15)
    >>> run(program, [0] * 63, 2)
    Traceback (most recent call last):
        ...
    ValueError: values: the host program: expected 64 numbers, found 63
    """
    text = _bytes("program", program)
    values = _words("values", values, VARIABLES)
    (input,) = _words("input", [input], 1)
    _within("budget", budget, 0, 2**32 - 1, ValueError)
    table = _array(ctypes.c_uint32, KINDS, _entries(prices))
    ended, steps, statement = ctypes.c_uint32(), ctypes.c_uint32(), ctypes.c_uint32()
    value, ticks = ctypes.c_int32(), ctypes.c_uint64()
    left, kept = _array(ctypes.c_uint32, VARIABLES), _array(ctypes.c_uint32, KEPT)
    _call("run", text, len(text), _array(ctypes.c_uint32, VARIABLES, values), input, budget, table, ended, value, steps, statement, left, kept, ticks)
    if ended.value == 1:
        return Ended(value.value, steps.value, _signed(kept), ticks.value)
    if ended.value == 2:
        return Fault(statement.value, steps.value, ticks.value)
    return Spent(statement.value, _signed(left), ticks.value)


def our_prices() -> Prices:
    """Our own prices.

    >>> our_prices()
    Prices(entries=(4, 4, 1, 3, 2, 3, 3, 9, 3, 3, 24))
    """
    table = _array(ctypes.c_uint32, KINDS)
    _library().rewrites_our_prices(table)
    return Prices(tuple(table))


def prices(text: Text) -> Prices:
    """Reads a buyer's table of prices: eleven lines.

    >>> prices('1\\n2\\n3\\n4\\n5\\n6\\n7\\n8\\n9\\n10\\n11\\n')
    Prices(entries=(1, 2, 3, 4, 5, 6, 7, 8, 9, 10, 11))
    >>> prices('0\\n')
    Traceback (most recent call last):
        ...
    rewrites.Refused: prices: prices: the buyer: some line isn't such a price, or the last lacks its byte 10; expected a whole number from 1 to \
65535 without leading zeros, and byte 10 (refusal 19)
    """
    text = _bytes("prices", text)
    table = _array(ctypes.c_uint32, KINDS)
    _call("prices", text, len(text), table)
    return Prices(tuple(table))


def tabulate(program: Text, condition: Text) -> Tabulated:
    """Tells the statements at which each part of a condition is true.

    >>> answer = tabulate('read i0\\ni1 := i0\\ni1 := 7\\nwrite i1\\n', '(def(i1) & !EX E[!def(i1) U use(i1)])')
    >>> answer
    Tabulated(parts=8, satisfied=1, first=2)
    >>> answer.table.part_at(7, 2)
    True
    """
    text, condition = _bytes("program", program), _bytes("condition", condition)
    words = _array(ctypes.c_uint64, TABLE_WORDS)
    parts, satisfied, first = ctypes.c_uint32(), ctypes.c_uint32(), ctypes.c_uint32()
    _call("tabulate", text, len(text), condition, len(condition), words, TABLE_WORDS, parts, satisfied, first)
    return Tabulated(parts.value, satisfied.value, first.value, _table(words, parts.value))


def review(program: Text, conditions: Text) -> Reviewed:
    """Tabulates up to 32 conditions together, each a line ended by byte 10. Parts spelled alike get one table.

    >>> answer = review('read i0\\nif i0 goto 2 else 3\\nwrite i0\\n', 'exit\\nEF exit\\nAF exit\\nEF exit\\n')
    >>> answer.tables, answer.lines, answer.table_of, answer.satisfied
    (3, 4, (0, 1, 2, 1), (1, 3, 1, 3))
    >>> answer.table.statements_of(answer.table_of[2])
    (3,)
    """
    text, conditions = _bytes("program", program), _bytes("conditions", conditions)
    words = _array(ctypes.c_uint64, REVIEW_WORDS)
    tables, lines = ctypes.c_uint32(), ctypes.c_uint32()
    of_lines = [_array(ctypes.c_uint32, REVIEW_LINES) for _ in range(4)]
    _call("review", text, len(text), conditions, len(conditions), words, REVIEW_WORDS, tables, lines, *of_lines)
    told = (tuple(entries[: lines.value]) for entries in of_lines)
    return Reviewed(tables.value, lines.value, *told, _table(words, tables.value))


def witness(program: Text, condition: Text, part: int, statement: int) -> Union[Path, NoPath]:
    """Tells a path that shows why a part of a condition, counted from 0 as in its table, is true at a statement, counted from 1, or why it is
    false: one that bears out E of the part's path operator, or speaks against A of it. Negations before the operator are looked through. Where
    E is false, A true, or the part has no path operator outside, the part's truth is told, and so for a part or a statement that doesn't exist.

    >>> program = 'read i0\\ni1 := 7\\nif i0 goto 2 else 4\\nwrite i1\\n'
    >>> witness(program, 'EF exit', 1, 1)
    Path(statements=(1, 2, 3, 4), turn=None)
    >>> answer = witness(program, 'AF exit', 1, 1)
    >>> answer, answer.round
    (Path(statements=(1, 2, 3), turn=2), (2, 3))
    >>> witness(program, 'AF exit', 1, 4), witness(program, '!EF exit', 2, 5)
    (NoPath(truth=True), NoPath(truth=False))
    """
    text, condition = _bytes("program", program), _bytes("condition", condition)
    _within("part", part, 0, 2**32 - 1, ValueError)
    _within("statement", statement, 0, 2**32 - 1, ValueError)
    words = _array(ctypes.c_uint32, PATH_WORDS)
    length, turn, truth = ctypes.c_uint32(), ctypes.c_uint32(), ctypes.c_uint32()
    _call("witness", text, len(text), condition, len(condition), part, statement, words, PATH_WORDS, length, turn, truth)
    if length.value:
        return Path(tuple(words[: length.value]), turn.value or None)
    return NoPath(truth.value == 1)


def force(program: Text, driver: Text, condition: Text) -> Forced:
    """Tells where a driver, who picks the arm at each `if` on a variable of his, can force a condition however the unit answers.

    >>> program = 'read i0\\ni0 := i0 - 1\\nif i0 goto 2 else 4\\nwrite i0\\n'
    >>> answer = force(program, 'i0', 'exit')
    >>> answer.number, answer.arm_at(3).name
    ((3, 2, 1, 0), 'ELSE')
    >>> answer = force(program, '', 'exit')
    >>> answer.number, answer.arm_at(3).name
    ((None, None, None, 0), 'GOTO')
    """
    text, driver, condition = _bytes("program", program), _bytes("driver", driver), _bytes("condition", condition)
    words = _array(ctypes.c_uint64, TABLE_WORDS)
    parts, satisfied, first = ctypes.c_uint32(), ctypes.c_uint32(), ctypes.c_uint32()
    number, arm = _array(ctypes.c_uint32, STATEMENTS), _array(ctypes.c_uint8, STATEMENTS)
    _call(
        "force", text, len(text), driver, len(driver), condition, len(condition), words, TABLE_WORDS, parts, satisfied, first, number, arm
    )
    statements = text.count(b"\n")
    return Forced(
        parts.value,
        satisfied.value,
        first.value,
        tuple(None if steps == UNFORCED else steps for steps in number[:statements]),
        tuple(Arm(told) if told else None for told in arm[:statements]),
        _table(words, parts.value),
    )


def judge(program: Text, marks: Text) -> Judged:
    """Judges each mark of a list on a program, and makes the accepted ones.

    >>> answer = judge('read i0\\ni1 := i0\\ni1 := i2\\nwrite i1\\n', '2: mark(rm, i1, i0)\\n4: mark(rpl, i1, i2)\\n')
    >>> answer.marks, answer.accepted, answer.text
    (2, 2, 'read i0\\nskip\\ni1 := i2\\nwrite i2\\n')
    """
    text, marks = _bytes("program", program), _bytes("marks", marks)
    verdicts, new = _array(ctypes.c_uint8, VERDICT_BYTES), _array(ctypes.c_uint8, TEXT_BYTES)
    count, accepted, length = ctypes.c_uint32(), ctypes.c_uint32(), ctypes.c_uint32()
    _call("judge", text, len(text), marks, len(marks), verdicts, VERDICT_BYTES, new, TEXT_BYTES, count, accepted, length)
    told = tuple(Verdict(byte) for byte in verdicts[: count.value])
    return Judged(count.value, accepted.value, length.value, told, _text(new, length.value))


def why(program: Text, marks: Text, line: int) -> Because:
    """Tells why a line of a list of marks, counted from 0, gets UNMET: a shortest path from its statement to one that speaks against it. For `rm` it
    goes forward to a use of X, a use that an accepted `cse` of the list adds counted; for `rpl` and `cse` backward to what spoils the copy, or to
    statement 1. A line that the list hasn't gets MISSING.

    >>> program = 'read i0\\ni1 := 7\\nif i0 goto 4 else 5\\ni1 := i1 + i0\\ni2 := i1\\nwrite i2\\n'
    >>> answer = why(program, '5: mark(rpl, i1, 7)\\n4: mark(rpl, i1, 7)\\n', 0)
    >>> answer.verdict.name, answer.path, answer.culprit.name
    ('UNMET', (5, 4), 'REDEFINED')
    >>> why(program, '5: mark(rpl, i1, 7)\\n4: mark(rpl, i1, 7)\\n', 1).verdict.name
    'ACCEPTED'
    """
    text, marks = _bytes("program", program), _bytes("marks", marks)
    _within("line", line, 0, 2**32 - 1, ValueError)
    words = _array(ctypes.c_uint32, PATH_WORDS)
    verdict, length, culprit = ctypes.c_uint32(), ctypes.c_uint32(), ctypes.c_uint32()
    _call("why", text, len(text), marks, len(marks), line, words, PATH_WORDS, verdict, length, culprit)
    told = Culprit(culprit.value) if culprit.value else None
    return Because(Verdict(verdict.value), tuple(words[: length.value]), told)


def report(program: Text, marks: Text, prices: Optional[Prices] = None) -> Report:
    """Tells the price of each statement before and after the accepted marks are made; by our prices where none are handed in.

    >>> answer = report('read i0\\ni1 := i0 * 3\\nwrite i0\\n', '2: mark(rm, i1, i0 * 3)\\n')
    >>> answer
    Report(statements=3, before=(4, 9, 4), after=(4, 1, 4), given=17, rewritten=9, saved=8)
    """
    text, marks = _bytes("program", program), _bytes("marks", marks)
    table = _array(ctypes.c_uint32, KINDS, _entries(prices))
    before, after = _array(ctypes.c_uint32, STATEMENTS), _array(ctypes.c_uint32, STATEMENTS)
    statements, given, rewritten, saved = ctypes.c_uint32(), ctypes.c_uint32(), ctypes.c_uint32(), ctypes.c_int32()
    _call("report", text, len(text), marks, len(marks), table, before, after, statements, given, rewritten, saved)
    count = statements.value
    return Report(count, tuple(before[:count]), tuple(after[:count]), given.value, rewritten.value, saved.value)


def mark_line(marks: Text, line: int) -> slice:
    """Tells where a line of a list of marks, counted from 0, lies in the list. Beyond the marks it is empty.

    >>> marks = '4: mark(rpl, i2, 7)\\n3: mark(rm, i2, 7)\\n'
    >>> mark_line(marks, 1)
    slice(20, 39, None)
    >>> marks[mark_line(marks, 1)]
    '3: mark(rm, i2, 7)\\n'
    """
    marks = _bytes("marks", marks)
    _within("line", line, 0, 2**32 - 1, ValueError)
    begin, end = ctypes.c_size_t(), ctypes.c_size_t()
    _call("mark_line", marks, len(marks), line, begin, end)
    return slice(begin.value, end.value)


def _blamed(call: str, text: bytes) -> Optional[int]:
    return getattr(_library(), "rewrites_" + call)(text, len(text)) or None


def blame_program(program: Text) -> Optional[int]:
    """Tells the line, counted from 1, that the refusal of a program is about, or None where it is about none, or the program is taken.

    >>> blame_program('read i0\\nif i0 goto 9 else 2\\nwrite i0\\n'), blame_program('read i0\\nwrite i0\\n')
    (2, None)
    """
    return _blamed("blame_program", _bytes("program", program))


def blame_marks(marks: Text) -> Optional[int]:
    """Tells the first line of a list, counted from 1, that isn't spelled as a mark, or None where each is.

    >>> blame_marks('3: mark(rm, i2, 7)\\n3: mark(rm, i2)\\n'), blame_marks('3: mark(rm, i2, 7)\\n')
    (2, None)
    """
    return _blamed("blame_marks", _bytes("marks", marks))


def blame_condition(condition: Text) -> Optional[int]:
    """Tells the byte, counted from 1, at which the reading of a misspelled condition stops, one past its end where it only begins a condition, or
    None where it is spelled, or longer than a condition may be.

    >>> blame_condition('EX (exit)'), blame_condition('E[true U'), blame_condition('EX exit')
    (9, 9, None)
    """
    return _blamed("blame_condition", _bytes("condition", condition))


def list(program: Text) -> Listing:
    """Lists for each variable the statements that define it and those that use it.

    >>> answer = list('read i0\\ni0 := i0 + i0\\nwrite i0\\n')
    >>> answer.defining(0), answer.using(0), answer.used[24]
    ((1, 2), (2, 3), 1)
    """
    text = _bytes("program", program)
    words = _array(ctypes.c_uint64, LIST_WORDS)
    defined, used = _array(ctypes.c_uint32, VARIABLES), _array(ctypes.c_uint32, VARIABLES)
    _call("list", text, len(text), words, LIST_WORDS, defined, used)
    return Listing(tuple(defined), tuple(used), Table(tuple(words)))


def relist(program: Text, marks: Text, listing: Listing) -> Listing:
    """Tells a list as it is after a round of marks on the program. The one that is handed in stays as it is.

    >>> program, marks = 'read i0\\ni1 := i0\\ni2 := i1\\nwrite i2\\n', '3: mark(rpl, i1, i0)\\n'
    >>> answer = relist(program, marks, list(program))
    >>> answer.using(0), answer.using(1)
    ((2, 3), ())
    >>> answer == list(judge(program, marks).text)
    True
    """
    text, marks = _bytes("program", program), _bytes("marks", marks)
    if not isinstance(listing, Listing):
        raise TypeError(f"listing: the host program: expected a Listing, found {type(listing).__name__}")
    words = _array(ctypes.c_uint64, LIST_WORDS, _numbers("listing", listing.table.words, LIST_WORDS, 0, 2**64 - 1))
    defined, used = _array(ctypes.c_uint32, VARIABLES), _array(ctypes.c_uint32, VARIABLES)
    _call("relist", text, len(text), marks, len(marks), words, LIST_WORDS, defined, used)
    return Listing(tuple(defined), tuple(used), Table(tuple(words)))


def join(road: Text, creeper: Text) -> Joined:
    """Joins a road program and a creeper program to one.

    >>> join('read i0\\ni1 := i0 + 1\\nwrite i1\\n', 'read i2\\nwrite i2\\n').text
    'read i0\\ni1 := i0 + 1\\ni2 := i1\\nwrite i2\\n'
    >>> join('read i0\\nwrite i0\\n', 'read i2\\nskip\\n')
    Traceback (most recent call last):
        ...
    rewrites.Refused: join: creeper: the author of the creeper program: `read` or `write` missing from its place or standing elsewhere; \
expected `read X` on the first line, `write X` on the last, and neither elsewhere (refusal 4)
    """
    road, creeper = _bytes("road", road), _bytes("creeper", creeper)
    new = _array(ctypes.c_uint8, TEXT_BYTES)
    statements, length = ctypes.c_uint32(), ctypes.c_uint32()
    try:
        _call("join", road, len(road), creeper, len(creeper), new, TEXT_BYTES, statements, length)
    except Refused as refused:
        if refused.refusal == Refusal.JOINED_COUNT:
            raise
        # The number doesn't tell which text is meant: it is the road's where that is refused by itself.
        name = "creeper" if _taken(road) else "road"
        raise Refused("join", refused.refusal, f"the author of the {name} program", name) from None
    return Joined(statements.value, length.value, _text(new, length.value))


def keep(stages: bytearray, name: Text, program: Text) -> int:
    """Keeps a program under a name in 280,000 bytes; tells its place, 1 to 8. Stages holds such bytes.

    >>> stages = bytearray(STAGES_BYTES)
    >>> keep(stages, 'given', 'read i0\\nwrite i0\\n')
    1
    >>> bytes(stages[:12])
    b'given\\x00\\x00\\x00\\x11\\x00re'
    """
    if not isinstance(stages, bytearray):
        raise TypeError(f"stages: the host program: expected a bytearray, found {type(stages).__name__}")
    name, text = _bytes("name", name), _bytes("program", program)
    place = ctypes.c_uint32()
    lent = (ctypes.c_uint8 * len(stages)).from_buffer(stages) if stages else None
    _call("keep", lent, len(stages), name, len(name), text, len(text), place)
    return place.value


def go_back(stages: Text, name: Text) -> str:
    """The program that is kept under a name in 280,000 bytes. Stages holds such bytes.

    >>> go_back(bytes(STAGES_BYTES), 'given')
    Traceback (most recent call last):
        ...
    rewrites.Refused: go_back: name: who names stages: no place holds it; expected a name that a place holds (refusal 25)
    """
    stages, name = _bytes("stages", stages), _bytes("name", name)
    new, length = _array(ctypes.c_uint8, TEXT_BYTES), ctypes.c_uint32()
    _call("go_back", stages, len(stages), name, len(name), new, TEXT_BYTES, length)
    return _text(new, length.value)


class Stages:
    """Up to eight programs, each kept under a name.

    >>> stages = Stages()
    >>> stages.keep('given', 'read i0\\nwrite i0\\n')
    1
    >>> stages.go_back('given')
    'read i0\\nwrite i0\\n'
    >>> Stages(bytes(stages)).names()
    ('given', None, None, None, None, None, None, None)
    """

    def __init__(self, content: Optional[Text] = None):
        self._bytes = bytearray(STAGES_BYTES if content is None else _bytes("stages", content))
        if len(self._bytes) != STAGES_BYTES:
            raise ValueError(f"stages: the host program: expected {STAGES_BYTES:,} bytes, found {len(self._bytes):,}")

    def __bytes__(self) -> bytes:
        return bytes(self._bytes)

    def keep(self, name: Text, program: Text) -> int:
        """Keeps a program under a name; tells its place, 1 to 8."""
        return keep(self._bytes, name, program)

    def go_back(self, name: Text) -> str:
        """The program that is kept under a name."""
        return go_back(self._bytes, name)

    def names(self) -> Tuple[Optional[str], ...]:
        """The name that each place holds, None where it is empty."""
        names = []
        for begin in range(0, STAGES_BYTES, PLACE_BYTES):
            place = bytes(self._bytes[begin : begin + PLACE_BYTES])
            name = place[:NAME_BYTES].split(b"\0")[0]
            try:
                # What the place holds where no other stands before it.
                go_back(place + bytes(STAGES_BYTES - PLACE_BYTES), name)
                held = name.decode("ascii")
                names.append(None if held in names else held)
            except Refused:
                names.append(None)
        return tuple(names)


def _within(name: str, number: int, least: int, most: int, error: type = IndexError) -> None:
    """Holds a number of the caller's to its range."""
    if isinstance(number, bool) or not isinstance(number, int):
        raise TypeError(f"{name}: the host program: expected a whole number, found {type(number).__name__}")
    if not least <= number <= most:
        raise error(f"{name}: the host program: expected {least} to {most}, found {number}")


def _numbers(name: str, numbers: Sequence[int], count: int, least: int, most: int) -> Tuple[int, ...]:
    """The caller's numbers, which must be so many and in the range."""
    numbers = tuple(numbers)
    if len(numbers) != count:
        raise ValueError(f"{name}: the host program: expected {count} numbers, found {len(numbers)}")
    for number in numbers:
        _within(name, number, least, most, ValueError)
    return numbers


def _words(name: str, numbers: Sequence[int], count: int) -> Tuple[int, ...]:
    """Values as words of 32 bits."""
    return tuple(number & 0xFFFFFFFF for number in _numbers(name, numbers, count, -(2**31), 2**32 - 1))


def _entries(prices: Optional[Prices]) -> Tuple[int, ...]:
    """The prices that are handed in, or ours."""
    prices = our_prices() if prices is None else prices
    if not isinstance(prices, Prices):
        raise TypeError(f"prices: the host program: expected Prices, found {type(prices).__name__}")
    return prices.entries


def _bytes(name: str, text: Text) -> bytes:
    """A text's bytes."""
    if isinstance(text, str):
        return text.encode("utf-8", "surrogatepass")
    if isinstance(text, (bytes, bytearray, memoryview)):
        return bytes(text)
    raise TypeError(f"{name}: the host program: expected str or bytes, found {type(text).__name__}")


def _array(kind: type, count: int, content: Sequence[int] = ()) -> ctypes.Array:
    return (kind * count)(*content)


def _signed(words: Sequence[int]) -> Tuple[int, ...]:
    return tuple(word - 2**32 if word >= 2**31 else word for word in words)


def _text(array: ctypes.Array, length: int) -> str:
    return bytes(array[:length]).decode("ascii")


def _table(words: ctypes.Array, parts: int) -> Table:
    return Table(tuple(words[: PART_WORDS * parts]))


def _taken(program: bytes) -> bool:
    """Whether a program is taken by itself."""
    try:
        list(program)
        return True
    except Refused:
        return False


def _call(name: str, *arguments) -> None:
    """Calls the library; raises Refused where it refuses."""
    function = getattr(_library(), "rewrites_" + ("return" if name == "go_back" else name))
    lent = [ctypes.byref(place) if isinstance(place, ctypes._SimpleCData) else place for place in arguments]
    number = function(*lent)
    if number:
        refusal = Refusal(number)
        of_review = name == "review" and refusal.argument == "condition"
        raise Refused(name, refusal, argument="conditions" if of_review else None)


_TEXT = [ctypes.c_char_p, ctypes.c_size_t]
_U8, _U32, _U64 = (ctypes.POINTER(kind) for kind in (ctypes.c_uint8, ctypes.c_uint32, ctypes.c_uint64))
_I32, _SIZE = ctypes.POINTER(ctypes.c_int32), ctypes.POINTER(ctypes.c_size_t)

# The parameters of each call, in the header's order.
_PARAMETERS = {
    "run": _TEXT + [_U32, ctypes.c_uint32, ctypes.c_uint32, _U32, _U32, _I32, _U32, _U32, _U32, _U32, _U64],
    "our_prices": [_U32],
    "prices": _TEXT + [_U32],
    "tabulate": _TEXT + _TEXT + [_U64, ctypes.c_size_t, _U32, _U32, _U32],
    "review": _TEXT + _TEXT + [_U64, ctypes.c_size_t, _U32, _U32, _U32, _U32, _U32, _U32],
    "witness": _TEXT + _TEXT + [ctypes.c_uint32, ctypes.c_uint32, _U32, ctypes.c_size_t, _U32, _U32, _U32],
    "force": _TEXT + _TEXT + _TEXT + [_U64, ctypes.c_size_t, _U32, _U32, _U32, _U32, _U8],
    "judge": _TEXT + _TEXT + [_U8, ctypes.c_size_t, _U8, ctypes.c_size_t, _U32, _U32, _U32],
    "why": _TEXT + _TEXT + [ctypes.c_uint32, _U32, ctypes.c_size_t, _U32, _U32, _U32],
    "report": _TEXT + _TEXT + [_U32, _U32, _U32, _U32, _U32, _U32, _I32],
    "mark_line": _TEXT + [ctypes.c_uint32, _SIZE, _SIZE],
    "list": _TEXT + [_U64, ctypes.c_size_t, _U32, _U32],
    "relist": _TEXT + _TEXT + [_U64, ctypes.c_size_t, _U32, _U32],
    "join": _TEXT + _TEXT + [_U8, ctypes.c_size_t, _U32, _U32],
    "keep": [_U8, ctypes.c_size_t] + _TEXT + _TEXT + [_U32],
    "return": _TEXT + _TEXT + [_U8, ctypes.c_size_t, _U32],
    "blame_program": _TEXT,
    "blame_marks": _TEXT,
    "blame_condition": _TEXT,
    "version": [],
}

# What a call returns where it is no refusal.
_RETURNED = {"our_prices": None, "blame_program": ctypes.c_uint32, "blame_marks": ctypes.c_uint32, "blame_condition": ctypes.c_uint32}
_RETURNED["version"] = ctypes.c_uint32


def library_path() -> pathlib.Path:
    """The shared object that is loaded."""
    told = os.environ.get("REWRITES_SO")
    if told:
        return pathlib.Path(told)
    here = pathlib.Path(__file__).resolve().parent
    beside = here / "librewrites.so"
    return beside if beside.exists() else here.parent / "target" / "python" / "librewrites.so"


def _version(number: int) -> str:
    """A version from its one number.

    >>> _version(100), _version(20103)
    ('0.1.0', '2.1.3')
    """
    return f"{number // 10000}.{number // 100 % 100}.{number % 100}"


def version() -> str:
    """The version of the library that is loaded, which is this file's: any other is refused at the first call.

    >>> version() == __version__
    True
    """
    return _version(_library().rewrites_version())


@functools.lru_cache(maxsize=None)
def _library() -> ctypes.CDLL:
    """The library, loaded once, with the parameters of its calls, and held to the sizes that this file lends."""
    path = library_path()
    if not path.is_file():
        raise LibraryError(f"{path}: the host program: expected the shared object that python/build makes, or REWRITES_SO with its path")
    try:
        library = ctypes.CDLL(str(path.resolve()))
        for name, parameters in _PARAMETERS.items():
            function = getattr(library, "rewrites_" + name)
            function.argtypes = parameters
            function.restype = _RETURNED.get(name, ctypes.c_uint8)
    except (OSError, AttributeError) as error:
        raise LibraryError(f"{path}: the host program: expected the shared object that python/build makes: {error}") from None
    major, minor, patch = map(int, __version__.split("."))
    if library.rewrites_version() != major * 10000 + minor * 100 + patch:
        raise LibraryError(f"{path}: the host program: expected a library of version {__version__}, found {_version(library.rewrites_version())}")
    # Calls fill arrays of fixed sizes, so a library of other sizes mustn't be called. An empty program is refused only where the words
    # are enough: that tells the numbers of statements and of variables.
    words, counts = _array(ctypes.c_uint64, LIST_WORDS), _array(ctypes.c_uint32, VARIABLES)
    number = ctypes.byref(ctypes.c_uint32())
    tables = [library.rewrites_tabulate(b"", 0, b"", 0, words, size, number, number, number) for size in (TABLE_WORDS - 1, TABLE_WORDS)]
    lists = [library.rewrites_list(b"", 0, words, size, counts, counts) for size in (LIST_WORDS - 1, LIST_WORDS)]
    if tables != [Refusal.BUFFER, Refusal.LINE_COUNT] or lists != tables:
        raise LibraryError(f"{path}: the host program: expected a library of {STATEMENTS:,} statements and {VARIABLES} variables")
    return library
