"""Timing models and rule tables, over the verified library.

A model, a table and a script (a list of events) are bytes. Reading is total: any
bytes are accepted, or refused with a number and the part that it concerns.

    model = Model(Path("examples/lesson/model.bin").read_bytes())
    print(model.listing(script))
    print(model.table_size())
    table = model.table()
    variables = table.start()
    table.step(variables, activate(0))
    state = model.start()
    for offer in model.enabled(state).events:
        print(offer)
    print(model.start_test(state, 0, 2))

python/build makes the shared object; the variable FUTONKESTREL_SO names another.
"""

import ctypes
import os
from collections.abc import Callable, Iterator
from dataclasses import dataclass
from enum import IntEnum
from pathlib import Path
from typing import NamedTuple, Self

__all__ = [
    "Enabled",
    "LONGEST_MADE_TABLE",
    "MEANINGS",
    "MODEL_WORDS",
    "Meaning",
    "Model",
    "Offer",
    "Refusal",
    "Run",
    "STATE_WORDS",
    "Size",
    "StartStep",
    "State",
    "Table",
    "VARIABLES",
    "Variables",
    "activate",
    "complete",
    "deactivate",
    "deadline",
    "dispatch",
    "enter",
    "event_length",
    "events",
    "leave",
    "miss",
    "request",
    "start",
    "tick",
]

# How many variables a table has.
VARIABLES = 288
# No table made from a model is longer; some are as long.
LONGEST_MADE_TABLE = 174_485
# How many numbers a model takes once it is read, and a state of it.
MODEL_WORDS = 3865
STATE_WORDS = 278


class Meaning(NamedTuple):
    """What a refusal means, and what to do about it."""

    # What holds the part that is refused: "model", which stands for a table too, or "script".
    holder: str
    cause: str
    remedy: str


# All refusals, in the order of causes and not of numbers: the first bad record decides, and
# of several causes the one that stands first here.
MEANINGS: dict[int, Meaning] = {
    1: Meaning(
        "model",
        "a record's body runs past the end",
        "the file is cut, or a byte is missing before this record",
    ),
    2: Meaning(
        "model",
        "kind unknown or out of order, or no head",
        "put the records into their order; often a body before this one has the wrong length",
    ),
    3: Meaning(
        "model",
        "one item too many, or a table over 1,000,000 bytes",
        "leave items out until the limit is kept",
    ),
    14: Meaning(
        "model",
        "a field names an item, mode or variable that is not there",
        "name one that is there: all are numbered from 0, and an item stands before what names it",
    ),
    15: Meaning(
        "model",
        "a thread's Period, Deadline, Min or Max is out of bounds",
        "let Deadline be from 1 to Period, Min from 1 to Max, Period and Max at most 1,000,000",
    ),
    4: Meaning(
        "model",
        "a mask, tag, op or other field is outside its range",
        "change the field; a mask may hold only modes that are there",
    ),
    5: Meaning(
        "model",
        "a port or local of another thread",
        "let a behaviour read and write its own thread's ports and locals only",
    ),
    6: Meaning(
        "model",
        "an input port connected twice, or a target set twice in a transition",
        "remove one of the two",
    ),
    7: Meaning(
        "model",
        "the critical periods' common multiple is over 1,000,000,000",
        "let critical periods divide each other",
    ),
    8: Meaning(
        "model",
        "the output is shorter than the table",
        "give more room: 'futonkestrel size MODEL' tells how much, at most 174,485 bytes",
    ),
    9: Meaning(
        "script",
        "an event is cut or unknown, or TICK 0",
        "mend the script at this place",
    ),
    10: Meaning(
        "script",
        "the event is not enabled, names no item, or START's length lies outside Min and Max",
        "do first what is due, or wait until the clock is there",
    ),
    11: Meaning(
        "script",
        "TICK past the last clock, 1,000,000,000",
        "end the script here: the run is over",
    ),
    12: Meaning(
        "script",
        "two rules of a table are enabled",
        "change the table: its rules overlap, which those of a made table never do",
    ),
    13: Meaning(
        "script",
        "two updates of one variable",
        "change the table: a rule sets a variable twice, which those of a made table never do",
    ),
}

_BUILT = Path(__file__).parent.parent / "target" / "python" / "libfutonkestrel.so"


def _load() -> ctypes.CDLL:
    """The shared object with the types of its functions."""
    library = ctypes.CDLL(os.environ.get("FUTONKESTREL_SO", str(_BUILT)))
    size, number = ctypes.c_size_t, ctypes.c_uint32
    given = [ctypes.c_char_p, size]
    written = [ctypes.POINTER(ctypes.c_uint8), size]
    # Places for numbers, given or written.
    told = index = [ctypes.POINTER(size), size]
    variables = [ctypes.POINTER(ctypes.c_int32), size]
    words = [ctypes.POINTER(ctypes.c_uint32), size]
    for name, result, arguments in [
        ("fk_read_model", number, given + told),
        ("fk_read_table", number, given + told),
        ("fk_translate", number, given + written + told),
        ("fk_table_size", number, given + told),
        ("fk_model_listing", size, given + given + written),
        ("fk_table_listing", size, given + given + written),
        ("fk_run_model", number, given + given + told),
        ("fk_run_table", number, given + given + told),
        ("fk_event_length", size, given),
        ("fk_table_start", number, given + variables),
        ("fk_table_index", size, given + index),
        ("fk_table_step", number, given + index + variables + given),
        ("fk_table_enabled", number, given + index + variables + words + told),
        ("fk_model_after", number, given + given + given + variables),
        ("fk_start_test", number, given + given + [number, number] + told),
        ("fk_model_words", size, []),
        ("fk_state_words", size, []),
        ("fk_model_read", number, given + words + told),
        ("fk_model_start", number, words + words),
        ("fk_model_step", number, words + words + given),
        ("fk_model_variables", number, words + words + variables),
        ("fk_model_enabled", number, words + words + words + told),
        ("fk_model_start_test", number, words + words + [number, number] + told),
    ]:
        function = getattr(library, name)
        function.restype = result
        function.argtypes = arguments
    return library


_library = _load()


class Refusal(Exception):
    """A refusal by its number, and the part that it returns: bytes `start` up to,
    not including, `end` of what `holder` names, the model (or table) or the script."""

    def __init__(self, number: int, start: int, end: int) -> None:
        self.number = number
        self.start = start
        self.end = end
        self.holder, self.cause, self.remedy = MEANINGS[number]
        super().__init__(
            f"refused {number} at bytes {start} to {end}: {self.cause} ({self.remedy})"
        )


@dataclass(frozen=True)
class Run:
    """A run up to its end or to its first refused event."""

    # What stopped it.
    refusal: Refusal | None
    # The events taken before the refused one, or all.
    taken: int
    # The clock at the end.
    clock: int


@dataclass(frozen=True)
class Size:
    """The size of a table: its bytes, and its records of each kind but start records,
    which are in the bytes alone."""

    bytes: int
    rules: int
    clauses: int
    atoms: int
    updates: int


@dataclass(frozen=True)
class Offer:
    """An enabled event."""

    kind: int
    # The thread, or the mode transition of the kinds from 8 on.
    id: int
    # The shortest and the longest length of a START; 0 for other kinds.
    low: int
    high: int

    def event(self, length: int | None = None) -> bytes:
        """The event; a START has this length, or its shortest."""
        if self.kind == _START:
            return start(self.id, self.low if length is None else length)
        return bytes([self.kind, self.id])


@dataclass(frozen=True)
class Enabled:
    """What can happen next."""

    # The enabled events by kind, then by id.
    events: tuple[Offer, ...]
    # Whether a TICK may pass.
    tick: bool


class StartStep(IntEnum):
    """The first step that fails of the test for START, in the order in which it takes
    them. START is taken exactly at NONE, and refused with 10 otherwise."""

    NONE = 0
    # The thread is not there, its code is not 2, or its Due is Now.
    STATE = 1
    # The processor is held.
    PROCESSOR = 2
    # The source of a live immediate connection into the thread holds it back.
    CONNECTIONS = 3
    # The length is not in Min to Max.
    LENGTH = 4


class _Numbers:
    """Numbers that the library changes in place."""

    __slots__ = ("_values",)
    _sort: type = ctypes.c_uint32 * 0

    def __init__(self) -> None:
        self._values = self._sort()

    def __bytes__(self) -> bytes:
        """Equal for equal states: a key for those that were seen."""
        return bytes(self._values)

    def __eq__(self, other: object) -> bool:
        return type(self) is type(other) and bytes(self) == bytes(other)

    # They change from step to step: keep bytes(...) in sets.
    __hash__ = None  # type: ignore[assignment]

    def copy(self) -> Self:
        copied = type(self)()
        ctypes.memmove(copied._values, self._values, ctypes.sizeof(self._values))
        return copied


class Variables(_Numbers):
    """The state of a table. Variable 0 is the clock. Sums and differences that a step
    works out, in a model too, stop at the ends of 32 bits."""

    __slots__ = ()
    _sort = ctypes.c_int32 * VARIABLES

    def __getitem__(self, variable: int) -> int:
        return self._values[variable]

    def __setitem__(self, variable: int, value: int) -> None:
        self._values[variable] = value

    def __len__(self) -> int:
        return VARIABLES


class State(_Numbers):
    """The state of a model. Model.variables shows what it holds."""

    __slots__ = ()
    _sort = ctypes.c_uint32 * STATE_WORDS


_Places = ctypes.Array[ctypes.c_size_t]
_Words = ctypes.Array[ctypes.c_uint32]

# The kind of event that chooses a length, and the numbers listed for an event.
_START = 0x04
_PER_EVENT = 4


def _places(count: int) -> _Places:
    return (ctypes.c_size_t * count)()


def _words(count: int) -> _Words:
    return (ctypes.c_uint32 * count)()


def _enabled(listed: Callable[[_Words, _Places], int]) -> Enabled:
    """Asks with room for the usual, and again where more is told."""
    output, told = _words(32 * _PER_EVENT), _places(2)
    if listed(output, told):
        output = _words(told[0] * _PER_EVENT)
        listed(output, told)
    numbers = output[: told[0] * _PER_EVENT]
    fields = [numbers[place::_PER_EVENT] for place in range(_PER_EVENT)]
    return Enabled(tuple(map(Offer, *fields)), told[1] == 1)


def _run(number: int, told: _Places) -> Run:
    begin, end, taken, clock = told
    refusal = Refusal(number, begin, end) if number else None
    return Run(refusal, taken, clock)


def _listing(function: Callable[..., int], item: bytes, script: bytes) -> str:
    """Asks for the length of a listing, then for all of it."""
    length = function(item, len(item), script, len(script), None, 0)
    output = (ctypes.c_uint8 * length)()
    function(item, len(item), script, len(script), output, length)
    return bytes(output).decode("ascii")


def _number(value: int) -> int:
    """A number of 32 bits: of a longer one the library would get the low bits alone."""
    if not 0 <= value < 1 << 32:
        raise OverflowError(f"{value} is no number of 32 bits")
    return value


def _raise_unless_taken(number: int, event: bytes) -> None:
    if number:
        raise Refusal(number, 0, len(event))


class Model:
    """An accepted model, to be run as a whole, or event by event on states that the
    caller keeps."""

    def __init__(self, data: bytes) -> None:
        """Raises Refusal where the model is refused."""
        words, told = _words(MODEL_WORDS), _places(2)
        number = _library.fk_model_read(data, len(data), words, len(words), told, len(told))
        if number:
            raise Refusal(number, *told)
        self.data = data
        self._words = words

    def table(self) -> "Table":
        """The table made from it, which takes the same events."""
        output, told = (ctypes.c_uint8 * self.table_size().bytes)(), _places(2)
        number = _library.fk_translate(
            self.data, len(self.data), output, len(output), told, len(told)
        )
        if number:
            raise Refusal(number, *told)
        return Table(bytes(output))

    def table_size(self) -> Size:
        """How long that table is, without making it."""
        told = _places(7)
        _library.fk_table_size(self.data, len(self.data), told, len(told))
        return Size(*told[2:])

    def run(self, script: bytes) -> Run:
        """Runs a script up to the first refused event."""
        told = _places(4)
        number = _library.fk_run_model(
            self.data, len(self.data), script, len(script), told, len(told)
        )
        return _run(number, told)

    def listing(self, script: bytes) -> str:
        """The lines of such a run."""
        return _listing(_library.fk_model_listing, self.data, script)

    def start(self) -> State:
        """The state before any event."""
        state = State()
        _library.fk_model_start(self._words, MODEL_WORDS, state._values, STATE_WORDS)
        return state

    def answer(self, state: State, event: bytes) -> int:
        """Gives one event: 0, or the number of its refusal, which leaves the state as
        it was."""
        return _library.fk_model_step(
            self._words, MODEL_WORDS, state._values, STATE_WORDS, event, len(event)
        )

    def step(self, state: State, event: bytes) -> None:
        """The same, raising Refusal; its part is the event."""
        _raise_unless_taken(self.answer(state, event), event)

    def variables(self, state: State) -> Variables:
        """What the table's variables stand for in a state: Due of threads with a job in
        hand, End of those that run, and 0 there of all others."""
        variables = Variables()
        _library.fk_model_variables(
            self._words, MODEL_WORDS, state._values, STATE_WORDS, variables._values, VARIABLES
        )
        return variables

    def enabled(self, state: State) -> Enabled:
        """What is enabled; the table offers the same."""
        given = (self._words, MODEL_WORDS, state._values, STATE_WORDS)
        return _enabled(
            lambda output, told: _library.fk_model_enabled(
                *given, output, len(output), told, len(told)
            )
        )

    def start_test(self, state: State, thread: int, length: int) -> StartStep:
        """Tests START in a state. A thread may have any number: one that is not there
        fails at STATE."""
        told = _places(1)
        asked = _number(thread), _number(length)
        _library.fk_model_start_test(
            self._words, MODEL_WORDS, state._values, STATE_WORDS, *asked, told, len(told)
        )
        return StartStep(told[0])

    def start_test_after(self, script: bytes, thread: int, length: int) -> StartStep:
        """The same in the state that a script leaves, going on after refused events."""
        told = _places(3)
        asked = _number(thread), _number(length)
        _library.fk_start_test(
            self.data, len(self.data), script, len(script), *asked, told, len(told)
        )
        return StartStep(told[2])

    def after(self, script: bytes, event: bytes = b"") -> tuple[int, Variables]:
        """Runs a script, going on after refused events, then gives an event to the
        state left: its answer, and what the table's variables stand for afterwards
        (Due and End are 0). No event shows the state as it is, with answer 9."""
        variables = Variables()
        answer = _library.fk_model_after(
            self.data,
            len(self.data),
            script,
            len(script),
            event,
            len(event),
            variables._values,
            VARIABLES,
        )
        return answer, variables


class Table:
    """An accepted table, to be run event by event on variables that the caller keeps."""

    def __init__(self, data: bytes) -> None:
        """Raises Refusal where the table is refused."""
        told = _places(2)
        number = _library.fk_read_table(data, len(data), told, len(told))
        if number:
            raise Refusal(number, *told)
        self.data = data
        # Made once, so that no step walks the table.
        self._index = _places(_library.fk_table_index(data, len(data), None, 0))
        _library.fk_table_index(data, len(data), self._index, len(self._index))

    def start(self) -> Variables:
        """The variables before any event."""
        variables = Variables()
        _library.fk_table_start(self.data, len(self.data), variables._values, VARIABLES)
        return variables

    def answer(self, variables: Variables, event: bytes) -> int:
        """Gives one event: 0, or the number of its refusal, which leaves the variables
        as they were."""
        return _library.fk_table_step(
            self.data,
            len(self.data),
            self._index,
            len(self._index),
            variables._values,
            VARIABLES,
            event,
            len(event),
        )

    def step(self, variables: Variables, event: bytes) -> None:
        """The same, raising Refusal; its part is the event."""
        _raise_unless_taken(self.answer(variables, event), event)

    def enabled(self, variables: Variables) -> Enabled:
        """What is enabled. A table that no model made may offer a kind and id more than
        once; such an event is refused with 12."""
        given = (self.data, len(self.data), self._index, len(self._index))
        return _enabled(
            lambda output, told: _library.fk_table_enabled(
                *given, variables._values, VARIABLES, output, len(output), told, len(told)
            )
        )

    def run(self, script: bytes) -> Run:
        """Runs a script from the start up to the first refused event."""
        told = _places(4)
        number = _library.fk_run_table(
            self.data, len(self.data), script, len(script), told, len(told)
        )
        return _run(number, told)

    def listing(self, script: bytes) -> str:
        """The lines of such a run."""
        return _listing(_library.fk_table_listing, self.data, script)


def event_length(script: bytes) -> int:
    """The bytes of the event at the start of a script: a whole record, or the rest
    where it is cut or of unknown kind; 0 for an empty script."""
    return _library.fk_event_length(script, len(script))


def events(script: bytes) -> Iterator[bytes]:
    """The parts of a script, one for each event."""
    while script:
        length = event_length(script)
        yield script[:length]
        script = script[length:]


def activate(thread: int) -> bytes:
    return bytes([0x01, thread])


def deactivate(thread: int) -> bytes:
    return bytes([0x02, thread])


def dispatch(thread: int) -> bytes:
    return bytes([0x03, thread])


def start(thread: int, length: int) -> bytes:
    return bytes([0x04, thread]) + length.to_bytes(4, "little")


def complete(thread: int) -> bytes:
    return bytes([0x05, thread])


def deadline(thread: int) -> bytes:
    return bytes([0x06, thread])


def miss(thread: int) -> bytes:
    return bytes([0x07, thread])


def request(transition: int) -> bytes:
    return bytes([0x08, transition])


def enter(transition: int) -> bytes:
    return bytes([0x09, transition])


def leave(transition: int) -> bytes:
    return bytes([0x0A, transition])


def tick(ticks: int) -> bytes:
    return bytes([0x0B]) + ticks.to_bytes(2, "little")
