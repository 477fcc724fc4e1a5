"""Calls to Duknavet, a proved engine for rules over endless event sequences, through ctypes.

A rule, an automaton and a marks section are the bytes of their files, and words are bytes, one a letter; docs/FORMATS.md of the repository
has the files and every refusal. Lists of numbers do for bytes, and a Rule for its file. Every call takes any bytes: what is wrong with them
is raised as Refused, in words.

    >>> from duknavet import member, strong
    >>> w = bytes([2, 0, 0, 0, 1, 2, 0, 1, 1, 0, 0, 0, 3])
    >>> strong(w)
    True
    >>> member(w, u=bytes([1]), v=bytes([0]))
    Graded(grade=3, turns=1)

The shared object is the file that DUKNAVET_LIBRARY names, else libduknavet.so beside this module, else the one in target/staticlib of
the repository, where `build` puts it.
"""

import ctypes
import os
import zlib
from typing import Any, Callable, Iterable, List, NamedTuple, Optional, Tuple, Union

from . import words
from .inputs import Bytes
from .inputs import as_byte as _byte
from .inputs import as_bytes as _bytes
from .inputs import as_size as _size
from .saved import opened as _opened
from .saved import seal as _seal
from .words import KINDS, MEANINGS

__version__ = "0.2.0"

SCRATCH = 65536
RULE_OUT = 16404
CLASSES_OUT = 8192
U_OUT = 64
V_OUT = 4224
POINTS = 24
MAP_OUT = 64
BLOCKS = 64
SUCCESSORS_OUT = 65
BOARD_NAMES = 8
BOARD_STATE = 25
BOARD_FILES = 131232
UNTIL_CLASSES = 262144
FORMULA_STACK = 147636
#: The most letters that a word of events may have.
LOG = 16777216
#: The value of a monitor, and of a state's s, that stands for no letters.
NONE = 64
#: The kinds of states, as automaton files code them.
PLAIN, INITIAL, FINAL = 0, 1, 2

class Refused(Exception):
    """A refused call: the number of the first check that fails, the input that it lies in, and the place there.

    The input of a call on a board is the name, 0 to 7, of the rule that the refusal lies in, and 1 for 13, 21 and 22; of every other call
    it is 2 for a second marks section, a second rule and the word v, otherwise 1.
    """

    def __init__(self, number: int, input: int, place: int, said: Union[None, str, Callable[[], str]] = None) -> None:
        self.number = number
        self.kind = KINDS.get(number, "Refused")
        self.input = input
        self.place = place
        self._said = said
        super().__init__(number, input, place)

    @property
    def words(self) -> str:
        """What is wrong with the inputs, as the Rust package says it. It is worked out where it is asked for: why a rule is weak takes a search."""
        if callable(self._said):
            self._said = self._said()
        return self._said or words.without_inputs(self.number, self.place)

    def __reduce__(self) -> Tuple[Any, ...]:
        return Refused, (self.number, self.input, self.place, self.words)

    def __str__(self) -> str:
        return f"{self.words} (refusal {self.number}, input {self.input}, place {self.place})"


class Graded(NamedTuple):
    """A grade, 0 to 3, and the turns of the cycle."""

    grade: int
    turns: int


class Classes(NamedTuple):
    """For each pair (s, e), at s * n + e, the number of its least conjugate, None where it is not linked; and the counts."""

    least: List[Optional[int]]
    linked: int
    classes: int
    joins: int


class Reduction(NamedTuple):
    """The file of a reduction, and for each element of the given rule the element of the reduction that it went to."""

    rule: bytes
    map: bytes


class Rounds(NamedTuple):
    """The rounds done after round 0, whether one more would change nothing, and for each element the least of its block."""

    rounds: int
    finished: bool
    blocks: List[int]


class Mark(NamedTuple):
    """A marked pair and its grade, 1 to 3."""

    s: int
    e: int
    grade: int


class Rule(NamedTuple):
    """A rule taken apart. Whether it is one is said by the calls that get its bytes."""

    products: List[List[int]]
    images: List[int]
    marks: List[Mark]

    def to_bytes(self) -> bytes:
        """The bytes of its file. ValueError where a row has not as many products as there are rows, a mark has not three numbers, a number
        is no byte, or there are more than a count has room for."""
        for a, row in enumerate(self.products):
            if len(row) != len(self.products):
                raise ValueError(f"row {a} of the products has {len(row)}, but there are {len(self.products)} rows")
        for at, mark in enumerate(self.marks):
            if len(mark) != 3:
                raise ValueError(f"mark {at} has {len(mark)} numbers, not s, e and a grade")
        if len(self.products) > 255 or len(self.images) > 255:
            raise ValueError("too many elements or letters for a count of one byte")
        if len(self.marks) > 65535:
            raise ValueError("too many marks")
        file = bytes([len(self.products)])
        file += b"".join(_bytes(row, f"row {a} of the products") for a, row in enumerate(self.products))
        file += bytes([len(self.images)]) + _bytes(self.images, "the letters' elements")
        file += len(self.marks).to_bytes(2, "little")
        return file + b"".join(_bytes(mark, f"mark {at}") for at, mark in enumerate(self.marks))

    @staticmethod
    def from_bytes(file: Bytes) -> "Rule":
        """The rule of a file that passes every check."""
        file = _bytes(file, "a rule")
        strong(file)
        n = file[0]
        products = [list(file[1 + a * n : 1 + (a + 1) * n]) for a in range(n)]
        letters = 1 + n * n
        marks = letters + 1 + file[letters]
        triples = file[marks + 2 :]
        pairs = [Mark(*triples[at : at + 3]) for at in range(0, len(triples), 3)]
        return Rule(products, list(file[letters + 1 : marks]), pairs)


def _load() -> ctypes.CDLL:
    here = os.path.dirname(os.path.abspath(__file__))
    beside = os.path.join(here, "libduknavet.so")
    built = os.path.join(here, "..", "..", "..", "target", "staticlib", "libduknavet.so")
    found = beside if os.path.exists(beside) else built
    library = ctypes.CDLL(os.environ.get("DUKNAVET_LIBRARY", found))
    lent, size = [ctypes.c_char_p, ctypes.c_size_t], ctypes.c_size_t
    written = lent  # A buffer of ctypes is handed over as a pointer to its characters too.
    signatures = {
        "classes": lent + written + written,
        "strong": lent + written,
        "member": lent + lent + lent + written,
        "complement": lent + written + written,
        "included": lent + lent + written + written + written,
        "reduce": lent + written + written + written,
        "confirm": lent + lent + lent + written,
        "both": lent + lent + written + written,
        "either": lent + lent + written + written,
        "without": lent + lent + written + written,
        "first_letter": [size, size, size] + written,
        "constant": [size, size] + written,
        "next": lent + written + written,
        "until": lent + lent + written + written + written,
        "formula_rule": [size] + lent + written + written + written + written + written,
        "reduce_rounds": lent + [size] + written + written,
        "state_kind": lent + [size, size, ctypes.c_uint8] + written,
        "successors": lent + [size, size, ctypes.c_uint8] + written + written,
        "automaton_rule": lent + written + written,
        "fresh": [],
        "event": lent + [size, size, ctypes.c_uint8] + written,
        "mark": lent + [size, size] + written,
        "keep": lent + [size, size, size] + written + written,
        "return": lent + [size, size, size] + lent + written,
        "verdict": lent + [size, size] + written,
        "advance_event": lent + [size, size, ctypes.c_uint8] + written,
        "advance_mark": lent + [size, size] + written,
        "advance_stay": lent + [size, size] + written,
        "advance_word": lent + [size, size] + lent + written,
        "feed": lent + [size, size] + lent + written,
        "inspect": lent + written,
        "stretch": lent + lent + [size],
        "board_empty": written,
        "board_enter": written + [size] + lent + written + written,
        "board_leave": written + [size] + lent + written,
        "board_event": written + [ctypes.c_uint8] + lent + written,
        "board_mark": written + lent + written,
    }
    for name, arguments in signatures.items():
        function = getattr(library, f"duknavet_{name}")
        function.argtypes = arguments
        function.restype = ctypes.c_uint64
    return library


_library = _load()


def _call(name: str, *arguments: Any) -> Tuple[int, int, int]:
    """Calls a function, bytes and buffers with their lengths behind them and a scratch last; its three fields."""
    handed: List[Any] = []
    for argument in arguments:
        handed.append(argument)
        if not isinstance(argument, int):
            handed.append(len(argument))
    if name not in ("fresh", "board_empty", "first_letter", "constant", "stretch"):
        handed += [ctypes.create_string_buffer(SCRATCH), SCRATCH]
    answer = getattr(_library, f"duknavet_{name}")(*handed)
    if answer & 255:
        number, input, place = answer & 255, answer >> 8 & 255, answer >> 16

        def said() -> str:
            return words.explain(name, number, input, place, arguments)

        # A board may have other rules by the time that the words are asked for.
        raise Refused(number, input, place, said() if name.startswith("board_") else said)
    return answer >> 16 & 65535, answer >> 32 & 65535, answer >> 48


def strong(rule: Bytes) -> bool:
    """Whether the values of u and v decide a lasso's grade."""
    return _call("strong", _bytes(rule, "a rule"))[0] == 1


def member(rule: Bytes, u: Bytes, v: Bytes) -> Graded:
    """The grade of u, then v for ever, and the turns of v."""
    grade, turns, _ = _call("member", _bytes(rule, "a rule"), _bytes(u, "u"), _bytes(v, "v"))
    return Graded(grade, turns)


class Counts(NamedTuple):
    """How many elements, letters and marks a rule file has."""

    elements: int
    letters: int
    marks: int


def inspect(rule: Bytes) -> Counts:
    """The counts of a rule file that passes every check."""
    return Counts(*_call("inspect", _bytes(rule, "a rule")))


def stretch(u: Bytes, v: Bytes, position: int) -> bytes:
    """What is left to read of u, then v for ever, at a position: to the end of u, or of v. Empty where `member` refuses a length."""
    u, v = _bytes(u, "a word"), _bytes(v, "a word")
    word, start, letters = _call("stretch", u, v, _size(position, "a position"))
    return (u if word == 1 else v)[start : start + letters]


def classes(rule: Bytes) -> Classes:
    """The conjugacy classes of the rule's linked pairs."""
    rule, out = _bytes(rule, "a rule"), ctypes.create_string_buffer(CLASSES_OUT)
    counts = _call("classes", rule, out)
    numbers = [int.from_bytes(out.raw[at : at + 2], "little") for at in range(0, 2 * rule[0] ** 2, 2)]
    return Classes([None if number == 65535 else number for number in numbers], *counts)


def _written(name: str, *inputs: Any) -> bytes:
    out = ctypes.create_string_buffer(RULE_OUT)
    length, _, _ = _call(name, *inputs, out)
    return out.raw[:length]


def _two(first: Bytes, second: Bytes) -> Tuple[bytes, bytes]:
    return _bytes(first, "the first rule"), _bytes(second, "the second rule")


def complement(rule: Bytes) -> bytes:
    """The rule that gives each lasso 3 less the grade that a strong rule gives it."""
    return _written("complement", _bytes(rule, "a rule"))


def reduce(rule: Bytes) -> bytes:
    """The smallest strong rule that gives every lasso the grade that a strong rule gives it."""
    return reduce_with_map(rule).rule


def reduce_with_map(rule: Bytes) -> Reduction:
    """The same with the map: where each element of the rule went."""
    rule = _bytes(rule, "a rule")
    out, map = ctypes.create_string_buffer(RULE_OUT), ctypes.create_string_buffer(MAP_OUT)
    length, _, _ = _call("reduce", rule, out, map)
    return Reduction(out.raw[:length], map.raw[: rule[0]])


def confirm(first: Bytes, second: Bytes, map: Bytes) -> bool:
    """Whether the second rule is the first, a strong one, reduced: by the bytes that say for each element of the first where it went."""
    return _call("confirm", *_two(first, second), _bytes(map, "a map"))[0] == 1


def both(first: Bytes, second: Bytes) -> bytes:
    """The rule made of two strong ones over as many letters that gives each lasso the lower of its two grades."""
    return _written("both", *_two(first, second))


def either(first: Bytes, second: Bytes) -> bytes:
    """The rule made of two strong ones over as many letters that gives each lasso the higher of its two grades."""
    return _written("either", *_two(first, second))


def without(first: Bytes, second: Bytes) -> bytes:
    """The rule made of two strong ones over as many letters that gives each lasso the lower of its first grade and 3 less its second."""
    return _written("without", *_two(first, second))


def first_letter(letters: int, set: int, grade: int) -> bytes:
    """The smallest rule over so many letters that gives a lasso the grade where its first letter is in the set, else 0; letter a is in the set if
    set / 2**a is odd."""
    return _written("first_letter", _size(letters, "a number of letters"), _size(set, "a set"), _size(grade, "a grade"))


def constant(letters: int, grade: int) -> bytes:
    """The smallest rule over so many letters that gives every lasso the grade."""
    return _written("constant", _size(letters, "a number of letters"), _size(grade, "a grade"))


def next(rule: Bytes) -> bytes:
    """The rule that gives each lasso the grade that a strong rule gives to its endless word without the first letter."""
    return _written("next", _bytes(rule, "a rule"))


def until(first: Bytes, second: Bytes) -> bytes:
    """The rule of the first until the second, two strong ones over as many letters: the highest, over the places of a lasso's endless word, of the
    lowest of the second's grade from there on and the first's from each place before."""
    out, classes = ctypes.create_string_buffer(RULE_OUT), ctypes.create_string_buffer(UNTIL_CLASSES)
    length, _, _ = _call("until", *_two(first, second), out, classes)
    return out.raw[:length]


def formula_rule(letters: int, formula: Bytes) -> bytes:
    """The smallest rule, over so many letters, of a formula in postfix form: its operations one after the other, each a code with its operands."""
    buffers = [ctypes.create_string_buffer(size) for size in (RULE_OUT, FORMULA_STACK, RULE_OUT, UNTIL_CLASSES)]
    length, _, _ = _call("formula_rule", _size(letters, "a number of letters"), _bytes(formula, "a formula"), *buffers)
    return buffers[0].raw[:length]


def reduce_rounds(rule: Bytes, limit: int = 64) -> Rounds:
    """The reduction of a strong rule by rounds, at most so many after round 0; 64 always finish."""
    rule, out = _bytes(rule, "a rule"), ctypes.create_string_buffer(BLOCKS)
    rounds, finished, _ = _call("reduce_rounds", rule, _size(limit, "a limit"), out)
    return Rounds(rounds, finished == 1, list(out.raw[: rule[0]]))


def state_kind(rule: Bytes, s: int, e: int, least: int = 1) -> int:
    """The kind of the state (s, e) of the rule's automaton for a least grade: PLAIN, INITIAL or FINAL. s may be NONE."""
    return _call("state_kind", _bytes(rule, "a rule"), _size(s, "s"), _size(e, "e"), _byte(least, "a grade"))[0]


def successors(rule: Bytes, s: int, e: int, letter: int) -> List[int]:
    """The t of the states (t, e) that a letter leads to from (s, e), in rising order, NONE last."""
    out = ctypes.create_string_buffer(SUCCESSORS_OUT)
    count, _, _ = _call("successors", _bytes(rule, "a rule"), _size(s, "s"), _size(e, "e"), _byte(letter, "a letter"), out)
    return list(out.raw[:count])


def automaton_rule(automaton: Bytes) -> bytes:
    """The rule with grade 3 for the lassos that an automaton accepts, and 0 for the others."""
    return _written("automaton_rule", _bytes(automaton, "an automaton"))


def included(rule: Bytes, second: Bytes) -> Optional[Tuple[bytes, bytes]]:
    """A lasso (u, v) that the rule's own marks grade higher than the second marks section; None where there is none."""
    u, v = ctypes.create_string_buffer(U_OUT), ctypes.create_string_buffer(V_OUT)
    yes, letters_of_u, letters_of_v = _call("included", _bytes(rule, "a rule"), _bytes(second, "a marks section"), u, v)
    return None if yes else (u.raw[:letters_of_u], v.raw[:letters_of_v])


def _at(refused: Refused, word: bytes, place: int) -> str:
    """The words of a refused letter, with its place in the whole word."""
    if refused.number != 10:
        return refused.words
    return f"letter {word[place]} at position {place} of the word: {refused.words.split(': ', 1)[1]}"


class Monitor:
    """Follows events by a rule. It counts nothing; a refused call changes nothing. It can be copied, pickled, and saved as bytes."""

    def __init__(self, rule: Bytes) -> None:
        self.rule = _bytes(rule, "a rule")
        self.before, self.since, _ = _call("fresh")
        self._points = ctypes.create_string_buffer(POINTS)

    def save(self) -> bytes:
        """The monitor with its rule and what was kept, as bytes that from_saved takes."""
        return _seal("monitor", bytes([self.before, self.since]) + self._points.raw + self.rule)

    @staticmethod
    def from_saved(saved: Bytes) -> "Monitor":
        """The monitor that was saved. ValueError for other bytes, Refused where the rule or its values do not pass the checks."""
        held = _opened("monitor", _bytes(saved, "a saved monitor"))
        if len(held) < 2 + POINTS:
            raise ValueError("the saved monitor is damaged")
        monitor = Monitor(held[2 + POINTS :])
        monitor.before, monitor.since = held[0], held[1]
        # To keep in points of its own changes nothing here, and checks the rule and both values.
        _call("keep", monitor.rule, monitor.before, monitor.since, 0, ctypes.create_string_buffer(POINTS))
        monitor._points.raw = held[2 : 2 + POINTS]
        return monitor

    def __copy__(self) -> "Monitor":
        copied = Monitor(self.rule)
        copied.before, copied.since, copied._points.raw = self.before, self.since, self._points.raw
        return copied

    def __deepcopy__(self, memo: Any) -> "Monitor":
        return self.__copy__()

    def __reduce__(self) -> Tuple[Any, ...]:
        return Monitor.from_saved, (self.save(),)

    def feed(self, letters: Iterable[int]) -> None:
        """An event for each letter, however many there are. Where the rule lacks one of them nothing moves."""
        word = _bytes(letters, "a word")
        stood = self.before, self.since
        at = 0
        try:
            for at in range(0, max(len(word), 1), LOG):
                self._move("feed", word[at : at + LOG])
        except Refused as refused:
            self.before, self.since = stood
            place = at + refused.place if refused.number == 10 else refused.place
            raise Refused(refused.number, refused.input, place, _at(refused, word, place)) from None

    def _move(self, name: str, *arguments: Any) -> None:
        self.before, self.since, _ = _call(name, self.rule, self.before, self.since, *arguments)

    def event(self, letter: int) -> None:
        """A letter, 0 to 255."""
        self._move("event", _byte(letter, "a letter"))

    def mark(self) -> None:
        """What came since now counts as before."""
        self._move("mark")

    def keep(self, name: int) -> None:
        """Keeps this moment under a name, 0 to 7."""
        self._move("keep", _size(name, "a name"), self._points)

    def return_to(self, name: int) -> None:
        """Goes back to the moment that was kept under a name."""
        self._move("return", _size(name, "a name"), self._points)

    def verdict(self) -> Graded:
        """The grade if the events since the last mark come for ever, and the turns of that cycle."""
        grade, turns, _ = _call("verdict", self.rule, self.before, self.since)
        return Graded(grade, turns)

    def _advance(self, name: str, *arguments: Any) -> Optional[Graded]:
        self.before, self.since, third = _call(name, self.rule, self.before, self.since, *arguments)
        return None if self.since == NONE else Graded(third & 255, third >> 8)

    def advance_event(self, letter: int) -> Optional[Graded]:
        """A letter, 0 to 255, and the verdict then, from one check of the rule, which must be strong."""
        return self._advance("advance_event", _byte(letter, "a letter"))

    def advance_mark(self) -> Optional[Graded]:
        """A mark, by a strong rule. Nothing came since, so that there is no verdict."""
        return self._advance("advance_mark")

    def advance_stay(self) -> Optional[Graded]:
        """The verdict, None where nothing came since the last mark."""
        return self._advance("advance_stay")

    def advance_word(self, word: Bytes) -> Optional[Graded]:
        """An event for each letter of a word of at most LOG, and the verdict then. Where the rule lacks one of them nothing moves."""
        return self._advance("advance_word", _bytes(word, "a word"))


class Board:
    """Up to eight strong rules that enter and leave while events go on, each with a monitor of its own; a refused call changes nothing.
    It can be copied, pickled, and saved as bytes."""

    def __init__(self) -> None:
        self._state = ctypes.create_string_buffer(BOARD_STATE)
        self._files = ctypes.create_string_buffer(BOARD_FILES)
        _call("board_empty", self._state)

    def save(self) -> bytes:
        """The board with its rules, as bytes that from_saved takes."""
        return _seal("board", self._state.raw + zlib.compress(self._files.raw))

    @staticmethod
    def from_saved(saved: Bytes) -> "Board":
        """The board that was saved. ValueError for other bytes, Refused where a rule or its values do not pass the checks."""
        held = _opened("board", _bytes(saved, "a saved board"))
        files = zlib.decompressobj().decompress(held[BOARD_STATE:], BOARD_FILES)
        if len(files) != BOARD_FILES:
            raise ValueError("the saved board is damaged")
        board = Board()
        board._state.raw, board._files.raw = held[:BOARD_STATE], files
        # A mark on a copy changes nothing here, and checks every rule that is present.
        board.__copy__().mark()
        return board

    def __copy__(self) -> "Board":
        copied = Board()
        copied._state.raw, copied._files.raw = self._state.raw, self._files.raw
        return copied

    def __deepcopy__(self, memo: Any) -> "Board":
        return self.__copy__()

    def __reduce__(self) -> Tuple[Any, ...]:
        return Board.from_saved, (self.save(),)

    @property
    def lowest(self) -> Optional[int]:
        """The lowest grade among the rules that heard an event since their last mark, None if there is no such rule."""
        lowest = self._state.raw[BOARD_STATE - 1]
        return None if lowest > 3 else lowest

    @property
    def names(self) -> List[int]:
        """The names under which a rule is present."""
        return [name for name in range(BOARD_NAMES) if self._state.raw[3 * name] != 0]

    def enter(self, name: int, file: Bytes) -> None:
        """A rule enters under a free name, 0 to 7, and has heard nothing."""
        _call("board_enter", self._state, _size(name, "a name"), _bytes(file, "a rule"), self._files)

    def leave(self, name: int) -> None:
        """The rule under a name leaves."""
        _call("board_leave", self._state, _size(name, "a name"), self._files)

    def event(self, letter: int) -> None:
        """A letter, 0 to 255, for all that are present."""
        _call("board_event", self._state, _byte(letter, "a letter"), self._files)

    def mark(self) -> None:
        """A mark for all that are present."""
        _call("board_mark", self._state, self._files)
