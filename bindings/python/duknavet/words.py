"""Refusals in words, as the Rust package has them: what is wrong, with the place translated into the thing that stands there.

Everything is counted from 0: bytes, positions, elements, letters, marks and transitions.
"""

from typing import Any, Optional, Sequence

KINDS = {
    1: "Truncated",
    2: "CountOutOfRange",
    3: "EntryOutOfRange",
    4: "TrailingBytes",
    5: "NotAssociative",
    6: "Unreachable",
    7: "NotLinked",
    8: "Duplicate",
    10: "UnknownLetter",
    11: "WordLength",
    12: "NotStrong",
    13: "BufferTooShort",
    14: "TooManyMatrices",
    15: "NameOutOfRange",
    16: "NameNeverKept",
    17: "NoSuchState",
    18: "LettersDiffer",
    19: "TooManyPairs",
    20: "LimitOutOfRange",
    21: "NameNotFree",
    22: "NameNotPresent",
    23: "TooManyClasses",
    24: "UnbalancedFormula",
}

#: What each refusal says in general.
MEANINGS = {
    1: "the bytes end inside a count or a section",
    2: "a count lies outside its range",
    3: "an entry, a grade or a monitor's value is out of its range",
    4: "bytes follow the last section",
    5: "the product is not associative",
    6: "an element is no word's value",
    7: "a marked pair is not linked",
    8: "a marked pair or a transition stands twice",
    10: "the rule does not have this letter",
    11: "a word has too many letters, or none where there must be one",
    12: "the rule is weak",
    13: "a lent buffer is too short",
    14: "the automaton has more than 64 matrices",
    15: "the name of a point is above 7",
    16: "the name was never kept",
    17: "there is no such state",
    18: "the rules have different numbers of letters",
    19: "the rules have more than 64 pairs of values",
    20: "the limit of rounds is above 64",
    21: "the name is above 7 or taken",
    22: "no rule is present under the name",
    23: "the rule would have more than 64 elements",
    24: "the formula's operations do not leave one rule",
}

WORD = 4224
LOG = 16777216
NONE = 64

#: What to do with a word that is longer than a lasso's may be.
LONGER = "; Monitor(rule) takes longer ones: feed(u), mark(), feed(v), verdict()"


def without_inputs(number: int, place: int) -> str:
    """What is wrong, as far as it can be said without the inputs."""
    if number == 5:
        a, b, c = place // 4096, place // 64 % 64, place % 64
        return f"({a}·{b})·{c} is not {a}·({b}·{c})"
    if number == 6:
        return f"element {place} is no word's value"
    return MEANINGS.get(number, "the call was refused")


def count(number: int, thing: str) -> str:
    return f"{number} {thing}" if number == 1 else f"{number} {thing}s"


def there_are(number: int, thing: str) -> str:
    return f"there {'is' if number == 1 else 'are'} {count(number, thing)}"


def too_many(number: int, last: str) -> str:
    return f"{count(number, 'byte')} too many {'follows' if number == 1 else 'follow'} the last {last}"


class Table:
    """The sections of a rule file as far as they can be told."""

    def __init__(self, file: bytes) -> None:
        self.file = file
        self.elements = file[0] if file else 0
        self.letters_at = 1 + self.elements**2
        self.letters = file[self.letters_at] if len(file) > self.letters_at else 0
        self.marks_at = self.letters_at + 1 + self.letters

    def product(self, a: int, b: int) -> int:
        return self.file[1 + a * self.elements + b]

    def images(self) -> Sequence[int]:
        return self.file[self.letters_at + 1 : self.marks_at]

    def whole(self) -> bytes:
        """The file without what stands behind its marks."""
        at = self.marks_at
        return self.file[: at + 2 + 3 * int.from_bytes(self.file[at : at + 2], "little")]


def _weak(which: str, rule: bytes) -> str:
    """That a rule is weak, with the two lassos that show it."""
    from .weakness import why_weak

    weakness = why_weak(rule)
    return f"{which} is weak" if weakness is None else f"{which} is weak: {weakness.in_words()}"


def _rule(number: int, place: int, file: bytes) -> Optional[str]:
    table = Table(file)
    if place >= table.marks_at and len(file) >= table.marks_at and number not in (5, 6):
        return _marks(number, place, file, table.marks_at, table)
    if number == 1:
        return _truncated_rule(len(file), table)
    if number == 2:
        if place == 0:
            return f"the file has {count(table.elements, 'element')}, not 1 to 64"
        return f"the file has {count(table.letters, 'letter')}, not 1 to 16"
    if number == 3:
        if place == 0:
            return "a value of the monitor is neither an element nor 64"
        there = there_are(table.elements, "element")
        if place > table.letters_at:
            return f"letter {place - table.letters_at - 1} stands for element {file[place]}, but {there}"
        a, b = divmod(place - 1, max(table.elements, 1))
        return f"{a}·{b} = {file[place]}, but {there}"
    if number == 5:
        a, b, c = place // 4096 % 64, place // 64 % 64, place % 64
        left = table.product(table.product(a, b), c)
        right = table.product(a, table.product(b, c))
        return f"({a}·{b})·{c} = {left} but {a}·({b}·{c}) = {right}"
    if number == 6:
        return f"element {place} is no word's value"
    return None


def _truncated_rule(length: int, table: Table) -> str:
    if length == 0:
        return "the file is empty"
    end = f"the file ends at byte {length}"
    if length < table.letters_at:
        return f"{end}, within the products: {length - 1} of {table.elements ** 2} are there"
    if length == table.letters_at:
        return f"{end}, before the count of the letters"
    return f"{end}, within the letters' elements: {length - table.letters_at - 1} of {table.letters} are there"


def _marks(number: int, place: int, file: bytes, at: int, table: Table) -> Optional[str]:
    """Of a marks section that begins at a byte."""
    end = f"the file ends at byte {len(file)}"
    if len(file) < at + 2:
        return f"{end}, {'before' if len(file) == at else 'within'} the count of the marks"
    marks = file[at] + 256 * file[at + 1]
    mark = max(place - at - 2, 0) // 3

    def triple(own: int) -> bytes:
        return file[at + 2 + 3 * own : at + 5 + 3 * own]

    if number == 1:
        return f"{end}, within the marks: {len(file) - at - 2} of {3 * marks} bytes are there"
    if number == 2:
        return f"there are {marks} marks, more than 4096"
    if number == 3:
        field = (place - at - 2) % 3
        if field == 2:
            return f"the grade of mark {mark} is {file[place]}, not 1 to 3"
        return f"{'se'[field]} of mark {mark} is {file[place]}, but {there_are(table.elements, 'element')}"
    if number == 4:
        return too_many(len(file) - place, "mark")
    s, e = triple(mark)[:2]
    if number == 7:
        square = table.product(e, e)
        why = f"{e}·{e} = {square}" if square != e else f"{s}·{e} = {table.product(s, e)}"
        return f"mark {mark}, the pair ({s}, {e}), is not linked: {why}"
    if number == 8:
        first = next(own for own in range(mark) if triple(own)[:2] == triple(mark)[:2])
        return f"mark {mark}, the pair ({s}, {e}), stood before as mark {first}, with grade {triple(first)[2]}"
    return None


def _automaton(number: int, place: int, file: bytes) -> Optional[str]:
    states = file[0] if file else 0
    letters_at = 1 + states
    letters = file[letters_at] if len(file) > letters_at else 0
    first = letters_at + 3
    transitions = file[letters_at + 1] + 256 * file[letters_at + 2] if len(file) >= first else None

    def triple(own: int) -> bytes:
        return file[first + 3 * own : first + 3 * own + 3]

    if number == 1:
        if not file:
            return "the file is empty"
        end = f"the file ends at byte {len(file)}"
        if len(file) < letters_at:
            return f"{end}, within the states' kinds: {len(file) - 1} of {states} are there"
        if len(file) == letters_at:
            return f"{end}, before the count of the letters"
        if transitions is None:
            return f"{end}, within the count of the transitions"
        return f"{end}, within the transitions: {len(file) - first} of {3 * transitions} bytes are there"
    if number == 2:
        if place == 0:
            return f"the file has {count(states, 'state')}, not 1 to 6"
        if place == letters_at:
            return f"the file has {count(letters, 'letter')}, not 1 to 16"
        return f"there are {transitions} transitions, more than 576"
    if number == 3:
        if place < first:
            return f"the kind of state {place - 1} is {file[place]}, not 0 to 3"
        transition, field = divmod(place - first, 3)
        if field == 1:
            return f"transition {transition} has letter {file[place]}, but {there_are(letters, 'letter')}"
        what = "leaves" if field == 0 else "goes to"
        return f"transition {transition} {what} state {file[place]}, but {there_are(states, 'state')}"
    if number == 4:
        return too_many(len(file) - place, "transition")
    if number == 8:
        later = (place - first) // 3
        earlier = next(own for own in range(later) if triple(own) == triple(later))
        start, letter, to = triple(later)
        return f"transition {later}, from {start} by letter {letter} to {to}, stood before as transition {earlier}"
    return None


def _pairs(first: Table, second: Table) -> int:
    """How many pairs of values words have in two rules."""
    images = list(zip(first.images(), second.images()))
    found, waiting = set(images), list(set(images))
    while waiting:
        a, b = waiting.pop()
        for c, d in images:
            product = first.product(a, c), second.product(b, d)
            if product not in found:
                found.add(product)
                waiting.append(product)
    return len(found)


def _two(name: str, number: int, input: int, place: int, first: bytes, second: bytes) -> Optional[str]:
    one, two = Table(first), Table(second)
    if number == 18:
        return f"the first rule has {count(one.letters, 'letter')}, but the second has {two.letters}"
    if number == 19:
        return f"words have {_pairs(one, two)} pairs of values in the two rules, more than 64"
    if number == 23:
        return "the rule of `until` would have more than 64 elements"
    which, file = ("the second rule", second) if input == 2 else ("the first rule", first)
    if number == 12:
        return _weak(which, file)
    words = _rule(number, place, file)
    return None if words is None else f"{which}: {words}"


def _lasso(number: int, input: int, place: int, rule: bytes, u: bytes, v: bytes) -> Optional[str]:
    which, word = ("v", v) if input == 2 else ("u", u)
    if number == 10:
        return f"letter {word[place]} at position {place} of {which}: the rule has {count(Table(rule).letters, 'letter')}"
    if number == 11:
        if not word:
            return f"{which} has no letter"
        return f"{which} has {len(word)} letters, more than {WORD}{LONGER}"
    return _rule(number, place, rule)


def _state(rule: bytes, s: int, e: int) -> str:
    table = Table(rule)
    there = there_are(table.elements, "element")
    if s != NONE and s >= table.elements:
        why = f"s is {s}, but {there}"
    elif e >= table.elements:
        why = f"e is {e}, but {there}"
    else:
        why = f"{e}·{e} = {table.product(e, e)}, so {e} is not idempotent"
    return f"({'none' if s == NONE else s}, {e}) is no state: {why}"


def _board(name: str, number: int, input: int, place: int, inputs: Sequence[Any]) -> Optional[str]:
    if number == 13:
        return None
    if number in (21, 22):
        why = "is taken" if number == 21 else "is that of no rule on the board"
        return f"the name {inputs[1]} {why if inputs[1] < 8 else 'is above 7'}"
    if name == "board_enter" and inputs[1] == input:
        who, file = f"entering as rule {input}", inputs[2]
    else:
        who, file = f"rule {input}", Table(inputs[-1].raw[16404 * input : 16404 * (input + 1)]).whole()
    if number == 12:
        return f"{who}: {_weak('the rule', file)}" if who.startswith("entering") else _weak(who, file)
    if number == 10:
        return f"letter {inputs[1]}: {who} has {count(Table(file).letters, 'letter')}"
    return f"{who}: {_rule(number, place, file) or without_inputs(number, place)}"


def _of_call(name: str, number: int, input: int, place: int, inputs: Sequence[Any]) -> Optional[str]:
    if name.startswith("board_"):
        return _board(name, number, input, place, inputs)
    if number in (13, 14):
        return None
    if name in ("first_letter", "constant"):
        letters, grade = inputs[0], inputs[2 if name == "first_letter" else 1]
        return {
            2: f"{letters} letters, not 1 to 16",
            3: f"the grade is {grade}, not 0 to 3",
            10: f"the set has letter {place}: the rule has {count(letters, 'letter')}",
        }.get(number)
    rule = inputs[0]
    if name == "automaton_rule":
        return _automaton(number, place, rule)
    if name in ("both", "either", "without", "until", "confirm"):
        return _two(name, number, input, place, rule, inputs[1])
    if name == "member":
        return _lasso(number, input, place, rule, inputs[1], inputs[2])
    if name == "included" and input == 2:
        return _marks(number, place, inputs[1], 0, Table(rule))
    if number == 12:
        return _weak("the rule", rule)
    letters = count(Table(rule).letters, "letter")
    if number == 10:
        letter = inputs[3]
        if name == "advance_word":
            return f"letter {letter[place]} at position {place} of the word: the rule has {letters}"
        return f"letter {letter}: the rule has {letters}"
    if number == 11:
        if name == "advance_word":
            return f"the word has {len(inputs[3])} letters, more than {LOG}"
        return "no event came since the last mark"
    if number in (15, 16):
        return f"the name {inputs[3]} {'is above 7' if number == 15 else 'was never kept'}"
    if number == 17:
        return _state(rule, inputs[1], inputs[2])
    if number == 20:
        return f"the limit of {inputs[1]} rounds is above 64"
    if number == 23:
        return "the rule of `next` would have more than 64 elements"
    if number == 3 and place == 0 and name == "state_kind":
        return f"the least grade is {inputs[3]}, not 1 to 3"
    return _rule(number, place, rule)


def explain(name: str, number: int, input: int, place: int, inputs: Sequence[Any]) -> str:
    """The words of a refusal of a call with these inputs."""
    return _of_call(name, number, input, place, inputs) or without_inputs(number, place)
