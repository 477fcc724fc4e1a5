"""Why a rule is weak: two lassos with equal values and different grades, found as the Rust package finds them.

A rule is weak exactly if its marks, closed under conjugacy, grade some lasso higher than as they stand; `included` finds one. A writing of
that lasso has the values of a linked pair (s, e) which some marked pair with the higher grade is conjugate to: s·x = t, x·y = e, y·x = f.
With words P, X and Y for s, x and y the lasso P, then X Y for ever has the values (s, e) too, and the higher grade.
"""

from typing import Callable, Dict, List, NamedTuple, Optional, Tuple

from .words import WORD, Table

Lasso = Tuple[bytes, bytes]


class Weakness(NamedTuple):
    """The values of both starts and of both cycles; the lassos with the higher and the lower grade, and the grades."""

    start: int
    cycle: int
    higher: Tuple[Lasso, int]
    lower: Tuple[Lasso, int]

    def in_words(self) -> str:
        def shown(graded: Tuple[Lasso, int]) -> str:
            (u, v), grade = graded
            letters = [" ".join(["u:", *map(str, u)]), " ".join(["v:", *map(str, v)])]
            return f"{'  '.join(letters)} has grade {grade}"

        return f"{shown(self.higher)}, but {shown(self.lower)}, both with the values {self.start} and {self.cycle}"


def _shortened(lasso: Lasso, shows: Callable[[Lasso], bool]) -> Lasso:
    """The lasso with letters left out, first many together: of what is left none can be left out alone."""

    def without(own: Lasso, first: int, last: int) -> Lasso:
        u, v = own
        behind = len(u)
        kept = [(at, letter) for at, letter in enumerate(u + v) if not first <= at < last]
        return bytes(letter for at, letter in kept if at < behind), bytes(letter for at, letter in kept if at >= behind)

    together = (len(lasso[0]) + len(lasso[1]) + 1) // 2
    while together > 0:
        place, changed = 0, False
        while place < len(lasso[0]) + len(lasso[1]):
            shorter = without(lasso, place, place + together)
            if shorter[1] and shows(shorter):
                lasso, changed = shorter, True
            else:
                place += together
        # A letter left out late may let an earlier one be left out too.
        if together > 1 or not changed:
            together //= 2
    return lasso


class _Search:
    def __init__(self, rule: bytes) -> None:
        self.rule = rule
        self.table = Table(rule)
        triples = rule[self.table.marks_at + 2 :]
        self.marks: Dict[Tuple[int, int], int] = {}
        for at in range(0, len(triples), 3):
            self.marks[triples[at], triples[at + 1]] = triples[at + 2]

    def value(self, word: bytes) -> Optional[int]:
        images = self.table.images()
        value = None
        for letter in word:
            value = images[letter] if value is None else self.table.product(value, images[letter])
        return value

    def first_words(self) -> Dict[int, bytes]:
        images = list(enumerate(self.table.images()))
        words: Dict[int, bytes] = {}
        waiting: List[int] = []

        def note(value: int, word: bytes) -> None:
            if value not in words:
                words[value] = word
                waiting.append(value)

        for letter, image in images:
            note(image, bytes([letter]))
        for value in waiting:
            for letter, image in images:
                note(self.table.product(value, image), words[value] + bytes([letter]))
        return words

    def closed(self) -> Dict[Tuple[int, int], int]:
        """Every linked pair whose class has a mark, with the highest grade of its class."""
        from . import classes

        n, least = self.table.elements, classes(self.rule).least
        highest: Dict[Optional[int], int] = {}
        for (s, e), grade in self.marks.items():
            own = least[s * n + e]
            highest[own] = max(grade, highest.get(own, 0))
        pairs = [(s, e) for s in range(n) for e in range(n)]
        return {(s, e): highest[least[s * n + e]] for s, e in pairs if least[s * n + e] is not None and least[s * n + e] in highest}

    def idempotent_power(self, word: bytes) -> Tuple[int, int]:
        value = self.value(word)
        assert value is not None
        power, exponent = value, 1
        while self.table.product(power, power) != power:
            power, exponent = self.table.product(power, value), exponent + 1
        return power, exponent

    def conjugate_lasso(self, words: Dict[int, bytes], s: int, e: int, least: int) -> Optional[Lasso]:
        """The shortest lasso of first words with the values (s, e) that also has those of a marked pair of the higher grade."""
        product, best = self.table.product, None
        for x in range(self.table.elements):
            for y in range(self.table.elements):
                if product(x, y) == e and self.marks.get((product(s, x), product(y, x)), 0) >= least:
                    lasso = words[s], words[x] + words[y]
                    if best is None or len(lasso[0]) + len(lasso[1]) < len(best[0]) + len(best[1]):
                        best = lasso
        return best


def why_weak(rule: bytes) -> Optional[Weakness]:
    """Two lassos that show that a rule is weak; None where it is strong, and where they would need more letters than `member` takes."""
    from . import included, member

    search = _Search(rule)
    closed = search.closed()
    triples = b"".join(bytes([s, e, grade]) for (s, e), grade in closed.items())
    marks_at = search.table.marks_at
    closed_rule = rule[:marks_at] + len(closed).to_bytes(2, "little") + triples
    found = included(closed_rule, rule[marks_at:])
    if found is None:
        return None

    def grades(lasso: Lasso) -> Tuple[int, int]:
        return member(closed_rule, *lasso).grade, member(rule, *lasso).grade

    def shows(lasso: Lasso) -> bool:
        by_closure, own = grades(lasso)
        return by_closure > own

    u, v = _shortened(found, shows)
    by_closure, own = grades((u, v))
    words = search.first_words()
    for turns in range(2 * search.table.elements + 1):
        for cut in range(len(v)):
            start, rotated = u + v * turns + v[:cut], v[cut:] + v[:cut]
            e, times = search.idempotent_power(rotated)
            if len(start) > WORD or times * len(rotated) > WORD:
                continue
            s = search.value(start)
            if s is None or search.table.product(s, e) != s or closed.get((s, e), 0) < by_closure:
                continue
            higher, lower = search.conjugate_lasso(words, s, e, by_closure), (start, rotated * times)
            if higher is None or len(higher[1]) > WORD:
                continue
            grade, again = member(rule, *higher).grade, member(rule, *lower).grade
            if grade > again == own and search.value(higher[0]) == s and search.value(higher[1]) == e:
                return Weakness(s, e, (higher, grade), (lower, again))
    return None
