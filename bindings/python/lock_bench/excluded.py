"""Which conditions the theorems exclude: after no rows of any schedule do they hold.

A condition is taken apart into cases, each a list of comparisons that all hold. A case is excluded where what it says of standings, root, rooms and failures goes
against a claim that is proved of every state. A condition is excluded where each of its cases is; what is not seen to be excluded may still be impossible, and
a condition whose cases are too long to be gone through is not seen to be.
"""

from __future__ import annotations

from dataclasses import dataclass
from itertools import chain, islice, product
from math import prod
from typing import Final

from .condition import Comparison, Condition, Quantity
from .sheet import STANDINGS

#: The theorems, in words and by their places.
ALONE: Final = "no thread holds beside one that writes (laws, specs/Exclusion, Locks)"
WRITTEN: Final = "while a thread writes the root is (0, closed): a held lock is never shown free (laws, specs/Exclusion, Locks)"
READ: Final = "while a thread reads the root's count is above 0: a held lock is never shown free (laws, specs/Exclusion, Locks)"
COUNTED: Final = "where no thread is in a call, the root's count is above 0 exactly when someone reads (laws, specs/Exclusion, Locks)"
SHUT: Final = "where no thread is in a call, the root is (0, closed) exactly when someone writes (laws, specs/Exclusion, Locks)"
HELD: Final = "where no thread is in a call and someone sleeps, someone holds (laws, specs/Sleeping, Remembers)"
FREE: Final = "where all threads are idle the lock is as it was made (laws, specs/Sleeping, Remembers)"
BALANCED: Final = "no balance is below 0 (credit_model, specs/Claims, BalancedThroughout)"
FAILED: Final = "a thread alone never fails a swap (pair, specs/Demand, Demand3)"
PROGRESS: Final = "with one lock no state is stuck: from each, further rows free it (progress, specs/Progress, DeadlockFree)"

CONTRADICTION: Final = "it contradicts itself"

# The numbers that the claims speak of, threads of a standing aside.
_NUMBERS: Final = ("root", "root direct", "root tree", "node", "queue groups", "queue writers", "failures", "room")
# The most comparisons, in all cases of a condition together, that are gone through: `and` of n times `or` of two has 2 to the n cases.
_MOST_COMPARISONS: Final = 32_768
_INFINITE: Final = 1 << 30
_HOLDING: Final = frozenset(("reading", "writing"))


@dataclass(slots=True)
class _Range:
    """The numbers that a quantity can be."""

    least: int = 0
    most: int = _INFINITE

    def cut(self, sign: str, number: int) -> None:
        """Leaves those that compare so."""
        if sign in (">=", ">", "="):
            self.least = max(self.least, number + (sign == ">"))
        if sign in ("<=", "<", "="):
            self.most = min(self.most, number - (sign == "<"))
        # Of what is not so no more is used than that a number at the end of its range is not that number.
        if sign == "!=" and number == self.least:
            self.least += 1
        if sign == "!=" and number == self.most:
            self.most -= 1


class _Case:
    """What a case says of one lock, or of all that is not of a lock."""

    def __init__(self, threads: int, lock: int) -> None:
        self.threads = threads
        self.lock = lock
        self.standings = [frozenset(STANDINGS) for _ in range(threads)]
        self.counts: dict[frozenset[str], _Range] = {}
        self.numbers: dict[tuple[str, int | None], _Range] = {}

    def say(self, comparison: Comparison) -> None:
        """Takes a comparison with a number in; others say nothing here."""
        left, sign, right = comparison.left, comparison.sign, comparison.right
        if right.what != "number" or left.lock != self.lock:
            return
        number = right.number or 0
        if left.is_fact:
            truth = _truth(sign, number)
            if truth is not None:
                self._say_fact(left, truth)
        elif left.what == "threads":
            self.counts.setdefault(left.standings, _Range(0, self.threads)).cut(sign, number)
        elif left.what in _NUMBERS:
            least = -_INFINITE if left.what == "room" else 0
            self.numbers.setdefault((left.what, left.number if left.what in ("room", "node") else left.thread), _Range(least)).cut(sign, number)

    def _say_fact(self, fact: Quantity, truth: bool) -> None:
        match fact.what:
            case "standing":
                thread = fact.thread or 0
                # That a thread does not read by one node leaves open that it reads by another.
                if truth or fact.number is None:
                    self.standings[thread] &= fact.standings if truth else frozenset(STANDINGS) - fact.standings
            case "any":
                self.counts.setdefault(fact.standings, _Range(0, self.threads)).cut(">=" if truth else "=", 1 if truth else 0)
            case "all":
                self.counts.setdefault(fact.standings, _Range(0, self.threads)).cut("=" if truth else "<", self.threads)
            case "root open" | "root closed" | "mutex free" | "mutex taken":
                is_first = fact.what in ("root open", "mutex free")
                name = fact.what.split()[0] + " flag"
                self.numbers.setdefault((name, None), _Range(0, 1)).cut("=", int(truth == is_first))
            case "stuck":
                self.numbers.setdefault(("stuck", None), _Range(0, 1)).cut("=", int(truth))

    def number(self, what: str, of: int | None = None) -> _Range:
        """The range of a number, whole where nothing is said of it."""
        return self.numbers.get((what, of), _Range(0, 1 if what.endswith("flag") else _INFINITE))

    def least(self, standings: frozenset[str]) -> int:
        """How many threads at least have one of these standings."""
        sure = sum(own <= standings for own in self.standings)
        counted = [seen.least for named, seen in self.counts.items() if named <= standings]
        # Where at most so many have one of the others, the rest has one of these.
        rest = [self.threads - seen.most for named, seen in self.counts.items() if frozenset(STANDINGS) - named <= standings]
        return max(sure, *counted, *rest, 0)

    def most(self, standings: frozenset[str]) -> int:
        """How many threads at most have one of these standings."""
        return self.threads - self.least(frozenset(STANDINGS) - standings)

    def is_empty(self) -> bool:
        """Whether the case goes against itself."""
        ranges = [*self.counts.values(), *self.numbers.values()]
        return not all(self.standings) or any(one.least > one.most for one in ranges)

    def theorem(self) -> str | None:
        """The claim that this goes against, if there is one that is seen."""
        writing, reading = frozenset(("writing",)), frozenset(("reading",))
        writers, readers, holders = self.least(writing), self.least(reading), self.least(_HOLDING)
        if writers >= 2 or writers and (readers or holders >= 2):
            return ALONE
        root, direct, tree, opened = self.number("root"), self.number("root direct"), self.number("root tree"), self.number("root flag")
        above = root.least > 0 or direct.least > 0 or tree.least > 0
        at_zero = root.most <= 0 or direct.most <= 0 and tree.most <= 0
        if writers and (above or opened.least == 1):
            return WRITTEN
        if readers and at_zero:
            return READ
        if any(name == "room" and seen.most < 0 for (name, _), seen in self.numbers.items()):
            return BALANCED
        if self.threads == 1 and any(name == "failures" and seen.least > 0 for (name, _), seen in self.numbers.items()):
            return FAILED
        return self._theorem_at_rest(above, at_zero)

    def _theorem_at_rest(self, above: bool, at_zero: bool) -> str | None:
        """The same, of what is claimed where nobody is in a call."""
        if self.most(frozenset(("calling",))) > 0:
            return None
        opened = self.number("root flag")
        if self.least(frozenset(("idle",))) == self.threads:
            touched = any(seen.least > 0 for (name, _), seen in self.numbers.items() if name in ("node", "queue groups", "queue writers"))
            if above or touched or opened.most == 0 or self.number("mutex flag").most == 0:
                return FREE
        if above and self.most(frozenset(("reading",))) == 0:
            return COUNTED
        if at_zero and opened.most == 0 and self.most(frozenset(("writing",))) == 0:
            return SHUT
        if self.least(frozenset(("asleep",))) > 0 and self.most(_HOLDING) == 0:
            return HELD
        return None


def _truth(sign: str, number: int) -> bool | None:
    """What a comparison of a fact, which is 1 or 0, with a number says of it; None where that is nothing."""
    held = [value for value in (0, 1) if _compare(value, sign, number)]
    return bool(held[0]) if len(held) == 1 else None


def _compare(value: int, sign: str, number: int) -> bool:
    return {"=": value == number, "!=": value != number, "<": value < number, "<=": value <= number, ">": value > number, ">=": value >= number}[sign]


def cases(condition: Condition, most: int) -> list[tuple[Comparison, ...]]:
    """The first cases of a condition, so many at most: it holds where all comparisons of one of them do."""
    if isinstance(condition, Comparison):
        return [(condition,)]
    if condition.word == "or":
        return list(islice(chain.from_iterable(cases(part, most) for part in condition.parts), most))
    chosen = islice(product(*(cases(part, most) for part in condition.parts)), most)
    return [tuple(chain.from_iterable(case)) for case in chosen]


def _counted(condition: Condition) -> tuple[int, int]:
    """How many cases a condition has, and how many comparisons these have together."""
    if isinstance(condition, Comparison):
        return 1, 1
    counts = [_counted(part) for part in condition.parts]
    if condition.word == "or":
        return sum(count for count, _ in counts), sum(comparisons for _, comparisons in counts)
    count = prod(count for count, _ in counts)
    return count, sum(count // its * comparisons for its, comparisons in counts)


def excluding(condition: Condition, threads: int, two_locks: bool = True) -> list[str]:
    """The theorems that exclude a condition, of so many threads and of one lock or two; none where they do not, or where its cases are too long."""
    count, comparisons = _counted(condition)
    if comparisons > _MOST_COMPARISONS:
        return []
    found: list[str] = []
    for case in cases(condition, count):
        theorem = _excluding_case(case, threads, two_locks)
        if theorem is None:
            return []
        if theorem not in found:
            found.append(theorem)
    return found


def _excluding_case(comparisons: tuple[Comparison, ...], threads: int, two_locks: bool) -> str | None:
    for lock in (0, 1):
        case = _Case(threads, lock)
        for comparison in comparisons:
            case.say(comparison)
        if case.is_empty():
            return CONTRADICTION
        theorem = case.theorem()
        if theorem is not None:
            return theorem
        if not two_locks and case.number("stuck").least == 1:
            return PROGRESS
    return None
