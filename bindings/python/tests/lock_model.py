"""One lock as documents 01 and 02 tell it, written apart from the library, for breadth-first counts of its states and of the rows that lead to some.

A thread is a tuple: the name of its next row, and what it remembers. The root is (direct, tree, closed); a node is a count.
"""

from __future__ import annotations

from collections.abc import Callable, Iterator
from typing import Any, NamedTuple

Thread = tuple[Any, ...]
Root = tuple[int, int, bool]

FREE: Root = (0, 0, False)
SHUT: Root = (0, 0, True)

BEGUN, READ, SWAPPED, FAILED, HELD_UP, STORED, TOOK, RELEASED, QUEUE, WOKE, DENIED = range(11)


class Lock(NamedTuple):
    """A state of the lock, failed swaps aside."""

    root: Root
    nodes: tuple[int, ...]
    mutex: int | None
    readers: frozenset[int]
    writers: tuple[int, ...]
    threads: tuple[Thread, ...]

    def standing(self, thread: int) -> str:
        """What a sheet calls the thread's standing."""
        name = str(self.threads[thread][0])
        return name if name in ("idle", "reading", "writing", "asleep") else "calling"

    def standings(self) -> list[str]:
        return [self.standing(thread) for thread in range(len(self.threads))]

    @property
    def groups(self) -> int:
        return len(self.writers) + bool(self.readers)


class Step(NamedTuple):
    """A row that is taken: the thread, its order, the kind of its entry, the word (0 the root), the states before and after it, and the call's order."""

    thread: int
    order: int
    kind: int
    word: int | None
    before: Lock
    after: Lock


def fresh(nodes: int, threads: int) -> Lock:
    return Lock(FREE, (0,) * (nodes - 1), None, frozenset(), (), (("idle",),) * threads)


class Model:
    """The rows of a lock with fan-out F."""

    def __init__(self, nodes: int, fan: int, threads: int) -> None:
        self.nodes, self.fan, self.threads = nodes, fan, threads

    def steps(self, lock: Lock) -> Iterator[Step]:
        """Every row that is taken in a state."""
        for thread in range(self.threads):
            me = lock.threads[thread]
            for order, begun in self._begun(me):
                yield Step(thread, order, BEGUN, None, lock, _goes(lock, thread, begun))
            if me[0] not in ("idle", "reading", "writing"):
                after, kind, word = self._go(lock, thread, me)
                yield Step(thread, 0, kind, word, lock, after)

    def _begun(self, me: Thread) -> Iterator[tuple[int, Thread]]:
        if me[0] == "idle":
            yield 1, ("write look",)
            for node in range(self.nodes):
                yield 64 + node, ("look", node)
        elif me[0] == "reading":
            yield 2, ("leave",) if me[1] == 0 else ("depart", me[1], ("leaving",))
            yield 3, ("upgrade look",) if me[1] == 0 else ("trade", me[1])
        elif me[0] == "writing":
            yield 2, ("unlock take",)
            yield 4, ("downgrade take",)

    def _parent(self, node: int) -> int:
        return (node - 1) // self.fan

    def _toward(self, node: int, above: int) -> int:
        """The node below one on the way to another."""
        while self._parent(node) != above:
            node = self._parent(node)
        return node

    def _go(self, lock: Lock, thread: int, me: Thread) -> tuple[Lock, int, int | None]:
        name, *kept = me
        match name:
            case "asleep":
                return lock, HELD_UP, None
            # Reads of words.
            case "look" | "climb" | "depart" | "leave" | "queue read" | "write look" | "write read" | "trade" | "upgrade look":
                word = kept[0] if name in ("climb", "depart") else 0
                after = _goes(lock, thread, self._found(me, _word(lock, word)))
                return after, DENIED if name == "upgrade look" and after.threads[thread][0] == "reading" else READ, word
            # Swaps of words.
            case "enter" | "climb swap" | "descend" | "again swap" | "depart swap" | "leave swap" | "write enter" | "write close" | "trade swap" | "upgrade swap":
                return self._swap(lock, thread, me)
            # The mutex.
            case "queue take" | "write take" | "unlock take" | "last take" | "downgrade take":
                if lock.mutex is not None:
                    return lock, HELD_UP, None
                after_take = {"queue take": "queue read", "write take": "write read", "unlock take": "unlock next", "last take": "last next", "downgrade take": "downgrade next"}
                return _goes(lock._replace(mutex=thread), thread, (after_take[name], *kept)), TOOK, None
            case "queue back":
                return _released(lock, thread, ("look", kept[0]))
            case "sleep":
                return _released(lock, thread, ("asleep",))
            case "write hold":
                return _released(lock, thread, ("writing",))
            case "unlock end":
                return _released(lock, thread, ("idle",))
            case "hand release":
                return _released(lock, thread, ("hand wake", *kept))
            case "downgrade release":
                return _released(lock, thread, ("downgrade wake", *kept) if kept[0] else ("reading", 0))
            # The queue.
            case "queue join":
                return _goes(lock._replace(readers=lock.readers | {thread}), thread, ("sleep",)), QUEUE, None
            case "write join":
                return _goes(lock._replace(writers=(*lock.writers, thread)), thread, ("sleep",)), QUEUE, None
            case "unlock next" | "last next":
                return self._next(lock, thread, name == "last next")
            case "downgrade next":
                return _goes(lock._replace(readers=frozenset()), thread, ("downgrade store", lock.readers)), QUEUE, None
            # Stores of the root.
            case "unlock open":
                return _goes(lock._replace(root=FREE), thread, ("unlock end",)), STORED, 0
            case "unlock store":
                return _goes(lock._replace(root=(len(kept[0]), 0, bool(lock.writers))), thread, ("hand release", False, kept[0])), STORED, 0
            case "downgrade store":
                return _goes(lock._replace(root=(1 + len(kept[0]), 0, bool(lock.writers))), thread, ("downgrade release", kept[0])), STORED, 0
            # Waking.
            case "hand wake":
                return _goes(_woken(lock, kept[1], ("writing",) if kept[0] else ("reading", 0)), thread, ("idle",)), WOKE, None
            case "downgrade wake":
                return _goes(_woken(lock, kept[0], ("reading", 0)), thread, ("reading", 0)), WOKE, None
        raise AssertionError(name)

    def _found(self, me: Thread, value: Any) -> Thread:
        """What follows a read that found this."""
        name, *kept = me
        match name:
            case "look":
                return ("queue take", *kept) if value[2] else ("enter", value) if kept[0] == 0 else ("climb", kept[0], kept[0])
            case "climb":
                node, route = kept
                if node == 0:
                    return ("queue take", route) if value == SHUT else ("climb swap", node, route, value)
                return ("climb", self._parent(node), route) if value == 0 else ("climb swap", node, route, value)
            case "again":
                return ("again swap", *kept, value)
            case "depart":
                return ("depart swap", *kept, value)
            case "leave":
                return ("leave swap", value)
            case "queue read":
                return ("queue join",) if value[2] else ("queue back", *kept)
            case "write look":
                return ("write enter",) if value == FREE else ("write take",)
            case "write read":
                return ("write join",) if value[2] else ("write close", value)
            case "trade":
                return ("trade swap", *kept, value)
            case "upgrade look":
                return ("upgrade swap", value) if value[:2] == (1, 0) else ("reading", 0)
        raise AssertionError(name)

    def _swap(self, lock: Lock, thread: int, me: Thread) -> tuple[Lock, int, int | None]:
        name, *kept = me
        word = kept[0] if name in ("climb swap", "descend", "again swap", "depart swap") else 0
        expected = {"descend": 0, "write enter": FREE}.get(name, kept[-1] if kept else None)
        if _word(lock, word) != expected:
            back = {"enter": ("look", 0), "climb swap": ("climb", *kept[:2]), "descend": ("again", *kept), "again swap": ("again", *kept[:2]), "depart swap": ("depart", *kept[:2]), "leave swap": ("leave",),
                    "write enter": ("write look",), "write close": ("write read",), "trade swap": ("trade", *kept[:1]), "upgrade swap": ("upgrade look",)}[name]  # fmt: skip
            return _goes(lock, thread, self._found(back, _word(lock, word))), FAILED, word
        new, then = self._swapped(name, kept, expected)
        return _goes(_with(lock, word, new), thread, then), SWAPPED, word

    def _swapped(self, name: str, kept: list[Any], value: Any) -> tuple[Any, Thread]:
        """What a swap writes, and what follows it."""
        match name:
            case "enter":
                return (value[0] + 1, *value[1:]), ("reading", 0)
            case "climb swap":
                return _more(value, 1), self._arrived(kept[0], kept[1])
            case "descend":
                return 1, self._arrived(*kept)
            case "again swap":
                node, route = kept[:2]
                then = self._arrived(node, route) if value == 0 else ("depart", self._parent(node), ("inside", route, node))
                return value + 1, then
            case "depart swap":
                node, after = kept[:2]
                new = _more(value, -1)
                if node == 0:
                    return new, self._ended(after, new == SHUT)
                return new, ("depart", self._parent(node), after) if new == 0 else self._ended(after, False)
            case "leave swap":
                left = (value[0] - 1, *value[1:])
                return left, self._ended(("leaving",), left == SHUT)
            case "write enter":
                return SHUT, ("writing",)
            case "write close":
                return (*value[:2], True), ("write hold",) if value[:2] == (0, 0) else ("write join",)
            case "trade swap":
                return (value[0] + 1, *value[1:]), ("depart", kept[0], ("upgrading",))
            case "upgrade swap":
                return SHUT, ("writing",)
        raise AssertionError(name)

    def _arrived(self, node: int, route: int) -> Thread:
        return ("reading", route) if node == route else ("descend", self._toward(route, node), route)

    def _ended(self, after: Thread, last: bool) -> Thread:
        match after:
            case ("leaving",):
                return ("last take",) if last else ("idle",)
            case ("upgrading",):
                return ("upgrade look",)
        return self._arrived(after[2], after[1])

    def _next(self, lock: Lock, thread: int, last: bool) -> tuple[Lock, int, int | None]:
        """Readers hand over to the writer who waited longest, writers to the readers; else to who there is."""
        if lock.writers and (last or not lock.readers):
            first, *rest = lock.writers
            return _goes(lock._replace(writers=tuple(rest)), thread, ("hand release", True, frozenset({first}))), QUEUE, None
        if lock.readers:
            return _goes(lock._replace(readers=frozenset()), thread, ("unlock store", lock.readers)), QUEUE, None
        return _goes(lock, thread, ("unlock open",)), QUEUE, None


def _word(lock: Lock, word: int) -> Any:
    return lock.root if word == 0 else lock.nodes[word - 1]


def _with(lock: Lock, word: int, value: Any) -> Lock:
    return lock._replace(root=value) if word == 0 else lock._replace(nodes=(*lock.nodes[: word - 1], value, *lock.nodes[word:]))


def _more(value: Any, by: int) -> Any:
    """A word with an arrival from a node, or a thread by a node, more or less."""
    return value + by if isinstance(value, int) else (value[0], value[1] + by, value[2])


def _goes(lock: Lock, thread: int, then: Thread) -> Lock:
    return lock._replace(threads=(*lock.threads[:thread], then, *lock.threads[thread + 1 :]))


def _released(lock: Lock, thread: int, then: Thread) -> tuple[Lock, int, None]:
    return _goes(lock._replace(mutex=None), thread, then), RELEASED, None


def _woken(lock: Lock, group: frozenset[int], then: Thread) -> Lock:
    return lock._replace(threads=tuple(then if thread in group else old for thread, old in enumerate(lock.threads)))


def levels(model: Model) -> Iterator[list[Lock]]:
    """The states that 0, 1, .. rows lead to and fewer do not, breadth first."""
    level, seen = [fresh(model.nodes, model.threads)], {fresh(model.nodes, model.threads)}
    while level:
        yield level
        after: list[Lock] = []
        for lock in level:
            for step in model.steps(lock):
                if step.after not in seen:
                    seen.add(step.after)
                    after.append(step.after)
        level = after


def fewest_rows(model: Model, holds: Callable[[Lock], bool], *events: Callable[[Step], bool]) -> int | None:
    """The fewest rows after which a state is so and each of some events has been; None where no rows lead there."""
    start = fresh(model.nodes, model.threads), (False,) * len(events)
    level, seen, rows = [start], {start}, 0
    while level:
        if any(all(been) and holds(lock) for lock, been in level):
            return rows
        after = []
        for lock, been in level:
            for step in model.steps(lock):
                new = step.after, tuple(old or event(step) for old, event in zip(been, events))
                if new not in seen:
                    seen.add(new)
                    after.append(new)
        level, rows = after, rows + 1
    return None


class Pair(NamedTuple):
    """A state of two locks over one set of threads."""

    one: Lock
    two: Lock

    def is_stuck(self, model: Model) -> bool:
        """Whether every row that is taken is held up."""
        return all(step.kind == HELD_UP for step, _ in pair_steps(model, self))


def pair_steps(model: Model, pair: Pair, ordered: bool = False) -> Iterator[tuple[Step, Pair]]:
    """Every row that is taken, at either lock: a thread begins a call where it is in none, and in lock order asks for the first lock where it is idle at the
    second."""
    for step in model.steps(pair.one):
        elsewhere = pair.two.standing(step.thread)
        asks = step.order == 1 or step.order >= 64
        if (step.order == 0 or elsewhere not in ("calling", "asleep")) and not (ordered and asks and elsewhere != "idle"):
            yield step, pair._replace(one=step.after)
    for step in model.steps(pair.two):
        if step.order == 0 or pair.one.standing(step.thread) not in ("calling", "asleep"):
            yield step, pair._replace(two=step.after)


def pair_levels(model: Model, ordered: bool) -> Iterator[list[Pair]]:
    """The states of two locks that 0, 1, .. rows lead to and fewer do not, breadth first."""
    start = Pair(fresh(model.nodes, model.threads), fresh(model.nodes, model.threads))
    level, seen = [start], {start}
    while level:
        yield level
        after: list[Pair] = []
        for pair in level:
            for _, new in pair_steps(model, pair, ordered):
                if new not in seen:
                    seen.add(new)
                    after.append(new)
        level = after


def is_late(step: Step) -> bool:
    """Whether a row is a late arrival: a read-lock by a node succeeds with the swap of that node at a closed root."""
    name, *kept = step.before.threads[step.thread]
    return name in ("climb swap", "descend", "again swap") and step.kind == SWAPPED and 0 < kept[0] == kept[1] and step.before.root[2]


def is_denied(step: Step) -> bool:
    """Whether a row denies an upgrade."""
    return step.before.threads[step.thread][0] in ("upgrade look", "upgrade swap") and step.after.threads[step.thread][0] == "reading"


def is_granted(step: Step) -> bool:
    """Whether a row grants one."""
    return bool(step.before.threads[step.thread][0] == "upgrade swap" and step.after.threads[step.thread][0] == "writing")
