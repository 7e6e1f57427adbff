"""Order numbers, and the words for them.

An order is a byte. The words are those of the notation: ``go``, ``write``, ``unlock``, ``upgrade``, ``downgrade``, ``read N`` and ``book E``, with
``second`` behind them for the second lock; a number that is none of the orders is ``order NUMBER``, so that every byte has words, and the words give the
byte back.
"""

from __future__ import annotations

from typing import Final

from .errors import BenchError
from .reader import range_text, unknown

GO_ON: Final = 0
WRITE_LOCK: Final = 1
UNLOCK: Final = 2
UPGRADE: Final = 3
DOWNGRADE: Final = 4
#: ``READ_LOCK + n`` is a read-lock by node n.
READ_LOCK: Final = 64
#: ``BOOK + e`` books entry e of the till.
BOOK: Final = 96
#: Added to an order, it makes it one of the second lock.
SECOND: Final = 128

#: How many nodes, and how many entries of a till, orders can name.
NAMED: Final = 32

#: The orders that are a word alone.
SIMPLE: Final[dict[str, int]] = {"go": GO_ON, "write": WRITE_LOCK, "unlock": UNLOCK, "upgrade": UPGRADE, "downgrade": DOWNGRADE}
#: The orders that are a word and a number below 32, with the number that 0 stands for.
NUMBERED: Final[dict[str, int]] = {"read": READ_LOCK, "book": BOOK}
#: What these numbers are of.
NUMBERED_OF: Final[dict[str, str]] = {"read": "node", "book": "entry"}

_SIMPLE_WORDS: Final = {order: word for word, order in SIMPLE.items()}


def _words(order: int) -> str:
    """The words for an order from 0 to 255."""
    if order in _SIMPLE_WORDS:
        return _SIMPLE_WORDS[order]
    for word, base in NUMBERED.items():
        if base <= order < base + NAMED:
            return f"{word} {order - base}"
    if has_second(order - SECOND):
        return f"{_words(order - SECOND)} second"
    return f"order {order}"


def has_second(order: int) -> bool:
    """Whether the second lock has this order too: going on goes on with the call of either lock, and bookings are the first lock's."""
    return WRITE_LOCK <= order <= DOWNGRADE or READ_LOCK <= order < READ_LOCK + NAMED


_WORDS: Final = tuple(_words(order) for order in range(256))
# Every order by its words and by its number, as ``order 67`` and as ``67``.
_ORDERS: Final = {text: order for order, text_of in enumerate(_WORDS) for text in (text_of, f"order {order}", str(order))}


def words(order: int) -> str:
    """The words for an order, such as ``read 3`` for 67 and ``write second`` for 129."""
    if not 0 <= order <= 255:
        raise BenchError(range_text("order", order, 0, 255))
    return _WORDS[order]


def order_of(words: str) -> int:
    """The order that words such as ``read 3``, or a number such as ``67``, stand for."""
    text = " ".join(words.split())
    order = _ORDERS.get(text)
    if order is None:
        raise BenchError(unknown(words, [*SIMPLE, *NUMBERED], "order"))
    return order
