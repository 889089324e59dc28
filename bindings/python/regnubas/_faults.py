"""Why a call is not done."""
from __future__ import annotations


class Fault(Exception):
    """Why a call was not done. It has changed nothing."""


class Contended(Fault):
    """Other passes interfered in each try: call again."""


class Full(Fault):
    """Too little is left of the pass's share: rest and call again if the dictionary lasts; else use
    another pass, or renew."""


class NoMemory(Fault, MemoryError):
    """An allocation failed."""


class BadLimits(Fault, ValueError):
    """A number is out of its range."""


class NoPass(Fault):
    """The pass has left, or has closed the dictionary."""


class Shared(Fault):
    """Other passes have not left: the dictionary is not closed."""


class OutOfOrder(Fault, ValueError):
    """The keys of the pairs do not rise."""


class TooMany(Fault, ValueError):
    """There are more pairs than there is room for."""


class NotRenewed(Fault):
    """The dictionary was closed, and the next refused, for the cause (`__cause__`) of this."""

    def __init__(self, pairs: list[tuple[int, int]]) -> None:
        super().__init__(NotRenewed.__doc__)
        self.pairs = pairs  # all that it had, by rising key


_SOME = 1
_FAULTS = {
    2: Contended,
    3: Full,
    4: NoMemory,
    5: BadLimits,
    6: NoPass,
    7: Shared,
    8: OutOfOrder,
    9: TooMany,
}


def is_some(status: int) -> bool:
    """Whether a call of this status has found something; raises its fault."""
    if status in _FAULTS:
        raise _FAULTS[status](" ".join((_FAULTS[status].__doc__ or "").split()))
    return status == _SOME
