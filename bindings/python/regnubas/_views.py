"""The keys, values and pairs of a pass, by rising key and as it reads them: 64 at a time. Those of
one such chunk are of one moment, two chunks are not."""
from __future__ import annotations

from collections.abc import ItemsView, Iterator, ValuesView
from typing import TYPE_CHECKING

if TYPE_CHECKING:
    from ._pass import Pass


class Items(ItemsView[int, int]):
    """The pairs of a pass."""

    _mapping: Pass

    def __iter__(self) -> Iterator[tuple[int, int]]:
        return self._mapping._pairs()


class Values(ValuesView[int]):
    """The values of a pass."""

    _mapping: Pass

    def __iter__(self) -> Iterator[int]:
        return (value for _, value in self._mapping._pairs())

    def __contains__(self, value: object) -> bool:
        return any(found == value for found in self)
