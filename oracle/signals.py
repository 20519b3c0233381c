"""Abort signals of a script's own, which pipes may be given.

They are the DOM's AbortSignal, of which nothing but the abort algorithms of pipes is told.
"""

from __future__ import annotations

from typing import Protocol

from values import Value


class Abortable(Protocol):
    """What a signal aborts."""

    def abort(self, reason: Value) -> None: ...


class AbortSignal:
    """An AbortSignal with its abort algorithms, each of which is that of a pipe."""

    def __init__(self) -> None:
        self.reason: Value | None = None
        self._abortables: list[Abortable] = []

    @property
    def is_aborted(self) -> bool:
        """The DOM's "aborted" """
        return self.reason is not None

    def add(self, abortable: Abortable) -> None:
        """The DOM's "add an algorithm", which does nothing where the signal is aborted"""
        if not self.is_aborted:
            self._abortables.append(abortable)

    def remove(self, abortable: Abortable) -> None:
        """The DOM's "remove an algorithm", which does nothing where it isn't there"""
        self._abortables = [other for other in self._abortables if other is not abortable]

    def signal_abort(self, reason: Value) -> None:
        """The DOM's "signal abort", which does nothing a second time"""
        if self.is_aborted:
            return
        self.reason = reason
        abortables, self._abortables = self._abortables, []
        for abortable in abortables:
            abortable.abort(reason)
