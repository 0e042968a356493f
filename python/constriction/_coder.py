"""The base class of coders. One call at a time changes a coder, as a whole or not at all. Copies are independent."""

from __future__ import annotations

import copy
import sys
from collections.abc import Callable
from operator import index
from threading import RLock
from typing import Any, TypeVar

from ._buffers import answered_alone
from ._numbers import is_one
from ._single import Lane
from .stream.model._base import Model

__all__ = ["CALLS", "Coder"]

Found = TypeVar("Found")
Self = TypeVar("Self", bound="Coder")
#: The code of the functions that set a coder's ``_busy`` during a call. The coder is their ``coder`` or ``self``.
CALLS = {Lane.encode.__code__, Lane.decode.__code__}


def _restored(kind: Any, plain: tuple[Any, ...]) -> Any:
    """Creates a coder of class ``kind`` from a plain state."""
    it = kind.__new__(kind)
    it._begin(it._unplain(plain))
    return it


class Coder:
    """A state and a lock. The state is a tuple, and an assignment replaces it as a whole. Each call holds the lock."""

    _lock: Any
    _busy: bool
    #: The state, or a plain tuple with the same items. This saves time in calls with one symbol.
    _held: Any
    #: Returns the state from a plain tuple.
    _named: Any
    #: The memory for calls with one symbol, or None before the first such call.
    _lane: Lane | None

    def _begin(self, state: Any) -> None:
        """Initializes the coder with this state."""
        self._lock, self._busy, self._held, self._lane = RLock(), False, state, None

    @property
    def _state(self) -> Any:
        """The state. An assignment replaces it."""
        state = self._held
        return self._named(state) if type(state) is tuple else state

    @_state.setter
    def _state(self, state: Any) -> None:
        self._held = state

    def _made_lane(self) -> Lane:
        """Creates the memory for calls with one symbol."""
        raise NotImplementedError

    def _changed(self, change: Callable[[Any], tuple[Any, Found]]) -> Found:
        """Replaces the state by the one that ``change`` returns, and returns the other value of ``change``.

        If ``change`` raises an exception, the state is unchanged.
        """
        with self._lock:
            if self._busy and self._is_under_way():
                raise RuntimeError(
                    "expected no call of the coder from inside its own call, got one, as from a model's function"
                )
            try:
                self._busy = True
                state, found = change(self._state)
                self._held = state
                return found
            finally:
                self._busy = False

    def _is_under_way(self) -> bool:
        """Returns whether a call of this coder is under way in this thread, which has the lock.

        ``_busy`` alone doesn't say so: an exception of a trace function, or of a signal's handler in older versions of
        Python, may come just before the end of a call resets it.
        """
        frame = sys._getframe(2)
        while frame is not None:
            if frame.f_code in CALLS and any(frame.f_locals.get(it) is self for it in ("self", "coder")):
                return True
            frame = frame.f_back  # type: ignore[assignment]
        return "greenlet" in sys.modules  # Another greenlet's call isn't in the frames of this one.

    def _asked(self, ask: Callable[[Any], Found]) -> Found:
        """Returns the result of ``ask``, which reads the state and doesn't change it."""
        return self._changed(lambda state: (state, ask(state)))

    def _encoded_alone(self, symbol: Any, model: Any, given: tuple[Any, ...]) -> bool:
        """Encodes a single symbol with a quick call. Returns whether this succeeded.

        Otherwise the coder is unchanged.
        """
        if type(symbol) is not int:
            try:
                symbol = index(symbol)
            except TypeError:
                return False
        return isinstance(model, Model) and (self._lane or self._made_lane()).encode(self, symbol, model, given)

    def _decoded_alone(self, model: Any, given: tuple[Any, ...]) -> Any:
        """Decodes a single symbol with a quick call, and returns the symbol, or a list of it for lists of one parameter.

        Returns None if this isn't possible. The coder is then unchanged.
        """
        if not isinstance(model, Model) or given and not model.missing:
            return None
        listed = None
        if given and not model.core:  # Comes first: after the decode, no method of an argument may raise an exception.
            for it in given:
                if type(it) is not float and (getattr(it, "ndim", None) or not is_one(it)):
                    listed = it
                    break
        symbol = (self._lane or self._made_lane()).decode(self, model, given)
        return symbol if symbol is None or listed is None else answered_alone(symbol, listed)

    def _compared(self, state: Any) -> Any:
        """Returns a value that is equal for equal coders."""
        return self._plain(state)

    def __eq__(self, other: object) -> bool:
        if type(self) is not type(other):
            return NotImplemented
        return self is other or self._asked(self._compared) == other._asked(other._compared)  # type: ignore[attr-defined]

    #: A coder can change, so it can't be a key of a dict.
    __hash__ = None  # type: ignore[assignment]

    def __repr__(self) -> str:
        return f"<{type(self).__name__}: {self._said(self._state)}>"

    def _said(self, state: Any) -> str:
        """Returns a text with the size of a state, for ``repr``."""
        raise NotImplementedError

    def _plain(self, state: Any) -> tuple[Any, ...]:
        """Returns a copy of the state that consists of numbers and bytes."""
        raise NotImplementedError

    def _unplain(self, plain: tuple[Any, ...]) -> Any:
        """Returns the state from a plain state. This is the inverse of ``_plain``."""
        raise NotImplementedError

    def _extras(self) -> dict[str, Any]:
        """Returns the attributes that a subclass or a caller added."""
        return {name: it for name, it in vars(self).items() if name not in ("_lock", "_busy", "_held", "_lane")}

    def clone(self: Self) -> Self:
        """Returns a copy. Later calls of one coder don't change the other."""
        it: Self = _restored(type(self), self._asked(self._plain))
        vars(it).update(self._extras())
        return it

    def __copy__(self: Self) -> Self:
        return self.clone()

    def __deepcopy__(self: Self, memo: dict[int, Any]) -> Self:
        it: Self = _restored(type(self), self._asked(self._plain))
        memo[id(self)] = it
        vars(it).update(copy.deepcopy(self._extras(), memo))
        return it

    def __reduce__(self) -> tuple[Any, ...]:
        return _restored, (type(self), self._asked(self._plain)), self._extras() or None


CALLS.add(Coder._changed.__code__)
