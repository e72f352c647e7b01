"""A lock that no exception leaves held."""

from __future__ import annotations

import functools
import operator
import threading
from typing import Any, Callable, TypeVar

from ._library import method

_Result = TypeVar("_Result")
_called = operator.methodcaller("__call__")


class _Calls:
    """`operator.itemgetter(f, g)` of this is what `f()` and `g()` give: no code of Python runs between them."""

    __getitem__ = staticmethod(_called)


_calls: Any = _Calls()


class _Held(functools.partial[Any]):
    """Calls its function when it ends, without code of Python, too."""

    __del__ = method(_called)


class Lock:
    """Keeps other threads away from a call that isn't over.

    A signal's handler may raise between any two instructions of Python: in CPython 3.9 also where a `with` has ended
    and its lock isn't released yet. So one call of C's code takes the lock, makes the object that releases it when it
    ends, and calls the function. Only that call, and then the interpreter's stack, holds what the three have given: no
    traceback keeps it."""

    def __init__(self) -> None:
        self._lock: Any = threading.RLock()
        self._steps = self._lock.acquire, functools.partial(_Held, self._lock.release)

    def call(self, function: Callable[..., _Result], *words: Any) -> _Result:
        """Calls a function with these words. Calls that a handler makes meanwhile don't wait."""
        found: _Result = operator.itemgetter(*self._steps, functools.partial(function, *words))(_calls)[2]
        return found

    def is_mine(self) -> bool:
        """Whether a call of this thread isn't over."""
        return bool(self._lock._is_owned())
