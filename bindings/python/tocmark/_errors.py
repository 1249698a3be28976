"""What the library answers in place of a text."""
from typing import Any, Optional, Tuple

from . import _library


class Error(Exception):
    """An error of the library.

    `code` is its number in `tocmark.h`. `event` is the number of the event at which it is, counted from 0, and `lines` the
    first and the last line of the source that are concerned, counted from 1. Both are `None` if they aren't known.
    """

    def __init__(self, code: int, event: Optional[int] = None, lines: Optional[Tuple[int, int]] = None,
                 cause: Optional[str] = None):
        places = [] if event is None else [f"event {event}"]
        if lines is not None:
            places.append(f"line {lines[0]}" if lines[0] == lines[1] else f"lines {lines[0]} to {lines[1]}")
        text = cause or _library.answer(_library.error_text, code, guess=100)[1].decode()
        super().__init__(f"{', '.join(places)}: {text}" if places else text)
        self.code, self.event, self.lines, self._cause = code, event, lines, cause

    def __reduce__(self) -> Tuple[Any, ...]:
        return type(self), (self.code, self.event, self.lines, self._cause)


class NotEvents(Error, ValueError):
    """The list isn't one of events. `event` is the first element that is none."""


class InvalidOptions(Error, ValueError):
    """An option is unknown, can't have this value, or can't have it under this syntax."""


class UnexpectedEvent(Error, ValueError):
    """An End has no matching Start, a container is open at the end, or an event isn't allowed where it is."""


class Unrepresentable(Error, ValueError):
    """No spelling of a block parses back to its events."""


class InvalidSourceRange(Error, ValueError):
    """A range is reversed, past the end of the source, or not between characters."""


class Changed(Error, ValueError):
    """The document would parse to other events."""


class NoDefinition(Error, ValueError):
    """A definition is none of the source."""


class InvalidStyle(Error, ValueError):
    """A style has no such value."""


_ERRORS = {-6: NotEvents, -8: InvalidOptions, -9: InvalidOptions, -10: UnexpectedEvent, -11: Unrepresentable,
           -12: InvalidSourceRange, -15: InvalidStyle, -16: Changed, -19: NoDefinition}


def error_of(code: int, event: Optional[int] = None, lines: Optional[Tuple[int, int]] = None) -> Exception:
    """Returns the exception of a code."""
    if code == -1:
        return MemoryError("tocmark: out of memory")
    return _ERRORS.get(code, Error)(code, event, lines)
