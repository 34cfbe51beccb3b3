"""Why a call made nothing, by the statuses of the command and the tools."""
import re
from typing import Dict, Optional, Type

PLACED = re.compile(r"(?:input (\d+): )?([a-z]+ \d+)?")


class CadfError(Exception):
    """Why a call made nothing: the line of the command or of a tool on standard error, without its name.

    `status` is the exit status of the command, for which each class derived from this one stands. `input` is the number of
    the refused input, from 1, and `place` is where in it, as `line 5`, `event 2`, `property 1` or `fact 3`; each is None if the
    text names none.
    """

    status: int

    def __init__(self, text: str) -> None:
        super().__init__(text)
        self.text = text
        found = PLACED.match(text)
        number, place = found.groups() if found else (None, None)
        self.input: Optional[int] = int(number) if number else None
        self.place: Optional[str] = place


class Refused(CadfError):
    """An input is refused, or the inputs can't be joined."""

    status = 1


class WrongArgument(CadfError, ValueError):
    """An argument beside the inputs is refused: `text` names it."""

    status = 2


class Failed(CadfError, OSError):
    """A read, a write or the lock of a site failed, or a tool can't be started."""

    status = 3


class OutOfMemory(CadfError, MemoryError):
    """There is no memory for what the call makes."""

    status = 4


class CadfWarning(UserWarning):
    """What a tool has to say of what it has done: something is left for a person."""


ERRORS: Dict[int, Type[CadfError]] = {kind.status: kind for kind in (Refused, WrongArgument, Failed, OutOfMemory)}
for kind in (CadfError, CadfWarning, *ERRORS.values()):
    kind.__module__ = "cadf"  # the name under which programs know them
NO_MEMORY = "out of memory"
