"""Why a call failed."""

from enum import IntEnum

from ._library import ffi, lib

_PREFIX = "SIMPLEX_"
Status = IntEnum("Status", {name[len(_PREFIX):]: number for number, name in ffi.typeof("enum simplex_status").elements.items()})
Status.__doc__ = "The statuses of `simplex_status` in simplex.h, by the same names."


class SimplexError(Exception):
    """A call that failed; its text is that of the status. After an error of `Engine.handle` or `Engine.poll` the engine has failed, except
    for `Status.NO_CALL` and `Status.NOT_MADE`, which change nothing: resume another engine from what was stored."""

    def __init__(self, status: int) -> None:
        super().__init__(ffi.string(lib.simplex_status_text(status)).decode())
        self.status = Status(status)


def require(status: int) -> None:
    """Raises the error of a status, if it is one."""
    if status != Status.OK:
        raise SimplexError(status)
