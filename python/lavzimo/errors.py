"""Why a call gives no answer."""

QUERY_REFUSED = 3
INPUT_REFUSED = 4
TOO_LARGE = 7
NO_MEMORY = 10
NOT_A_STATE = 12
OVERLAP = 13
KEYS_REFUSED = 14


class LavzimoError(Exception):
    """A call that gives no answer: its status, as the program exits with, and the line that tells why."""

    def __init__(self, status: int, line: str) -> None:
        super().__init__(line)
        self.status = status
        self.line = line

    def __reduce__(self) -> "tuple[type[LavzimoError], tuple[int, str]]":
        return type(self), (self.status, self.line)


class QueryError(LavzimoError):
    """The query is none, or has a fault, or the names of its keys are none."""


class InputError(LavzimoError):
    """The text doesn't fit the schema, or something is too large."""


class StateError(LavzimoError):
    """A state is none of the query, or shares a position with one before it."""


KINDS = {
    QUERY_REFUSED: QueryError,
    INPUT_REFUSED: InputError,
    TOO_LARGE: InputError,
    NOT_A_STATE: StateError,
    OVERLAP: StateError,
    KEYS_REFUSED: QueryError,
}


def error_of(status: int, line: bytes) -> "LavzimoError | MemoryError":
    """The exception of a status and its line."""
    told = line.decode().rstrip("\n")
    if status == NO_MEMORY:
        return MemoryError(told)
    return KINDS.get(status, LavzimoError)(status, told)
