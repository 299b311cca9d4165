"""Group-by over CSV in memory, and roll-ups of saved states, by the proved library of Lavzimo.

    >>> import lavzimo
    >>> print(lavzimo.group_by(b"k,v\\n1,5\\n2,6\\n1,7\\n", schema={"k": "Int64", "v": "Int64"},
    ...     keys=["k"], aggs={"s": {"sum": "v"}}).decode(), end="")
    k,s
    1,12
    2,6

Expressions are those of JSON queries (docs/FORMATS.md, "The query"): a string is a column's name.
"""
from .errors import InputError, LavzimoError, QueryError, StateError
from .frames import to_pandas
from .group import group_by
from .query import Expression, query_of
from .states import roll, save

__all__ = [
    "Expression",
    "InputError",
    "LavzimoError",
    "QueryError",
    "StateError",
    "group_by",
    "query_of",
    "roll",
    "save",
    "to_pandas",
]
