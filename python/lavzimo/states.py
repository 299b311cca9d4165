"""Saved states of CSV in memory, and what they come to."""
import json
from collections.abc import Iterable, Mapping

from .library import call_roll, call_save
from .query import Expression, query_of


def save(
    csv: bytes,
    *,
    keys: Iterable[Expression],
    aggs: "Mapping[str, Expression] | Iterable[Expression]",
    schema: "Mapping[str, str] | Iterable[tuple[str, str]]",
    first: int = 0,
) -> bytes:
    """The state of the rows of a CSV, to be kept beside its query and rolled up later.

    The CSV has as many chunks as 50,000 rows go into its own, and the first has the position `first`; states that are
    rolled up together share none. Raises QueryError or InputError, with the status and the line of the fault, or
    MemoryError. Other threads run meanwhile.
    """
    return call_save(query_of(keys=keys, aggs=aggs, schema=schema).encode(), first, csv)


def roll(
    states: Iterable[bytes],
    *,
    keep: Iterable[str],
    keys: Iterable[Expression],
    aggs: "Mapping[str, Expression] | Iterable[Expression]",
    schema: "Mapping[str, str] | Iterable[tuple[str, str]]",
) -> bytes:
    """What states of a query come to by the key columns of some names, as CSV.

    Raises QueryError, also where the names are none of the query's key columns, or StateError, or MemoryError. Other
    threads run meanwhile.
    """
    query = query_of(keys=keys, aggs=aggs, schema=schema)
    return call_roll(query.encode(), json.dumps(list(keep)).encode(), list(states))
