"""Group-by over CSV in memory."""
from collections.abc import Iterable, Mapping
from typing import Optional

from .library import call_group
from .query import Expression, query_of


def group_by(
    csv: bytes,
    *,
    keys: Iterable[Expression],
    aggs: "Mapping[str, Expression] | Iterable[Expression]",
    schema: "Mapping[str, str] | Iterable[tuple[str, str]]",
    slice: Optional[tuple[int, int]] = None,
    maintain_order: bool = False,
    format: str = "csv",
) -> bytes:
    """The groups of the rows of a CSV: by default as CSV, with "json" as lines of JSON.

    The first record of the CSV has the schema's names, in order. Raises QueryError or InputError, with the status
    and the line of the fault, or MemoryError. Other threads run meanwhile.
    """
    query = query_of(keys=keys, aggs=aggs, schema=schema, slice=slice, maintain_order=maintain_order)
    return call_group(query.encode(), csv, format)
