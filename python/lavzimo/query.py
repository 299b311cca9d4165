"""Queries, written as JSON."""
import json
from collections.abc import Iterable, Mapping
from typing import Any, Optional, Union

# A column's name, or an object of one member, such as {"sum": "v"}.
Expression = Union[str, Mapping[str, Any]]


def query_of(
    *,
    keys: Iterable[Expression],
    aggs: "Mapping[str, Expression] | Iterable[Expression]",
    schema: "Mapping[str, str] | Iterable[tuple[str, str]]",
    slice: Optional[tuple[int, int]] = None,
    maintain_order: bool = False,
) -> str:
    """The JSON of a query. Aggregates that are given by names have these names in the answer."""
    fields = schema.items() if isinstance(schema, Mapping) else schema
    if isinstance(aggs, Mapping):
        aggs = [{"alias": [agg, name]} for name, agg in aggs.items()]
    query: dict[str, Any] = {
        "schema": [list(field) for field in fields],
        "keys": list(keys),
        "aggs": list(aggs),
    }
    if slice is not None:
        query["slice"] = list(slice)
    if maintain_order:
        query["maintain_order"] = True
    return json.dumps(query)
