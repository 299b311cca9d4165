#!/usr/bin/env python3
"""Writes the bytes of a saved state, made by docs/FORMATS.md alone, to standard output.

usage: scripts/state_bytes.py STATE, where STATE is JSON:
  {"first":0,"end":1,"keys":["Int64"],"results":["Int64","mean"],"rows":[ROW..]}
with rows {"first":[CHUNK,ROW],"last":[CHUNK,ROW],"rows":N,"key":[VALUE..],"results":[VALUE..]}. A type is one of docs/FORMATS.md, and
`mean` stands for the three values of a mean, whose value is [SUM,COUNT]. Nothing is tested, so states that are unfair can be written.
"""

import json
import sys

BYTES = {"Int8": 1, "Int16": 2, "Int32": 4, "Int64": 8, "UInt8": 1, "UInt16": 2, "UInt32": 4, "UInt64": 8, "Date": 4}
COUNTS = ["UInt32", "UInt32", "UInt32"]


def number(value, count):
    """A number in so many bytes, most significant first."""
    return value.to_bytes(count, "big")


def body(value, dtype):
    """The code of a value that isn't null, behind its first byte."""
    if dtype == "Boolean":
        return bytes([value])
    if dtype == "String":
        return value.encode().replace(b"\0", b"\0\1") + b"\0\0"
    count = BYTES[dtype]
    return number(value if dtype.startswith("U") else value + (1 << (8 * count - 1)), count)


def code(values, types):
    """The code of a tuple."""
    return b"".join(b"\0" if value is None else b"\1" + body(value, dtype) for value, dtype in zip(values, types, strict=True))


def saved(value, dtype):
    """The values and the types as which a result is saved."""
    if dtype != "mean":
        return [value], [dtype]
    total, count = value
    halves = [None, None] if total is None else [total >> 64, total & ((1 << 64) - 1)]
    return [*halves, count], ["Int64", "UInt64", "UInt32"]


def row_bytes(row, state):
    key = code(row["key"], state["keys"])
    place = number(row["first"][0], 4) + number(row["first"][1], 4)
    inputs = code([*row["last"], row["rows"]], COUNTS)
    for value, dtype in zip(row["results"], state["results"], strict=True):
        inputs += code(*saved(value, dtype))
    return place + number(len(key), 8) + key + inputs


def state_bytes(state):
    """The bytes of a state."""
    rows = [row_bytes(row, state) for row in state["rows"]]
    return number(state["first"], 4) + number(state["end"], 4) + number(len(rows), 8) + b"".join(rows)


if __name__ == "__main__":
    sys.stdout.buffer.write(state_bytes(json.loads(sys.argv[1])))
