"""Saved states and roll-ups: each case of rollup_tool whose files are at hand, states by docs/FORMATS.md, faults, memory and threads."""
import ctypes
import importlib.util
import pathlib
import threading
import unittest
from typing import Any, Optional

import lavzimo
from lavzimo import library

ROOT = pathlib.Path(__file__).parents[2]
SCHEMA = {"k": "Int64", "g": "Int64", "v": "Int64"}
QUERY: "dict[str, Any]" = {"schema": SCHEMA, "keys": ["k", "g"], "aggs": {"s": {"sum": "v"}, "f": {"first": "v"}}}
CSV = b"k,g,v\n2,1,7\n1,1,5\n1,2,4\n1,1,6\n"

spec = importlib.util.spec_from_file_location("state_bytes", ROOT / "scripts" / "state_bytes.py")
assert spec is not None and spec.loader is not None
made = importlib.util.module_from_spec(spec)
spec.loader.exec_module(made)


def resident() -> int:
    """The resident memory of this process, in KiB."""
    with open("/proc/self/status", encoding="ascii") as status:
        return next(int(line.split()[1]) for line in status if line.startswith("VmRSS:"))


def row(key: "list[int]", first: int, last: int, rows: int, results: "list[int]") -> "dict[str, Any]":
    """A row of a state of chunk 0, as scripts/state_bytes.py takes it."""
    return {"first": [0, first], "last": [0, last], "rows": rows, "key": key, "results": results}


def read(path: pathlib.Path) -> bytes:
    """The bytes of a part of a case, none where it isn't there."""
    return path.read_bytes() if path.exists() else b""


class Case:
    """A case of a program: what it says, where it is a call that can be made in memory."""

    def __init__(self, folder: pathlib.Path) -> None:
        self.words = read(folder / "args").removesuffix(b"\n").split(b"\n")
        self.status = int(read(folder / "status") or b"0")
        self.told = read(folder / "stderr") if self.status else read(folder / "stdout")
        self.texts = [read(folder / "stdin") if name == b"-" else read(folder / "files" / name.decode()) for name in self.words[3:]]
        unread = self.status in (3, 14)
        self.at_hand = unread or all(name == b"-" or (folder / "files" / name.decode()).is_file() for name in self.words[3:])

    def is_call(self) -> bool:
        """Whether the words are those of a call, and what they name is at hand."""
        if len(self.words) < 4 or not self.at_hand:
            return False
        mode, third = self.words[0], self.words[2]
        return mode == b"roll" or (mode == b"save" and third.isdigit() and len(third) <= 10 and int(third) < 1 << 32 and len(self.texts) == 1)

    def call(self) -> bytes:
        """What the call gives."""
        if self.words[0] == b"save":
            return library.call_save(self.words[1], int(self.words[2]), self.texts[0])
        return library.call_roll(self.words[1], self.words[2], self.texts)

    def ended(self) -> "tuple[int, bytes]":
        """With which status and which text the call ends."""
        try:
            return 0, self.call()
        except lavzimo.LavzimoError as error:
            return error.status, error.line.encode() + b"\n"


class Cases(unittest.TestCase):
    def test_as_the_program(self) -> None:
        tried = 0
        for folder in sorted((ROOT / "cases").glob("*/*")):
            if read(folder / "program").strip() == b"rollup_tool" and (case := Case(folder)).is_call():
                tried += 1
                with self.subTest(folder.name):
                    self.assertEqual(case.ended(), (case.status, case.told))
        self.assertEqual(tried, 92)


class States(unittest.TestCase):
    def test_bytes(self) -> None:
        rows = [row([1, 1], 1, 3, 2, [11, 5]), row([1, 2], 2, 2, 1, [4, 4]), row([2, 1], 0, 0, 1, [7, 7])]
        wanted = made.state_bytes({"first": 0, "end": 1, "keys": ["Int64"] * 2, "results": ["Int64"] * 2, "rows": rows})
        self.assertEqual(len(wanted), 217)
        self.assertEqual(lavzimo.save(CSV, **QUERY), wanted)
        self.assertEqual(lavzimo.roll([wanted], keep=["k"], **QUERY), b"k,s,f\n1,15,5\n2,7,7\n")

    def test_as_over_all_rows(self) -> None:
        lines = [b"%d,%d,%d\n" % (n % 5, n % 3, n) for n in range(120_000)]
        pieces = [lines[:10], lines[10:60_010], lines[60_010:]]
        firsts = [7, 8, 10]
        states = [lavzimo.save(b"k,g,v\n" + b"".join(piece), first=first, **QUERY) for first, piece in zip(firsts, pieces)]
        for keep in (["k"], ["g"], ["k", "g"]):
            whole = lavzimo.group_by(b"k,g,v\n" + b"".join(lines), schema=SCHEMA, keys=keep, aggs=QUERY["aggs"])
            self.assertEqual(lavzimo.roll(states, keep=keep, **QUERY), whole)
            self.assertEqual(lavzimo.roll(reversed(states), keep=keep, **QUERY), whole)

    def fault(self, kind: "type[lavzimo.LavzimoError]", states: "list[bytes]", keep: "Optional[list[str]]" = None) -> "tuple[int, str]":
        """The status and the line of a refused roll-up."""
        with self.assertRaises(kind) as raised:
            lavzimo.roll(states, keep=["k"] if keep is None else keep, **QUERY)
        return raised.exception.status, raised.exception.line

    def test_faults(self) -> None:
        state = lavzimo.save(CSV, **QUERY)
        self.assertEqual(self.fault(lavzimo.StateError, [state, state[:-1]]), (12, "file 2: no state"))
        self.assertEqual(self.fault(lavzimo.StateError, [state, state]), (13, "file 2: overlap"))
        self.assertEqual(self.fault(lavzimo.QueryError, [state], ["v"]), (14, "keys refused"))
        self.assertEqual(self.fault(lavzimo.LavzimoError, []), (2, "words refused"))
        with self.assertRaises(lavzimo.InputError) as raised:
            lavzimo.save(b"k,g,v\n1,2\n", **QUERY)
        self.assertEqual((raised.exception.status, raised.exception.line), (4, "file 1 row 1: width"))
        with self.assertRaises(ValueError):
            lavzimo.save(CSV, first=1 << 32, **QUERY)

    def test_lengths(self) -> None:
        query = lavzimo.query_of(**QUERY).encode()
        state = lavzimo.save(CSV, **QUERY)
        call = library.library().lavzimo_roll

        def told(keys: bytes, *lengths: int) -> "tuple[int, bytes]":
            need = ctypes.c_size_t(99)
            room = ctypes.create_string_buffer(64)
            counts = (ctypes.c_size_t * len(lengths))(*lengths)
            status = call(query, len(query), keys, len(keys), counts, len(lengths), state, len(state), room, 64, ctypes.byref(need))
            return status, room.raw[: need.value]

        self.assertEqual(told(b'["g"]', 217), (0, b"g,s,f\n1,18,7\n2,4,4\n"))
        for lengths in ((), (216,), (218,), (217, 1), ((1 << 64) - 1, 218)):
            self.assertEqual(told(b'["g"]', *lengths), (2, b"words refused\n"))
        self.assertEqual(told(b'["g"]', 217, 0), (12, b"file 2: no state\n"))
        self.assertEqual(told(b'["g"]', 0, 217), (12, b"file 1: no state\n"))
        self.assertEqual(told(b"\xff", 217), (14, b"keys refused\n"))

    def test_rooms(self) -> None:
        query = lavzimo.query_of(**QUERY).encode()
        call = library.library().lavzimo_save

        def told(query: bytes, size: int) -> "tuple[int, bytes, int]":
            need = ctypes.c_size_t(99)
            room = ctypes.create_string_buffer(b"~" * 300, 300)
            status = call(query, len(query), 0, CSV, len(CSV), room, size, ctypes.byref(need))
            return status, room.raw, need.value

        state = lavzimo.save(CSV, **QUERY)
        self.assertEqual(told(query, 217), (0, state + b"~" * 83, 217))
        self.assertEqual(told(query, 216), (20, b"~" * 300, 217))
        self.assertEqual(told(b"\xff", 20), (3, b"query refused: json\n" + b"~" * 280, 20))

    def test_memory_stands_still(self) -> None:
        def work() -> bytes:
            states = [lavzimo.save(CSV, first=first, **QUERY) for first in range(3)]
            return lavzimo.roll(states, keep=["g"], **QUERY)

        wanted = work()
        for _ in range(500):
            work()
        before = resident()
        for _ in range(10_000):
            if work() != wanted:
                self.fail("another answer")
        self.assertLess(resident() - before, 1024)

    def test_eight_threads(self) -> None:
        wrong: "list[int]" = []

        def work(n: int) -> None:
            csv = b"k,g,v\n" + b"".join(b"%d,0,%d\n" % (number % (n + 1), n) for number in range(3_000))
            rows = [len(range(k, 3_000, n + 1)) for k in range(n + 1)]
            wanted = "k,s,f\n" + "".join(f"{k},{count * n},{n}\n" for k, count in enumerate(rows))
            for _ in range(100):
                if lavzimo.roll([lavzimo.save(csv, **QUERY)], keep=["k"], **QUERY).decode() != wanted:
                    wrong.append(n)

        threads = [threading.Thread(target=work, args=(n,)) for n in range(8)]
        for thread in threads:
            thread.start()
        for thread in threads:
            thread.join()
        self.assertEqual(wrong, [])


if __name__ == "__main__":
    unittest.main()
