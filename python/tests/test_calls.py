"""Calls of the library: faults, rooms, memory and threads."""
import ctypes
import json
import pickle
import threading
import unittest

import lavzimo
from lavzimo import library

SCHEMA = {"k": "Int64", "v": "Int64"}
SUM = {"s": {"sum": "v"}}


def sums(csv: bytes, **more: object) -> bytes:
    """The sum s of v by k."""
    return lavzimo.group_by(csv, schema=SCHEMA, keys=["k"], aggs=SUM, **more)


def resident() -> int:
    """The resident memory of this process, in KiB."""
    with open("/proc/self/status", encoding="ascii") as status:
        return next(int(line.split()[1]) for line in status if line.startswith("VmRSS:"))


class Calls(unittest.TestCase):
    def refusal(self, csv: bytes, **more: object) -> "tuple[int, str]":
        """The status and the line of a refused text."""
        with self.assertRaises(lavzimo.InputError) as raised:
            sums(csv, **more)
        return raised.exception.status, raised.exception.line

    def test_formats(self) -> None:
        csv = b"k,v\n1,5\n2,6\n1,7\n"
        self.assertEqual(sums(csv), b"k,s\n1,12\n2,6\n")
        self.assertEqual(sums(csv, format="json"), b'{"k":1,"s":12}\n{"k":2,"s":6}\n')

    def test_slice_and_order(self) -> None:
        csv = b"k,v\n3,5\n2,6\n1,7\n"
        self.assertEqual(sums(csv, slice=(1, 1)), b"k,s\n2,6\n")
        self.assertEqual(sums(csv, maintain_order=True), b"k,s\n3,5\n2,6\n1,7\n")

    def test_no_rows(self) -> None:
        self.assertEqual(sums(b"k,v\n"), b"k,s\n")

    def test_faults_of_texts(self) -> None:
        self.assertEqual(self.refusal(b""), (4, "file 1: header"))
        self.assertEqual(self.refusal(b"v,k\n1,2\n"), (4, "file 1: header"))
        self.assertEqual(self.refusal(b"k,v\n1,2\n1\n"), (4, "file 1 row 2: width"))
        self.assertEqual(self.refusal(b"k,v\n1,x\n"), (4, "file 1 row 1 column 2: field"))

    def test_an_error_is_pickled(self) -> None:
        copy = pickle.loads(pickle.dumps(lavzimo.InputError(4, "file 1: header")))
        self.assertEqual((type(copy), copy.status, copy.line), (lavzimo.InputError, 4, "file 1: header"))

    def test_an_answer_longer_than_its_text(self) -> None:
        csv = b"k,v\n" + b"".join(b"%d,1\n" % k for k in range(60_000))
        lines = sums(csv, format="json").decode().splitlines()
        self.assertEqual(lines[59_999], '{"k":59999,"s":1}')
        self.assertEqual(len(lines), 60_000)

    def test_many_chunks(self) -> None:
        csv = b"k,v\n" + b"".join(b"%d,%d\n" % (n % 7, n) for n in range(170_001))
        wanted = "".join(f"{k},{sum(range(k, 170_001, 7))}\n" for k in range(7))
        self.assertEqual(sums(csv).decode(), "k,s\n" + wanted)

    def test_raw_calls(self) -> None:
        call = library.library().lavzimo_group
        query = lavzimo.query_of(keys=["k"], aggs=SUM, schema=SCHEMA).encode()
        csv = b"k,v\n1,5\n"

        def told(query: bytes, number: int, room: int) -> "tuple[int, bytes, int]":
            need = ctypes.c_size_t(99)
            given = ctypes.create_string_buffer(b"~" * 64, 64)
            status = call(query, len(query), csv, len(csv), number, given, room, ctypes.byref(need))
            return status, given.raw[:24], need.value

        self.assertEqual(told(query, 0, 64), (0, b"k,s\n1,5\n" + b"~" * 16, 8))
        self.assertEqual(told(query, 0, 8), (0, b"k,s\n1,5\n" + b"~" * 16, 8))
        self.assertEqual(told(query, 0, 7), (20, b"~" * 24, 8))
        self.assertEqual(told(query, 2, 64), (2, b"words refused\n" + b"~" * 10, 14))
        self.assertEqual(told(b"\xff", 0, 64), (3, b"query refused: json\n" + b"~" * 4, 20))
        self.assertEqual(told(b"", 0, 64), (3, b"query refused: json\n" + b"~" * 4, 20))

    def test_memory_stands_still(self) -> None:
        csv = b"k,v\n" + b"".join(b"%d,%d\n" % (n % 5, n) for n in range(20))
        wanted = sums(csv)
        for _ in range(2_000):
            sums(csv)
        before = resident()
        for _ in range(100_000):
            if sums(csv) != wanted:
                self.fail("another answer")
        self.assertLess(resident() - before, 1024)

    def test_eight_threads(self) -> None:
        wrong: "list[int]" = []

        def work(n: int) -> None:
            csv = b"k,v\n" + b"".join(b"%d,%d\n" % (row % (n + 1), n) for row in range(3_000))
            rows = [len(range(k, 3_000, n + 1)) for k in range(n + 1)]
            wanted = "k,s\n" + "".join(f"{k},{count * n}\n" for k, count in enumerate(rows))
            for _ in range(100):
                if sums(csv).decode() != wanted:
                    wrong.append(n)

        threads = [threading.Thread(target=work, args=(n,)) for n in range(8)]
        for thread in threads:
            thread.start()
        for thread in threads:
            thread.join()
        self.assertEqual(wrong, [])

    def test_query_of(self) -> None:
        query = json.loads(lavzimo.query_of(keys=["k"], aggs=[{"len": None}], schema=[("k", "Int64")]))
        self.assertEqual(query, {"schema": [["k", "Int64"]], "keys": ["k"], "aggs": [{"len": None}]})

    def test_to_pandas(self) -> None:
        try:
            import pandas
        except ImportError:
            self.skipTest("pandas isn't installed")
        frame = lavzimo.to_pandas(b"k,t,s,b\n007,NA,,true\n2,,6,\n", texts=["k"])
        self.assertEqual([str(kind) for kind in frame.dtypes], ["string", "string", "Int64", "boolean"])
        self.assertEqual(list(frame["k"]), ["007", "2"])
        self.assertEqual(frame["t"][0], "NA")
        self.assertTrue(frame["b"][0])
        self.assertEqual(frame["s"][1], 6)
        for name, row in (("t", 1), ("s", 0), ("b", 1)):
            self.assertIs(frame[name][row], pandas.NA)

    def test_large_sums_stay_texts(self) -> None:
        try:
            import pandas  # noqa: F401
        except ImportError:
            self.skipTest("pandas isn't installed")
        frame = lavzimo.to_pandas(b"k,s\n1,170141183460469231731687303715884105727\n")
        self.assertEqual(list(frame["s"]), ["170141183460469231731687303715884105727"])


if __name__ == "__main__":
    unittest.main()
