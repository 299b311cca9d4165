"""Every worked row of docs/FORMATS.md over the library, as the page has it."""
import json
import pathlib
import re
import unittest

import lavzimo

PAGE = pathlib.Path(__file__).parents[2] / "docs" / "FORMATS.md"


def section(title: str) -> str:
    """The text of a section of the page."""
    return re.split(r"\n#+ ", PAGE.read_text(encoding="utf-8").split(f"\n### {title}\n")[1])[0]


def command(text: str) -> "tuple[bytes, str]":
    """The CSV and the query of the command of a section."""
    found = re.search(r"^printf '(.*)' \| \S*group_tool '(.*)'$", text, re.MULTILINE)
    assert found is not None
    return found[1].replace("\\n", "\n").encode(), found[2]


def tables(text: str) -> "list[list[list[str]]]":
    """The rows of the tables of a section, without their heads."""
    found = re.findall(r"(?:^\|.*\n)+", text, re.MULTILINE)
    return [[[cell.strip() for cell in row.strip().strip("|").split(" | ")] for row in table.splitlines()[2:]] for table in found]


def answer(csv: bytes, query: str) -> "list[list[str]]":
    """The fields of the answer of a query; none of them is quoted."""
    asked = json.loads(query)
    given = lavzimo.group_by(csv, schema=asked["schema"], keys=asked["keys"], aggs=asked["aggs"])
    return [line.split(",") for line in given.decode().splitlines()]


def shown(fields: "list[str]") -> str:
    """Fields as the page shows them."""
    return ",".join(field or "null" for field in fields)


class WorkedRows(unittest.TestCase):
    def test_expressions(self) -> None:
        text = section("Worked expressions")
        csv, query = command(text)
        rows = tables(text)[0]
        self.assertEqual(len(rows), 27)
        for expression, name, *values in rows:
            with self.subTest(expression):
                head, *lines = answer(csv, query.replace("X", expression.strip("`")))
                self.assertEqual(head, ["r", name])
                self.assertEqual([shown(line[1:]) for line in lines], values)

    def test_aggregates(self) -> None:
        text = section("Worked aggregates")
        csv, query = command(text)
        rows = tables(text)[0]
        self.assertEqual(len(rows), 17)
        for aggregate, columns, *values in rows:
            with self.subTest(aggregate):
                head, *lines = answer(csv, query.replace("X", aggregate.strip("`")))
                self.assertEqual(",".join(head[1:]), columns)
                self.assertEqual([shown(line[1:]) for line in lines], values)

    def test_refused_aggregates(self) -> None:
        text = section("Worked aggregates")
        csv, query = command(text)
        rows = tables(text)[1]
        self.assertEqual(len(rows), 15)
        for aggregate, line in rows:
            with self.subTest(aggregate), self.assertRaises(lavzimo.QueryError) as raised:
                answer(csv, query.replace("X", aggregate.strip("`")))
            self.assertEqual((raised.exception.status, raised.exception.line), (3, line.strip("`")))


if __name__ == "__main__":
    unittest.main()
