#!/usr/bin/python3
"""Compares what lavzimo answers with sqlite3, pandas and mlr, over a made access log of a million rows with quotes, empty fields and CRLF; and its time with that of group_tool.

usage: examples/compare_lavzimo.py [LAVZIMO [GROUP_TOOL]], which are ~/.local/bin/lavzimo and ~/.local/bin/group_tool if they are left out.
ROWS in the environment is another number of rows. It wants sqlite3, miller, and python3-pandas for /usr/bin/python3.
Said is where an answer differs, a sum of no value from 0 too, and where lavzimo takes more than 1.15 of the time of group_tool with the same aggregates and limits.
"""

import csv
import io
import json
import os
import random
import statistics
import subprocess
import sys
import tempfile
import time
from fractions import Fraction

SHIPPED = ["~/.local/bin/lavzimo", "~/.local/bin/group_tool"]
COLUMNS = ["time", "host", "user", "path", "status", "hour", "bytes", "latency", "day", "ok"]
NUMBERS = ["bytes", "latency", "day"]
ROUNDS = 9
MOST = 1.15


# ---- the log


def quoted(text):
    return '"' + text.replace('"', '""') + '"' if any(c in text for c in ',"\r\n') else text


def lines_of_log(rows, chance):
    """The rows of a log: of status 304 none has bytes, of 204 each has 0; some have no status, no user, no latency."""
    users = ["", "ann", "O'Brien", 'Bo "the" Li', "Smith, J.", "two\nlines", "Zoë", " x "] + [f"u{i}" for i in range(3000)]
    users, paths = [*map(quoted, users)], [*map(quoted, ["/", "/a,b", '/q?x="1"', "/ü"] + [f"/page/{i}" for i in range(500)])]
    states, oks, sizes = ["200"] * 12 + ["204", "304", "404", "500", ""], ["true", "false", ""], {"304": "", "204": "0"}

    def one_of(values):
        return values[int(chance.random() * len(values))]

    yield ",".join(COLUMNS)
    for row in range(rows):
        status, hour, day = one_of(states), row * 24 // rows, row % 30
        size = sizes[status] if status in sizes else str(int(chance.random() * 100000)) if chance.random() < 0.95 else ""
        latency = "" if chance.random() < 0.05 else str(int(chance.random() * 902) - 2)
        user = one_of(users) if chance.random() < 0.6 else ""
        time_of_row = f"2026-11-{1 + day:02}T{hour:02}:{row % 60:02}:00"
        yield f"{time_of_row},h{row * 7 % 40},{user},{one_of(paths)},{status},{hour},{size},{latency},{20758 + day if row % 11 else ''},{one_of(oks)}"


def made_log(path, rows):
    with open(path, "w", encoding="utf-8", newline="") as file:
        for line in lines_of_log(rows, random.Random(42)):
            file.write(line + "\r\n")


# ---- answers: lists of rows, of texts, numbers and None


def mean(total, count):
    """The mean in millionths, half to even."""
    return round(Fraction(int(total) * 10**6, int(count))) if count else None


def value(kind, text):
    if text == "":
        return None
    if kind == "int":
        return int(text)
    return round(Fraction(text) * 10**6) if kind == "mean" else text


def printed(words):
    """What a command prints, whose ends of lines stay as they are."""
    return subprocess.run(words, check=True, capture_output=True).stdout.decode()


def by_lavzimo(lavzimo, file, words, kinds):
    records = list(csv.reader(io.StringIO(printed([lavzimo, *words, file]), newline="")))[1:]
    return [[value(kind, text) for kind, text in zip(kinds, record)] for record in records]


def by_lavzimo_json(lavzimo, file, words, kinds):
    lines = printed([lavzimo, "--format", "json", *words, file]).split("\n")[:-1]
    rows = [list(json.loads(line, parse_float=Fraction).values()) for line in lines]
    return [[round(Fraction(v) * 10**6) if kind == "mean" and v is not None else v for kind, v in zip(kinds, row)] for row in rows]


VIEW = "CREATE VIEW v AS SELECT rowid AS r, " + ", ".join(
    f"CAST(NULLIF({c}, '') AS INTEGER) AS {c}" if c in NUMBERS else f"NULLIF({c}, '') AS {c}" for c in COLUMNS) + " FROM log;"


def by_sqlite(database, select, kinds):
    """Rows of texts and numbers, where a mean is a sum and a count, one behind the other."""
    rows = [list(row.values()) for row in json.loads(printed(["sqlite3", "-json", database, select]))]
    return [with_means(row, kinds) for row in rows]


def with_means(row, kinds):
    found, at = [], 0
    for kind in kinds:
        found.append(mean(row[at] or 0, row[at + 1]) if kind == "mean" else row[at])
        at += 2 if kind == "mean" else 1
    return found


def by_mlr(file, verbs):
    """Records of mlr, as dictionaries without empty values."""
    lines = printed(["mlr", "--icsv", "--ojsonl", "--jvquoteall", *verbs, file]).split("\n")[:-1]
    return [{name: v for name, v in json.loads(line).items() if v != ""} for line in lines]


def whole(v):
    return None if v is None else int(v)


def read_by_pandas(file):
    import pandas

    log = pandas.read_csv(file, dtype=str, keep_default_na=False, encoding="utf-8")
    for column in NUMBERS:
        log[column] = pandas.to_numeric(log[column].replace("", None)).astype("Int64")
    return log


def rows_of_frame(frame, kinds):
    import pandas

    def plain(v):
        return None if v is pandas.NA or v is None or v == "" or v != v else v if isinstance(v, str) else int(v)

    return [with_means([plain(v) for v in row], kinds) for row in frame.itertuples(index=False)]


def key_order(count):
    """Rows by their first columns, None first, texts by their bytes."""
    return lambda row: [(v is not None, v.encode() if isinstance(v, str) else v or 0) for v in row[:count]]


# ---- the questions


def all_of(v):
    return [len(v), v.bytes.count(), v.bytes.sum(min_count=1), v.latency.sum(), v.latency.count(), v.latency.min(), v.latency.max(), v.day.min(), v.day.max()]


def status_and_hour():
    words = "--by status,hour --count --count-of bytes --sum bytes --mean latency --min latency --max latency".split()
    kinds = ["text", "text", "int", "int", "int", "mean", "int", "int"]
    select = ("SELECT status, hour, count(*), count(bytes) AS b, sum(bytes), sum(latency), count(latency) AS l, min(latency), max(latency)"
              " FROM v GROUP BY status, hour ORDER BY status, hour")

    def pandas_rows(log):
        groups = log.groupby(["status", "hour"])
        frame = groups.agg(rows=("path", "size"), n=("bytes", "count"), least=("latency", "min"), most=("latency", "max"), total=("latency", "sum"), of=("latency", "count"))
        frame["sum"] = groups["bytes"].sum(min_count=1)
        return sorted(rows_of_frame(frame.reset_index()[["status", "hour", "rows", "n", "sum", "total", "of", "least", "most"]], kinds), key=key_order(2))

    def mlr_rows(file):
        counts = {(r.get("status"), r["hour"]): r["count"] for r in by_mlr(file, ["count", "-g", "status,hour"])}
        rows = by_mlr(file, ["stats1", "-a", "count,sum,min,max", "-f", "bytes,latency", "-g", "status,hour"])
        found = []
        for r in rows:
            status, hour, values = r.get("status"), r["hour"], int(r["bytes_count"])
            size = int(r["bytes_sum"]) if values else None  # mlr has 0 where there is no value
            row = [status, hour, int(counts[status, hour]), values, size, int(r["latency_sum"]), int(r["latency_count"])]
            found.append(with_means([*row, whole(r.get("latency_min")), whole(r.get("latency_max"))], kinds))
        return sorted(found, key=key_order(2))

    return words, kinds, select, pandas_rows, mlr_rows


def most_bytes():
    words = "--by path --count --sum bytes --order -sum_bytes --limit 20".split()
    kinds = ["text", "int", "int"]
    select = "SELECT path, count(*), sum(bytes) FROM v GROUP BY path ORDER BY 3 DESC, 1 LIMIT 20"

    def pandas_rows(log):
        groups = log.groupby("path")
        frame = groups.agg(rows=("path", "size"))
        frame["sum"] = groups["bytes"].sum(min_count=1)
        return sorted(sorted(rows_of_frame(frame.reset_index(), kinds), key=key_order(1)), key=lambda row: -row[2])[:20]

    def mlr_rows(file):
        counts = {r["path"]: int(r["count"]) for r in by_mlr(file, ["count", "-g", "path"])}
        rows = by_mlr(file, ["stats1", "-a", "sum", "-f", "bytes", "-g", "path", "then", "sort", "-nr", "bytes_sum", "-f", "path", "then", "head", "-n", "20"])
        return [[r["path"], counts[r["path"]], int(r["bytes_sum"])] for r in rows]

    return words, kinds, select, pandas_rows, mlr_rows


def first_and_last():
    words = "--by user --first path --last path --last bytes:int --order first".split()
    kinds = ["text", "text", "text", "int"]
    select = ("SELECT user, (SELECT path FROM v WHERE r = a) AS x, (SELECT path FROM v WHERE r = z) AS y, (SELECT bytes FROM v WHERE r = z) AS b"
              " FROM (SELECT user, min(r) AS a, max(r) AS z FROM v GROUP BY user) ORDER BY a")

    def pandas_rows(log):
        first = log.drop_duplicates("user")[["user", "path"]]
        last = log.drop_duplicates("user", keep="last")[["user", "path", "bytes"]]
        return rows_of_frame(first.merge(last, on="user", how="left"), kinds)

    def mlr_rows(file):
        last = {r.get("user"): r for r in by_mlr(file, ["tail", "-n", "1", "-g", "user"])}
        return [[r.get("user"), r["path"], last[r.get("user")]["path"], whole(last[r.get("user")].get("bytes"))] for r in by_mlr(file, ["head", "-n", "1", "-g", "user"])]

    return words, kinds, select, pandas_rows, mlr_rows


def all_rows():
    words = "--count --count-of bytes --sum bytes --mean latency --min latency --max latency --min day:date --max day".split()
    kinds = ["int", "int", "int", "mean", "int", "int", "int", "int"]
    select = "SELECT count(*), count(bytes) AS b, sum(bytes), sum(latency), count(latency) AS l, min(latency), min(day), max(latency), max(day) FROM v"
    at = [0, 1, 2, 3, 4, 5, 7, 6, 8]

    def pandas_rows(log):
        found = all_of(log)
        return [with_means([int(found[i]) for i in at], kinds)]

    def mlr_rows(file):
        rows = by_mlr(file, ["count"])[0]
        r = by_mlr(file, ["stats1", "-a", "count,sum,min,max", "-f", "bytes,latency,day"])[0]
        named = ["bytes_count", "bytes_sum", "latency_sum", "latency_count", "latency_min", "day_min", "latency_max", "day_max"]
        return [with_means([int(rows["count"]), *(int(r[name]) for name in named)], kinds)]

    return words, kinds, select, pandas_rows, mlr_rows


def days_of_hosts():
    words = "--by ok:bool,host --min day:date --max day --mean latency --order -mean_latency --offset 3 --limit 40".split()
    kinds = ["text", "text", "int", "int", "mean"]
    select = "SELECT ok, host, min(day), max(day), sum(latency), count(latency) FROM v GROUP BY ok, host"

    def ordered(rows):
        return sorted(sorted(rows, key=lambda row: ({None: 0, "false": 1, "true": 2}[row[0]], row[1])), key=lambda row: -row[4])[3:43]

    def pandas_rows(log):
        frame = log.groupby(["ok", "host"]).agg(least=("day", "min"), most=("day", "max"), total=("latency", "sum"), of=("latency", "count"))
        return ordered(rows_of_frame(frame.reset_index(), kinds))

    def mlr_rows(file):
        rows = by_mlr(file, ["stats1", "-a", "count,sum,min,max", "-f", "latency,day", "-g", "ok,host"])
        found = [with_means([r.get("ok"), r["host"], whole(r.get("day_min")), whole(r.get("day_max")), whole(r["latency_sum"]), int(r["latency_count"])], kinds) for r in rows]
        return ordered(found)

    return words, kinds, (select, ordered), pandas_rows, mlr_rows


QUESTIONS = [status_and_hour, most_bytes, first_and_last, all_rows, days_of_hosts]


def difference(found, due):
    """Where two answers differ first, in words."""
    for number, (one, other) in enumerate(zip(found, due), 1):
        if one != other:
            return f"row {number} is {one}, and not {other}"
    return f"{len(found)} rows, and not {len(due)}" if len(found) != len(due) else None


def truths(rows):
    return [["true" if v is True else "false" if v is False else v for v in row] for row in rows]


def compared(lavzimo, file, database):
    """How many answers were compared, and how many differed."""
    log, tried, wrong = read_by_pandas(file), 0, 0
    for question in QUESTIONS:
        words, kinds, select, pandas_rows, mlr_rows = question()
        found = by_lavzimo(lavzimo, file, words, kinds)
        sql, ordered = select if isinstance(select, tuple) else (select, list)
        others = {
            "its own JSON": truths(by_lavzimo_json(lavzimo, file, words, kinds)), "sqlite3": ordered(by_sqlite(database, sql, kinds)),
            "pandas": pandas_rows(log), "mlr": mlr_rows(file)}
        for name, due in others.items():
            told = difference(found, due)
            tried, wrong = tried + 1, wrong + bool(told)
            if told:
                print(f"{' '.join(words)}: by {name}, {told}")
    return tried, wrong


# ---- times


SCHEMA = [[c, "Int64" if c in ("bytes", "latency") else "String"] for c in COLUMNS]
TIMED = [
    (["--by", "status,hour", "--count", "--sum", "bytes", "--mean", "latency"], ["status", "hour"], [{"len": None}, {"mean": "bytes"}, {"mean": "latency"}]),
    (["--by", "user", "--count", "--min", "bytes", "--max", "latency"], ["user"], [{"len": None}, {"min": "bytes"}, {"max": "latency"}]),
]


def seconds(words):
    start = time.perf_counter()
    subprocess.run(words, check=True, stdout=subprocess.DEVNULL)
    return time.perf_counter() - start


def timed(lavzimo, group_tool, file):
    """Of how many questions the time was taken, and how many took too long."""
    processors, slow = str(len(os.sched_getaffinity(0))), 0
    for words, keys, aggs in TIMED:
        query = json.dumps({"schema": SCHEMA, "keys": keys, "aggs": aggs})
        ours = [lavzimo, *words, file]
        other = [group_tool, "--workers", processors, "--partitions", "16", "--actions", "m*", query, file]
        pairs = [(seconds(ours), seconds(other)) for _ in range(ROUNDS)]
        took, due = (statistics.median(times) for times in zip(*pairs))
        slow += took > MOST * due
        print(f"{' '.join(words)}: {took:.3f} s, and group_tool {due:.3f} s: {took / due:.2f}", file=sys.stderr)
        if took > MOST * due:
            print(f"{' '.join(words)}: {took / due:.2f} of the time of group_tool")
    return len(TIMED), slow


def main():
    lavzimo, group_tool = (os.path.abspath(os.path.expanduser(path)) for path in sys.argv[1:] + SHIPPED[len(sys.argv) - 1:])
    with tempfile.TemporaryDirectory() as folder:
        file, database = os.path.join(folder, "access.csv"), os.path.join(folder, "log.db")
        made_log(file, int(os.environ.get("ROWS", "1000000")))
        subprocess.run(["sqlite3", database], check=True, text=True, input=f".mode csv\n.import {file} log\n{VIEW}\n")
        tried, wrong = compared(lavzimo, file, database)
        asked, slow = timed(lavzimo, group_tool, file)
    print(f"compare_lavzimo: {tried} answers, {wrong} of which differ; {asked} times, {slow} of which are too long", file=sys.stderr)
    return 1 if wrong or slow else 0


if __name__ == "__main__":
    sys.exit(main())
