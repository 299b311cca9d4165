#!/usr/bin/python3
"""Groups a large file outside of pandas, and goes on with the small answer there: the share of each path in all bytes.

usage: examples/into_pandas.py FILE..
It wants python3-pandas. An exact sum may have more than 64 bits: such a column then stays one of Python's own numbers.
"""

import subprocess
import sys

import pandas

words = ["lavzimo", "--by", "path", "--count", "--sum", "bytes", "--mean", "latency"]
with subprocess.Popen([*words, *sys.argv[1:]], stdout=subprocess.PIPE) as run:
    answer = pandas.read_csv(run.stdout, dtype={"path": str, "sum_bytes": "Int64"}, keep_default_na=False, na_values={"sum_bytes": "", "mean_latency": ""})
if run.returncode:
    sys.exit(run.returncode)
answer["share"] = (answer["sum_bytes"] / answer["sum_bytes"].sum()).round(3)
print(answer.to_string(index=False))
