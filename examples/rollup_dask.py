#!/usr/bin/python3
"""Rolls up files of CSV with dask.distributed: saves the groups of each file in a worker of a cluster, and then asks all saved groups by some of the keys.

usage: examples/rollup_dask.py QUERY KEYS FOLDER FILE..
FOLDER gets the state of each file, by its number from 1 on. File i, from 0, gets its positions from i * 100000 on.
DASK_SCHEDULER_ADDRESS names the cluster, whose workers have the program and the files under the same paths; without it two processes are the cluster.
"""

import os
import subprocess
import sys

from distributed import Client

TOOL = os.environ.get("ROLLUP_TOOL", "rollup_tool")


def save(first, file, tool, query):
    """The state of a file, which its worker sends back."""
    return subprocess.run([tool, "save", query, str(first), file], check=True, stdout=subprocess.PIPE).stdout


def put(path, state):
    """Puts a state under its name once it is whole."""
    with open(f"{path}.part", "wb") as file:
        file.write(state)
    os.replace(f"{path}.part", path)


def client():
    """That of the named cluster, or of two processes."""
    if os.environ.get("DASK_SCHEDULER_ADDRESS"):
        return Client()
    return Client(n_workers=2, threads_per_worker=1, dashboard_address=None)


def main():
    query, keys, folder, *files = sys.argv[1:]
    os.makedirs(folder, exist_ok=True)
    states = []
    with client() as cluster:
        paths = [os.path.abspath(file) for file in files]
        firsts = [number * 100000 for number in range(len(files))]
        saved = cluster.map(save, firsts, paths, tool=TOOL, query=query, pure=False)
        for number, saving in enumerate(saved, 1):
            states.append(os.path.join(folder, f"{number}.state"))
            put(states[-1], saving.result())
    return subprocess.run([TOOL, "roll", query, keys] + states).returncode


if __name__ == "__main__":
    sys.exit(main())
