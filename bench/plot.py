#!/usr/bin/python3
"""Draws figures of speed as SVG: seconds by tool and workload, and memory by the number of groups.

usage: bench/plot.py FIGURES FOLDER
FIGURES is CSV with the columns workload, groups, tool, seconds and megabytes, a row for each tool and workload; before it stand lines that begin with `#`, which say on which machine and when, and stand below each picture.
FOLDER gets seconds.svg, and memory.svg of the workloads that differ in the number of groups alone, which is behind the last comma of their names. It wants python3-matplotlib.
"""

import csv
import os
import sys
from collections import defaultdict

import matplotlib

matplotlib.use("svg")
import matplotlib.pyplot as plot
from matplotlib.ticker import FuncFormatter, NullFormatter

# Ours stand out; the others have colours that are told apart by the colour-blind too, and marks of their own.
OURS = {"lavzimo": "#d55e00", "group_tool": "#7a3600"}
OTHERS = ["#0072b2", "#009e73", "#cc79a7", "#56b4e9", "#e69f00", "#555555", "#8c6bb1", "#999933"]
MARKS = ["s", "D", "^", "v", "P", "X", "<", ">"]
INK, FAINT = "#222222", "#dddddd"


def read(path):
    """The caption of a table of figures, and its rows."""
    with open(path, encoding="utf-8", newline="") as file:
        lines = file.read().splitlines()
    caption = " ".join(line.lstrip("# ") for line in lines if line.startswith("#"))
    return caption, list(csv.DictReader(line for line in lines if not line.startswith("#")))


def styles(rows):
    """A colour and a mark for each tool, ours first."""
    names = list(dict.fromkeys(row["tool"] for row in rows))
    found = {name: (colour, "o") for name, colour in OURS.items() if name in names}
    others = [name for name in names if name not in OURS]
    found.update({name: (OTHERS[i % len(OTHERS)], MARKS[i % len(MARKS)]) for i, name in enumerate(others)})
    return found


def plain(number, _):
    return f"{number:g}"


def picture(height, caption, title):
    figure, axes = plot.subplots(figsize=(8, height))
    axes.set_title(title, loc="left", color=INK, fontsize=11, fontweight="bold")
    figure.text(0.01, 0.01, caption, fontsize=8, color="#555555")
    for side in ("top", "right"):
        axes.spines[side].set_visible(False)
    axes.grid(True, axis="both", color=FAINT, linewidth=0.6)
    axes.set_axisbelow(True)
    return figure, axes


def save(figure, path):
    figure.tight_layout(rect=(0, 0.04, 1, 1))
    figure.savefig(path, format="svg", metadata={"Date": None})
    plot.close(figure)


def draw_seconds(rows, caption, path):
    """A line for each workload, and on it a mark for each tool."""
    workloads = list(dict.fromkeys(row["workload"] for row in rows))
    figure, axes = picture(1.6 + 0.42 * len(workloads), caption, "Seconds, of each tool on each workload (less is better)")
    for name, (colour, mark) in styles(rows).items():
        mine = [(float(row["seconds"]), workloads.index(row["workload"])) for row in rows if row["tool"] == name and row["seconds"]]
        size, order = (64, 4) if name in OURS else (36, 3)
        axes.scatter(*zip(*mine), s=size, marker=mark, color=colour, label=name, zorder=order, linewidths=0)
    axes.set_xscale("log")
    axes.xaxis.set_major_formatter(FuncFormatter(plain))
    axes.xaxis.set_minor_formatter(NullFormatter())
    axes.set_yticks(range(len(workloads)), workloads)
    axes.invert_yaxis()
    axes.set_xlabel("seconds")
    axes.legend(loc="upper left", bbox_to_anchor=(1.01, 1), frameon=False, fontsize=9)
    save(figure, path)


def draw_memory(rows, caption, path):
    """A line for each tool, over the number of groups."""
    series = defaultdict(dict)
    for row in rows:
        if row["megabytes"] and row["groups"]:
            series[row["workload"].rpartition(",")[0], row["tool"]][int(row["groups"])] = float(row["megabytes"])
    kind = max({kind for kind, _ in series}, key=lambda kind: sum(len(points) for (one, _), points in series.items() if one == kind))
    figure, axes = picture(4.6, caption, f"Memory by the number of groups, {kind} (less is better)")
    for name, (colour, mark) in styles(rows).items():
        points = sorted(series.get((kind, name), {}).items())
        if points:
            width = 2.4 if name in OURS else 1.2
            axes.plot(*zip(*points), marker=mark, markersize=5, color=colour, linewidth=width, label=name, zorder=4 if name in OURS else 3)
    axes.set_xscale("log")
    axes.set_yscale("log")
    for axis in (axes.xaxis, axes.yaxis):
        axis.set_major_formatter(FuncFormatter(lambda number, _: f"{number:,.0f}"))
        axis.set_minor_formatter(NullFormatter())
    axes.set_xlabel("groups")
    axes.set_ylabel("megabytes, at most")
    axes.legend(loc="upper left", bbox_to_anchor=(1.01, 1), frameon=False, fontsize=9)
    save(figure, path)


def main():
    if len(sys.argv) != 3:
        sys.exit(__doc__)
    matplotlib.rcParams.update({"svg.fonttype": "none", "svg.hashsalt": "lavzimo", "font.family": "sans-serif", "axes.labelcolor": INK})
    caption, rows = read(sys.argv[1])
    os.makedirs(sys.argv[2], exist_ok=True)
    draw_seconds(rows, caption, os.path.join(sys.argv[2], "seconds.svg"))
    draw_memory(rows, caption, os.path.join(sys.argv[2], "memory.svg"))


if __name__ == "__main__":
    main()
