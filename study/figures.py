#!/usr/bin/env python3
"""Draws the figures of the study from its tables, as SVG with 95 % intervals.
usage: figures.py [--of FOLDER] [--to FOLDER]
"""

import argparse
import csv
import io
import os
import re

import matplotlib

matplotlib.use("svg")
matplotlib.rcParams.update(
    {"svg.hashsalt": "study", "svg.fonttype": "none", "font.size": 8, "axes.titlesize": 8}
)

from matplotlib import pyplot  # noqa: E402  (it takes the settings above)

HERE = os.path.dirname(os.path.realpath(__file__))

BLACK = "#000000"

# The name of each policy in a legend, its colour, its mark and its line. The first is drawn wide,
# and below the others, so that curves which coincide with it are seen.
STYLES = {
    "slotshift": ("slotshift", BLACK, "o", "-"),
    "capacity_sum": ("slot shifting, published sum", "#0072b2", "s", "--"),
    "tb_star": ("EDF + TB*", "#009e73", "^", "-"),
    "tb_1": ("EDF + TB(1)", "#009e73", "^", ":"),
    "tbs": ("EDF + total bandwidth server", "#d55e00", "v", "-"),
    "deferrable": ("EDF + deferrable server", "#cc79a7", "D", "-"),
    "polling": ("EDF + polling server", "#e69f00", "P", "-"),
    "background": ("background service", "#7f7f7f", "x", "-"),
}
WAYS = {
    "offered": ("slotshift, class offered as firm requests", BLACK, "o", "-"),
    "planned": ("slotshift, class planned as a sporadic task", "#0072b2", "s", "-"),
    "soft_last": ("offered, soft work in idle slots only", "#d55e00", "x", ":"),
}

TICKS = [10, 20, 50, 100, 200, 500]
OFFERED = "offered load / what the plan leaves"


def table(folder, name):
    """The rows of a table, with numbers as numbers."""
    with open(f"{folder}/{name}.csv", newline="") as file:
        return [{key: value_of(text) for key, text in row.items()} for row in csv.DictReader(file)]


def value_of(text):
    try:
        return float(text)
    except ValueError:
        return text


def some(rows, **wanted):
    """The rows that have these values."""
    return [row for row in rows if all(row[key] == value for key, value in wanted.items())]


def curve(axes, rows, across, up, half, style):
    """One curve with its intervals."""
    name, colour, mark, line = style
    rows = [row for row in rows if row[up] != ""]
    places = [row[across] for row in rows]
    means = [row[up] for row in rows]
    low = [row[up] - row[half] for row in rows]
    high = [row[up] + row[half] for row in rows]
    axes.fill_between(places, low, high, color=colour, alpha=0.15, linewidth=0)
    width = 2.4 if colour == BLACK else 1
    axes.plot(places, means, line, label=name, color=colour, linewidth=width)
    axes.lines[-1].set(marker=mark, markersize=2 + width)


def curves(axes, rows, across="offered", up="accepted"):
    """A curve for each policy."""
    for name, style in STYLES.items():
        curve(axes, some(rows, policy=name), across, up, "half", style)


def panels(count, lines=1, height=2.3):
    """Some lines of this number of panels, which share their axes."""
    size = (2.4 * count + 0.4, height * lines + 0.6)
    shared = {"sharex": True, "sharey": "row", "squeeze": False}
    return pyplot.subplots(lines, count, figsize=size, **shared)


def save(figure, folder, name, columns=4):
    """Writes a figure, with one legend below it."""
    lines, labels = figure.axes[0].get_legend_handles_labels()
    figure.legend(lines, labels, loc="lower center", ncol=columns, frameon=False)
    rows = -(-len(labels) // columns)
    figure.tight_layout(rect=(0, (0.16 * rows + 0.05) / figure.get_figheight(), 1, 1))
    text = io.StringIO()
    figure.savefig(text, format="svg", metadata={"Date": None, "Creator": None})
    pyplot.close(figure)
    with open(f"{folder}/{name}.svg", "w", encoding="utf-8") as file:
        file.write(re.sub(r"\d+\.\d{3,}", rounded, text.getvalue()))


def rounded(found):
    """A number of a path, to two places."""
    return f"{float(found[0]):.2f}".rstrip("0").rstrip(".")


def shares(axes, title=""):
    """The axes of shares of accepted requests over offered load."""
    axes.set_title(title)
    axes.set_xlabel(OFFERED)
    axes.set_ylim(-0.03, 1.03)


def acceptance(rows, folder):
    within = {"tight": "1.5 to 3", "medium": "3 to 6", "loose": "6 to 12"}
    figure, axes = panels(3, 3, 2)
    for line, load in zip(axes, [0.5, 0.7, 0.9]):
        for each, kind in zip(line, within):
            curves(each, some(rows, plan_load=load, tightness=kind))
            shares(each, f"plan {load}, due within {within[kind]} lengths")
            each.label_outer()
        line[0].set_ylabel("share accepted")
    save(figure, folder, "acceptance")


def plain(rows, folder):
    figure, (axes,) = panels(3)
    for each, load in zip(axes, [0.5, 0.7, 0.9]):
        curves(each, some(rows, plan_load=load))
        shares(each, f"plan {load}, no offsets, no precedence")
    axes[0].set_ylabel("share accepted")
    save(figure, folder, "plain")


def sporadic(rows, folder):
    figure, (axes,) = panels(3)
    for each, count in zip(axes, [0, 2, 8]):
        curves(each, some(rows, sporadics=count))
        shares(each, f"plan 0.7, {count or 'no'} sporadic tasks")
    axes[0].set_ylabel("share accepted")
    save(figure, folder, "sporadic")


def examples(rows, folder):
    names = list(dict.fromkeys(row["example"] for row in rows))
    figure, (axes,) = panels(len(names))
    for each, name in zip(axes, names):
        curves(each, some(rows, example=name))
        shares(each, f"examples/{name}.toml")
    axes[0].set_ylabel("share accepted")
    save(figure, folder, "examples")


def soft(rows, folder):
    figure, (axes,) = panels(3)
    for each, load in zip(axes, [0.5, 0.7, 0.9]):
        curves(each, some(rows, plan_load=load), up="response")
        each.set_title(f"plan {load}")
        each.set_xlabel("soft load / what the plan leaves")
        each.set_yscale("log")
        each.set_yticks(TICKS, map(str, TICKS))
        each.minorticks_off()
    axes[0].set_ylabel("mean response time, slots")
    save(figure, folder, "soft")


def early(rows, folder):
    figure, (axes,) = panels(2, height=2.5)
    for each, offered in zip(axes, [1.0, 2.0]):
        curves(each, some(rows, offered=offered), across="least_share")
        shares(each, f"plan 0.9, offered {offered} of what it leaves")
        each.set_xlabel("jobs take from this share of the worst case to all of it")
        each.set_xlim(1.03, 0.22)
    axes[0].set_ylabel("share accepted")
    figure.set_figwidth(7.6)
    save(figure, folder, "early")


def backlog(rows, folder):
    figure, axes = pyplot.subplots(1, 2, figsize=(7.6, 2.9))
    for way, style in WAYS.items():
        curve(axes[0], some(rows, way=way), "soft_load", "accepted", "half", style)
        curve(axes[1], some(rows, way=way), "soft_load", "response", "response_half", style)
    axes[0].set_ylabel("share of the class accepted")
    axes[0].set_ylim(-0.03, 1.03)
    axes[1].set_ylabel("mean response time, slots")
    axes[1].set_ylim(bottom=0)
    for each in axes:
        each.set_xlabel("soft load / what plan and class leave")
    save(figure, folder, "backlog", 2)


def front(rows, folder):
    """Two panels for a first page."""
    figure, (axes,) = panels(2, height=2.4)
    figure.set_figwidth(7.6)
    for each, count in zip(axes, [0, 2]):
        curves(each, some(rows, sporadics=count))
        shares(each, f"plan of load 0.7, {count or 'no'} sporadic tasks")
        each.set_xlabel(f"firm requests: {OFFERED}")
    axes[0].set_ylabel("share accepted")
    save(figure, folder, "front")


FIGURES = {
    "acceptance": acceptance,
    "plain": plain,
    "sporadic": sporadic,
    "examples": examples,
    "soft": soft,
    "early": early,
    "backlog": backlog,
}


def main():
    parser = argparse.ArgumentParser(description="draws the figures of the study")
    parser.add_argument("--of", default=f"{HERE}/results")
    parser.add_argument("--to", default=f"{HERE}/figures")
    words = parser.parse_args()
    os.makedirs(words.to, exist_ok=True)
    for name, draw in FIGURES.items():
        draw(table(words.of, name), words.to)
    front(table(words.of, "sporadic"), words.to)


if __name__ == "__main__":
    main()
