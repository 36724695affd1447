"""Bars for the tables of bench/buffered, bench/codecs, bench/memory, bench/random and bench/text: how long a task took here, and in Rust's std, beside CPython.

The five draw them of their own figures, and `.ci/docs_examples` those of the tables in docs/SPEED.md.
"""
import re

# CPython's own time is a bar of so many characters, and none is drawn longer than twice that.
CPYTHON = 20
LONGEST = 2 * CPYTHON


def bar(value, python):
    share = value / python
    length = max(1, round(share * CPYTHON))
    drawn = "#" * length if length <= LONGEST else "#" * (LONGEST - 1) + ">"
    return f"{drawn:<{LONGEST}} {share:5.2f}"


def bars(rows):
    """The chart of rows of a label and the times here, of CPython and of std, of which the last may be lacking."""
    width = max(len(label) for label, *_ in rows)
    lines = [f"{'':<{width}}  CPython {'#' * CPYTHON:<{LONGEST}} {1:5.2f}"]
    for label, here, python, std in rows:
        lines.append(f"{label:<{width}}  here    {bar(here, python)}")
        if std is not None:
            lines.append(f"{'':<{width}}  std     {bar(std, python)}")
    return "\n".join(line.rstrip() for line in lines)


def number(word):
    return None if word == "-" else float(word)


def rows_of(text):
    """The rows of all tables in a text that have the columns here, CPython and std."""
    rows, start = [], None
    for line in text.splitlines():
        header = re.search(r"\bhere +CPython +std\b", line)
        if header:
            # the numbers of a column end where its name does, and have eight characters
            start = header.start() + len("here") - 8
        elif start is not None and re.match(r" *[a-z]", line) and re.match(r" *[0-9]", line[start:]):
            here, python, std = map(number, line[start:].split()[:3])
            rows.append((" ".join(line[:start].split()), here, python, std))
        else:
            start = None
    return rows
