"""What the scripts of this folder share: reading files of the yard slot planner, names lines with rows of numbers below them, and
the day file (docs/FORMAT.md); printing an answer. A day file is held to its rules, but no refusal is named: yard-plan does that.
"""
import re
import sys
from collections import namedtuple

# windows: train number -> (first slot, last slot), moves: (to, from, boxes), both in file order; groups: group -> its trains; closed: the
# number of closed slots of a day that keeps moving, which no day file says.
Day = namedtuple("Day", "tracks slots revisit_weight split_weight windows moves groups closed", defaults=[0])
# The most trains, tracks and slots of a day.
Size = namedtuple("Size", "trains tracks slots")

MOST_NUMBER = 99999  # the greatest train number, and the greatest value that a file can hold
MOST_WEIGHT = 65535
PLANNED, LONG = Size(12, 12, 8), Size(36, 4, 12)  # what yard-plan takes, with groups or without, and yard-long, without
ANY = Size(MOST_NUMBER, MOST_NUMBER, MOST_NUMBER)  # any day file
DAY_NAMES, GROUP_NAMES = ["trains tracks slots revisit split", "train first last", "to from boxes"], ["group train"]
ROW = re.compile(r"(0|[1-9][0-9]{0,9})( (0|[1-9][0-9]{0,9}))*")


class Refused(Exception):
    """Why there is no answer."""

def demand(condition, message):
    if not condition:
        raise Refused(message)

def rising(keys):
    return all(before < after for before, after in zip(keys, keys[1:]))

def read_text(path):
    """The file's text, or that of standard input where the path is '-'."""
    with open(0 if path == "-" else path, "rb") as file:
        return file.read().decode("ascii", "replace")

def print_answer(script, answer):
    """Prints what answer() gives. Where there is no answer, or it cannot be written: a message on standard error, exit status 1."""
    try:
        text = answer()
    except Refused as reason:
        sys.exit(f"{script}: {reason}")
    except OSError as reason:
        sys.exit(f"{script}: {reason.filename or 'standard input'}: {reason.strerror}")
    try:
        with open(1, "w", encoding="utf-8") as out:  # sys.stdout may be written after the last line here, where nothing is caught
            out.write(text)
    except OSError as reason:
        sys.exit(f"{script}: standard output: {reason.strerror}")

def sections(path, text):
    """The text's names lines, and for each the rows of numbers below it."""
    demand(text.endswith("\n"), f"{path}: the last line has no newline")
    names, tables = [], []
    for number, line in enumerate(text[:-1].split("\n"), 1):
        if not ROW.fullmatch(line):
            names.append(line)
            tables.append([])
            continue
        row = tuple(int(field) for field in line.split(" "))
        demand(names and len(row) == len(names[-1].split(" ")), f"{path}: line {number} is no row of its section")
        tables[-1].append(row)
    return names, tables

def day_of(path, text, *sizes):
    """The day of a text, of at most so many trains, tracks and slots: of one of these sizes, by default yard-plan's or yard-long's."""
    names, tables = sections(path, text)
    demand(names in (DAY_NAMES, DAY_NAMES + GROUP_NAMES) and len(tables[0]) == 1, f"{path}: this is no day file")
    count, tracks, slots, revisit_weight, split_weight = tables[0][0]
    fits = [size for size in sizes or (PLANNED, LONG) if 1 <= count <= size.trains and 1 <= tracks <= size.tracks and 1 <= slots <= size.slots]
    demand(fits and max(revisit_weight, split_weight) <= MOST_WEIGHT, f"{path}: line 2 is outside its limits")
    windows = {train: (first, last) for train, first, last in tables[1]}
    demand(len(windows) == len(tables[1]) == count, f"{path}: line 2 says {count} trains, the list differs")
    demand(rising(list(windows)), f"{path}: the train numbers do not rise")
    for train, (first, last) in windows.items():
        demand(1 <= train <= MOST_NUMBER and 1 <= first <= last <= slots, f"{path}: train {train} has no window in the day")
    for to, supplier, boxes in tables[2]:
        known = to in windows and supplier in windows and to != supplier
        demand(known and 1 <= boxes <= 255, f"{path}: the move {to} {supplier} {boxes} is not possible")
    demand(rising([move[:2] for move in tables[2]]), f"{path}: the pairs of the moves do not rise")
    demand(len(tables) == 3 or fits != [LONG], f"{path}: a long day has no groups")
    groups = groups_of(path, windows, tables[3]) if len(tables) == 4 else {}
    return Day(tracks, slots, revisit_weight, split_weight, windows, tables[2], groups)

def groups_of(path, windows, rows):
    """The trains of each group, in the order of the list of trains."""
    demand(rows, f"{path}: the list of groups is empty")
    for group, train in rows:
        demand(1 <= group <= 12 and train in windows, f"{path}: the row {group} {train} of the groups is not possible")
    demand(len({train for _, train in rows}) == len(rows), f"{path}: a train is listed twice among the groups")
    demand(rising(rows), f"{path}: the pairs of the groups do not rise")
    group_of = {train: group for group, train in rows}
    groups = {group: [] for group, _ in rows}
    for train in filter(group_of.get, windows):
        groups[group_of[train]].append(train)
    return groups
