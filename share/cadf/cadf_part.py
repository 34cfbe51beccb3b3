"""Which part of a log a page of cadf-report has.

A page has at most so many bodies: those of the last events, from the beginning of a day on, or of an hour, a minute or a second. So
the part depends on the facts alone. An index counts bodies without a look at the files, by the hour.
"""
import array
from typing import NamedTuple

from cadf_index_file import planned
from cadf_logs import instant, utc
from cadf_question import Question, Range
from cadf_site import Folder, is_folder
from cadf_times import SECOND, STEPS
from cadf_toolkit import REFUSED, Fault

UNITS = [STEPS[unit] // SECOND for unit in ("d", "h", "min", "s")]
TOO_MANY = "the second {} has more bodies of events than {:,}: choose fewer, as by --initiator or --action"
LEFT_OUT = "This page has the last {:,} of {:,} bodies of events, from {} on: --until {} makes a page of the last of the others."


class Part(NamedTuple):
    """The part that a page has, if that isn't all: its first instant, how many bodies there are, and how many of them it has."""
    first: int
    every: int
    taken: int

    def words(self):
        at = utc(self.first)
        return LEFT_OUT.format(self.taken, self.every, at, at)

    def limits(self, limits):
        """The range that this part is of another one."""
        return Range(self.first, limits.until)


def part_of(seconds, most):
    """The part of bodies of these seconds, which begins with a unit of time and has at most so many. None: all of them. Refused: there is none."""
    if len(seconds) <= most:
        return None
    rising = sorted(seconds)
    for unit in UNITS:
        first = (rising[-most - 1] // unit + 1) * unit  # after the last that is left out
        if first <= rising[-1]:
            return Part(first * SECOND, len(rising), sum(each >= first for each in rising))
    raise Fault(TOO_MANY.format(utc(rising[-1] * SECOND), most), REFUSED)


def part_by_hours(hours, most):
    """The same by how many bodies each hour has, which is known by its first second; the last hour, if that alone has more."""
    every, taken, first = sum(hours.values()), 0, 0
    if every <= most:
        return None
    rising = sorted(hours)
    for hour in reversed(rising):
        first = hour
        if taken + hours[hour] > most:
            break
        taken += hours[hour]
    for unit in UNITS[:2]:
        begin = (first // unit + 1) * unit
        if begin <= rising[-1]:
            return Part(begin * SECOND, every, sum(hours[hour] for hour in rising if hour >= begin))
    return Part(rising[-1] * SECOND, every, hours[rising[-1]])


def indexed_part(names, question, most):
    """Whether the bodies of one folder that answer are counted by its index, and their part by that."""
    if len(names) != 1 or not is_folder(names[0]) or not question.is_indexed:
        return False, None

    def counts(index, _):
        index.ask(question)
        return index.counts("hour", of_bodies=True)

    with Folder(names[0], {}) as folder:
        found = planned(folder, counts)
    if found is None:
        return False, None
    part = part_by_hours({instant(hour) // SECOND: count for hour, count in found.items()}, most)
    return part is None or part.taken <= most, part


class Seconds:
    """The seconds of the bodies that answer a question."""

    def __init__(self, question):
        self.question, self.found = question, array.array("q")

    def add(self, event, line=b""):
        if self.question.has(event, line):
            self.found.append(instant(event["eventTime"]) // SECOND)


def within(question, part):
    """The question of a part alone."""
    if part is None:
        return question
    members = [each for group in question.members.values() for each in group]
    return Question(part.limits(question.limits), question.patterns, question.texts, members, question.late)
