#!/usr/bin/env python3
"""A plain model of the command `reviewgate queries`, which plans what a feed asks Gerrit: for bench/fuzz.

Usage: bench/queries.py [--every MINUTES] [--gather SECONDS] [--pause SECONDS]

It reads the lines of a feed's script on standard input and answers each `next` on standard output, as the command does,
in the same words and with the same exit statuses. It is as short as can be and slow.
"""

import argparse
import contextlib
import io
import os
import re
import sys
from dataclasses import dataclass

TOP_TIME, TOP_NUMBER, GREATEST = 2**64 - 1, 2**32 - 1, 2**31 - 1
PORTION, TRIES, IN_VAIN, AGAIN, FLOW = 50, 2, 3600, 60, 4
NUMBER = rb"(0|[1-9][0-9]{0,19})"
LINE = re.compile(NUMBER + rb" (?:(all|next|whole|refused|late|lost)|(ask|need|listed) " + NUMBER + rb")\n")


class Refused(Exception):
    """What ends the command with status 1, as it is printed."""


@dataclass
class Line:
    time: int
    word: str
    change: int = 0


def read_line(text: bytes, count: int) -> Line:
    """What a line says, which is the one of this count."""
    found = LINE.fullmatch(text)
    if not found or int(found[1]) > TOP_TIME or int(found[4] or b"0") > TOP_NUMBER:
        raise Refused(f"1 BadLine {count}")
    return Line(int(found[1]), (found[2] or found[3]).decode(), int(found[4] or b"0"))


def after(time: int, seconds: int) -> int:
    return min(time + seconds, TOP_TIME)


class Planner:
    """What is kept between the lines. `say` is given each message for the operator."""

    def __init__(self, every: int, gather: int, pause: int, say):
        self.every, self.gather, self.pause, self.say = every, gather, pause, say
        # The changes that wait to be queried, in the order in which they were asked for, and when they are due.
        self.waiting, self.waiting_due = [], 0
        # Of each change: whether it had an event or was listed by a query of all changes, until when it rests unless it
        # has an event, or because its query took too long, in which round its query failed, and how often its query was
        # repeated.
        self.known, self.unlisted, self.slow, self.failed, self.repeated = set(), {}, {}, {}, {}
        # The query of all changes: whether it is asked for, when it is due otherwise, the pause after the next failure,
        # how many were begun, when the one under way was, and the moment after the first success.
        self.is_asked, self.all_due, self.all_pause = True, 0, pause
        self.round, self.began, self.again = 0, 0, None
        # How many changes a turn may query, and what is left of that in a turn; None between two turns.
        self.most, self.left = PORTION, None
        # What is under way: None, "all", or a list of changes; and what the answer lists.
        self.under_way, self.listed = None, set()
        self.is_well = False

    # ---- what is asked for

    def ask(self, now: int, change: int) -> None:
        if change <= GREATEST:
            self.known.add(change)
            self.unlisted.pop(change, None)
            self.need(now, change)

    def need(self, now: int, change: int) -> None:
        if change > GREATEST or change in self.waiting or self.rests(now, change):
            return
        if not self.waiting:
            self.waiting_due = after(now, self.gather)
        self.waiting.append(change)

    def rests(self, now: int, change: int) -> bool:
        has_failed = self.failed.get(change) == self.round
        return has_failed or now < self.unlisted.get(change, 0) or now < self.slow.get(change, 0)

    # ---- what is queried

    def next(self, now: int) -> str:
        if self.under_way is not None:
            self.end_query(now, "lost")
        if self.left is None:
            if self.is_asked or now >= self.all_due:
                self.left = self.most
                return self.begin_all(now)
            if not self.waiting or now < self.waiting_due:
                return "nothing"
            self.left = self.most
        if self.awake(now) and self.left > 0:
            return self.begin_changes(now)
        self.left = None
        self.most = min(2 * self.most, PORTION)
        self.waiting_due = after(now, FLOW)
        return "nothing"

    def begin_all(self, now: int) -> str:
        self.under_way, self.listed = "all", set()
        self.is_asked, self.all_due = False, after(now, self.every)
        self.round, self.began = self.round + 1, now
        return "all"

    def begin_changes(self, now: int) -> str:
        chosen = self.chosen(self.awake(now))
        self.under_way, self.listed = chosen, set()
        self.left -= len(chosen)
        return " ".join(["changes", *map(str, chosen)])

    def awake(self, now: int) -> list:
        """The changes that wait and don't rest."""
        return [change for change in self.waiting if not self.rests(now, change)]

    def chosen(self, awake: list) -> list:
        """The known ones alone, if there are any; of too many the first ones, and as one half the last ones."""
        known = [change for change in awake if change in self.known]
        fitting = known or awake
        if len(fitting) <= self.left:
            return list(fitting)
        last = self.left // 2 if self.most == PORTION else 0
        return fitting[: self.left - last] + fitting[len(fitting) - last :]

    # ---- what became of it

    def end_query(self, now: int, how: str) -> None:
        queried, self.under_way = self.under_way, None
        if how == "whole":
            self.take_listed(queried)
            if queried == "all":
                self.end_all_well(now)
            else:
                self.end_changes_well(now, queried)
            self.is_well = True
        elif queried == "all":
            self.end_all_badly(now)
        else:
            self.end_changes_badly(now, queried, how)

    def take_listed(self, queried) -> None:
        for change in self.listed:
            self.stop_waiting(change)
            for kept in (self.unlisted, self.slow, self.failed, self.repeated):
                kept.pop(change, None)
            if queried == "all":
                self.known.add(change)

    def stop_waiting(self, change: int) -> None:
        if change in self.waiting:
            self.waiting.remove(change)

    def end_all_well(self, now: int) -> None:
        self.all_pause = self.pause
        if self.again is None:
            self.again = after(now, AGAIN)
        if now < self.again:
            self.all_due = min(self.all_due, self.again)
        self.all_due = max(self.all_due, min(2 * now - self.began, TOP_TIME))

    def end_all_badly(self, now: int) -> None:
        self.say(f"the query of all changes failed, and is asked again in {self.all_pause} seconds")
        self.all_due = after(now, self.all_pause)
        self.all_pause = min(2 * self.all_pause, self.every)

    def end_changes_well(self, now: int, queried: list) -> None:
        for change in queried:
            if change in self.waiting:
                self.stop_waiting(change)
                self.unlisted[change] = after(now, IN_VAIN)

    def end_changes_badly(self, now: int, queried: list, how: str) -> None:
        self.left = None
        self.waiting_due = after(now, self.pause)
        if how == "lost":
            self.say(f"a query of {len(queried)} changes failed, and is asked again")
            return
        was_well = self.is_well
        self.is_well = was_well and how != "late"
        self.most = (len(queried) + 1) // 2
        if len(queried) > 1:
            self.say(f"a query of {len(queried)} changes failed, and half as many are queried next")
        else:
            self.repeat_or_rest(now, queried[0], how == "late" and was_well)

    def repeat_or_rest(self, now: int, change: int, is_slow: bool) -> None:
        """Of a change whose own query failed, through its own fault if it is slow."""
        repeated = self.repeated.get(change, 0)
        if change in self.known and repeated < TRIES:
            self.repeated[change] = repeated + 1
            self.say("a query of 1 changes failed, and is asked again")
            return
        is_known = change in self.known
        if not is_known:
            self.stop_waiting(change)
        self.repeated.pop(change, None)
        if is_slow:
            self.say(f"the query of change {change} took too long, and isn't asked again for an hour")
            self.slow[change] = after(now, IN_VAIN)
        else:
            self.say(f"the query of change {change} failed, and isn't asked again before the next query of all changes")
            self.failed[change] = self.round
            if is_known:
                self.unlisted[change] = after(now, IN_VAIN)
        if is_known:
            self.all_due = min(self.all_due, after(now, AGAIN))

    # ---- the lines

    def take(self, line: Line, count: int) -> str | None:
        """Goes through a line, which is the one of this count. Answers what is to be written."""
        if line.word == "next":
            return self.next(line.time)
        if line.word == "all":
            self.is_asked = True
        elif line.word == "ask":
            self.ask(line.time, line.change)
        elif line.word == "need":
            self.need(line.time, line.change)
        elif self.under_way is None:
            raise Refused(f"2 NoQuery {count}")
        elif line.word != "listed":
            self.end_query(line.time, line.word)
        elif line.change <= GREATEST:
            self.listed.add(line.change)
        return None


def write(descriptor: int, text: str) -> None:
    """Writes a line at once."""
    left = text.encode() + b"\n"
    try:
        while left:
            left = left[os.write(descriptor, left) :]
    except OSError:
        raise Refused("4 WriteFault") from None


def lines_of(source):
    """The lines of an input."""
    try:
        yield from source
    except OSError:
        raise Refused("3 ReadFault") from None


def answer_lines(planner: Planner, source, put) -> None:
    for count, text in enumerate(lines_of(source), 1):
        answer = planner.take(read_line(text, count), count)
        if answer is not None:
            put(1, answer)


def plan(every: int, gather: int, pause: int, source, put=write) -> int:
    """Goes through the lines of an input, and puts lines to standard output, 1, and standard error, 2. Answers the
    status.
    """
    planner = Planner(60 * every, gather, pause, lambda text: put(2, f"feed: {text}"))
    try:
        answer_lines(planner, source, put)
        return 0
    except Refused as cause:
        refused = f"queries {cause}"
    except MemoryError:
        refused = "queries 5 NoMemory"
    with contextlib.suppress(Refused):
        put(2, f"reviewgate: {refused}")
    return 1


def planned(text: bytes, every: int, gather: int, pause: int) -> tuple:
    """What is written to standard output and standard error for a whole input, and the status."""
    found = {1: b"", 2: b""}

    def put(descriptor: int, line: str) -> None:
        found[descriptor] += line.encode() + b"\n"

    status = plan(every, gather, pause, io.BytesIO(text), put)
    return found[1], found[2], status


def number_in(low: int, high: int):
    """A reader of an option's value."""

    def read(text: str) -> int:
        if not re.fullmatch(r"\+?[0-9]+", text) or not low <= int(text) <= high:
            raise argparse.ArgumentTypeError(f"{text} is not in {low}..={high}")
        return int(text)

    return read


def main() -> int:
    words = argparse.ArgumentParser(prog="reviewgate queries", allow_abbrev=False)
    words.add_argument("--every", type=number_in(1, 10080), default=5, metavar="MINUTES")
    words.add_argument("--gather", type=number_in(0, 3600), default=2, metavar="SECONDS")
    words.add_argument("--pause", type=number_in(0, 3600), default=5, metavar="SECONDS")
    options = words.parse_args()
    # Standard input that is closed is empty.
    return plan(options.every, options.gather, options.pause, sys.stdin.buffer if sys.stdin else [])


if __name__ == "__main__":
    sys.exit(main())
