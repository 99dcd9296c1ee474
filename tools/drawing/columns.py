"""Divides the places of a run into columns and pieces: a column is one place, or many that are summed up."""
from __future__ import annotations

from array import array
from collections.abc import Hashable
from dataclasses import dataclass
from itertools import groupby

from reports.reading import COMPOSITOR, DEVICE, Call

PLAIN_PLACES = 400
MOST_COLUMNS = 8_000
AIM = 1_000
IN_A_PIECE = 150
SHORTEST_BIN = 5
BIN_WIDTH = 118
LEFT = 30
NEXT = 27
NEXT_LINE = 17
ASIDE = 21

_TELLING = frozenset(
    """mark await leave create_instance destroy_instance create_session destroy_session begin_session end_session request_exit_session
    wish loss lost fault garbled grid""".split()
)


@dataclass
class Column:
    """A place, or the places from the first to the last; x is its middle in its piece."""

    first: int
    last: int
    x: float = 0.0

    @property
    def is_bin(self) -> bool:
        return self.last > self.first


@dataclass
class Piece:
    """Some columns that are drawn side by side, from the first place to the last, and what is right of them."""

    number: int
    columns: list[Column]
    right: float

    def __post_init__(self) -> None:
        self.first, self.last = (self.columns[0].first, self.columns[-1].last) if self.columns else (1, 0)


def _kind(call: Call) -> Hashable:
    """What is the same of neighbours that may be one sum. They are dull: nothing about them is told by where they stand. Or they are made once
    more with the same outcome, as by who tries again and again. A call that tells something is alone."""
    if call.who == COMPOSITOR or call.name in _TELLING:
        return "alone", call.place
    is_dull = call.who == DEVICE or call.code in ("XR_SUCCESS", "XR_EVENT_UNAVAILABLE")
    return "dull" if is_dull else (call.who, call.name, call.code)


def columns_of(ordered: list[Call]) -> list[Column]:
    """The columns of a run: its places, and of a long run sums."""
    if len(ordered) <= PLAIN_PLACES:
        return [Column(call.place, call.place) for call in ordered]
    columns: list[Column] = []
    for _, calls in groupby(ordered, _kind):
        places = [call.place for call in calls]
        is_sum = len(places) >= SHORTEST_BIN
        columns += [Column(places[0], places[-1])] if is_sum else [Column(place, place) for place in places]
    if len(columns) > MOST_COLUMNS:
        step = -(-len(columns) // AIM)
        parts = [columns[i : i + step] for i in range(0, len(columns), step)]
        columns = [Column(part[0].first, part[-1].last) for part in parts]
    return columns


def pieces_of(columns: list[Column], labels: list[list[tuple[int, int]]]) -> list[Piece]:
    """The columns in pieces, each with its x. Labels are those of each column: a lane and how many lines stand in it, 0 where it stands aside."""
    parts = [slice(start, start + IN_A_PIECE) for start in range(0, max(len(columns), 1), IN_A_PIECE)]
    return [Piece(number, columns[it], _spread(columns[it], labels[it])) for number, it in enumerate(parts, 1)]


def _spread(columns: list[Column], labels: list[list[tuple[int, int]]]) -> float:
    """Gives the columns of a piece their x, so that labels of one lane don't touch, and tells where they end."""
    end: float = LEFT - NEXT / 2
    last: dict[int, float] = {}
    for column, lines in zip(columns, labels):
        half = BIN_WIDTH / 2 if column.is_bin else max(NEXT, 8 + 6.2 * len(str(column.last))) / 2
        column.x = end + half
        if not column.is_bin:
            needs = (last[lane] + NEXT + NEXT_LINE * (count - 1) for lane, count in lines if lane in last and count)
            column.x = max(column.x, *needs, 0)
        last.update((lane, column.x if count else column.x + ASIDE) for lane, count in lines)
        end = column.x + half + (ASIDE if any(not count for _, count in lines) else 0)
    return end


def index_of(columns: list[Column]) -> array[int]:
    """For each place from 0 on the number of its column; place 0 is in front of all."""
    index = array("l", [0])
    for number, column in enumerate(columns):
        index.extend([number] * (column.last - column.first + 1))
    return index
