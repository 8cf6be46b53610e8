"""Histograms, lines over a run, and maps of two numbers: each of a fixed size, however many numbers come."""
import collections
import math
from typing import Counter, Dict, List, NamedTuple, Optional, Tuple

from camac.numbers import Numbers, added, column_sums, differences, ends, listed, places, scaled, sums, sums_of


class Bins(NamedTuple):
    """The counts of neighbouring bins of one width; the first bin begins at `first`."""

    first: int
    width: int
    counts: List[int]


class Spectrum:
    """How many numbers came, the least, the greatest, their sum and that of their squares; and counts on an axis from 0 to `end`, by the number itself,
    or, of more than `most` numbers, in bins of one width, a power of two. Numbers from `end` on are counted as overflow. If no end is given the axis
    doubles until it holds all numbers."""

    __slots__ = ("count", "total", "squares", "least", "greatest", "end", "is_open", "most", "shift", "overflow", "_counts", "_recent")
    CHANNELS = 1 << 16
    # The end of an axis that doubles.
    LEAST = 128

    def __init__(self, end: Optional[int] = None, most: int = CHANNELS) -> None:
        self.count = self.total = self.squares = 0
        self.least: Optional[int] = None
        self.greatest: Optional[int] = None
        self.end, self.is_open, self.overflow, self.most = end or self.LEAST, end is None, 0, most
        self.shift = max((self.end - 1).bit_length() - most.bit_length() + 1, 0)
        self._counts: Counter[int] = collections.Counter()
        # An array of counts, which are not yet in those.
        self._recent: Numbers = None

    @property
    def counts(self) -> Counter[int]:
        """By number how often it came, without the bits that are not kept."""
        if self._recent is not None:
            self._counts.update({at: count for at, count in enumerate(self._recent.tolist()) if count})
            self._recent = None
        return self._counts

    def add_all(self, numbers: Numbers) -> None:
        """Counts many numbers, in a list or an array."""
        if not len(numbers):
            return
        counts = places(numbers)
        if counts is not None:
            self._note(*sums_of(counts))
            self.overflow += int(counts[self.end :].sum())
            self._recent = added(self._recent, counts[: self.end], self.shift)
            return
        numbers = listed(numbers)
        self._note(*sums(numbers))
        inside = [it >> self.shift for it in numbers if it < self.end]
        self.overflow += len(numbers) - len(inside)
        self._counts.update(inside)

    def _note(self, entries: int, total: int, squares: int, least: int, greatest: int) -> None:
        """Takes the sums of numbers. An axis without an end doubles, if it does not hold the greatest."""
        self.count += entries
        self.total += total
        self.squares += squares
        self.least = least if self.least is None else min(self.least, least)
        self.greatest = greatest if self.greatest is None else max(self.greatest, greatest)
        while self.is_open and greatest >= self.end:
            self.end *= 2
            if self.end >> self.shift > self.most:
                self.shift += 1
                counts, self._counts = self.counts, collections.Counter()
                for at, count in counts.items():
                    self._counts[at >> 1] += count

    def mean(self) -> float:
        return self.total / self.count if self.count else 0.0

    def rms(self) -> float:
        """The standard deviation, which spectra call RMS."""
        return math.sqrt(max(self.count * self.squares - self.total**2, 0)) / self.count if self.count else 0.0

    def integral(self) -> int:
        """How many numbers are on the axis."""
        return self.count - self.overflow

    def bins(self, low: int = 0, end: Optional[int] = None, most: Optional[int] = None) -> Bins:
        """The counts from `low` to `end`, in at most so many bins, as wide as that needs."""
        end = self.end if end is None else end
        width = 1 << self.shift
        while most is not None and -(-(end - low) // width) > most:
            width *= 2
        counts = [0] * -(-(end - low) // width)
        for at, count in self.counts.items():
            if low <= at << self.shift < end:
                counts[((at << self.shift) - low) // width] += count
        return Bins(low, width, counts)

    def peak(self) -> Optional[int]:
        """The number that is there most often, the least of several; of wide bins where that of the greatest count begins. None of an empty spectrum."""
        if not self.counts:
            return None
        most = max(self.counts.values())
        return min(at for at, count in self.counts.items() if count == most) << self.shift


class Series:
    """Numbers over the services of a run, in at most `MOST` columns of equally many services: of each column how many numbers it has, and
    their sum. Those of a counter are what it rose since the one before; `full` is the number at which it begins at 0 again."""

    __slots__ = ("per", "columns", "full", "last")
    MOST = 240

    def __init__(self, full: Optional[int] = None) -> None:
        self.per, self.full = 1, full
        self.columns: Dict[int, Tuple[int, int]] = {}
        self.last: Optional[int] = None

    @property
    def is_counter(self) -> bool:
        return self.full is not None

    def add_all(self, services: Numbers, numbers: Numbers) -> None:
        """Takes numbers of services, of which each has its number in the run from 1, in the order of the run."""
        if not len(numbers):
            return
        while int(services[-1]) > self.per * self.MOST:
            self.per *= 2
            columns, self.columns = self.columns, {}
            for at, column in columns.items():
                self._add({at // 2: column})
        if self.full is not None:
            last, self.last = self.last, int(numbers[-1])
            numbers = differences(numbers, last, self.full)
            services = services[len(services) - len(numbers) :]
        self._add(column_sums(scaled(services, 1, self.per), numbers))

    def _add(self, sums_of: Dict[int, Tuple[int, int]]) -> None:
        for at, (count, total) in sums_of.items():
            before = self.columns.get(at, (0, 0))
            self.columns[at] = before[0] + count, before[1] + total

    def mean(self) -> float:
        """The mean of all numbers; of a counter that of the differences."""
        count = sum(count for count, _ in self.columns.values())
        return sum(total for _, total in self.columns.values()) / count if count else 0.0

    def means(self) -> Dict[int, float]:
        """By column the mean of the numbers; of a counter that of the differences."""
        return {at: total / count for at, (count, total) in sorted(self.columns.items())}


class Pairs:
    """Counts of pairs of numbers, each on an axis from 0 to its end, in at most so many cells across and up. If no end is given an axis doubles until
    it holds all numbers."""

    __slots__ = ("ends", "shifts", "cells", "count")
    USUAL, MOST = 64, 512

    def __init__(self, *ends: Optional[int], most: int = USUAL) -> None:
        bits = min(most, self.MOST).bit_length() - 1
        self.ends = [end or 1 << bits for end in ends]
        self.shifts = [max((end - 1).bit_length() - bits, 0) for end in self.ends]
        self.cells: Counter[Tuple[int, int]] = collections.Counter()
        self.count = 0

    def add_all(self, across: Numbers, up: Numbers) -> None:
        """Counts pairs, of which there is one at least."""
        for axis, numbers in enumerate((across, up)):
            while ends(numbers)[1] >= self.ends[axis]:
                self.ends[axis] *= 2
                self.shifts[axis] += 1
                halved: Counter[Tuple[int, int]] = collections.Counter()
                for (one, other), count in self.cells.items():
                    halved[(one >> 1, other) if axis == 0 else (one, other >> 1)] += count
                self.cells = halved
        self.count += len(across)
        columns, rows = ([it >> shift for it in listed(numbers)] for numbers, shift in zip((across, up), self.shifts))
        self.cells.update(zip(columns, rows))
