"""What is done with many numbers at once, in lists or in arrays of numpy: all that differs between them."""
import importlib
import itertools
import operator
import sys
from array import array
from typing import Any, Dict, Iterable, List, Optional, Sequence, Tuple

# A list of whole numbers, or an array of numpy, which need not be here.
Numbers = Any
# Below this number, and with so many places for each at most, numbers are counted by place.
DENSE, PLACES = 1 << 16, 8


def is_array(numbers: Numbers) -> bool:
    return hasattr(numbers, "dtype")


def sums(numbers: Numbers) -> Sequence[int]:
    """How many numbers there are, one at least, their sum and that of their squares, the least, and the greatest."""
    numbers = listed(numbers)
    return len(numbers), sum(numbers), sum(map(operator.mul, numbers, numbers)), min(numbers), max(numbers)


def listed(numbers: Numbers) -> Sequence[int]:
    plain: Sequence[int] = numbers.tolist() if is_array(numbers) else numbers
    return plain


def whole(numbers: Numbers) -> Numbers:
    """An `array` as one of numpy, where that is loaded."""
    is_loaded = isinstance(numbers, array) and sys.modules.get("numpy")
    return sys.modules["numpy"].frombuffer(numbers, numbers.typecode) if is_loaded and len(numbers) else numbers


def total(numbers: Numbers) -> int:
    numbers = whole(numbers)
    return int(numbers.sum()) if is_array(numbers) else sum(numbers)


def ends(numbers: Numbers) -> Tuple[int, int]:
    """The least and the greatest of one number or more."""
    return (int(numbers.min()), int(numbers.max())) if is_array(numbers) else (min(numbers), max(numbers))


def kinds(numbers: Numbers) -> List[int]:
    """Each number that is there, in order."""
    return [*importlib.import_module("numpy").bincount(numbers).nonzero()[0].tolist()] if is_array(numbers) else sorted({*numbers})


def places(numbers: Numbers) -> Numbers:
    """The counts of numbers by number, from 0 on, as an array; None of a list, of large numbers, and of few."""
    if not is_array(numbers) or int(numbers.max()) >= min(PLACES * len(numbers), DENSE):
        return None
    return importlib.import_module("numpy").bincount(numbers)


def sums_of(counts: Numbers) -> Sequence[int]:
    """As `sums`, of numbers whose counts by number are given."""
    numpy = importlib.import_module("numpy")
    numbers = counts.nonzero()[0]
    products = counts[numbers] * numbers
    return (int(counts.sum()), int(products.sum()), int(numpy.dot(products, numbers)), int(numbers[0]), int(numbers[-1]))


def added(one: Numbers, other: Numbers, shift: int) -> Numbers:
    """Counts of both, of which the second are by more bits."""
    numpy = importlib.import_module("numpy")
    other = numpy.add.reduceat(other, numpy.arange(0, len(other), 1 << shift)) if shift and len(other) else other
    if one is None or len(one) < len(other):
        one, other = other, one
    if other is not None:
        one[: len(other)] += other
    return one


def each(numbers: Numbers, low: int, mask: int) -> Numbers:
    """The bits of each number from `low` on that a mask leaves."""
    return (numbers >> low if low else numbers) & mask if is_array(numbers) else [it >> low & mask for it in numbers]


def greatest(most: int, numbers: Numbers, others: Numbers) -> List[int]:
    """Where the greatest numbers are, in order, of those alike by their other number, then the first ones: so many at most."""
    if len(numbers) <= most:
        return [*range(len(numbers))]
    both = whole(numbers), whole(others)
    if not is_array(both[0]):
        import heapq

        return sorted(k for _, _, k in heapq.nsmallest(most, zip(map(operator.neg, numbers), map(operator.neg, others), itertools.count())))
    numpy = importlib.import_module("numpy")
    keys = both[0].astype("u8") << 32 | both[1]
    least = numpy.partition(keys, -most)[-most]
    found = (keys > least).nonzero()[0].tolist()
    return sorted(found + (keys == least).nonzero()[0][: most - len(found)].tolist())


def join(parts: List[Numbers]) -> Numbers:
    """All numbers of one part or more."""
    if len(parts) == 1:
        return parts[0]
    return importlib.import_module("numpy").concatenate(parts) if is_array(parts[0]) else list(itertools.chain.from_iterable(parts))


def order(places: Numbers, numbers: Numbers) -> Tuple[Numbers, Numbers]:
    """The numbers in the order of their places."""
    if is_array(numbers):
        index = places.argsort(kind="stable")
        return places[index], numbers[index]
    pairs = sorted(zip(places, numbers), key=operator.itemgetter(0))
    return [at for at, _ in pairs], [number for _, number in pairs]


def chosen(numbers: Numbers, these: Numbers, parts: Sequence[Numbers]) -> List[Numbers]:
    """Of each part what stands where a number is one of these."""
    if is_array(numbers):
        return _where(numbers == these[0] if len(these) == 1 else importlib.import_module("numpy").isin(numbers, these), parts)
    return _where([*map({*these}.__contains__, numbers)], parts)


def within(numbers: Numbers, low: int, last: int, part: Numbers) -> Numbers:
    """Of a part what stands where a number is from the first to the last one."""
    return _where((low <= numbers) & (numbers <= last) if is_array(numbers) else [low <= it <= last for it in numbers], [part])[0]


def above(places: Numbers, numbers: Numbers, limit: int) -> List[Numbers]:
    """The numbers that are more than a limit, behind their places."""
    return _where(numbers > limit if is_array(numbers) else [it > limit for it in numbers], [places, numbers])


def _where(are_there: Numbers, parts: Sequence[Numbers]) -> List[Numbers]:
    """Of each part what stands where something is so; nothing of an empty part."""
    if is_array(are_there):
        return [part[index] if len(part) else part for index in are_there.nonzero() for part in parts]
    return [[*itertools.compress(part, are_there)] for part in parts]


def met(*sides: Tuple[Numbers, Numbers]) -> Tuple[Numbers, Numbers]:
    """Of two sides, each events and their numbers, the first numbers of the events that both have."""
    if is_array(sides[0][0]):
        numpy = importlib.import_module("numpy")
        (one, first), (other, second) = (numpy.unique(events, return_index=True) for events, _ in sides)
        _, left, right = numpy.intersect1d(one, other, assume_unique=True, return_indices=True)
        return sides[0][1][first[left]], sides[1][1][second[right]]
    across, up = (dict(zip(reversed(events), reversed(numbers))) for events, numbers in sides)
    common = [at for at in across if at in up]
    return [across[at] for at in common], [up[at] for at in common]


def split(tags: Numbers, parts: Iterable[Numbers]) -> Dict[int, List[Numbers]]:
    """The numbers of each part by their tags."""
    if is_array(tags):
        return {tag: [part[tags == tag] for part in parts] for tag in kinds(tags)}
    found: Dict[int, List[Numbers]] = {}
    for row in zip(tags, *parts):
        if row[0] not in found:
            found[row[0]] = [[] for _ in row[1:]]
        for part, number in zip(found[row[0]], row[1:]):
            part.append(number)
    return found


def column_sums(columns: Numbers, numbers: Numbers) -> Dict[int, Tuple[int, int]]:
    """By column how many numbers it has, and their sum."""
    found: Dict[int, Tuple[int, int]] = {}
    if is_array(numbers):
        numpy, low = importlib.import_module("numpy"), int(columns.min()) if len(columns) else 0
        # The sums are whole numbers below 2^53.
        totals = numpy.bincount(columns - low, numbers).tolist()
        for at, (count, total) in enumerate(zip(numpy.bincount(columns - low).tolist(), totals), low):
            if count:
                found[at] = count, int(total)
        return found
    for at, number in zip(columns, numbers):
        count, total = found.get(at, (0, 0))
        found[at] = count + 1, total + number
    return found


def scaled(numbers: Numbers, first: int, per: int) -> Numbers:
    """Where each number is, counted from the first in steps of so many."""
    return (numbers - first) // per if is_array(numbers) else [(it - first) // per for it in numbers]


def differences(numbers: Numbers, last: Optional[int], full: int) -> Numbers:
    """How much each number is above the one before it; the one before the first is `last`, and if that is None the first one is left out."""
    if is_array(numbers):
        numpy = importlib.import_module("numpy")
        whole = numpy.concatenate([[] if last is None else [last], numbers]).astype("i8")
        return numpy.diff(whole) % full
    whole = numbers if last is None else [last, *numbers]
    return [(it - before) % full for before, it in zip(whole, whole[1:])]
