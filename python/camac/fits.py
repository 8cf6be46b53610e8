"""Whether events are of a script. The bounds of an accepted script are never passed, so an event that passes one is of another script or plan."""
from typing import NamedTuple, Optional, Sequence, Tuple

from camac.arrays import Group
from camac.drive import Refused
from camac.numbers import above
from camac.values import Service


class Fit:
    """The events that were taken, and those of them that a script cannot make. Without a script each one fits."""

    def __init__(self, services: Sequence[Service]) -> None:
        self.services = {it.gl: it for it in services}
        self.count = self.misfits = 0
        self.first: Optional[Tuple[int, str]] = None

    def take(self, of: Sequence[Group]) -> None:
        for group in of:
            self.count += len(group.numbers)
            if self.services:
                self._judge(group, self.services.get(group.gl))

    def _judge(self, group: Group, service: Optional[Service]) -> None:
        if service is None:
            self._note(group.numbers, f"is of GL {group.gl}, which has no service")
        elif group.size > service.words:
            self._note(group.numbers, f"has {group.size:,} words, those of {service.name} at most {service.words:,}")
        elif len(group.cycles):
            numbers, cycles = above(group.numbers, group.cycles, service.cycles)
            if len(numbers):
                self._note(numbers, f"took {cycles[0]:,} cycles, those of {service.name} at most {service.cycles:,}")

    def _note(self, numbers: Sequence[int], why: str) -> None:
        self.misfits += len(numbers)
        if self.first is None or numbers[0] < self.first[0]:
            self.first = int(numbers[0]), why

    def is_good(self) -> bool:
        return not self.misfits

    def text(self) -> str:
        """What was found, in a line."""
        text = f"events that this script can make, {self.count - self.misfits:,} of {self.count:,}"
        return text if self.first is None else f"{text}: another script or plan made them; event {self.first[0]:,} {self.first[1]}"


class Check(NamedTuple):
    """Numbers that have to agree, and whether they do."""

    text: str
    agrees: bool


def refuse(checks: Sequence[Check]) -> None:
    """Raises Refused if something does not agree."""
    wrong = [it.text for it in checks if not it.agrees]
    if wrong:
        raise Refused("; ".join(wrong))
