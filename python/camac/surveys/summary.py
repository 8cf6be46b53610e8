"""The file of a survey: JSON that a record of a run takes in, and a report shows."""
import errno
import json
import os
from typing import Any, Dict, List, NamedTuple

from camac.drive import File
from camac.output import holds_bytes

FORM = "camac survey 1"


class Summary(NamedTuple):
    """What a file of a survey says: when it was, the SHA-256 of its plan, how many commands were sent, what differs, and what was not tried."""

    at: str
    plan: str
    sent: int
    differences: List[str]
    not_tried: List[str]

    def fields(self) -> Dict[str, Any]:
        return {"form": FORM, "at": self.at, "plan_sha256": self.plan, "sent": self.sent, "differences": self.differences, "not_tried": self.not_tried}

    def text(self) -> str:
        return json.dumps(self.fields(), indent=1) + "\n"

    def is_good(self, plan: str) -> bool:
        """Whether it was a survey of the plan with this SHA-256, and nothing differs."""
        return self.plan == plan and not self.differences

    def line(self, plan: str) -> str:
        """A sentence on the survey, for a run with the plan of this SHA-256."""
        count = len(self.differences)
        said = "nothing differs from the plan" if not count else f"{count} difference{'s' if count > 1 else ''} from the plan"
        return f"surveyed at {self.at} by {self.sent:,} commands: {said}" + ("" if self.plan == plan else "; it was another plan")


def read_summary(file: File) -> Summary:
    """Reads the file of a survey. Raises OSError if it cannot be read, and ValueError, with its name, if it is none."""
    with open(file, "rb") as opened:
        data = opened.read()
    try:
        return parse_summary(json.loads(data))
    except (ValueError, KeyError, TypeError, RecursionError):
        raise ValueError(f"{os.fsdecode(file)} is no survey: camac-survey -o makes one") from None


def refuse_foreign(path: str) -> None:
    """The rule that a file holds no bytes, or is a survey."""
    if holds_bytes(path):
        try:
            read_summary(path)
        except ValueError:
            raise FileExistsError(errno.EEXIST, "another command made it; --overwrite replaces it", path) from None


def parse_summary(fields: Any) -> Summary:
    """Raises KeyError, TypeError or ValueError if these are no fields of a survey."""
    parsed = Summary(*(fields[it] for it in ("at", "plan_sha256", "sent", "differences", "not_tried")))
    texts = [fields["form"], parsed.at, parsed.plan, *parsed.differences, *parsed.not_tried]
    if fields["form"] != FORM or not all(isinstance(it, str) for it in texts) or not isinstance(parsed.sent, int):
        raise ValueError
    return parsed
