"""What `camac-check` found, in SARIF 2.1.0 (OASIS), as code scanning of forges reads it."""
import json
import pathlib
from typing import Any, Dict, List, Sequence
from urllib.parse import quote

from camac.judge import LEVELS, Found, Judged

SCHEMA = "https://docs.oasis-open.org/sarif/sarif/v2.1.0/errata01/os/schemas/sarif-schema-2.1.0.json"


def sarif(judged: Sequence[Judged], version: str) -> str:
    """One run of `camac-check` over files. `version` is that of the program."""
    found = [(it, one) for it in judged for one in it.found]
    rules = sorted({_rule(one) for _, one in found})
    driver = {"name": "camac-check", "rules": [{"id": it} for it in rules], "semanticVersion": version.partition(" ")[2]}
    faults = [it for it in judged if any(one.kind == "fault" for one in it.found)]
    run = {
        "tool": {"driver": driver},
        "columnKind": "unicodeCodePoints",
        "invocations": [{"executionSuccessful": not faults}],
        "results": [_result(it, one, rules) for it, one in found],
    }
    return json.dumps({"$schema": SCHEMA, "version": "2.1.0", "runs": [run]}, indent=2) + "\n"


def _rule(found: Found) -> str:
    return found.code or found.kind


def _result(of: Judged, found: Found, rules: List[str]) -> Dict[str, Any]:
    place: Dict[str, Any] = {"artifactLocation": {"uri": uri_of(of.file)}}
    if found.line is not None:
        place["region"] = {"startLine": found.line} if found.column is None else {"startLine": found.line, "startColumn": found.column}
    return {
        "ruleId": _rule(found),
        "ruleIndex": rules.index(_rule(found)),
        # What annotations call a notice is a note here.
        "level": LEVELS[found.kind].replace("notice", "note"),
        "message": {"text": "\n".join([found.text, *found.explanation])},
        "locations": [{"physicalLocation": place}],
    }


def uri_of(file: str) -> str:
    """A file as a reference of a URI: a relative one stays relative."""
    path = pathlib.PurePath(file)
    return path.as_uri() if path.is_absolute() else quote(path.as_posix())
