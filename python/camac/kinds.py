"""What names stand for, and which names follow a word of the language."""
import enum
from typing import Dict, Tuple

from camac.language import LAM_CALLS, OF_FUNCTIONS


class Kind(enum.Enum):
    """What a name stands for. A service has the name of its LAM."""

    LAM = "LAM"
    TABLE = "table"
    VARIABLE = "variable"
    PARAMETER = "parameter"
    REGISTER = "register"
    PROCEDURE = "procedure"


# A lookup in the class takes as long as the rest that is done at a name.
LAM, TABLE, VARIABLE = Kind.LAM, Kind.TABLE, Kind.VARIABLE
PARAMETER, REGISTER, PROCEDURE = Kind.PARAMETER, Kind.REGISTER, Kind.PROCEDURE
# What the next names are after a word, and whether they are declared there.
AFTER: Dict[str, Tuple[Tuple[Kind, bool], ...]] = {
    "cdlam": ((LAM, True),),
    "table": ((TABLE, False),),
    "proc": ((PROCEDURE, True),),
    "service": ((LAM, False),),
    "cdreg": ((REGISTER, True),),
    "call": ((PROCEDURE, False),),
    **{it: ((REGISTER, False),) for it in OF_FUNCTIONS},
    "cfmad": ((REGISTER, False), (REGISTER, False)),
    **{it: ((LAM, False),) for it in LAM_CALLS},
}
