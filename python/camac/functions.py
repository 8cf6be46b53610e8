"""The functions of a CAMAC command (EUR 4100, IEEE 583): names, and what they do to data."""

NAMES = {
    0: "read group 1", 1: "read group 2", 2: "read and clear group 1", 3: "read complement of group 1", 8: "test LAM", 9: "clear group 1",
    10: "clear LAM", 11: "clear group 2", 16: "overwrite group 1", 17: "overwrite group 2", 18: "selective set group 1",
    19: "selective set group 2", 21: "selective clear group 1", 23: "selective clear group 2", 24: "disable", 25: "execute", 26: "enable",
    27: "test status",
}

# The stations of a crate's controller.
CONTROLLERS = (28, 30)


def name(function: int) -> str:
    """The name of a function, 0 to 31: `non-standard` (even codes) or `reserved` (odd codes) if it has none of its own."""
    return NAMES.get(function, "reserved" if function % 2 else "non-standard")


def reads(function: int) -> bool:
    return function < 8


def writes(function: int) -> bool:
    return 16 <= function < 24
