"""Prints what layout.c prints, from the structures of the Python module."""

import ctypes

import giqapsun
from giqapsun import _boundary as boundary

CONSTANTS = (
    "LAYOUT", "STAGES", "HOURS", "SHORT_TIME", "WORK", "WORK_MOST", "FILE_MOST", "PRICE_LEAST", "PRICE_MOST",
    "YEAR_HOURS", "DAY_LEAST", "DAY_MOST", "COSTS", "FLAT", "STRAIGHT", "CURVED", "COEFFICIENT_MOST",
)


def sign(kind):
    """The sign of a field, as layout.c prints it."""
    number = getattr(kind, "_type_", kind)
    number = number if isinstance(number, type) else kind
    if issubclass(number, ctypes.Structure):
        return ""
    if number is ctypes.c_double:
        return ", float"
    return ", signed" if number(-1).value < 0 else ", unsigned"


def main():
    """Every constant, structure and field."""
    for name in CONSTANTS:
        print(name, getattr(boundary, name))
    for name in ("FREE", "ON", "OFF"):
        print(name, getattr(giqapsun, name))
    for name in ("case", "curve", "reading", "written", "verdict", "plan", "choice"):
        kind = getattr(boundary, name.capitalize())
        print(f"{name}: size {ctypes.sizeof(kind)}")
        for field, number in kind._fields_:
            place = getattr(kind, field)
            print(f"{name}.{field}: offset {place.offset}, size {place.size}{sign(number)}")


main()
