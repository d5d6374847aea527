"""The structs and calls of include/giqapsun.h, and the shared library that has them."""

import ctypes
import os
from functools import lru_cache
from pathlib import Path

STAGES = 8
HOURS = 168
SHORT_TIME = 8
WORK = 8192
WORK_MOST = 32_768
FILE_MOST = 20 + 34 + 2 * STAGES * 2 + 5 * HOURS + 2
PRICE_LEAST = -10_000_000
PRICE_MOST = 10_000_000
YEAR_HOURS = 8784
DAY_LEAST = 23
DAY_MOST = 25
COSTS = 801
FLAT, STRAIGHT, CURVED = 0, 1, 2
COEFFICIENT_MOST = 1_000_000

# the number of the record's layout, which ends the name of each call
LAYOUT = 4


class LibraryError(OSError):
    """The library is missing, cannot be loaded, or has another layout."""

    __module__ = "giqapsun"


class Case(ctypes.Structure):
    """The record of a case."""

    _fields_ = [
        ("capacity", ctypes.c_uint16),
        ("minimum", ctypes.c_uint16),
        ("rampup", ctypes.c_uint16),
        ("rampdown", ctypes.c_uint16),
        ("minup", ctypes.c_uint16),
        ("mindown", ctypes.c_uint16),
        ("variable", ctypes.c_int32),
        ("fixed", ctypes.c_int32),
        ("startcost", ctypes.c_int32),
        ("stopcost", ctypes.c_int32),
        ("initial", ctypes.c_uint16),
        ("elapsed", ctypes.c_uint16),
        ("upstage", ctypes.c_uint8),
        ("downstage", ctypes.c_uint8),
        ("rise", ctypes.c_uint16 * STAGES),
        ("fall", ctypes.c_uint16 * STAGES),
        ("prices", ctypes.c_int32 * HOURS),
        ("orders", ctypes.c_uint8 * HOURS),
        ("rises", ctypes.c_size_t),
        ("falls", ctypes.c_size_t),
        ("hours", ctypes.c_size_t),
    ]


class Curve(ctypes.Structure):
    """The coefficients of a cost curve."""

    _fields_ = [("a", ctypes.c_double), ("b", ctypes.c_double), ("c", ctypes.c_double)]


class Reading(ctypes.Structure):
    """Number 0 and the case, or a refusal."""

    _fields_ = [("number", ctypes.c_uint32), ("c", Case)]


class Written(ctypes.Structure):
    """Number 0 and how many bytes were written, or a refusal."""

    _fields_ = [("number", ctypes.c_uint32), ("length", ctypes.c_size_t)]


class Verdict(ctypes.Structure):
    """Number 0, rule 0 and the profit; number 0, hour and rule; or a refusal."""

    _fields_ = [
        ("number", ctypes.c_uint32),
        ("hour", ctypes.c_uint32),
        ("rule", ctypes.c_uint32),
        ("profit", ctypes.c_int64),
    ]


class Plan(ctypes.Structure):
    """Number 0 and what the best list earns, or a refusal."""

    _fields_ = [("number", ctypes.c_uint32), ("profit", ctypes.c_int64)]


class Choice(ctypes.Structure):
    """Number 0, which list is the better (1 or 2) and what it earns; number 0 and which 0; or a refusal."""

    _fields_ = [("number", ctypes.c_uint32), ("which", ctypes.c_uint32), ("profit", ctypes.c_int64)]


# lent slices, pointer and length: bytes, outputs or windows, numbers of a table or to work in
_BYTES = [ctypes.POINTER(ctypes.c_uint8), ctypes.c_size_t]
_LIST = [ctypes.POINTER(ctypes.c_uint16), ctypes.c_size_t]
_NUMBERS = [ctypes.POINTER(ctypes.c_int64), ctypes.c_size_t]

# the calls by their names without the layout's number: what each answers and takes; one that a later version adds
# stands last
_CALLS = {
    "read": (Reading, [*_BYTES]),
    "write": (Written, [Case, *_BYTES]),
    "check": (Verdict, [Case, *_LIST]),
    "best": (Plan, [Case, *_NUMBERS, *_LIST]),
    "better": (Choice, [Case, *_LIST, *_LIST]),
    "best_by_calendar": (Plan, [Case, *_LIST, *_LIST, ctypes.c_uint16, ctypes.c_uint16, *_NUMBERS, *_LIST]),
    "work": (ctypes.c_size_t, [Case]),
    "table": (ctypes.c_uint32, [ctypes.c_uint16, Curve, *_NUMBERS]),
    "check_by_curve": (Verdict, [Case, ctypes.c_uint16, Curve, *_LIST, *_NUMBERS]),
    "best_by_curve": (Plan, [Case, ctypes.c_uint16, Curve, *_NUMBERS, *_NUMBERS, *_LIST]),
}


def library_file() -> Path | None:
    """The library's file: the one that GIQAPSUN_LIBRARY names, or the one inside this package, or the one
    that bindings/build.sh makes in target/bindings of the repository; None where there is none."""
    named = os.environ.get("GIQAPSUN_LIBRARY")
    if named:
        return Path(named)
    package = Path(__file__).resolve().parent
    places = [package / "libgiqapsun.so"]
    if package.parent.parts[-2:] == ("bindings", "python"):
        places.append(package.parents[2] / "target" / "bindings" / "libgiqapsun.so")
    return next((place for place in places if place.exists()), None)


def calls():
    """The calls of the library, each under its name without the layout's number."""
    file = library_file()
    if file is None:
        raise LibraryError("libgiqapsun.so is not built: run bindings/build.sh, or set GIQAPSUN_LIBRARY")
    return _loaded(file)


class _Calls:
    """read, write, check, best, better, best_by_calendar, work, table, check_by_curve and best_by_curve."""

    def __init__(self, file, library):
        for name, (answer, arguments) in _CALLS.items():
            symbol = f"giqapsun_{name}_{LAYOUT}"
            try:
                call = getattr(library, symbol)
            except AttributeError:
                what = "it is of an earlier version" if vars(self) else f"it is no library of layout {LAYOUT}"
                raise LibraryError(f"{file} has no {symbol}: {what}; bindings/build.sh builds one") from None
            call.restype, call.argtypes = answer, arguments
            setattr(self, name, call)


@lru_cache(maxsize=None)
def _loaded(file):
    try:
        library = ctypes.CDLL(str(file.absolute()))
    except OSError as error:
        what = "no such file" if not file.exists() else str(error)
        raise LibraryError(f"the library {file} cannot be loaded: {what}") from None
    return _Calls(file, library)
