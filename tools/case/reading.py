"""Cases from files and files from cases: by the proved library, and by the tool itself only where the library is not
built."""

from dataclasses import dataclass

from faults import Fault, Refused
from layout import bytes_of, case_of, form_of
from limits import refusal
from module import giqapsun

# who has read a case
BY = {
    "library": "read by the library",
    "tool": "read by this tool itself: the library is not built",
}


@dataclass
class Reading:
    """A case, who has read it, `library` or `tool`, and the form of its file, `old` or its number."""

    case: giqapsun.Case
    by: str
    form: str | int


def built():
    """Whether there is a library to load."""
    return giqapsun.library_file() is not None


def reader():
    """Who reads cases."""
    return "library" if built() else "tool"


def read_case(file, data):
    """The case in the bytes of a file."""
    if not built():
        number, case, faults = case_of(data)
        if number:
            raise Refused(file, number, faults)
        return Reading(case, "tool", form_of(data))
    try:
        return Reading(giqapsun.read(data), "library", form_of(data))
    except giqapsun.Refusal as refused:
        raise Refused(file, refused.number, explained(refused.number, data)) from None


def explained(number, data):
    """What the tool can say of a file that was refused with a number."""
    own, _, faults = case_of(data)
    return faults if own == number else []


def file_of(case):
    """Number 0, the bytes of a case's file, and no faults; or the refusal's number, no bytes, and each field at
    fault with what is wrong. The bytes have been read again."""
    own, faults = refusal(case)
    number = _number(case, own)
    if number:
        return number, b"", faults if number == own else []
    data = giqapsun.write(case) if built() else bytes_of(case)
    if read_case("the case", data).case != case:
        raise Fault("the case", None, None, "the file that was written does not read back")
    return 0, data, []


def _number(case, own):
    """The refusal of a case by the library; the tool's own where there is none, or where no record holds the case."""
    if not built():
        return own
    try:
        giqapsun.write(case)
    except giqapsun.Refusal as refused:
        return refused.number
    except ValueError:
        return own
    return 0
