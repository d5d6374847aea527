"""The case file as the tool itself reads and writes it: bytes, least significant first.

A file begins with pairs of 16-bit offset and length, one for each of its sections: unit, rise, fall, hours and, in the
forms that have a number, that number. So the first offset is 20; in the old form, which has no number, it is 16. This
stands in for the library where it is not built, and says which bytes of a refused file are at fault.
"""

import struct
from typing import NamedTuple

from limits import outside, refusal
from module import giqapsun
from words import STAGES, UNIT

# the form that is written, the one before it, and the one that has no number
FORM = 3
SECOND = 2
OLD = "old"

_PAIR = struct.Struct("<2H")
_OUTPUT = struct.Struct("<H")
_NUMBER = struct.Struct("<H")


class _Form(NamedTuple):
    """What the forms differ in: the fields of the unit, its entry, and that of an hour, which is price and order."""

    names: tuple
    unit: struct.Struct
    hour: struct.Struct


# the unit of a form without stages
_NO_STAGES = tuple(name for name in UNIT if name not in STAGES), struct.Struct("<6H4i2H")

_FORMS = {
    OLD: _Form(*_NO_STAGES, struct.Struct("<HB")),
    SECOND: _Form(*_NO_STAGES, struct.Struct("<iB")),
    FORM: _Form(UNIT, struct.Struct("<6H4i2H2B"), struct.Struct("<iB")),
}


def _sections(form):
    """The sections of a form, with the entry of each and the most entries there may be; one has no more and no less."""
    unit = ("unit", _FORMS[form].unit, 1)
    trajectories = ("rise", _OUTPUT, giqapsun.STAGES), ("fall", _OUTPUT, giqapsun.STAGES)
    hours = ("hours", _FORMS[form].hour, giqapsun.HOURS)
    return (unit, *trajectories, hours) if form == OLD else (unit, *trajectories, hours, ("form", _NUMBER, 1))


# the first offset, which is where the pairs end, without a form number and with one
_OLD_OFFSET, _OFFSET = (_PAIR.size * len(_sections(form)) for form in (OLD, FORM))


def form_of(data):
    """The form of a file whose pairs are as laid down: OLD, or the number in its last bytes."""
    return OLD if _first_offset(data) == _OLD_OFFSET else _NUMBER.unpack(data[-_NUMBER.size :])[0]


def bytes_of(case):
    """The file of a case within the limits."""
    form = _FORMS[FORM]
    sections = [
        form.unit.pack(*(getattr(case, name) for name in form.names)),
        *(b"".join(map(_OUTPUT.pack, outputs)) for outputs in (case.rise, case.fall)),
        b"".join(map(form.hour.pack, case.prices, case.orders)),
        _NUMBER.pack(FORM),
    ]
    pairs, offset = b"", _PAIR.size * len(sections)
    for section in sections:
        pairs += _PAIR.pack(offset, len(section))
        offset += len(section)
    return pairs + b"".join(sections)


def case_of(data):
    """Number 0, the case of a file, and no words; or the refusal's number, None, and a line for each fault."""
    fault = _pair_at_fault(data)
    if fault:
        return 1, None, [fault]
    pairs, form = _pairs(data), form_of(data)
    # an unknown form has the lengths of the one that is written
    sections = _sections(form if form in _FORMS else FORM)
    faults = list(_lengths_at_fault(pairs, sections))
    if faults:
        return 2, None, faults
    if form not in _FORMS:
        return 12, None, [f"byte {pairs[-1][0]}: form number: {form}, {SECOND} or {FORM} needed"]
    case = _fields(data, pairs, form)
    number, faults = refusal(case)
    return number, None if number else case, _lines(faults)


def _lines(faults):
    return [f"{fault.field}: {fault.what}" for fault in faults]


def _first_offset(data):
    return _PAIR.unpack_from(data)[0]


def _pairs(data):
    """The pairs of a file, which end at its first offset."""
    return list(_PAIR.iter_unpack(data[: _first_offset(data)]))


def _fields(data, pairs, form):
    unit, rise, fall, hours = (
        list(entry.iter_unpack(data[offset : offset + length]))
        for (_, entry, _), (offset, length) in zip(_sections(form)[:4], pairs)
    )
    case = giqapsun.Case(**dict(zip(_FORMS[form].names, unit[0])))
    case.rise = [output for output, in rise]
    case.fall = [output for output, in fall]
    case.prices, case.orders = map(list, zip(*hours))
    return case


def _pair_at_fault(data):
    """What is wrong with the first pair that is not as laid down; None where each is."""
    if len(data) < _OLD_OFFSET:
        return f"bytes: {len(data)}, at least {_OLD_OFFSET} needed"
    end = _first_offset(data)
    if end not in (_OLD_OFFSET, _OFFSET):
        return f"byte 0: offset of unit: {end}, {_OFFSET} ({_OLD_OFFSET} in the old form) needed"
    if len(data) < end:
        return f"bytes: {len(data)}, at least {end} needed where the offset of unit is {end}"
    sections = _sections(OLD if end == _OLD_OFFSET else FORM)
    for i, ((name, _, _), (offset, length)) in enumerate(zip(sections, _pairs(data))):
        place = f"byte {_PAIR.size * i}"
        if offset != end:
            return f"{place}: offset of {name}: {offset}, {end} needed"
        end = offset + length
    return None if end == len(data) else f"{place}: end of {name}: {end}, and the file ends at {len(data)}"


def _lengths_at_fault(pairs, sections):
    for i, ((name, entry, most), (_, length)) in enumerate(zip(sections, pairs)):
        place = f"byte {_PAIR.size * i + 2}: length of {name}: {length}"
        if most == 1 and length != entry.size:
            yield f"{place}, {entry.size} bytes needed"
        elif length % entry.size:
            yield f"{place}, {entry.size} bytes for each entry needed"
        else:
            yield from _lines(outside(name, length // entry.size, 1, most))
