"""A boiler maker's cost curve, from a TOML file: its coefficients as the maker supplies them, and its kind.

    a      half-mills
    b      half-mills per half-megawatt-hour
    c      half-mills per half-megawatt-hour squared
    kind   "flat", "straight" or "curved"

An hour of n half-megawatt-hours costs a, b n + a or (c n + b) n + a half-mills. Without the key kind the coefficients
that are given tell it: a alone is flat, a and b straight, all three curved. With it, those that the kind uses must be
given, and others may be given as 0. A coefficient is a float of 64 bits, as the file's digits are nearest to; it is not
converted, so the library gets the number that the maker wrote.
"""

import math
import tomllib
from dataclasses import dataclass, replace

from faults import Fault, Refused, named, quoted
from files import text
from module import giqapsun
from words import printable

# the coefficients of each kind, and the kinds by their words
NAMES = ("a", "b", "c")
KINDS = {"flat": giqapsun.Flat, "straight": giqapsun.Straight, "curved": giqapsun.Curved}
FORMULAS = {"flat": "a", "straight": "b n + a", "curved": "(c n + b) n + a"}


@dataclass(frozen=True)
class Curve:
    """A curve, with the file that it stands in: its kind by its word, and its coefficients by their names; once it was
    tested, its costs for 0 to 800 half-megawatt-hours, in half-mills."""

    file: str
    kind: str
    coefficients: dict
    table: list | None = None

    @property
    def name(self):
        """The name of the file in a text."""
        return printable(named(self.file))

    @property
    def used(self):
        """The coefficients that the kind uses."""
        return {name: self.coefficients[name] for name in NAMES[: _count(self.kind)]}

    @property
    def curve(self):
        """The curve as the library's module has it."""
        return KINDS[self.kind](**self.used)

    def tested(self):
        """The curve with its table, by the library. It refuses a curve by 16, which comes before any case; the module's
        curves have no place for unused coefficients, so the tool refuses those."""
        used, unused = list(self._outside()), list(self._not_zero())
        try:
            costs = giqapsun.table(self.curve)
        except giqapsun.Refusal as refused:
            raise Refused(self.file, refused.number, [*used, *unused]) from None
        if unused:
            raise Refused(self.file, 16, unused)
        return replace(self, table=costs)

    def _outside(self):
        """Each coefficient that the kind uses and that is not within the limits."""
        for name, number in self.used.items():
            if not 0 <= number <= giqapsun.COEFFICIENT_MOST:
                yield f"{name}: {shown(number)}, from 0 to {giqapsun.COEFFICIENT_MOST:,} allowed"

    def _not_zero(self):
        """Each that it does not use and that is not 0."""
        for name, number in self.coefficients.items():
            if name not in self.used and number != 0:
                yield f"{name}: {shown(number)}, 0 allowed in a {self.kind} curve"

    def words(self):
        """The curve in a line."""
        numbers = ", ".join(f"{name} {shown(number)}" for name, number in self.used.items())
        return f"{self.kind}, {FORMULAS[self.kind]} half-mills at n half-megawatt-hours: {numbers}"

    def line(self):
        """The line below a profit that is reckoned by it."""
        return f"costs by the curve {self.name}: {self.words()}"

    def fields(self):
        """The curve for a program."""
        return {"file": str(self.file), "kind": self.kind, **self.used}


def read_curve(file):
    """The curve of a file."""
    try:
        values = tomllib.loads(text(file))
    except (ValueError, RecursionError) as error:
        raise Fault(file, None, None, f"not TOML: {error}") from None
    for key in values:
        if key not in (*NAMES, "kind"):
            raise Fault(file, None, key, "no such key; a curve has a, b, c and kind")
    coefficients = {name: _coefficient(file, name, values[name]) for name in NAMES if name in values}
    kind = _kind(file, values["kind"]) if "kind" in values else _kind_of(coefficients)
    for name in NAMES[: _count(kind)]:
        if name not in coefficients:
            raise Fault(file, None, name, f"the key is missing; a {kind} curve has {', '.join(NAMES[: _count(kind)])}")
    return Curve(file, kind, coefficients)


def shown(number):
    """A coefficient with the digits that tell it from every other float."""
    return str(int(number)) if math.isfinite(number) and number == int(number) and abs(number) < 10**15 else str(number)


def _count(kind):
    """How many coefficients a kind uses."""
    return 1 + list(KINDS).index(kind)


def _kind(file, word):
    if not isinstance(word, str) or word not in KINDS:
        found = quoted(word) if isinstance(word, str) else "not a word"
        raise Fault(file, None, "kind", f'{found}; "flat", "straight" or "curved" needed')
    return word


def _kind_of(coefficients):
    """The kind whose last coefficient is the last that is given; flat where none is."""
    last = max((NAMES.index(name) for name in coefficients), default=0)
    return list(KINDS)[last]


def _coefficient(file, name, value):
    """A number as a float; a whole number that no float is, is a fault."""
    if isinstance(value, bool) or not isinstance(value, (int, float)):
        raise Fault(file, None, name, "not a number")
    try:
        number = float(value)
    except OverflowError:
        raise Fault(file, None, name, "a number of more than 300 digits") from None
    if isinstance(value, int) and number != value:
        raise Fault(file, None, name, f"{value} is no float of 64 bits")
    return number
