"""Two lists of outputs side by side, one from each of two houses, and which to offer. The choice is the library's. The
reason is found from the two verdicts, and a choice that they do not give is a fault."""

from dataclasses import dataclass

from check import other_length
from faults import Fault, Refused, named
from hours import agree
from module import giqapsun
from money import dollars_of_half_mills, machine
from pairs import Pair, better_of, difference, difference_fields, hours_fields, lower, side_of, table
from reading import BY
from tables import json_of


@dataclass
class Compared(Pair):
    """The lists of two houses, and the library's choice."""

    choice: giqapsun.First | giqapsun.Second | giqapsun.Neither

    @property
    def chosen(self):
        """The list to offer and the other; None and None where neither passes."""
        if isinstance(self.choice, giqapsun.First):
            return self.first, self.second
        return (self.second, self.first) if isinstance(self.choice, giqapsun.Second) else (None, None)

    @property
    def status(self):
        """The exit status: 0 if there is a list to offer, 1 if neither passes."""
        return int(isinstance(self.choice, giqapsun.Neither))

    def why(self):
        """The reason in words."""
        chosen, other = self.chosen
        match self.reason:
            case "neither":
                return "both break a rule"
            case "passes":
                return f"the {other.place} breaks a rule"
            case "profit":
                return f"it earns ${dollars_of_half_mills(chosen.profit - other.profit)} more"
            case "identical":
                return "identical lists give the first"
        return lower(chosen, other)


def compared(file, reading, first, second):
    """The choice between two lists, each a file and its outputs; `file` is the case's."""
    try:
        choice = giqapsun.compare(reading.case, first[1], second[1])
    except giqapsun.Refusal as refused:
        raise _refused(refused.number, file, reading.case, (first, second)) from None
    houses = _house(reading, "first", *first), _house(reading, "second", *second)
    house, reason = better_of(*houses)
    expected = _choice(house)
    if choice != expected:
        raise Fault("the library", None, "better", f"{choice}, where the two verdicts give {expected}")
    return Compared(reading, *houses, reason, choice)


def _house(reading, place, file, outputs):
    """The list of a house; a profit that its hours do not earn is a fault."""
    house = side_of(reading, place, file, outputs)
    if house.checked.passes:
        agree(file, None, house.profit, house.earnings)
    return house


def _refused(number, file, case, given):
    """The refusal; 9 names each list that is not of T outputs."""
    if number != 9:
        return Refused(file, number)
    short = {named(name): outputs for name, outputs in given if len(outputs) != len(case.prices)}
    details = [f"{name}: outputs: {other_length(case, outputs)}" for name, outputs in short.items()]
    return Refused(", ".join(short or (named(name) for name, _ in given)), 9, details)


def _choice(house):
    """The choice of a house's list, or of neither."""
    if house is None:
        return giqapsun.Neither()
    kind = giqapsun.First if house.place == "first" else giqapsun.Second
    return kind(house.profit)


def better_text(pair):
    """The lists hour by hour, the verdict on each, and which to offer; more than 48 hours have what each of their days
    earns too."""
    lines = [*table(pair), ""]
    for house in pair.sides:
        verdict, *breach = house.checked.lines()
        lines += [f"the {house.place}, {house.name}, {verdict}", *(f"    {line}" for line in breach)]
    return "\n".join([*lines, _differ(pair), offer(pair), BY[pair.reading.by]]) + "\n"


def _differ(pair):
    hour = difference(*pair.sides)
    if hour is None:
        return "the two lists are identical"
    first, second = pair.first.outputs[hour - 1], pair.second.outputs[hour - 1]
    return f"they differ first at hour {hour}: {first} MW in the first, {second} MW in the second"


def offer(pair):
    """Which list to offer, and why."""
    chosen, _ = pair.chosen
    which = f"the {chosen.place}, {chosen.name}" if chosen else "neither"
    return f"offer {which}: {pair.why()}"


def better_json(pair):
    """The choice for a program; `outputs` is the list to offer, empty where neither passes."""
    chosen, _ = pair.chosen
    return json_of({
        "which": chosen.place if chosen else "neither",
        "file": chosen.file if chosen else None,
        "profit_half_mills": chosen.profit if chosen else None,
        "profit_dollars": machine(dollars_of_half_mills(chosen.profit)) if chosen else None,
        "outputs": chosen.outputs if chosen else [],
        "reason": pair.reason,
        "text": offer(pair),
        "first_difference": difference_fields(pair),
        "lists": [{"file": house.file, **house.checked.fields()} for house in pair.sides],
        "hours": hours_fields(pair),
        "read_by": pair.reading.by,
    })
