"""A case in words: every field with its unit, money in dollars too; and as JSON and CSV."""

from dataclasses import asdict

from days import column, days_of
from ends import stage_of
from layout import FORM, OLD, SECOND
from money import dollars_of_mills
from reading import BY
from tables import csv_of, json_of
from words import COSTS, NUMBERS, ORDERS, STAGES, TRAJECTORIES, UNIT

# what the form of a file says
_FORMS = {
    FORM: ", with stages and signed 32-bit prices",
    SECOND: f", with signed 32-bit prices; form {FORM} is the one that is written",
    OLD: f", with 16-bit prices; form {FORM} is the one that is written",
}


def shown_text(reading):
    """The text of a case."""
    case = reading.case
    lines = [f"{'form':9} {reading.form:>11} {'':13} of the file{_FORMS.get(reading.form, '')}"]
    for name in UNIT:
        if name in STAGES:
            lines += _stage(case, name)
        else:
            lines.append(_cost(case, name) if name in COSTS else _number(case, name))
    lines += [_trajectory(case, name) for name in TRAJECTORIES]
    lines.append(f"{'hours':9} {len(case.prices):>11} {'':13} T, the hours of the day")
    return "\n".join([*lines, "", *_hours(case), "", BY[reading.by]]) + "\n"


def _hours(case):
    """The table of the hours, with an empty line between days."""
    head, places = column(len(case.prices))
    firsts = {day.first for day in days_of(len(case.prices)) if day.number > 1}
    yield f"hour{head}  price (mills/MWh)  price ($/MWh)  order"
    for k, (place, price, order) in enumerate(zip(places, case.prices, case.orders), 1):
        if k in firsts:
            yield ""
        yield f"{k:4}{place}  {price:17}  {dollars_of_mills(price):>13}  {ORDERS[order]}"


def shown_json(reading):
    """The form of the file, and the case as the record has it: MW, hours, mills, order bytes."""
    return json_of({"form": reading.form, "case": asdict(reading.case), "read_by": reading.by})


def shown_csv(reading):
    """The case as a table: a row for each number, with its place in a list, counted from 1; the form comes first."""
    rows = [("form", "", reading.form)]
    for name, value in asdict(reading.case).items():
        entries = enumerate(value, 1) if isinstance(value, list) else [("", value)]
        rows += [(name, i, entry) for i, entry in entries]
    return csv_of(("field", "entry", "value"), rows)


def _number(case, name):
    words, unit = NUMBERS[name]
    if name == "elapsed":
        words = f"h, hours {'on-line' if case.initial else 'off-line'} before hour 1"
    return f"{name:9} {getattr(case, name):>11} {unit:13} {words}".rstrip()


def _stage(case, name):
    """A line for the stage that the day opens in, none where it is 0."""
    stage = getattr(case, name)
    if stage:
        yield f"{name:9} {stage:>11} {'':13} the day opens in {stage_of(case, case)}"


def _cost(case, name):
    words, unit = COSTS[name]
    mills = getattr(case, name)
    return f"{name:9} {mills:>11} {'mills':13} {words}, {unit}: ${dollars_of_mills(mills)}"


def _trajectory(case, name):
    words, count = TRAJECTORIES[name]
    outputs = getattr(case, name)
    return f"{name:9} {', '.join(map(str, outputs)):>11} {'MW':13} {words}, {count} {len(outputs)}"
