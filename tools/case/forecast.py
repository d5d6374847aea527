"""A plan on a forecast of the prices, carried to the actual ones, beside the best list at these: what the plan was to
earn, what it earns, what the best list would have earned, and the regret, which is the difference of the last two.

The lists and what they earn are the library's. Answers that do not fit together are a fault: both rows of prices are
scheduled or neither is; the plan passes at the actual prices too, and earns what it was to earn and what the rows
differ by over its energy; no list is better than the best; and the regret is at most what the rows differ by over the
energy by which the two lists do."""

from dataclasses import dataclass, replace

from best import found
from check import other_length
from ends import closing
from faults import Fault, Refused
from hours import energies
from module import giqapsun
from money import amount_fields, dollars_of_half_mills, in_words
from pairs import Pair, better_of, difference_fields, hours_fields, lower, side_of, table
from prices import Hours
from reading import BY, file_of
from tables import json_of
from words import ORDERS


@dataclass
class Carried(Pair):
    """The plan, first, and the best list at the actual prices, which are those of `reading`; the forecast, and what the
    plan was to earn on it in half-mills."""

    forecast: list
    expected: int

    @property
    def rows(self):
        """The rows of prices by their words."""
        return {"forecast": self.forecast, "actual": self.reading.case.prices}

    @property
    def regret(self):
        """What the best list earns more than the plan, in half-mills."""
        return self.second.profit - self.first.profit

    @property
    def most(self):
        """The most that it can be: what the rows differ by over the energy by which the lists do, in half-mills."""
        plan, best = (_moved(self.forecast, self.reading.case, side.outputs) for side in self.sides)
        return best - plan

    @property
    def same(self):
        """Whether the plan is the best list."""
        return self.reason == "identical"

    def notes(self):
        """What a table of hours has no place for: a stop after the day of either list, and a curve."""
        lists = {"the plan": self.first} if self.same else {"the plan": self.first, "the best list": self.second}
        for name, side in lists.items():
            yield from (f"{name} {line}" for line in closing(self.reading.case, side.outputs))
        yield from [self.curve.line()] if self.curve else ()


def read_row(file, reading):
    """A reading with the prices of a file in place of its own. The file gives prices alone, so its orders, if it has
    any, have to be those of the case."""
    hours, case = Hours(file), reading.case
    if len(hours.prices) != len(case.prices):
        raise Fault(file, None, "prices", other_length(case, hours.prices))
    for hour, (order, own) in enumerate(zip(hours.orders, case.orders), 1):
        if hours.ordered and order != own:
            raise hours.fault("order", hour, f"{ORDERS[order]} at hour {hour}, {ORDERS[own]} in the case")
    case = replace(case, prices=hours.prices)
    number, _, faults = file_of(case)
    if number:
        raise Refused(file, number, [str(hours.fault(wrong.field, wrong.hour, wrong.what)) for wrong in faults])
    return replace(reading, case=case)


def carried(file, forecast, actual, curve=None):
    """The plan on a forecast beside the best list; each row is a file and the reading with its prices, `file` is the
    case's."""
    planned, best = _searched(file, (forecast[1], actual[1]), curve)
    prices, reading = planned.reading.case.prices, best.reading
    expected = planned.profit + _moved(prices, reading.case, planned.outputs)
    plan = _passing(reading, "plan", forecast[0], planned.outputs, expected, curve)
    best = _passing(reading, "best", actual[0], best.outputs, best.profit, curve)
    better, reason = better_of(plan, best)
    pair = Carried(reading, plan, best, reason, prices, planned.profit)
    if better is plan and not pair.same:
        what = f"the plan earns {plan.profit} and is better than the best list, which earns {best.profit}"
        raise Fault("the library", None, "best", what)
    if pair.regret > pair.most:
        raise Fault("the library", None, "best", f"the regret is {pair.regret}, where the prices allow {pair.most}")
    return pair


def _searched(file, readings, curve):
    """The best day at each row of prices. They do not matter to whether there is one."""
    days, refusals = [], []
    for reading in readings:
        try:
            days.append(found(file, reading, curve))
        except Refused as refused:
            refusals.append(refused)
    if days and refusals:
        what = f"refused {refusals[0].number} at one row of prices, and a list at the other"
        raise Fault("the library", None, "best", what)
    if refusals:
        raise refusals[0]
    return days


def _moved(forecast, case, outputs):
    """What the energy of a list is worth more at the prices of a case than on a forecast, in half-mills."""
    hours = zip(case.prices, forecast, energies(case, outputs))
    return sum((price - foreseen) * energy for price, foreseen, energy in hours)


def _passing(reading, place, file, outputs, profit, curve):
    """A list that has to pass, with a profit that is known."""
    side, passes = side_of(reading, place, file, outputs, curve), giqapsun.Passes(profit)
    if side.checked.verdict != passes:
        what = f"{side.checked.verdict}, where the search gives {passes}"
        raise Fault("the library", None, f"check of the {place}", what)
    return side


def forecast_text(pair):
    """Both lists hour by hour, what the plan was to earn, what both do, and the regret; more than 48 hours have what
    each of their days earns too."""
    lines = [*table(pair), "", *_profits(pair), *_beside(pair), *pair.notes(), BY[pair.reading.by]]
    return "\n".join(lines) + "\n"


def _profits(pair):
    plan, best = pair.sides
    more = plan.profit - pair.expected
    yield f"the plan was to earn {in_words(pair.expected)} on the forecast, {plan.name}"
    yield (
        f"it earns {in_words(plan.profit)} at the actual prices, {best.name}: "
        f"${dollars_of_half_mills(abs(more))} {'less' if more < 0 else 'more'}"
    )
    yield f"the best list at these prices earns {in_words(best.profit)}"
    yield f"regret {in_words(pair.regret)}, at most {in_words(pair.most)} by the prices"


def _beside(pair):
    """A line for a plan that is the best list, or earns as much."""
    if pair.same:
        yield "the plan is the best list"
    elif pair.regret == 0:
        yield f"the best list is another: {lower(pair.second, pair.first)}"


def forecast_json(pair):
    """The same for a program."""
    plan, best = pair.sides
    return json_of({
        "forecast_file": plan.file,
        "actual_file": best.file,
        **amount_fields("expected_profit", pair.expected),
        **amount_fields("plan_profit", plan.profit),
        **amount_fields("best_profit", best.profit),
        **amount_fields("regret", pair.regret),
        **amount_fields("regret_most", pair.most),
        "same_list": pair.same,
        "first_difference": difference_fields(pair),
        "plan_stop_after_day": plan.checked.stop_after,
        "best_stop_after_day": best.checked.stop_after,
        **({"curve": pair.curve.fields()} if pair.curve else {}),
        "hours": hours_fields(pair),
        "read_by": pair.reading.by,
    })
