"""The rules of a list in words: for a rule that is broken at an hour, the numbers of its inequality.

Whether a rule is broken is the library's to say. These words explain its verdict.
"""

from ends import stop_after
from words import counted, listed


class Marks:
    """p, v, y and z of a list in a case, and the sums of the constraints; the hours of the start that the day opens in
    and of the stop after the day, None where there are none."""

    def __init__(self, case, outputs):
        self.case = case
        self.outputs = [case.initial, *outputs]
        self.ud, self.dd = len(case.rise), len(case.fall)
        self.opening_start = 1 - case.upstage if case.upstage else None
        self.stop_after = stop_after(case, outputs)

    def p(self, k):
        """The output at the end of hour k, in MW."""
        return self.outputs[k] if 0 <= k < len(self.outputs) else 0

    def v(self, k):
        """1 if on-line at the end of hour k."""
        return int(self.p(k) > 0)

    def y(self, k):
        """1 for a start; below hour 1 and above the last, that alone which the day opens in."""
        return int(k == self.opening_start or 1 <= k < len(self.outputs) and self.v(k) > self.v(k - 1))

    def z(self, k):
        """1 for a stop; below hour 1 and above the last, that alone of the shut-down that the day closes in."""
        return int(k == self.stop_after or 1 <= k < len(self.outputs) and self.v(k) < self.v(k - 1))

    def starts(self, k):
        """The hours whose start-up holds hour k."""
        return [k - i for i in range(self.ud) if self.y(k - i)]

    def stops(self, k):
        """The hours whose shut-down holds hour k."""
        return [k + i for i in range(1, self.dd + 1) if self.z(k + i)]

    def stops_within(self, n, k):
        """The stops in n hours from hour k."""
        return [hour for hour in range(k, k + n) if self.z(hour)]

    def start_output(self, k):
        """MW that the start-up trajectory prescribes."""
        return sum(self.case.rise[k - s] for s in self.starts(k))

    def stop_output(self, k):
        """MW that the shut-down trajectory prescribes."""
        return sum(self.case.fall[self.dd - (c - k)] for c in self.stops(k))

    def tests(self, rule, k):
        """Whether a rule is tested at an hour."""
        if k == 0:
            return rule in (2, 4)
        return 1 <= k < len(self.outputs) or (rule, k) == (21, self.stop_after)

    def hours_since(self, mark, k):
        """Hours from the latest mark before hour k; with none, those that the unit has been in its state."""
        latest = next((hour for hour in range(k - 1, 0, -1) if mark(hour)), None)
        return self.case.elapsed + k - 1 if latest is None else k - latest


def kept(marks, rule, k):
    """Whether the rule's inequality holds at hour k: the first sum is at most the second."""
    first, second = _sums(marks, rule, k)
    return first <= second


def _sums(marks, rule, k):
    return [sum(number for _, number in side) for side in _RULES[rule][0](marks, rule, k)]


def breach(case, outputs, hour, rule):
    """What breaks the rule at the hour, in words with numbers; a breach that these numbers do not show is said so."""
    marks = Marks(case, outputs)
    if rule not in _RULES or not marks.tests(rule, hour) or kept(marks, rule, hour):
        return f"hour {hour}: rule {rule} is named, and this tool finds no numbers that break it"
    return f"hour {hour}: {_RULES[rule][1](marks, rule, hour) or _inequality(marks, rule, hour)}"


def _inequality(marks, rule, k):
    """The inequality with its numbers, for what no plain words fit."""
    left, right = (
        f"{' + '.join(name for name, _ in side)} = {' + '.join(str(number) for _, number in side)}"
        for side in _RULES[rule][0](marks, rule, k)
    )
    first, second = _sums(marks, rule, k)
    stops = marks.stops(k)
    overlap = f"the stops at hours {listed(stops)} lie within DD {marks.dd} hours; " if len(stops) > 1 else ""
    return f"{overlap}{left} is {first}; at most {right}, which is {second}, is allowed"


# Each rule has the two sides of its inequality at an hour, as names and numbers, and plain words for the usual
# breaches, None for the others.


def _lower(marks, rule, k):
    """(1) and (2): the least output."""
    low, sequences = marks.case.minimum, len(marks.starts(k)) + len(marks.stops(k))
    asked = ("PU", marks.start_output(k)) if rule == 1 else ("PD", marks.stop_output(k))
    allowed = [("output", marks.p(k)), ("minimum × sequences", low * sequences)]
    return [("minimum × v", low * marks.v(k)), asked], allowed


def _upper(marks, rule, k):
    """(3) and (4): the greatest output."""
    high = marks.case.capacity
    if rule == 3:
        sequences, allowed = len(marks.starts(k)), ("PU", marks.start_output(k))
    else:
        sequences, allowed = len(marks.stops(k)), ("PD", marks.stop_output(k))
    left = [("output", marks.p(k)), ("capacity × sequences", high * sequences)]
    return left, [allowed, ("capacity × v", high * marks.v(k))]


def _start_up_words(marks, rule, k):
    p, starts = marks.p(k), marks.starts(k)
    if len(starts) == 1:
        return _stage_of_a_start_up(marks, rule, k, starts[0])
    if starts:
        return None
    if rule == 3:
        return f"{p} MW; the capacity is {marks.case.capacity}"
    return f"{p} MW outside a start-up and a shut-down; the minimum is {marks.case.minimum}"


def _stage_of_a_start_up(marks, rule, k, start):
    """For (1), (3) and (8), in one start-up."""
    p, stage = marks.p(k), k - start + 1
    begun = "that the day opens in" if start == marks.opening_start else f"begun at hour {start}"
    output, place = marks.case.rise[stage - 1], f"stage {stage} of the start-up {begun}"
    if p == 0:
        return f"off-line; {place} needs {output} MW here"
    return f"{p} MW; {place} {'asks for at least' if rule == 1 else 'allows'} {output}"


def _shut_down_words(marks, rule, k):
    p, stops = marks.p(k), marks.stops(k)
    if len(stops) != 1:
        return None
    stage = marks.dd - (stops[0] - k) + 1
    output = marks.case.fall[stage - 1]
    if p == 0:
        return f"off-line; the stop at hour {stops[0]} needs stage {stage} of the shut-down here, {output} MW"
    limit = "asks for at least" if rule == 2 else "allows"
    return f"{p} MW; the stop at hour {stops[0]} makes it stage {stage} of the shut-down, which {limit} {output}"


def _ramp_up(marks, rule, k):
    """(5): ramp-up, waived inside PU."""
    limit, starting = marks.case.rampup, len(marks.starts(k))
    allowed = [("output before", marks.p(k - 1)), ("capacity × sequences", marks.case.capacity * starting)]
    return [("output", marks.p(k)), ("RU × sequences", limit * starting)], [*allowed, ("RU × v", limit * marks.v(k))]


def _ramp_down(marks, rule, k):
    """(6): ramp-down, waived inside PD."""
    limit, stops = marks.case.rampdown, len(marks.stops_within(marks.dd, k))
    allowed = [("output", marks.p(k)), ("capacity × stops", marks.case.capacity * stops)]
    left = [("output before", marks.p(k - 1)), ("RD × stops", limit * stops)]
    return left, [*allowed, ("RD × v before", limit * marks.v(k - 1))]


def _ramp_words(marks, rule, k):
    before, p = marks.p(k - 1), marks.p(k)
    if rule == 5 and p > before and not marks.starts(k):
        return f"from {before} to {p} MW is up {p - before}; RU allows {marks.case.rampup}"
    if rule == 6 and p < before and not marks.stops_within(marks.dd, k):
        return f"from {before} to {p} MW is down {before - p}; RD allows {marks.case.rampdown}"
    return None


def _commitment(marks, rule, k):
    """(7), (8) and (9): starts, stops and sequences against the hours on-line."""
    if rule == 7:
        apart = abs(marks.y(k) + marks.v(k - 1) - marks.v(k) - marks.z(k))
        return [("starts and stops apart from the hours on-line", apart)], [("none", 0)]
    name, sequences = ("start-ups", marks.starts(k)) if rule == 8 else ("shut-downs", marks.stops(k))
    return [(name, len(sequences))], [("v", marks.v(k))]


def _meeting(marks, rule, k):
    """(10), (11) and (12): a start-up and a shut-down meet at most in the hour at minimum output."""
    if rule == 10:
        stops = marks.stops_within(marks.ud + marks.dd - 1, k)
        return [("starts", marks.y(k)), ("stops within UD + DD - 1 hours", len(stops))], [("one", 1)]
    edge = marks.case.rise[-1] if rule == 11 else marks.case.fall[0]
    sequences = len(marks.starts(k)) + len(marks.stops(k))
    return [("minimum × sequences", edge * sequences)], [("output", marks.p(k)), ("minimum", edge)]


def _meeting_words(marks, rule, k):
    if rule != 10:
        if len(marks.starts(k)) + len(marks.stops(k)) != 2:
            return None
        return f"{marks.p(k)} MW where a start-up and a shut-down meet; the minimum {marks.case.minimum} is needed"
    hours = marks.ud + marks.dd - 1
    stops = marks.stops_within(hours, k)
    need = f"UD {marks.ud} and DD {marks.dd} need {hours}"
    if marks.y(k) and stops:
        return f"the start here and the stop at hour {stops[0]} are {counted(stops[0] - k, 'hour')} apart; {need}"
    return f"the stops at hours {listed(stops)} lie within {hours} hours; one may, for UD {marks.ud} and DD {marks.dd}"


def _times(marks, rule, k):
    """21 and 22: minimum times, at a stop and at a start."""
    if rule == 21:
        return [("minup", marks.case.minup * marks.z(k))], [("hours on-line", marks.hours_since(marks.y, k))]
    return [("mindown", marks.case.mindown * marks.y(k))], [("hours off-line", marks.hours_since(marks.z, k))]


def _time_words(marks, rule, k):
    hours = counted(marks.hours_since(marks.y if rule == 21 else marks.z, k), "hour")
    if rule == 21:
        past = "the shut-down that the day closes in ends here: " if k == marks.stop_after else ""
        return f"{past}stop after {hours} on-line; the minimum up time is {marks.case.minup}"
    return f"start after {hours} off-line; the minimum down time is {marks.case.mindown}"


def _order(marks, rule, k):
    """23: the hour's order."""
    order, v = marks.case.orders[k - 1], marks.v(k)
    return [("order not kept", int(order == 1 and not v or order == 2 and v))], [("none", 0)]


def _order_words(marks, rule, k):
    order = "on-line" if marks.case.orders[k - 1] == 1 else "off-line"
    return f"ordered {order}, and the list has {marks.p(k)} MW"


def _no_words(marks, rule, k):
    """For the rules that are never the first to be broken."""


_RULES = {
    1: (_lower, _start_up_words), 2: (_lower, _shut_down_words),
    3: (_upper, _start_up_words), 4: (_upper, _shut_down_words),
    5: (_ramp_up, _ramp_words), 6: (_ramp_down, _ramp_words),
    7: (_commitment, _no_words), 8: (_commitment, _start_up_words), 9: (_commitment, _shut_down_words),
    10: (_meeting, _meeting_words), 11: (_meeting, _meeting_words), 12: (_meeting, _meeting_words),
    21: (_times, _time_words), 22: (_times, _time_words), 23: (_order, _order_words),
}
