"""A list of outputs checked by the library, with the costs of the case or of a curve, and its verdict in words."""

from dataclasses import dataclass

from curves import Curve
from ends import closing, stop_after
from faults import Refused
from money import dollars_of_half_mills, in_words, machine
from module import giqapsun
from reading import BY, Reading
from rules import breach
from tables import csv_of, json_of


@dataclass
class Checked:
    """A verdict, with the case and the list that it is about, and the curve that its profit is reckoned by, if one."""

    reading: Reading
    outputs: list
    verdict: giqapsun.Passes | giqapsun.Breaks
    curve: Curve | None = None

    @property
    def passes(self):
        """Whether the list keeps every rule."""
        return isinstance(self.verdict, giqapsun.Passes)

    @property
    def status(self):
        """The exit status: 0 if the list passes, 1 if it breaks a rule."""
        return int(not self.passes)

    def breach(self):
        """The breach in words."""
        return breach(self.reading.case, self.outputs, self.verdict.hour, self.verdict.rule)

    @property
    def stop_after(self):
        """The hour of the stop after the day, None where the list passes and has none, and where it does not pass."""
        return stop_after(self.reading.case, self.outputs) if self.passes else None

    def lines(self):
        """The verdict for a reader; a breach in words has a line of its own, and so has a stop after the day."""
        verdict = self.verdict
        if self.passes:
            by_curve = [self.curve.line()] if self.curve else []
            return [f"passes: earns {in_words(verdict.profit)}", *closing(self.reading.case, self.outputs), *by_curve]
        return [f"breaks rule {verdict.rule} at hour {verdict.hour}: {verdict.text}", self.breach()]

    def fields(self):
        """The verdict for a program."""
        verdict, passes = self.verdict, self.passes
        return {
            "verdict": "passes" if passes else "breaks",
            "profit_half_mills": verdict.profit if passes else None,
            "profit_dollars": machine(dollars_of_half_mills(verdict.profit)) if passes else None,
            "hour": None if passes else verdict.hour,
            "rule": None if passes else verdict.rule,
            "rule_text": None if passes else verdict.text,
            "text": None if passes else self.breach(),
            "stop_after_day": self.stop_after,
        }


def checked(reading, file, outputs, curve=None):
    """The verdict on a list, by a curve if there is one; `file` is the list's."""
    try:
        if curve is not None:
            return Checked(reading, outputs, giqapsun.check_by_curve(reading.case, curve.curve, outputs), curve)
        return Checked(reading, outputs, giqapsun.check(reading.case, outputs))
    except giqapsun.Refusal as refused:
        details = [f"outputs: {other_length(reading.case, outputs)}"] if refused.number == 9 else ()
        raise Refused(file, refused.number, details) from None


def other_length(case, listed):
    """What is wrong with the outputs or the prices of a file that are not T."""
    return f"{len(listed)}, {len(case.prices)} (the hours of the case) needed"


def checked_text(checked_list):
    """The verdict for a reader, and who has read the case."""
    return "\n".join([*checked_list.lines(), BY[checked_list.reading.by]]) + "\n"


def checked_json(checked_list):
    """The verdict for a program, and who has read the case."""
    curve = {"curve": checked_list.curve.fields()} if checked_list.curve else {}
    return json_of({**checked_list.fields(), **curve, "read_by": checked_list.reading.by})


def checked_csv(checked_list):
    """The verdict as a table of one row."""
    fields = checked_list.fields()
    return csv_of(fields.keys(), [fields.values()])
