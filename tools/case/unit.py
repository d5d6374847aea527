"""The unit, from a TOML file: one key for each field, all of them required but the two stages.

    capacity, minimum, initial                       MW
    rampup, rampdown                                 MW per hour
    minup, mindown, elapsed                          hours
    rise, fall                                       lists of MW
    start_up_stage, shut_down_stage                  stages; 0 where they are left out
    variable_dollars or variable_mills               per MWh
    fixed_dollars or fixed_mills                     per on-line hour
    startcost_dollars or startcost_mills             per start
    stopcost_dollars or stopcost_mills               per stop

The keys are the names of the record, but for the stages, which it calls upstage and downstage. Each cost says its unit
in its key. Dollars have up to three decimals and are taken digit by digit.
"""

import re
import tomllib

from ends import stage_of
from faults import Fault, quoted
from files import text
from module import giqapsun
from money import dollars_of_mills, machine, mills_of_dollars
from words import COSTS, NUMBERS, STAGES, TRAJECTORIES

# the keys of the stages by the record's names
STAGE_KEYS = {name: key for name, (key, _, _) in STAGES.items()}

# other words for a key, and the record's
SYNONYMS = {
    "ramp_up": "rampup", "ramp_down": "rampdown", "RU": "rampup", "RD": "rampdown",
    "minimum_up": "minup", "minimum_down": "mindown", "min_up": "minup", "min_down": "mindown",
    "start_up": "rise", "shut_down": "fall", "PU": "rise", "PD": "fall",
    "F": "variable", "A": "fixed", "B": "startcost", "C": "stopcost",
    "startup": "startcost", "shutdown": "stopcost", "startup_stage": "start_up_stage",
    "shutdown_stage": "shut_down_stage", **STAGE_KEYS,
}


class Digits(str):
    """A number with a decimal point or an exponent, as it stands in the file."""


class Unit:
    """The keys of a file and the lines they stand on."""

    def __init__(self, file):
        self.file = file
        written = text(file)
        self.lines = written.split("\n")
        try:
            self.values = tomllib.loads(written, parse_float=Digits)
        except (ValueError, RecursionError) as error:
            raise Fault(file, _line_in(str(error)), None, f"not TOML: {error}") from None

    def fault(self, key, what):
        """A fault at a key, or at the cost or the stage of that name."""
        if key not in self.values:
            key = STAGE_KEYS.get(key, key)
        name = re.escape(key) if key in self.values else rf"{re.escape(key)}(?:_dollars|_mills)"
        pattern = re.compile(rf"\s*\[*\s*[\"']?{name}[\"']?\s*[\].=]")
        lines = (n for n, line in enumerate(self.lines, 1) if pattern.match(line))
        return Fault(self.file, next(lines, None), key, what)

    def number(self, key, value):
        """A whole number."""
        if not isinstance(value, int) or isinstance(value, bool):
            raise self.fault(key, f"{_shown(value)} is not a whole number")
        if abs(value) >= 10**15:
            raise self.fault(key, f"{_shown(value)} is too large")
        return value

    def list(self, key):
        """A list of outputs."""
        value = self.values[key]
        if not isinstance(value, list):
            raise self.fault(key, f"{_shown(value)} is not a list of outputs")
        return [self.number(key, output) for output in value]

    def cost(self, name):
        """A cost in mills, from the key in dollars or the key in mills."""
        keys = [key for key in (f"{name}_dollars", f"{name}_mills") if key in self.values]
        if not keys:
            raise Fault(self.file, None, name, f"the key {name}_dollars or {name}_mills is missing")
        if len(keys) > 1:
            raise self.fault(keys[1], f"{keys[0]} is given too")
        key, value = keys[0], self.values[keys[0]]
        return self.dollars(key, value) if key.endswith("_dollars") else self.number(key, value)

    def dollars(self, key, value):
        """The mills of an amount in dollars."""
        whole = isinstance(value, int) and not isinstance(value, bool)
        if not whole and not isinstance(value, Digits):
            raise self.fault(key, f"{_shown(value)} is not an amount in dollars")
        mills = mills_of_dollars(_shown(value).replace("_", ""))
        if mills is None:
            raise self.fault(key, f"{_shown(value)} is not an amount in dollars with up to three decimals")
        return mills

    def case(self):
        """A case with the unit's fields, and no hours."""
        costs = {f"{cost}_{money}" for cost in COSTS for money in ("dollars", "mills")}
        for key in self.values:
            if key not in {*NUMBERS, *STAGE_KEYS.values(), *TRAJECTORIES, *costs}:
                raise self.fault(key, _no_key(key))
        for key in (*NUMBERS, *TRAJECTORIES):
            if key not in self.values:
                raise Fault(self.file, None, key, "the key is missing")
        fields = {key: self.number(key, self.values[key]) for key in NUMBERS}
        fields |= {cost: self.cost(cost) for cost in COSTS}
        fields |= {name: self.number(key, self.values.get(key, 0)) for name, key in STAGE_KEYS.items()}
        return giqapsun.Case(**fields, **{key: self.list(key) for key in TRAJECTORIES})


def unit_text(case):
    """The file that gives the unit of a case back."""
    lines = [_line(name, getattr(case, name), *words) for name, words in NUMBERS.items()]
    lines += [
        _line(key, getattr(case, name), "", f"the day opens in {stage_of(case, case)}")
        for name, key in STAGE_KEYS.items() if getattr(case, name)
    ]
    lines += [
        _line(f"{name}_dollars", machine(dollars_of_mills(getattr(case, name))), *words)
        for name, words in COSTS.items()
    ]
    lines += [_line(name, getattr(case, name), words, "MW") for name, (words, _) in TRAJECTORIES.items()]
    return "\n".join(lines) + "\n"


def _line(key, value, words, unit):
    note = f"{words}, {unit}" if words else unit
    return f"{f'{key} = {value}':40}  # {note}"


def _no_key(key):
    name, money = re.fullmatch(r"(.*?)(_dollars|_mills)?", key, re.DOTALL).groups()
    right = SYNONYMS.get(name)
    if right is None and name in COSTS:
        right = name
    if right is None:
        return "no such key"
    return f"no such key; it is {right}{money or '_dollars or ' + right + '_mills' if right in COSTS else ''}"


def _shown(value):
    if isinstance(value, bool):
        return "true" if value else "false"
    if isinstance(value, int):
        return str(value) if abs(value) < 10**15 else "a number of more than 15 digits"
    if isinstance(value, Digits):
        return value if len(value) <= 40 else value[:40] + "..."
    if isinstance(value, str):
        return quoted(value)
    return {list: "a list", dict: "a table"}.get(type(value), "a date or time")


def _line_in(message):
    match = re.search(r"at line ([0-9]+)", message)
    return int(match[1]) if match else None
