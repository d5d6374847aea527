"""The fields of a case: the record's name of each, what it means and its unit; the words of an order; how numbers and
names are written."""

# MW, hours
NUMBERS = {
    "capacity": ("", "MW"),
    "minimum": ("minimum output", "MW"),
    "rampup": ("ramp-up limit RU", "MW per hour"),
    "rampdown": ("ramp-down limit RD", "MW per hour"),
    "minup": ("minimum up time", "hours"),
    "mindown": ("minimum down time", "hours"),
    "initial": ("output p(0) before hour 1", "MW"),
    "elapsed": ("h, hours on-line or off-line before hour 1", "hours"),
}

# mills
COSTS = {
    "variable": ("variable cost F", "per MWh"),
    "fixed": ("fixed cost A", "per on-line hour"),
    "startcost": ("start-up cost B", "per start"),
    "stopcost": ("shut-down cost C", "per stop"),
}

# lists of MW
TRAJECTORIES = {
    "rise": ("start-up trajectory PU", "UD"),
    "fall": ("shut-down trajectory PD", "DD"),
}

# the stage that the day opens in, 0 for none: its key in the unit's file, the sequence, the list of its outputs
STAGES = {
    "upstage": ("start_up_stage", "start-up", "rise"),
    "downstage": ("shut_down_stage", "shut-down", "fall"),
}

# the fields of the unit in the order of the record
UNIT = (
    "capacity", "minimum", "rampup", "rampdown", "minup", "mindown", "variable", "fixed", "startcost", "stopcost",
    "initial", "elapsed", *STAGES,
)

# what an order byte says
ORDERS = ("free", "on", "off")


def listed(numbers):
    """Numbers with commas between, runs as 2 to 5."""
    runs = []
    for number in numbers:
        if runs and number == runs[-1][1] + 1:
            runs[-1][1] = number
        else:
            runs.append([number, number])
    return ", ".join(str(first) if first == last else f"{first} to {last}" for first, last in runs)


def hours_listed(hours):
    """Hours by their numbers, as hour 3, or hours 2 to 5, 8."""
    return f"hour{'s' if len(hours) > 1 else ''} {listed(hours)}"


def ordered_hours(orders):
    """The hours of each order but free, as on-line at hours 2 to 5."""
    for order, word in enumerate(ORDERS):
        hours = [hour for hour, given in enumerate(orders, 1) if given == order]
        if order and hours:
            yield f"{word}-line at {hours_listed(hours)}"


def counted(number, noun):
    """A number and its noun, as 1 hour or 2 hours."""
    return f"{number} {noun}" if number == 1 else f"{number} {noun}s"


def printable(name):
    """A name with ? for each letter that is none."""
    return "".join(letter if letter.isprintable() else "?" for letter in name)
