"""Case files of the day scheduler: make one, show one, find its best day, check a list of outputs, compare two, say
what a price forecast has cost; and the costs of a boiler maker's curve."""

import argparse
import os
import sys
from dataclasses import dataclass

from best import best_csv, best_day, best_json, best_text
from better import better_json, better_text, compared
from calendars import Calendar
from check import checked, checked_csv, checked_json, checked_text
from costs import costs_csv, costs_json, costs_text
from curves import read_curve
from dates import Span, hour_number, iso_date, span_of
from ends import left
from faults import Fault, Refused, named
from files import contents, write
from forecast import carried, forecast_json, forecast_text, read_row
from lists import read_list
from module import giqapsun
from pairs import pair_csv
from plot import svg
from plot_costs import svg_of_costs
from plot_two import svg_of_forecast, svg_of_two
from prices import Hours, prices_text
from reading import BY, file_of, read_case, reader
from show import shown_csv, shown_json, shown_text
from tables import json_of
from unit import Unit, unit_text
from windows import Year

STATUSES = """\
Exit status: 0 done, and for check and better: a list passes; 1 no list passes (check and better only); 2 refused, bad
input, or an answer that cannot be written. A fault is named on standard error.
"""

MAKE = """\
The unit's file holds one key for each field: capacity, minimum, initial (MW), rampup, rampdown (MW per hour), minup,
mindown, elapsed (hours), rise, fall (lists of MW), and for each of variable (F, per MWh), fixed (A, per on-line hour),
startcost (B, per start) and stopcost (C, per stop) either a key in dollars, as variable_dollars, with up to three
decimals, or one in mills, as variable_mills. A unit that opens inside a start-up or a shut-down has start_up_stage or
shut_down_stage too, the stage that initial is the output of. The prices' file begins with the line hour,price_dollars
or hour,price_mills, with ,order after it if any hour has an order, and has a line for each hour, up to the 168 of a
week. A price is from -10,000 to 10,000 dollars. The file is of form 3. It is read again before it is written: a case
that would be refused is not written.
"""

SHOW = """\
The form of the file is named: 3, 2, or old. With --toml or --prices the files are written that make takes, and nothing
is printed: making them again gives the same case, in form 3. A file that would be refused is not shown: the fault says
why.
"""

BEST = """\
A stop after the day is said, with its hour. With --next the unit's file for the next day is written: the unit with the
opening that the best list leaves. With --calendar the orders come from the windows of a year in place of the case's
own. The file begins with the line order,first,hours and has a line for each window: on or off, its first hour, counted
from 0 at the year's first, and how many hours it holds; those of an order are sorted by first hour. The day is named by
--first, and has then as many hours as the case unless --hours says another number; or by --date and --zone, and has
then the 23, 24 or 25 hours that the clocks give it. With --curve an hour costs what a boiler maker's curve says, in
place of F and A: see curve. A curve and a calendar do not go together.
"""

CHECK = """\
The list's file begins with the line hour,output and has a line for each hour from 1, outputs in MW; the table that
best --csv prints is one too. With --curve its profit is reckoned by a boiler maker's curve in place of F and A.
"""

BETTER = """\
Both lists are checked against the case, and the one to offer is named. A list that passes beats one that does not; then
the higher profit wins; then the lower output at the first hour where they differ; of identical lists the first is
named. If neither passes, neither is. Each file is a list as check takes it.
"""

FORECAST = """\
The plan is the best list at the prices of the first file. It is checked at those of the second, and stands beside the
best list at these: the regret is what that one earns more. Both files are prices as make takes them, one for each hour
of the case, and stand for the case's own; everything else is the case's, and orders that a file has must be too. With
--curve profits are reckoned by a boiler maker's curve in place of F and A.
"""

CURVE = """\
The curve's file holds the coefficients as the maker supplies them, floats of 64 bits from 0 to 1,000,000: a in
half-mills (2,000 to the dollar), b in half-mills per half-megawatt-hour, c in half-mills per half-megawatt-hour
squared. An hour of n half-megawatt-hours costs a (flat), b n + a (straight) or (c n + b) n + a (curved): the last
coefficient that is given tells the kind, or the key kind does. The text has every 50th cost, --json and --csv all of
them, for 0 to 800 half-megawatt-hours.
"""


@dataclass
class Answer:
    """What is printed, and the exit status."""

    data: bytes
    status: int = 0


def make(arguments):
    """The file of a unit and its hours."""
    unit = Unit(arguments.unit)
    case, hours = unit.case(), Hours(arguments.prices)
    case.prices, case.orders = hours.prices, hours.orders
    number, data, faults = file_of(case)
    if number:
        files = f"{named(arguments.unit)}, {named(arguments.prices)}"
        raise Refused(files, number, [_placed(unit, hours, wrong) for wrong in faults])
    note(reader())
    if arguments.output is not None:
        write(arguments.output, data)
        return Answer(b"")
    if sys.stdout is not None and sys.stdout.isatty():
        raise Fault("standard output", None, None, "a case is bytes, not text for a terminal; name a file with -o")
    return Answer(data)


def _placed(unit, hours, wrong):
    """A fault of a field with the file that the field comes from, and its line if it is that of a key or of an hour."""
    if wrong.field in ("hours", "prices", "orders"):
        return str(hours.fault(wrong.field, wrong.hour, wrong.what))
    return str(unit.fault(wrong.field, wrong.what))


def show(arguments):
    """A case in words, or the files that it is made of."""
    reading = read_case(arguments.file, contents(arguments.file))
    if arguments.toml is None and arguments.prices is None:
        return _formed(arguments, reading, reading, shown_text, shown_json, shown_csv)
    note(reading.by)
    if arguments.toml is not None:
        write(arguments.toml, unit_text(reading.case).encode())
    if arguments.prices is not None:
        write(arguments.prices, prices_text(reading.case).encode())
    return Answer(b"")


def best(arguments):
    """The table of the best day; its plot and the unit of the next day go to files of their own."""
    data = contents(arguments.file)
    day = best_day(arguments.file, data, calendar_of(arguments), curve_of(arguments))
    if arguments.plot is not None:
        write(arguments.plot, svg(day, os.path.basename(named(arguments.file))).encode())
    if arguments.next is not None:
        write(arguments.next, unit_text(left(day.reading.case, day.outputs)).encode())
    if arguments.form == "csv":
        say("\n".join(day.notes()))
    return _formed(arguments, day, day.reading, best_text, best_json, best_csv)


def calendar_of(arguments):
    """The calendar of a command line, None where it has none."""
    if arguments.calendar is None:
        return None
    if arguments.date is None:
        return Calendar(Year(arguments.calendar), Span(arguments.first_hour, arguments.hours))
    return Calendar(Year(arguments.calendar), span_of(arguments.date, arguments.zone))


def curve_of(arguments):
    """The curve of a command line, None where it has none; 16 comes before any case."""
    return None if arguments.curve is None else read_curve(arguments.curve).tested()


def check(arguments):
    """The verdict on a list."""
    by_curve = curve_of(arguments)
    reading = read_case(arguments.file, contents(arguments.file))
    verdict = checked(reading, arguments.list, read_list(arguments.list), by_curve)
    answer = _formed(arguments, verdict, reading, checked_text, checked_json, checked_csv)
    return Answer(answer.data, verdict.status)


def better(arguments):
    """Which of two lists to offer; the picture of both goes to a file of its own."""
    reading = read_case(arguments.file, contents(arguments.file))
    first, second = ((file, read_list(file)) for file in (arguments.first, arguments.second))
    pair = compared(arguments.file, reading, first, second)
    if arguments.plot is not None:
        write(arguments.plot, svg_of_two(pair, os.path.basename(named(arguments.file))).encode())
    answer = _formed(arguments, pair, reading, better_text, better_json, pair_csv)
    return Answer(answer.data, pair.status)


def forecast(arguments):
    """What a plan on a forecast earns at the actual prices; the picture of it and the best list goes to a file of its
    own."""
    by_curve = curve_of(arguments)
    reading = read_case(arguments.file, contents(arguments.file))
    rows = ((file, read_row(file, reading)) for file in (arguments.forecast, arguments.actual))
    pair = carried(arguments.file, *rows, by_curve)
    if arguments.plot is not None:
        write(arguments.plot, svg_of_forecast(pair, os.path.basename(named(arguments.file))).encode())
    if arguments.form == "csv":
        say("\n".join(pair.notes()))
    return _formed(arguments, pair, reading, forecast_text, forecast_json, pair_csv)


def curve(arguments):
    """The costs of a curve; their picture goes to a file of its own."""
    read = curve_of(arguments)
    words = {"text": costs_text, "json": costs_json, "csv": costs_csv}[arguments.form](read)
    if arguments.plot is not None:
        write(arguments.plot, svg_of_costs(read).encode())
    return Answer(words.encode("utf-8", "replace"))


def _formed(arguments, answer, reading, text, json, csv):
    """An answer in the form that is asked for; CSV has no place for who has read the case, so it is noted."""
    if arguments.form == "csv":
        note(reading.by)
    return Answer({"text": text, "json": json, "csv": csv}[arguments.form](answer).encode("utf-8", "replace"))


def parsed(words):
    """The command line."""
    parser = argparse.ArgumentParser(prog="case", description=__doc__, epilog=STATUSES)
    parser.add_argument("--version", action="version", version=f"case {giqapsun.__version__}")
    commands = parser.add_subparsers(required=True, metavar="make | show | best | check | better | forecast | curve")
    command = _command(commands, make, "write the case of a unit and its prices", MAKE)
    command.add_argument("unit", metavar="UNIT.toml")
    command.add_argument("prices", metavar="PRICES.csv")
    command.add_argument("-o", dest="output", metavar="FILE", help="write this file, whole or not at all")
    command = _command(commands, show, "print every field of a case", SHOW)
    command.add_argument("file", metavar="DAY.case")
    command.add_argument("--toml", metavar="UNIT.toml", help="write the unit's file")
    command.add_argument("--prices", metavar="PRICES.csv", help="write the prices' file")
    _forms(command)
    command = _command(commands, best, "find the best day of a case and print it as a table", BEST)
    command.add_argument("file", metavar="DAY.case")
    command.add_argument("--calendar", metavar="YEAR.csv", help="take the orders from the windows of a year")
    command.add_argument("--first", dest="first_hour", metavar="N", type=hour_number, help="the day's first hour")
    command.add_argument("--hours", metavar="N", type=hour_number, help="its number of hours, if not that of the case")
    command.add_argument("--date", metavar="YYYY-MM-DD", type=iso_date, help="the day by its date")
    command.add_argument("--zone", metavar="NAME", help="the time zone of the date, as Europe/Madrid")
    command.add_argument("--curve", metavar="CURVE.toml", help="take the costs from a boiler maker's curve")
    command.add_argument("--plot", metavar="FILE.svg", help="draw outputs, prices and earnings too")
    command.add_argument("--next", metavar="NEXT.toml", help="write the unit's file for the next day too")
    _forms(command)
    command = _command(commands, check, "check a list of outputs", CHECK)
    command.add_argument("file", metavar="DAY.case")
    command.add_argument("list", metavar="LIST.csv")
    command.add_argument("--curve", metavar="CURVE.toml", help="take the costs from a boiler maker's curve")
    _forms(command)
    command = _command(commands, better, "find which of two lists of outputs to offer", BETTER)
    command.add_argument("file", metavar="DAY.case")
    command.add_argument("first", metavar="FIRST.csv")
    command.add_argument("second", metavar="SECOND.csv")
    command.add_argument("--plot", metavar="FILE.svg", help="draw both lists and the prices too")
    _forms(command)
    command = _command(commands, forecast, "find what a plan on a price forecast earns and has cost", FORECAST)
    command.add_argument("file", metavar="DAY.case")
    command.add_argument("forecast", metavar="FORECAST.csv")
    command.add_argument("actual", metavar="ACTUAL.csv")
    command.add_argument("--curve", metavar="CURVE.toml", help="take the costs from a boiler maker's curve")
    command.add_argument("--plot", metavar="FILE.svg", help="draw both lists and both rows of prices too")
    _forms(command)
    command = _command(commands, curve, "print the costs of a boiler maker's curve", CURVE)
    command.add_argument("curve", metavar="CURVE.toml")
    command.add_argument("--plot", metavar="FILE.svg", help="draw the costs too")
    _forms(command)
    arguments = parser.parse_args(words)
    files = ("unit", "file", "list", "first", "second", "forecast", "actual", "calendar", "curve")
    inputs = [getattr(arguments, name, None) for name in files]
    inputs.append(arguments.prices if arguments.run is make else None)
    if inputs.count("-") > 1:
        parser.error("standard input can be read as one file only")
    if arguments.run is show and arguments.form != "text" and (arguments.toml or arguments.prices):
        parser.error("--toml and --prices write files; --json and --csv print")
    if arguments.run is best:
        _one_day(parser, arguments)
    return arguments


def _one_day(parser, arguments):
    """A calendar goes with one day, and a day with a calendar; a curve goes without."""
    if arguments.calendar is not None and arguments.curve is not None:
        parser.error("--calendar and --curve do not go together")
    names = {name for name in ("first_hour", "hours", "date", "zone") if getattr(arguments, name) is not None}
    if arguments.calendar is None:
        if names:
            parser.error("--first, --hours, --date and --zone name a day of --calendar, which is missing")
    elif names not in ({"first_hour"}, {"first_hour", "hours"}, {"date", "zone"}):
        parser.error("--calendar needs one day: --first, with --hours or without, or --date with --zone")


def _command(commands, run, words, description):
    standard = "Any file that is read may be -, the standard input."
    command = commands.add_parser(
        run.__name__, help=words, description=f"{description} {standard}", epilog=STATUSES
    )
    command.set_defaults(run=run, form="text")
    return command


def _forms(command):
    forms = command.add_mutually_exclusive_group()
    for form in ("json", "csv"):
        forms.add_argument(
            f"--{form}", dest="form", action="store_const", const=form, help=f"print {form.upper()}, for a program"
        )


def say(message):
    """Prints each line of a message to standard error, if there is one."""
    try:
        for line in message.splitlines():
            sys.stderr.write(f"case: {line}\n")
        sys.stderr.flush()
    except (AttributeError, OSError):
        pass


def note(by):
    """Says who has read a case if it was not the library."""
    if by != "library":
        say(BY[by])


def answered(words):
    """The answer to a command line; a fault is said, and has status 2."""
    arguments = parsed(words)
    try:
        return arguments.run(arguments)
    except Refused as refused:
        say(str(refused))
        fields = {"refused": refused.number, "text": refused.text, "details": refused.details}
        return Answer(json_of(fields).encode() if arguments.form == "json" else b"", 2)
    except (Fault, giqapsun.LibraryError) as fault:
        say(str(fault))
    return Answer(b"", 2)


def main():
    """Prints the answer and returns the exit status. A reader that has gone is no fault: the status is then that of
    a program that the closed pipe ends."""
    try:
        return _run()
    except KeyboardInterrupt:
        return 130
    except BrokenPipeError:
        _give_up()
        return 141
    except OSError as error:
        say(f"standard output: {error.strerror}")
        _give_up()
        return 2


def _run():
    try:
        answer = answered(sys.argv[1:])
    except SystemExit:
        _print(b"")
        raise
    _print(answer.data)
    return answer.status


def _print(data):
    """Prints bytes after what the help or the version has printed."""
    if sys.stdout is not None:
        sys.stdout.flush()
        sys.stdout.buffer.write(data)
        sys.stdout.buffer.flush()
    elif data:
        raise OSError(None, "it is closed")


def _give_up():
    """Lets go of what was not written, so that it is not tried again at the end."""
    if sys.stdout is not None:
        os.dup2(os.open(os.devnull, os.O_WRONLY), sys.stdout.fileno())
