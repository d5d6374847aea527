"""Two lists as an SVG picture: the outputs of both above the prices, hours along both. The first is a full line with
dots, the second a dashed line with squares, so that they are told apart without colours; a mark stands under the end of
each hour where they differ. The prices of a forecast are a dashed line beside the full one of the actual prices. More
than 48 hours are divided into days, and the dots and squares stand farther apart."""

from money import dollars_of_half_mills, dollars_of_mills
from picture import (
    APART, LEFT, ROWS, Outputs, Prices, dot, hovers, legend, ordered, picture, polyline, rect, runs, shortened, square,
    text,
)
from words import printable

# how each list is drawn
DRAWN = ("line output", dot), ("line other", square)

# where the first key stands, and from a key to the next
KEY, NEXT = 80, 22


def svg_of_two(pair, name):
    """The picture of two lists, with the name of their case for a title."""
    chosen, _ = pair.chosen
    which = f"the {chosen.place}" if chosen else "neither"
    return _svg(pair, f"Two lists for {printable(name)}", f"offer {which}: {pair.why()}", _keys(pair))


def svg_of_forecast(pair, name):
    """The picture of a plan on a forecast and the best list, with the name of their case for a title."""
    regret, most, expected = map(dollars_of_half_mills, (pair.regret, pair.most, pair.expected))
    costs = f", costs by the curve {shortened(pair.curve.name)}" if pair.curve else ""
    files = f"{shortened(pair.first.name)}, the plan was to earn ${expected}", shortened(pair.second.name)
    rows = [(ROWS[word], None, f"{word}: {file}") for word, file in zip(pair.rows, files)]
    note = f"regret ${regret}, at most ${most} by the prices{costs}"
    return _svg(pair, f"Plan on a forecast for {printable(name)}", note, [*_keys(pair), *rows])


def _svg(pair, heading, note, keys):
    """The picture of two lists below their keys."""
    case, hours, top = pair.reading.case, len(pair.first.outputs), KEY + NEXT * len(keys) + 16
    outputs = Outputs(case, [*pair.first.outputs, *pair.second.outputs], (top, top + 230))
    prices = Prices(case, (top + 304, top + 444), pair.curve is None, pair.rows)
    parts = [
        *(part for place, key in enumerate(keys) for part in _key(KEY + NEXT * place, *key)),
        *_outputs(pair, outputs),
        *prices.drawn(),
        *hovers(hours, (outputs.top, prices.bottom), (_title(pair, *hour) for hour in pair.hours())),
    ]
    return picture(prices.end, hours, heading, note, legend(case.orders), parts)


def _keys(pair):
    """The key of each list."""
    return [(*drawn, _said(side)) for drawn, side in zip(DRAWN, pair.sides)]


def _said(side):
    """A list by its file, with what it earns and its stop after the day, or which rule it breaks."""
    verdict = side.checked.verdict
    if side.checked.passes:
        stop = side.checked.stop_after
        said = f"earns ${dollars_of_half_mills(side.profit)}{f', stop at hour {stop}' if stop else ''}"
    else:
        said = f"breaks rule {verdict.rule} at hour {verdict.hour}"
    return f"{side.place}: {shortened(side.name)}, {said}"


def _key(y, kind, mark, words):
    """How a line is drawn, with its mark if it has one, and what it is."""
    yield polyline([f"{LEFT},{y}", f"{LEFT + 44},{y}"], kind)
    if mark:
        yield mark(f"{LEFT + 22},{y}")
    yield text(LEFT + 54, y + 4, words)


def _outputs(pair, panel):
    """Both lists over the day: straight within each hour, a mark at the end of each, or of some where hours are
    divided."""
    yield from panel.ground()
    yield from panel.letters(runs(pair.reading.case.orders))
    yield from panel.ends(46)
    for (kind, mark), side in zip(DRAWN, pair.sides):
        points = panel.points(side.outputs)
        yield polyline(points, kind)
        yield from map(mark, points[APART::APART] if panel.days else points[1:])
    yield dot(points[0], "dot before")
    differ = [k for k, _, _, (first, second), _ in pair.hours() if first != second]
    yield from (rect(panel.x(k) - 4, panel.bottom + 27, 8, 6, "differs") for k in differ)
    if differ:
        yield text(panel.right + 12, panel.bottom + 34, "they differ", kind="note")


def _title(pair, k, order, prices, outputs, earned):
    """An hour with its prices, and what it has in either list."""
    words = ", ".join(f"{word} {dollars_of_mills(price)}".lstrip() for word, price in zip(pair.rows, prices))
    lists = "; ".join(
        f"{output} MW in the {side.place}, which earns ${dollars_of_half_mills(amount)}"
        for side, output, amount in zip(pair.sides, outputs, earned)
    )
    return f"{ordered(k, len(pair.first.outputs), order)}, {words} $/MWh: {lists}"
