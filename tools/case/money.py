"""Amounts of money: mills (thousandths of a dollar) and half-mills, whole numbers throughout.

Dollars are read and printed as decimal digits; no amount is ever rounded.
"""

import re

_DOLLARS = re.compile(r"([+-]?)([0-9]{1,15})(?:\.([0-9]{1,3}))?")


def mills_of_dollars(digits):
    """The mills of an amount in dollars with up to three decimals; None if it is not written so."""
    match = _DOLLARS.fullmatch(digits)
    if match is None:
        return None
    sign, whole, decimals = match.groups()
    mills = 1000 * int(whole) + int((decimals or "").ljust(3, "0"))
    return -mills if sign == "-" else mills


def dollars_of_mills(mills):
    """An amount in mills as dollars with three decimals, as 1,234.567."""
    return decimal(mills, 1000, 3)


def dollars_of_half_mills(half_mills):
    """An amount in half-mills as dollars with four decimals, as -0.0265."""
    return decimal(5 * half_mills, 10000, 4)


def in_words(half_mills):
    """An amount in dollars, and in half-mills beside them."""
    return f"${dollars_of_half_mills(half_mills)} ({half_mills} half-mills)"


def amount_fields(name, half_mills):
    """An amount for a program, in half-mills and in dollars."""
    return {f"{name}_half_mills": half_mills, f"{name}_dollars": machine(dollars_of_half_mills(half_mills))}


def widest(half_mills):
    """The letters of a column that holds these amounts in dollars, and 14 at the least."""
    return max(14, *(len(dollars_of_half_mills(amount)) for amount in half_mills))


def megawatt_hours(halves):
    """Energy in half-megawatt-hours as MWh with one decimal."""
    return decimal(5 * halves, 10, 1)


def machine(amount):
    """An amount as a program reads it, without the commas of its thousands."""
    return amount.replace(",", "")


def decimal(number, unit, decimals):
    """A number of parts, so many to the unit, with its decimals."""
    sign = "-" if number < 0 else ""
    whole, rest = divmod(abs(number), unit)
    return f"{sign}{whole:,}.{rest:0{decimals}d}"
