"""What is wrong with an input, and where."""

from module import giqapsun


class Fault(Exception):
    """A fault of an input: the file, the line or byte if there is one, the field, and what is wrong."""

    def __init__(self, file, place, field, what):
        parts = [f"{named(file)}:{place}" if place is not None else named(file)]
        if field is not None:
            parts.append(field)
        super().__init__(": ".join(parts + [what]))


class Refused(Fault):
    """A refusal of the refusal list, with what the tool can say of it: a line for each field at fault."""

    def __init__(self, file, number, details=()):
        self.number = number
        self.text = giqapsun.REFUSALS.get(number, "not in the refusal list")
        self.details = list(details)
        super().__init__(file, None, f"refused {number}", self.text)

    def __str__(self):
        return "\n".join([super().__str__(), *self.details])


def named(file):
    """The name of a file in a message; `-` is the standard input."""
    return {"-": "standard input", "": "''"}.get(str(file), str(file))


def quoted(cell):
    """A piece of an input, short enough for a message."""
    return repr(cell if len(cell) <= 40 else cell[:40] + "...")
