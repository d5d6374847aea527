"""Files that are read, and files that are written whole or not at all."""

import os
import stat
import sys

from faults import Fault

# bytes of the longest input
MOST = 2**20


def contents(file):
    """The bytes of a file; `-` is the standard input."""
    try:
        if str(file) == "-":
            data = _standard_input().read(MOST + 1)
        else:
            with open(file, "rb") as opened:
                data = opened.read(MOST + 1)
    except (OSError, ValueError) as error:
        raise Fault(file, None, None, _reason(error)) from None
    if len(data) > MOST:
        raise Fault(file, None, None, f"more than {MOST:,} bytes, too long for an input")
    return data


def text(file):
    """The text of a file in UTF-8, with or without a byte-order mark."""
    data = contents(file)
    try:
        return data.decode("utf-8-sig")
    except UnicodeDecodeError as error:
        line = data.count(b"\n", 0, error.start) + 1
        raise Fault(file, line, None, "not UTF-8") from None


def write(file, data):
    """Writes the bytes of a file: to a new file in the same folder, which then takes its name. What stood
    there stays as it was if that fails. A link is followed; a device or a pipe is written as it is."""
    if str(file) == "-":
        raise Fault("output", None, None, "'-' is no file to write; name one")
    try:
        mode = _mode(file)
        if mode is None or stat.S_ISREG(mode):
            _replace(os.path.realpath(file), data, mode)
        else:
            with open(file, "wb") as opened:
                opened.write(data)
    except (OSError, ValueError) as error:
        raise Fault(file, None, None, _reason(error)) from None


def _mode(file):
    """The mode of what stands at a place, None where nothing does."""
    try:
        return os.stat(file).st_mode
    except FileNotFoundError:
        if not os.path.basename(file):
            raise
        return None


def _replace(place, data, mode):
    """Writes a file beside the place and gives it the place's name, and the mode of what stands there."""
    if mode is not None and not os.access(place, os.W_OK):
        raise PermissionError(None, "Permission denied")
    beside = os.path.join(os.path.dirname(place), f".case-{os.getpid()}.part")
    opened = open(beside, "xb")
    try:
        with opened:
            opened.write(data)
            opened.flush()
            os.fsync(opened.fileno())
        if mode is not None:
            os.chmod(beside, stat.S_IMODE(mode))
        os.replace(beside, place)
    except BaseException:
        os.remove(beside)
        raise


def _standard_input():
    if sys.stdin is None:
        raise ValueError("it is closed")
    return sys.stdin.buffer


def _reason(error):
    return getattr(error, "strerror", None) or str(error)
