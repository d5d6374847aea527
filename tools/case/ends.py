"""How a day opens and how a list closes it: the stages of a start-up or a shut-down that the two lie in, the stop after
the day, and the unit as the next day finds it."""

from dataclasses import asdict, replace

from module import giqapsun
from words import STAGES, counted


def stage_of(state, case):
    """The stage that a state has reached, as stage 2 of 3 of a shut-down; None where it is in no sequence. The state is
    an opening, or a case with its own."""
    for name, (_, sequence, outputs) in STAGES.items():
        stage = getattr(state, name)
        if stage:
            return f"stage {stage} of {len(getattr(case, outputs))} of a {sequence}"
    return None


def stop_after(case, outputs):
    """The hour at which the stop after the day stands, None where the list does not close in a shut-down."""
    stage = giqapsun.opening_after(case, outputs).downstage
    return len(outputs) + len(case.fall) + 1 - stage if stage else None


def closes(case, outputs):
    """In which stage a list closes the day, and where the stop is; None where it does not close in a shut-down."""
    stop = stop_after(case, outputs)
    if stop is None:
        return None
    return f"closes in {stage_of(giqapsun.opening_after(case, outputs), case)}, stop at hour {stop}"


def closing(case, outputs):
    """A line for a list that closes in a shut-down."""
    stop = stop_after(case, outputs)
    if stop is not None:
        later = counted(stop - len(outputs), "hour")
        yield f"{closes(case, outputs)}, {later} after the last; C belongs to the day that holds it"


def left(case, outputs):
    """The unit as a list leaves it for the next day."""
    return replace(case, **asdict(giqapsun.opening_after(case, outputs)))
