"""A time window of a run: the steps from one bit time to before another."""

from .failure import Failure

HELP = "the steps from A to B - 1 alone; A:+n for n of them; A: for all from A on"


def window_of(words, clock):
    """The window that words ask for, within the steps that were made. An empty one is a usage error."""
    if words is None:
        words = "0:"
    first, colon, past = words.partition(":")
    try:
        begin = int(first or "0")
        end = clock if not past else begin + int(past[1:]) if past.startswith("+") else int(past)
    except ValueError:
        colon = ""
    if not colon or begin < 0:
        raise Failure(f"--window {words}: it is A:B, A:+n or A:, in bit times from 0 on")
    if begin >= min(end, clock):
        raise Failure(
            f"--window {words} is empty: the run has the steps 0 to {clock - 1}"
            if clock
            else "no step was made: there is nothing to show"
        )
    return begin, min(end, clock)
