"""What a test may be skipped for: the names of .ci/allowed-skips."""
from tests import text_of

LIST = ".ci/allowed-skips"


def allowed():
    """The names of the list, each with what is tried with it."""
    return dict(line.split(": ", 1) for line in text_of(LIST).splitlines() if line and not line.startswith("#"))


def name_of(reason, names):
    """The one of these names with which the reason of a skip begins; None for no name."""
    return next((name for name in names if (reason + " ").startswith((name + " ", name + ":", name + ","))), None)
