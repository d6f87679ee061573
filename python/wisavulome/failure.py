"""How the command ends where it cannot do what was asked."""

GOOD, NO, REFUSED, UNWRITTEN = 0, 1, 2, 3  # exit statuses


class Failure(Exception):
    """The command ends with this message and status."""

    def __init__(self, message, status=REFUSED):
        super().__init__(message)
        self.status = status


class OutputClosed(Exception):
    """Nobody reads the output any more."""
