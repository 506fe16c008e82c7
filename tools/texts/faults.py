"""What ends a script."""


class Fault(Exception):
    """A text isn't what it is to be. The message is one line, which says where and why."""


class Ended(Exception):
    """A run can't go on: it ends with a status, and with a line where there is something to say."""

    def __init__(self, status: int, line: str = "") -> None:
        super().__init__(line)
        self.status, self.line = status, line
