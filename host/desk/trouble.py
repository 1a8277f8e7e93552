"""What ends the command early, and with which status."""


class Trouble(Exception):
    """Said on standard error; the command then ends with the status."""

    def __init__(self, status: int, *lines: str):
        super().__init__(*lines)
        self.status = status
        self.lines = lines


RAN = 0
REFUSED = 1
USAGE = 2
OTHER = 3
