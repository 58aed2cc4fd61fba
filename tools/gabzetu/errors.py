"""How a command stops: with a message for people and an exit status."""
from typing import Any


OUT_OF_MEMORY = 6
WRONG_USE = 64
WRONG_INPUT = 65
UNREADABLE = 66
MISSING = 69
UNEXPECTED = 70
UNWRITABLE = 74


class Stop(Exception):
    """Ends a command. The front end writes the message on standard error, and exits with the status."""

    def __init__(self, message: str, status: int = WRONG_USE) -> None:
        super().__init__(message)
        self.message = message
        self.status = status


def reason_of(error: Any) -> str:
    """Returns the words of an OSError without its number and path."""
    return (error.strerror or str(error)).lower()
