"""The front end of tc. It judges nothing: every verdict is that of the proved program."""
import os

TOP = os.path.dirname(os.path.dirname(os.path.dirname(os.path.abspath(__file__))))


def read_version() -> str:
    """Returns the version of this package, from the file VERSION at the top."""
    with open(os.path.join(TOP, 'VERSION'), encoding='ascii') as file:
        return file.read().strip()
