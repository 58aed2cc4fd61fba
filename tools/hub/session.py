"""A session of tc_centre: it gets lines one at a time, answers each, and a log keeps both."""
import os
import re
import select
import subprocess
from typing import List, Optional

SECONDS = 60


class Ended(Exception):
    """The program ended before it answered. The exception has the lines before the end, and the status."""

    def __init__(self, lines: List[str], status: int) -> None:
        super().__init__(f'tc_centre ended with status {status} after {lines}')
        self.lines, self.status = lines, status


class Silent(Exception):
    """The program neither answered nor ended within a minute."""


class Session:
    """A running tc_centre on a store. `log` is a list for the lines of both sides, or None."""

    def __init__(self, program: str, store: str, log: None = None) -> None:
        self.log, self.count, self.held = log, 0, b''
        self.process = subprocess.Popen([program, store], stdin=subprocess.PIPE, stdout=subprocess.PIPE, bufsize=0)
        self.note('start')

    def note(self, line: str) -> None:
        """Keeps a line of the log."""
        if self.log is not None:
            self.log.append(line)

    def send(self, *lines: str) -> None:
        """Sends lines in one write, and doesn't wait for their answers."""
        for line in lines:
            self.note(f'> {line}')
        self.count += len(lines)
        try:
            self.process.stdin.write(''.join(f'{line}\n' for line in lines).encode('ascii'))
        except BrokenPipeError:
            pass

    def line(self) -> Optional[str]:
        """Returns the next line of the program, or none at its end."""
        while b'\n' not in self.held:
            if not select.select([self.process.stdout], [], [], SECONDS)[0]:
                self.process.kill()
                raise Silent(f'no answer within {SECONDS} seconds')
            more = os.read(self.process.stdout.fileno(), 65_536)
            if not more:
                return None
            self.held += more
        line, _, self.held = self.held.partition(b'\n')
        self.note('< ' + line.decode('ascii'))
        return line.decode('ascii')

    def answer(self, number: int) -> List[str]:
        """Returns the lines that answer the line of that number; the last one begins with `ok` or `refuse`."""
        lines = []
        while not lines or not re.fullmatch(f'(?:ok|refuse) {number}(?: .*)?', lines[-1]):
            line = self.line()
            if line is None:
                raise Ended(lines, self.process.wait())
            lines.append(line)
        return lines

    def ask(self, line: str) -> List[str]:
        """Sends a line, and returns the lines of its answer."""
        self.send(line)
        return self.answer(self.count)

    def kill(self) -> List[str]:
        """Ends the program by SIGKILL, and returns the whole lines that it had written."""
        self.process.kill()
        self.process.wait()
        lines = []
        for line in iter(self.line, None):
            lines.append(line)
        self.close_pipes()
        return lines

    def end(self) -> int:
        """Ends the input, and returns the status of the program."""
        self.process.stdin.close()
        status = self.process.wait()
        self.process.stdout.close()
        return status

    def close_pipes(self) -> None:
        """Closes both pipes. What wasn't written is dropped."""
        self.process.stdout.close()
        self.process.stdin.close()


def make_store(tc: str, store: str, header: List[str], command: str) -> str:
    """Makes a store by `tc admin`: the header has the lines of the centre and its peers. Returns what tc wrote."""
    script = '\n'.join([*header, command]) + '\n'
    ran = subprocess.run([tc, 'admin', store], input=script.encode('ascii'), stdout=subprocess.PIPE, check=True)
    return ran.stdout.decode('ascii')
