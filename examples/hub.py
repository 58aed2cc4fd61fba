#!/usr/bin/env python3
"""hub.py TC_CENTRE TC STORE [LOG]: a hub around the proved centre, with a radio that is played.

It makes STORE if there is none, admits a lamp, hears it, is killed, and continues. A real hub has another Radio.
LOG gets all lines of both sides, with the keys: `tools/hub-log LOG` makes a transcript of it for `tc audit`."""
import os
import subprocess
import sys

LAMP, CODE = '00124B0000000002', '83FED3407A939723A5C639B26916D505C3B5'
HEADER = ['centre hub 00124B0000000001 16 1', f'peer lamp device {LAMP} 1A2B']


class Refused(Exception):
    """The centre refused a line, and nothing has changed. The exception has the cause."""


class Radio:
    """A radio that reaches one device, which `tc play` plays. What the hub sends is injected there."""

    def __init__(self, tc):
        self.tc, self.frames, self.sent = tc, 0, 0
        centre = 'node c centre 00124B0000000001 0000 16 2'
        self.schedule = [centre, f'node lamp device {LAMP} 1A2B 16 2', f'code lamp {CODE}']

    def happen(self, *events):
        """Plays events of the lamp, and returns the frames that it sends."""
        self.schedule += events
        ran = subprocess.run([self.tc, 'play'], input='\n'.join(self.schedule), stdout=subprocess.PIPE, text=True)
        sent = [line.split(' ')[4] for line in ran.stdout.splitlines() if line.split(' ')[1:3] == ['send', 'lamp']]
        new, self.sent = sent[self.sent :], len(sent)
        self.frames += len(new)
        return new

    def send(self, frame):
        """Sends a frame of the hub, and returns the frames with which the lamp answers."""
        self.frames += 1
        return self.happen(f'inject {frame}', f'deliver {self.frames} lamp')


class Hub:
    """A running tc_centre. It gets events as lines, and only what it says to send is sent."""

    def __init__(self, program, store, radio, log=None):
        self.radio, self.log, self.count = radio, log, 0
        pipes = {'stdin': subprocess.PIPE, 'stdout': subprocess.PIPE, 'text': True, 'bufsize': 1}
        self.process = subprocess.Popen([program, store], **pipes)
        self.note('\nstart')
        for line in [*HEADER, 'open', 'backup']:
            try:
                self.ask(line)
            except Refused as error:
                sys.exit(f'hub: `{line}` was not carried out: {error}')

    def note(self, line):
        if self.log:
            print(line, file=self.log, flush=True)

    def ask(self, line):
        """Sends a line, and returns the words of each line that answers it. Raises Refused."""
        self.count += 1
        self.note(f'> {line}')
        try:
            print(line, file=self.process.stdin, flush=True)
        except BrokenPipeError:
            pass  # the centre has ended, and its output says why
        answer = []
        for text in self.process.stdout:
            self.note(f'< {text.rstrip()}')
            words = text.split()
            if words[:2] == ['ok', str(self.count)]:
                return answer
            if words[:2] == ['refuse', str(self.count)]:
                raise Refused(words[2])
            answer.append(words)
        sys.exit(f'hub: the centre ended with status {self.process.wait()}: {" ".join(answer[-1]) if answer else ""}')

    def happen(self, line):
        """Handles an event: sends the frames that it leads to, and hears the frames with which they are answered."""
        try:
            answer = self.ask(line)
        except Refused as error:
            print(f'the hub: `{line.split()[0]}` was not carried out: {error}')
            return
        for words in answer:
            if words[1] == 'send':
                self.hear(self.radio.send(words[4]))
            elif words[1] == 'accept' and words[3] == 'nwk' and is_data(words[10]):
                print(f'{words[6]} says {words[10][16:]}')
            elif words[1] in ('live', 'removed', 'refuse'):
                print('the hub:', ' '.join(words[1:]))

    def hear(self, frames):
        """Gives frames to the centre, each with a fresh key that it may use for a device."""
        for frame in frames:
            self.happen(f'deliver {frame} {os.urandom(16).hex()}')


def is_data(content):
    """Returns whether a NWK content is an APS data frame with its header of 8 bytes. It may be empty, which is `-`."""
    return len(content) >= 16 and int(content[:2], 16) % 4 == 0


def open_log(path):
    """Opens a log, which has keys, so that only its owner can read it."""
    return open(path, 'a', opener=lambda path, flags: os.open(path, flags, 0o600))


def make_store(tc, store):
    """Makes the store of a centre with a network key of its own."""
    script = '\n'.join([*HEADER, f'init {os.urandom(16).hex()}\n'])
    ran = subprocess.run([tc, 'admin', store], input=script, text=True, stdout=subprocess.PIPE)
    if ran.returncode != 0 or 'refuse' in ran.stdout:
        sys.exit(f'hub: the store is not made: {ran.stdout.strip()}')


def join(hub):
    """Lets the lamp join by its code: it gets the network key and a key of its own, and proves that it has that key."""
    hub.happen(f'provision lamp {CODE}')
    hub.radio.happen('knock lamp')
    hub.happen('child lamp join')
    for _ in range(2):
        hub.hear(hub.radio.happen('timer lamp'))


def main(tc_centre, tc, store, *logs):
    log = open_log(logs[0]) if logs else None
    if not os.path.lexists(store):
        make_store(tc, store)
    radio = Radio(tc)
    hub = Hub(tc_centre, store, radio, log)
    join(hub)
    hub.hear(radio.happen('say lamp 0000 01'))
    hub.process.kill()
    hub.process.wait()
    print('killed, and started again')
    hub = Hub(tc_centre, store, radio, log)
    hub.hear(radio.happen('say lamp 0000 02'))
    hub.happen('say 1A2B 03')
    hub.happen('remove lamp via hub')
    hub.process.stdin.close()
    return hub.process.wait()


if __name__ == '__main__':
    try:
        sys.exit(main(*sys.argv[1:]) if len(sys.argv) in (4, 5) else __doc__)
    except OSError as error:
        sys.exit(f'hub: {error}')
