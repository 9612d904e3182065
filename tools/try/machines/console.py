"""An operator who goes from console to console of a group's machines, and forces, holds and changes the program."""
import json
import socket
import subprocess
import time

import program
from checker import Command
from group import now

LIMIT = 2.0             # seconds that an answer may take
HELD_AT = 3             # an instruction


class Console:
    """A session. Where there's no answer in time, it's an OSError."""

    def __init__(self, address):
        self.stream = socket.create_connection(address, LIMIT)
        self.stream.settimeout(LIMIT)
        self.lines = self.stream.makefile('rb')

    def __enter__(self):
        return self

    def __exit__(self, *_):
        self.lines.close()
        self.stream.close()

    def ask(self, command):
        self.stream.sendall(json.dumps(command).encode() + b'\n')
        line = self.lines.readline()
        if not line.endswith(b'\n') or line.startswith(b'plc: '):
            raise OSError(line)
        return line.decode().rstrip('\n')


class Operator:
    """What one does at random, until all is over."""

    def __init__(self, group, chance):
        self.group, self.chance, self.done, self.open, self.forced = group, chance, 0, 0.0, False
        self.images = {text: self.image(text) for text in program.TEXTS}

    def image(self, text):
        path, image = self.group.path(f'text-{text}.il'), self.group.path(f'text-{text}.image')
        with open(path, 'w') as file:
            file.write(program.source(text))
        subprocess.run([self.group.plc, 'asm', path, image], check=True, stdout=subprocess.DEVNULL)
        with open(image, 'rb') as file:
            return file.read().hex()

    def run(self):
        while not self.group.is_over:
            self.wait(self.chance.uniform(0.5, 3))
            self.chance.choice([self.force, self.force, self.hold, self.change])()
            if self.open > now() - 10:
                self.go_on()    # a breakpoint that wasn't answered may come yet

    def wait(self, seconds):
        end = now() + seconds
        while now() < end and not self.group.is_over:
            time.sleep(0.05)

    def ask(self, *commands):
        """What some machine's console answers; None where it doesn't."""
        try:
            with Console(self.group.network.console(self.chance.randrange(self.group.size))) as console:
                answers = [console.ask(it) for it in commands]
                self.done += len(answers)
                return answers
        except OSError:
            return None

    def insist(self, *commands):
        """The same, until one answers, or all is over."""
        answers = None
        while answers is None and not self.group.is_over:
            answers = self.ask(*commands)
            time.sleep(0.02)
        return answers

    def force(self):
        """Lays another value over %IX0.2."""
        self.forced, is_done = not self.forced, False
        while not is_done and not self.group.is_over:
            begun = now()
            is_done = self.ask({'force': ['%IX0.2', self.forced]}) == ['done']
            self.group.commands.append(Command(begun, now(), self.forced, is_done))
            time.sleep(0.02)

    def hold(self):
        """Has a scan held for a moment, so that nothing is released."""
        begun = now()
        if self.ask({'break': HELD_AT}) is None:
            self.open = now()
        self.wait(self.chance.uniform(0.1, 0.6))
        self.go_on()
        self.group.holds.append((begun, now()))

    def go_on(self):
        self.insist({'clear': HELD_AT}, 'continue')

    def change(self):
        """Goes on with one of two texts of the program."""
        text, begun = self.chance.choice(program.TEXTS), now()
        is_done = self.ask({'change': self.images[text]}) == ['done']
        self.group.commands.append(Command(begun, now(), text, is_done, is_force=False))
