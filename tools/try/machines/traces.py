"""What machines released, by the trace that each writes (`plc serve --group --trace`): a line for each of its starts,
and one for each release. The list of a group's commands is what they have in common; a place in it is of one epoch."""
import os
import re
from typing import NamedTuple

from program import DONE, HELD, Outputs, WORDS_A_SCAN

START = re.compile(r'machine (\d+) start (\d+)')
RELEASE = re.compile(r'(\d+) (\d+|-) (\d+) (\d+|-) (\d+) (.+)')


class Release(NamedTuple):
    machine: int
    start: int              # which of the machine's, in its epoch
    epoch: int
    place: int | None       # in the list of commands, from 0; None where the machine's replica didn't have it
    number: int             # of the scan's request
    moment: int | None      # of the scan, in milliseconds
    left_out: int           # lines before it, since the file took them too slowly
    line: str               # the outputs, as `plc run` prints them

    def at(self):
        return self.epoch, self.place

    def outputs(self):
        return outputs_of(self.line)


def outputs_of(line):
    """The outputs of a line of `plc run`."""
    words = {int(place): int(value) for place, value in re.findall(r'QW(\d+)=(-?\d+)', line)}
    text, mark, high, word, bits, count = (words.get(place, 0) for place in range(58, 64))
    return Outputs(high * WORDS_A_SCAN + count, word, bits, mark, text)


def line_of(outputs):
    """The line of `plc run` for these."""
    bits = [' QX0.0'] * bool(outputs.bits & HELD) + [' QX0.1'] * bool(outputs.bits & DONE)
    high, count = divmod(outputs.count, WORDS_A_SCAN)
    words = enumerate((outputs.text, outputs.mark, high, outputs.word, outputs.bits, count), 58)
    return f'outputs {outputs.count}' + ''.join(bits) + ''.join(f' QW{place}={it}' for place, it in words if it)


def known(number):
    return None if number == '-' else int(number)


def read(path):
    """The releases of a machine, by its trace. What is neither line is an error: a machine writes each whole, or none
    of it."""
    found, machine, start = [], None, None
    if not os.path.exists(path):
        return found
    with open(path) as file:
        lines = file.read().split('\n')[:-1]
    for line in lines:
        begins, release = START.fullmatch(line), RELEASE.fullmatch(line)
        if begins:
            machine, start = map(int, begins.groups())
        elif release and start is not None:
            epoch, place, number, moment, left_out, shown = release.groups()
            places = known(place), int(number), known(moment), int(left_out)
            found.append(Release(machine, start, int(epoch), *places, shown))
        else:
            raise ValueError(f'{path}: {line}')
    return found
