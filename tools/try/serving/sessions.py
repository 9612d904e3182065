"""Sessions at a controller's console and at its port: the examples, also while replicas crash, and values of each
type."""
import json
import os
import threading
import time
import urllib.request

from controller import EXAMPLES, PATIENCE, Served, came_true, ended, free_port, is_written, reply_to, request, words


def is_printed(plc, console, name):
    """Whether `plc ask` prints what it has to for a file of the session."""
    status, out, _ = ended(plc, 'ask', console, os.path.join(EXAMPLES, 'console', name + '.json'))
    with open(os.path.join(EXAMPLES, 'console', name + '.txt')) as file:
        return status == 0 and out == file.read()


def example(name):
    with open(os.path.join(EXAMPLES, name)) as file:
        return file.read()


def over_crashes(plc, work, source, is_right):
    """Whether that is so at a controller whose replicas don't crash, and at one whose replicas do."""
    for crash in ([], ['--crash', '5']):
        console = free_port()
        with Served(plc, work, '--period', 50, '--console', console, *crash, source=source) as served:
            right = served.serves() and (not crash or served.says('replica 0 crashed')) and is_right(served, console)
            if not right or any('crashed' in line for line in served.lines) != bool(crash):
                print('  ', crash, served.lines)
                return False
    return True


def a_session_is_the_same_over_crashes(plc, work):
    """The session of examples/console."""
    def is_right(served, console):
        right = is_printed(plc, console, 'hold') and served.says('held 3') and is_printed(plc, console, 'look')
        with served.client() as client:
            right = right and came_true(lambda: outputs(client)[0][1])
        return right and is_printed(plc, console, 'run') and served.lines.count('held 3') == 1

    return over_crashes(plc, work, example('motor.il'), is_right)


def scan(level):
    return f'{{"scan": {{"ix": [], "iw": [[0, {level}]], "moment": 0}}}}'


def table_answers(plc, work, source, change):
    """The outputs of `plc run` with the level at 180 mm, then a change of the program, then 90 mm: bits and words, once
    they stay as they are."""
    path = os.path.join(work, 'table.json')
    with open(path, 'w') as file:
        file.write('[' + ', '.join([scan(180)] * 3 + [change] + [scan(90)] * 3) + ']')
    told = ended(plc, 'run', source, path)[1].split('\n')[-2].split()[2:]
    values = dict(it.split('=') for it in told if '=' in it)
    return [f'QX0.{n}' in told for n in range(3)], [int(values.get(f'QW{n}', 0)) for n in range(3)]


def outputs(client):
    """The bits %QX0.0 to %QX0.2 and the words %QW0 to %QW2, as released."""
    bits = reply_to(client, request(2, 0, 3))[-1]
    return [bool(bits >> n & 1) for n in range(3)], [it - (it >> 15 << 16) for it in words(client, 4, 3)]


def come(client, wanted):
    return came_true(lambda: outputs(client) == wanted)


def changes_the_tank(plc, served, console, after):
    """Whether a running tank is changed to its text with a second pump: by `plc ask --change`, with the name HELPED
    from then on."""
    def told(*words, **how):
        return ended(plc, 'ask', console, *words, **how)[:2]

    read = {'input': '[{"read": "HELPED"}]'}
    with served.client() as client:
        if not is_written(client, 6, 0, 180) or not come(client, ([True, False, False], [180, 1, 0])):
            return False
        lines = [told('-', **read), told('--change', os.path.join(EXAMPLES, 'tank_two.il')), told('-', **read)]
        comes = is_written(client, 6, 0, 90) and come(client, after)
        if not comes or lines != [(4, 'refused 3\n'), (0, 'done\n'), (0, 'value FALSE\n')]:
            print('  ', lines, outputs(client), after)
            return False
    return True


def a_change_is_the_same_over_crashes(plc, work):
    """A running tank gets a second pump: as `plc run` does with the same inputs."""
    old, image = os.path.join(EXAMPLES, 'tank.il'), os.path.join(work, 'tank_two.image')
    ended(plc, 'asm', os.path.join(EXAMPLES, 'tank_two.il'), image)
    with open(image, 'rb') as file:
        after = table_answers(plc, work, old, f'{{"change": "{file.read().hex()}"}}')
    def is_right(served, console):
        return changes_the_tank(plc, served, console, after)

    return over_crashes(plc, work, example('tank.il'), is_right)


def a_stop_is_told(plc, work):
    """Once."""
    with Served(plc, work, '--period', 20) as served:
        right = served.serves()
        with served.client() as client:
            right = right and is_written(client, 6, 0, 32767) and served.says('stopped overflow 1')
            time.sleep(1)
        return right and served.lines.count('stopped overflow 1') == 1


def a_warm_start_keeps_a_recipe(plc, work):
    """The mixer of examples/: a recipe that a client hands in stays over a warm start, and not over a reset, also while
    replicas crash."""
    def answer_of(console, command):
        return ended(plc, 'ask', console, '-', input=f'["{command}"]')[1]

    def is_right(served, console):
        with served.client() as client:
            right = all(is_written(client, *it) for it in ((6, 1, 60), (6, 2, 10), (5, 1, 0xff00)))
            right = right and come(client, ([False] * 3, [60, 10, 0])) and is_written(client, 5, 1, 0)
            time.sleep(0.5)
            right = right and answer_of(console, 'warm') == 'done\n' and served.says('console warm')
            time.sleep(1)
            right = right and outputs(client) == ([False] * 3, [60, 10, 0])
            return right and answer_of(console, 'reset') == 'done\n' and come(client, ([False] * 3, [100, 20, 0]))

    return over_crashes(plc, work, example('mixer.il'), is_right)


# Each scan in which the words of %ID0 aren't equal is counted.
HALVES = """VAR_GLOBAL
  SEEN AT %ID0 : DINT;
  SHOWN AT %QD0 : DINT;
  MIXED AT %QD2 : DINT;
END_VAR
LD SEEN
ST SHOWN
LD %IW0
NE %IW1
JMPCN DONE
LD MIXED
ADD 1
ST MIXED
DONE:
"""


def twice(value):
    """A request that writes this value to both words of %ID0."""
    return bytes([0, 7, 0, 0, 0, 11, 1, 16, 0, 0, 0, 2, 4]) + 2 * value.to_bytes(2, 'big')


def shown(client):
    """The words of SHOWN and of MIXED, as released."""
    return words(client, 4, 4)


def writes_twice(served, value, is_over):
    with served.client() as client:
        while not is_over.is_set():
            reply_to(client, twice(value))
            value = (value + 2) % 65536


def a_double_word_is_whole(plc, work):
    """Two clients write both words of a value, each by one request: no scan and no reply has a half of either. Where a
    client writes a word alone, a scan has it beside the other word as it was."""
    with Served(plc, work, '--period', 5, source=HALVES) as served:
        is_over, seen, right = threading.Event(), [], served.serves()
        writers = [threading.Thread(target=writes_twice, args=(served, first, is_over)) for first in (1, 2)]
        for it in writers:
            it.start()
        with served.client() as client:
            end = time.monotonic() + 5
            while time.monotonic() < end:
                seen.append(shown(client))
            is_over.set()
            for it in writers:
                it.join()
            time.sleep(0.5)
            last = shown(client)
            right = right and all(high == low for high, low, *_ in seen) and last[2:] == [0, 0]
            right = right and len({high for high, *_ in seen}) > 10 and {high % 2 for high, *_ in seen} == {0, 1}
            right = right and is_written(client, 6, 0, last[0] ^ 4)
            time.sleep(0.5)
            high, low, *mixed = shown(client)
    return right and (high, low) == (last[0] ^ 4, last[0]) and mixed != [0, 0]


# A WORD and a DWORD that go out as they came in, moved or turned over.
BITS = """VAR_GLOBAL
  STATUS AT %IW0 : WORD;
  CONTROL AT %QW0 : WORD;
  ALARMS AT %ID2 : DWORD;
  QUIET AT %QD2 : DWORD;
END_VAR
LD STATUS
ROL 8
ST CONTROL
LD ALARMS
STN QUIET
"""


def bit_strings_are_shown(plc, work):
    """A WORD and a DWORD are registers to a client, hexadecimal digits to an operator and on the page, and numbers to a
    force, by their places alone."""
    console, page = free_port(), free_port()

    def answers(commands):
        return ended(plc, 'ask', console, '-', input=json.dumps(commands))[1].splitlines()

    with Served(plc, work, '--period', 20, '--console', console, '--status', page, source=BITS) as served:
        right = served.serves()
        with served.client() as client:
            for sent in (request(6, 0, 0x1234), bytes([0, 7, 0, 0, 0, 11, 1, 16, 0, 2, 0, 2, 4, 0x80, 0, 0xab, 0xcd])):
                right = right and reply_to(client, sent)[7] in (6, 16)
            right = right and came_true(lambda: shown(client) == [0x3412, 0, 0x7fff, 0x5432])
            with urllib.request.urlopen(f'http://127.0.0.1:{page}/state', timeout=PATIENCE) as answer:
                values = [(it['name'], it['place'], it['value']) for it in json.load(answer)['outputs']]
            right = right and values == [('CONTROL', '%QW0', '16#3412'), ('QUIET', '%QD2', '16#7FFF5432')]
            right = right and answers([{'read': it} for it in ('STATUS', 'control', 'ALARMS', '%IW0', '%ID2')]) == [
                'value WORD#16#1234', 'value WORD#16#3412', 'value DWORD#16#8000ABCD', 'value INT#4660',
                'value DINT#-2147439667']
            forces = [{'force': ['STATUS', 1]}, {'force': ['%IW0', -2]}, 'forces']
            right = right and answers(forces) == ['refused 3', 'done', 'forces %IW0=-2']
            return right and came_true(lambda: shown(client)[0] == 0xfeff)


GATE = [a_session_is_the_same_over_crashes, a_change_is_the_same_over_crashes]
BY_HAND = [a_double_word_is_whole, bit_strings_are_shown, a_warm_start_keeps_a_recipe, a_stop_is_told]
