"""What an operator is answered at a controller's console."""
import os
import re
import socket
import time

from controller import PATIENCE, Served, came_true, ended, free_port, is_closed, is_written, reply_to, request, take
from files import content

# Counts up %IW0: 32767 stops it at instruction 1, and 2 is behind the sum.
SOURCE = 'LD %IW0\nADD 1\nST %QW0\n'
LISTING = 'VAR\nEND_VAR\nLD %IW0\nADD INT#1\nST %QW0\n'

# What it's changed to. Of its instructions four are performed; behind them come so many more that its image has 60 kB.
SECOND = 'VAR_GLOBAL N : INT := 10; END_VAR\nLD N\nADD 1\nST %QW0\nRET\n' + 15000 * 'LD N\n'

# An image with the variable N.
IMAGE = '494C5043000100010000000000000003014E01FFFF0000000A010014000900400002001400'

# What begins each answer about values while it's stopped.
STOPPED = '{"scans":?,"moment":?,"phase":"stopped","position":1,"breaks":[],"forces":[{"place":"%IW0","value":32767}],'

# Once a line is told, or at once behind the row before, this is asked, and answered so; `?` stands for any number. The
# plant stops, and is reset; a scan is held, goes one instruction on, and then to its end. The program is changed, and
# its names are looked up, also in the session of an operator who comes later.
STOPS = [
    ('"status"', 'status scans ? normal ? of 3'),
    ('"forces"', 'forces'),
    ('"cr"', 'refused 1'),
    ('{"read": "N"}', 'refused 3'),
    ('{"change": "00"}', 'refused 6'),
    ('{"force": ["%IW0", 32767]}', 'done'),
    ('"forces"', 'forces %IW0=32767')]
RESETS = [
    ('"cr"', 'value INT#32767'),
    ('"values"', STOPPED + '"variables":[],"instances":[]}'),
    ('{"watch": ["%IW0", "%QW0"]}', STOPPED + '"values":['
     '{"name":"%IW0","place":"%IW0","forced":true,"type":"INT","value":32767},'
     '{"name":"%QW0","place":"%QW0","forced":false,"type":"INT","value":0}]}'),
    ('{"watch": ["%IW0", "N"]}', 'plc: unknown name "N"'),
    ('{"unforce": "%IW0"}', 'done'),
    ('"forces"', 'forces'),
    ('{"break": 2}', 'done'),
    ('{"break": 1}', 'done'),
    ('{"break": 3}', 'refused 2'),
    ('"breaks"', 'breaks 1 2'),
    ('"reset"', 'done')]
HOLDS = [
    ('"cr"', 'value INT#0'),
    ('"step"', 'held 2'),
    ('"cr"', 'value INT#1'),
    ('{"watch": ["%QW0"]}', '{"scans":?,"moment":?,"phase":"held","position":2,"breaks":[1,2],"forces":[],"values":['
     '{"name":"%QW0","place":"%QW0","forced":false,"type":"INT","value":0}]}'),
    ('{"clear": 1}', 'done'),
    ('{"clear": 2}', 'done'),
    ('{"read": "N"}', 'refused 3'),
    (f'{{"change": "{IMAGE}"}}', 'refused 7'),
    ('"continue"', 'outputs ? QW0=1'),
    ('"continue"', 'refused 1')]
CHANGED = [
    ('{"read": "N"}', 'value INT#10'),
    ('{"watch": ["n"]}', '{"scans":?,"moment":?,"phase":"idle","position":0,"breaks":[],"forces":[],"values":['
     '{"name":"n","place":null,"forced":false,"type":"INT","value":10}]}'),
    ('"breaks"', 'breaks'),
    ('{"break": 3}', 'done')]
LATER = [
    ('{"read": "N"}', 'value INT#10'),
    ('"cr"', 'value INT#11'),
    ('{"clear": 3}', 'done'),
    ('"continue"', 'outputs ? QW0=11'),
    ('{"read": "%QW0"}', 'value INT#11')]

# What is told of all that, once each; that the held scan goes on is told twice.
DONE = ('console break 2', 'console break 1', 'console reset', 'console step', 'console change', 'console break 3',
        'console clear 1', 'console clear 2', 'console clear 3')
GOES_ON = 'console continue'

# Lines that are no command of a console: no JSON, no command, a scan, bytes that aren't UTF-8, an empty line. Behind
# two of them comes a command each time: three in a row would end the session.
BAD_LINES = b'{\n"stop"\n"cr"\n{"scan":{"ix":[],"iw":[],"moment":0}}\n"\xff"\n"cr"\n\n"cr"\n'
BAD_ANSWERS = 2 * (2 * b'plc: commands\n' + b'refused 1\n') + b'plc: commands\nrefused 1\n'

LONGEST, LONGEST_CHANGE = 131072, 2105344   # bytes of a line, and of one of a change to a long image
SHORT_IMAGE, LONG_IMAGE = 32768, 1048576    # of the longest images that the two spellings of a change have

# What ends a session, and what the client is told then: a browser's request with a command behind its head, as `fetch`
# and a form send it; a field of a head alone, behind a command; three lines in a row that are no command.
ENDS = [(b'POST / HTTP/1.1\r\nHost: 127.0.0.1:7680\r\n\r\n{"force":["%IW0",1]}\n"reset"\n', b'plc: session ends\n'),
        (b'GET /state HTTP/1.0\n"reset"\n', b'plc: session ends\n'),
        (b'"breaks"\nContent-Type: text/plain\n"reset"\n', b'breaks\nplc: session ends\n'),
        (b'"cr"\n=\n=\n=\n"reset"\n', b'refused 1\nplc: commands\nplc: commands\nplc: session ends\n')]


def connection(port, host='127.0.0.1'):
    return socket.create_connection((host, port), PATIENCE)


class Operator:
    """One at a console."""

    def __init__(self, port, host='127.0.0.1'):
        self.stream = connection(port, host)
        self.lines = self.stream.makefile('rb')

    def close(self):
        self.lines.close()
        self.stream.close()

    def answer(self):
        return self.lines.readline().decode().rstrip('\n')

    def is_answered(self, rows):
        """Whether each of these is answered so."""
        for asked, wanted in rows:
            self.stream.sendall(asked.encode() + b'\n')
            came = self.answer()
            if not re.fullmatch(re.escape(wanted).replace(r'\?', r'\d+'), came):
                print(f'  {asked}: {came!r}, and not {wanted!r}')
                return False
        return True


def image_of(plc, work, text):
    """The image of a text, as hexadecimal digits."""
    source, image = os.path.join(work, 'changed.il'), os.path.join(work, 'changed.image')
    with open(source, 'w') as file:
        file.write(text)
    ended(plc, 'asm', source, image)
    with open(image, 'rb') as file:
        return file.read().hex()


def is_asked(plc, work, served, console):
    """Whether an operator is answered all that, and all that he did is told, once each."""
    first, second = Operator(console), image_of(plc, work, SECOND)
    right = first.is_answered(STOPS) and served.says('stopped overflow 1') and first.is_answered(RESETS)
    right = right and served.says('held 1') and first.is_answered(HOLDS)
    right = right and first.is_answered([(f'{{"long_change":"{second}"}}', 'done'), *CHANGED]) and served.says('held 3')
    first.close()
    later = Operator(console)
    right = right and later.is_answered(LATER) and served.says(GOES_ON, times=2)
    later.close()
    return right and served.lines.count(GOES_ON) == 2 and all(served.lines.count(line) == 1 for line in DONE)


def an_operator_is_answered(plc, work):
    """The plant stops for a forced input, the operator asks why, and a reset brings it back; a scan is held, goes on by
    a step, and is continued; the program is changed to one of 60 kB, whose names are those of the session, and of the
    next one. All that was done is told, once each."""
    console = free_port()
    with Served(plc, work, '--period', 100, '--console', console, source=SOURCE) as served:
        right = served.serves() and is_asked(plc, work, served, console)
        if not right:
            print('  ', served.lines)
        return right and not any('crashed' in line for line in served.lines)


def an_operator_is_answered_over_crashes(plc, work):
    """The same, while replicas crash, the primary among them."""
    console = free_port()
    with Served(plc, work, '--period', 100, '--console', console, '--crash', 2, source=SOURCE) as served:
        right = served.serves() and is_asked(plc, work, served, console)
        right = right and served.says('replica 0 crashed') and served.says('replica 1 crashed')
        if not right:
            print('  ', served.lines)
        return right


def is_line_answered(stream, front, filled, behind, answer):
    """Whether a long line is answered so."""
    stream.sendall(front + filled + behind)
    return take(stream, len(answer)) == answer


def long_lines():
    """What a line begins with, is filled with and ends with, and its answer: the longest line and the longest images are
    taken, a byte more isn't, and neither is a long line with a comma, or one that begins otherwise."""
    spaces, short, long = b' ' * (LONGEST - 4), b'00' * SHORT_IMAGE, b'00' * LONG_IMAGE
    change, commands, image = b'{"long_change":"', b'plc: commands\n', b'refused 6\n'
    blanks = b' ' * (LONGEST_CHANGE - len(change) - len(long) - 2)
    return [(b'', spaces, b'"cr"\n', b'refused 1\n'), (b' ', spaces, b'"cr"\n', commands),
            (b'{"change":"', short, b'"}\n', image), (b'{"change":"00', short, b'"}\n', commands),
            (change + b'00', short, b'"}\n', image), (change, short, b'"}\n', commands),
            (change, long, b'"' + blanks + b'}\n', image), (change, long, b'"' + blanks + b' }\n', commands),
            (change, long, b'"}\n', image), (change + b'00', long, b'"}\n', commands),
            (change, 3 * short, b'"}\n', image), (b' ' + change, 3 * short, b'"}\n', commands),
            (change, 3 * short, b'","read":"N"}\n', commands), (b'', b'', b'"cr"\n', b'refused 1\n'),
            (b'[', b'0,' * LONGEST, b'0]\n', commands)]


def no_commands_are_refused(plc, work):
    """Lines that are no command are answered as such, and others behind them as ever. Three such lines in a row, and
    what a browser sends, end a session, and nothing behind them is done."""
    console = free_port()
    with Served(plc, work, '--period', 100, '--console', console, source=SOURCE) as served:
        right = served.serves()
        for sent, told in ENDS:
            with connection(console) as stream:
                stream.sendall(sent)
                right = right and take(stream, len(told)) == told and is_closed(stream)
        with connection(console) as stream:
            stream.sendall(BAD_LINES)
            right = right and take(stream, len(BAD_ANSWERS)) == BAD_ANSWERS
            right = right and all(is_line_answered(stream, *line) for line in long_lines())
            stream.sendall(b'"forces"\n')
            right = right and take(stream, 7) == b'forces\n'
        right = right and served.says('console refused', times=len(ENDS))
        if not right:
            print('  ', served.lines)
        return right and not any(line in served.lines for line in ('console reset', 'console force 1024'))


def an_operator_gives_way(plc, work):
    """A second operator takes the console over, and the first is told; who says nothing has no more time than a client;
    who asks at another port, or where nobody listens, gives up."""
    console = free_port()
    with Served(plc, work, '--period', 20, '--idle', 4, '--console', console) as served:
        right = served.serves()
        first = Operator(console)
        right = right and first.is_answered([('"cr"', 'refused 1')])
        right = right and ended(plc, 'ask', f'127.0.0.1:{console}', '-', input='["cr"]') == (4, 'refused 1\n', '')
        right = right and first.answer() == 'plc: taken over' and first.answer() == ''
        right = right and served.says('console taken over')
        first.close()
        begun = time.monotonic()
        with connection(console) as silent:
            right = right and is_closed(silent) and time.monotonic() - begun >= 3.9
        right = right and ended(plc, 'ask', served.port, '-', '--timeout', 1, input='["cr"]')[0] == 2
        nobody = ended(plc, 'ask', free_port(), '-', input='["cr"]')
        if not right:
            print('  ', served.lines)
        return right and nobody[0] == 2 and nobody[2].startswith('plc: device port ')


def flood(console):
    """A connection of one who asks on until nothing is taken any more, and reads nothing."""
    deaf = socket.socket()
    deaf.setsockopt(socket.SOL_SOCKET, socket.SO_RCVBUF, 4096)
    deaf.settimeout(PATIENCE)
    deaf.connect(('127.0.0.1', console))
    deaf.settimeout(0.5)
    try:
        for _ in range(4096):
            deaf.sendall(b'"breaks"\n' * 4096)
    except OSError:
        pass
    return deaf


def a_deaf_operator_is_let_go(plc, work):
    """One who reads no answers has no more time than a client, others come behind him, and clients are served
    meanwhile; a controller that has such a one ends well all the same."""
    console = free_port()
    with Served(plc, work, '--period', 20, '--idle', 2, '--console', console) as served:
        right = served.serves()
        deaf = flood(console)

        def is_served():
            return ended(plc, 'ask', console, '-', '--timeout', 2, input='["cr"]')[:2] == (4, 'refused 1\n')

        with served.client() as client:
            right = right and is_written(client, 6, 0, 4) and came_true(is_served)
            right = right and len(reply_to(client, request(1, 0, 2))) == 10
        deaf.close()
    console = free_port()
    with Served(plc, work, '--period', 50, '--idle', 3600, '--console', console, scans=100) as served:
        right = served.serves() and right
        deaf = flood(console)
        right = served.status() == 0 and served.out == 'scans 100\n' and right
        deaf.close()
    return right


def kept_at(work, name, text):
    path = os.path.join(work, name)
    with open(path, 'w') as file:
        file.write(text)
    return path


def is_all_so(rows):
    """Whether each call came out as it should."""
    for what, got, wanted in rows:
        if got != wanted:
            print(f'  {what}: {str(got)[:200]}, and not {str(wanted)[:200]}')
            return False
    return True


def a_program_is_fetched(plc, work):
    """The program in force comes back, as its listing and as its image, also behind a change; it's compared with texts.
    A file that's there isn't written over, and where nobody serves a console none is made."""
    console, image, listing = free_port(), os.path.join(work, 'got.image'), os.path.join(work, 'got.il')
    source = kept_at(work, 'at_hand.il', SOURCE.replace('1', '(* one *) 1'))
    second, nobody = kept_at(work, 'second.il', SECOND), free_port()
    same, changed = 'same program\n', 'another program\nbegins   N : INT\n'
    with Served(plc, work, '--period', 50, '--console', console, source=SOURCE) as served:
        right = served.serves() and is_all_so([
            ('listing', ended(plc, 'fetch', console, '-'), (0, LISTING, '')),
            ('same', ended(plc, 'diff', source, f'127.0.0.1:{console}'), (0, same, '')),
            ('before', ended(plc, 'diff', console, second), (0, changed, '')),
            ('change', ended(plc, 'ask', console, '--change', second), (0, 'done\n', '')),
            ('behind', ended(plc, 'diff', console, second), (0, same + 'goes on  N : INT\n', '')),
            ('back', ended(plc, 'diff', console, source), (0, 'another program\nends     N : INT\n', '')),
            ('image', ended(plc, 'fetch', '--image', console, image), (0, '', '')),
            ('file', ended(plc, 'fetch', console, listing), (0, '', '')),
            ('there', ended(plc, 'fetch', console, listing), (1, '', f'plc: file there {listing}\n')),
            ('the same', ended(plc, 'diff', listing, second), (0, same + 'goes on  N : INT\n', '')),
            ('its listing', ended(plc, 'list', image)[1].encode(), content(listing)),
            ('nobody', ended(plc, 'fetch', nobody, 'none.il', cwd=work), (2, '', f'plc: device port {nobody}\n')),
            ('no file', os.path.exists(os.path.join(work, 'none.il')), False)])
        right = right and content(image).hex() == image_of(plc, work, SECOND)
        return right and not any('crashed' in line for line in served.lines)


def a_key_is_wanted_for_a_program(plc, work):
    """A console at a socket, which asks for a key, gives its program to who tells that."""
    place, key = os.path.join(work, 'console'), kept_at(work, 'key', 'open-sesame\n')
    wrong = kept_at(work, 'wrong', 'sesame-open\n')
    os.chmod(key, 0o600)
    os.chmod(wrong, 0o600)
    with Served(plc, work, '--period', 50, '--console-socket', place, '--console-key', key, source=SOURCE) as served:
        right = served.serves() and came_true(lambda: os.path.exists(place))
        return right and is_all_so([
            ('key', ended(plc, 'fetch', place, '-', '--console-key', key), (0, LISTING, '')),
            ('none', ended(plc, 'fetch', place, '-'), (5, '', 'plc: key\n')),
            ('wrong', ended(plc, 'fetch', place, '-', '--console-key', wrong), (5, '', 'plc: key\n'))])


GATE = [an_operator_is_answered, an_operator_is_answered_over_crashes, no_commands_are_refused, an_operator_gives_way,
        a_deaf_operator_is_let_go, a_program_is_fetched, a_key_is_wanted_for_a_program]
