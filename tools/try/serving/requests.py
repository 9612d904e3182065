"""Sessions of Modbus clients by the rows of modbus.rows: requests with their exact replies, streams that are cut
anywhere or at fault, clients that are lost in the middle, and what is counted. README.md beside it says how a row is
written."""
import concurrent.futures
import errno
import itertools
import os
import re
import signal
import socket
import struct
import urllib.request

from controller import PATIENCE, Served, came_true, free_port, reply_to, request, take

HERE = os.path.dirname(os.path.realpath(__file__))
MARK = 511              # the place of %QX63.7, which each program sets: so it shows whether outputs are released
HOUR, OLD = 3600000, 200        # milliseconds
AT_ONCE = struct.pack('ii', 1, 0)           # a connection that is closed so is reset


def spread(text):
    return bytes.fromhex(text.replace(' ', ''))


def lines_of(body):
    return [line for line in body.split('\n') if line and not line.startswith('#')]


class Row:
    """A row: what is released before its sessions, how old that may be, and its tables."""

    def __init__(self, text):
        self.name, *sections = text.split('\n--- ')
        self.given = {title: body for title, _, body in (it.partition('\n') for it in sections)}

    def table(self, title):
        """The lines of a table, each what is handed in and what comes of it."""
        return [tuple(it.strip() for it in line.split('|')) for line in lines_of(self.given.get(f'each {title}', ''))]

    def has_client(self, kind):
        return any(kind in asked for asked, _ in self.table('client'))

    def exchanges(self):
        """Its requests, each with its reply, and how often it's sent."""
        for asked, reply in self.table('request'):
            times, mark, rest = asked.partition(' times ')
            yield spread(rest if mark else times), spread(reply), int(times) if mark else 1

    def source(self):
        """A program that releases these outputs, and the mark."""
        cells = self.given.get('released', '').split()[1:]
        stores = {'X': 'TRUE', 'W': '{}', 'D': 'DINT#{}'}
        lines = []
        for cell in cells:
            place, _, number = cell.partition('=')
            lines.append(f'LD {stores[place[2]].format(number)}\nST {place}\n')
        return f'VAR_GLOBAL END_VAR\n{"".join(lines)}LD TRUE\nST %QX63.7\n'


def rows(name='modbus.rows'):
    with open(os.path.join(HERE, name), encoding='utf-8') as file:
        text = file.read()
    return [Row(row.split('\n== ')[0]) for row in text.split('\n=== ')[1:]]


def row_of(beginning, name='modbus.rows'):
    return next(row for row in rows(name) if row.name.startswith(beginning))


class Session:
    """A controller that serves a row, and a client of it."""

    def __init__(self, plc, work, row, *words, period=50, source=None):
        self.page, self.held = free_port(), None       # what is known of the inputs that it has
        words = '--period', period, '--status', self.page, *words
        self.served = Served(plc, work, *words, source=source or row.source())
        if not self.served.serves():
            raise OSError(f'not served: {self.served.lines}')
        self.stream = self.served.client()
        if not source and OLD not in words and not came_true(self.is_released):
            raise OSError('nothing is released')

    def is_released(self):
        """Whether outputs are released; before that there are none, or exception 4."""
        return reply_to(self.stream, request(2, 0, 1)[:8] + struct.pack('>HH', MARK, 1))[7:] == b'\2\1\1'

    def __enter__(self):
        return self

    def __exit__(self, *_):
        self.stream.close()
        self.served.end()

    def is_let_go(self):
        """Resets the connection of its client: whether nobody is served any more then."""
        self.stream.setsockopt(socket.SOL_SOCKET, socket.SO_LINGER, AT_ONCE)
        self.stream.close()
        return came_true(lambda: figure(self.page, 'plc_sessions') == 0)

    def again(self):
        """A new session."""
        self.stream.close()
        self.stream = self.served.client()

    def is_begun(self):
        """Whether its client is served and counted: from then on none is counted only once it's let go again."""
        reply_to(self.stream, request(2, 0, 1))
        return came_true(lambda: figure(self.page, 'plc_sessions') > 0)

    def send_taken(self, piece):
        """Sends bytes, and waits until the controller has read them."""
        self.stream.sendall(piece)
        ends = self.served.port, self.stream.getsockname()[1]
        return came_true(lambda: unread(*ends) == 0, pause=0.0002)


def unread(here, there):
    """How many bytes that came from a port to another one nobody has read yet (sock_diag(7)); 0 where there's no such
    connection any more."""
    address = socket.inet_aton('127.0.0.1') + bytes(12)
    ends = struct.pack('>HH', here, there) + address + address + struct.pack('=III', 0, 0xffffffff, 0xffffffff)
    asked = struct.pack('=BBBBI', socket.AF_INET, socket.IPPROTO_TCP, 0, 0, 0xffffffff) + ends
    with socket.socket(socket.AF_NETLINK, socket.SOCK_RAW, 4) as kernel:
        kernel.send(struct.pack('=IHHII', 16 + len(asked), 20, 1, 0, 0) + asked)
        told = kernel.recv(4096)
    if struct.unpack('=H', told[4:6])[0] == 20:
        return struct.unpack('=I', told[72:76])[0]
    fault = -struct.unpack('=i', told[16:20])[0]
    return 0 if fault == errno.ENOENT else read_table(here, there)


def read_table(here, there):
    """The same by the table of all connections, which takes the kernel longer."""
    with open('/proc/net/tcp', encoding='ascii') as file:
        found = re.search(rf':{here:04X} \w+:{there:04X} \w+ \w+:(\w+)', file.read())
    return int(found[1], 16) if found else 0


def differs(row, what, wanted, got):
    print(f'  otherwise: {row.name}\n    {what}\n    wanted {wanted.hex()}\n    got    {got.hex()}')
    return False


def is_replied(session, row, asked, reply, times=1):
    """Whether a request that is sent so many times gets that reply each time."""
    session.stream.sendall(asked * (times - 1))
    right = take(session.stream, len(reply) * (times - 1)) == reply * (times - 1)
    got = reply_to(session.stream, asked)
    return right and got == reply or differs(row, f'{times} times {asked.hex()}', reply, got)


def are_replied(session, row):
    return all([is_replied(session, row, *it) for it in row.exchanges()])


def whole(row):
    """All requests of a row, and all of their replies."""
    asked, replies = zip(*((asked * times, reply * times) for asked, reply, times in row.exchanges()))
    return b''.join(asked), b''.join(replies)


def is_cut(session, row, places):
    """Whether all replies come where the requests are cut at these places, and each piece is read before the next."""
    asked, replies = whole(row)
    for start, end in zip((0, *places), (*places, len(asked))):
        if not session.send_taken(asked[start:end]):
            return False
    got = take(session.stream, len(replies))
    return got == replies or differs(row, f'cut at {list(places)}', replies, got)


def is_cut_anywhere(session, row):
    """Whether that is so where each request is cut behind its first byte, then where each is behind its second one, and
    so on, and with each byte alone, in a new session."""
    starts = [0, *itertools.accumulate(len(asked) for asked, _ in exchanges_of(row))]
    sizes = list(zip(starts, starts[1:]))
    right = all(is_cut(session, row, [start + count for start, end in sizes if start + count < end])
                for count in range(1, max(end - start for start, end in sizes)))
    session.again()
    return right and is_cut(session, row, range(1, starts[-1]))


def requests_have_their_replies(plc, work):
    """Byte by byte, by functions 1 to 6, 15, 16, 22 and 23, with each exception; the same wherever the requests are cut
    in two, and with each byte alone. A pause of the process in the middle of one changes nothing."""
    wanted = [row for row in rows() if row.table('request') and 'limit' not in row.given and '4096' not in row.name]
    with concurrent.futures.ThreadPoolExecutor(len(wanted)) as pool:
        return all(list(pool.map(lambda row: has_its_replies(plc, work, row), wanted)))


def has_its_replies(plc, work, row):
    with Session(plc, work, row) as session:
        right = are_replied(session, row) and is_paused(session, row)
        if row.has_client('cut at each place'):
            return is_cut_anywhere(session, row) and right
        return is_cut(session, row, range(7, len(whole(row)[0]), 13)) and right


def is_paused(session, row):
    """Whether all replies come though the process stands still for a moment while a request is half read."""
    asked, replies = whole(row)
    session.send_taken(asked[:5])
    session.served.process.send_signal(signal.SIGSTOP)
    session.served.process.send_signal(signal.SIGCONT)
    session.stream.sendall(asked[5:])
    got = take(session.stream, len(replies))
    return got == replies or differs(row, 'paused', replies, got)


class Inputs:
    """What clients wrote, bits and words, behind what is shown of them."""

    def __init__(self, held):
        self.bits = [held[place // 8] >> place % 8 & 1 for place in range(512)]
        self.words = list(struct.unpack('>64H', held[64:]))

    def write(self, asked):
        """A request that was answered by no exception."""
        code, data = asked[7], asked[8:]
        numbers = struct.unpack(f'>{len(data) // 2}H', data[:len(data) // 2 * 2])
        if code == 5:
            self.bits[numbers[0]] = int(numbers[1] != 0)
        elif code == 6:
            self.words[numbers[0]] = numbers[1]
        elif code == 15:
            for place in range(numbers[1]):
                self.bits[numbers[0] + place] = data[5 + place // 8] >> place % 8 & 1
        elif code == 16:
            self.put(numbers[0], data[5:])
        elif code == 22:
            self.words[numbers[0]] = self.words[numbers[0]] & numbers[1] | numbers[2] & ~numbers[1]
        elif code == 23:
            self.put(numbers[2], data[9:])

    def put(self, place, data):
        for number in struct.unpack(f'>{len(data) // 2}H', data):
            self.words[place] = number
            place += 1

    def spelled(self):
        """What the replies show that have all of them."""
        packed = bytes(sum(self.bits[8 * byte + bit] << bit for bit in range(8)) for byte in range(64))
        return packed + struct.pack('>64H', *self.words)


def shown(session):
    """All inputs, as a client who comes now reads them."""
    with session.served.client() as other:
        bits, words = reply_to(other, request(1, 0, 512)), reply_to(other, request(3, 0, 64))
    return bits[9:] + words[9:]


def exchanges_of(row):
    return [(asked, reply) for asked, reply, times in row.exchanges() for _ in range(times)]


def states(row, inputs):
    """What the inputs are behind each so many requests, and how many bytes these and their replies have."""
    asked_count = reply_count = 0
    yield 0, 0, inputs.spelled()
    for asked, reply in exchanges_of(row):
        if not reply[7] & 0x80:
            inputs.write(asked)
        asked_count, reply_count = asked_count + len(asked), reply_count + len(reply)
        yield asked_count, reply_count, inputs.spelled()


def is_kept(session, row, sent):
    """Whether of a client who sends so many bytes in two pieces, takes all replies to them and is lost then, all that
    it wrote by whole requests is there, and no more."""
    reached = [it for it in states(row, Inputs(session.held or shown(session))) if it[0] <= sent][-1]
    session.again()
    asked, replies = whole(row)
    for piece in (asked[:max(0, sent - 8)], asked[max(0, sent - 8):sent]):
        if piece and not session.send_taken(piece):
            return False
    got = take(session.stream, reached[1])
    right, session.held = session.is_let_go(), shown(session)
    if not right or got != replies[:reached[1]] or session.held != reached[2]:
        return differs(row, f'lost behind {sent} bytes', reached[2], session.held)
    return True


def is_lost_in_replies(session, row):
    """Whether of a client who sends all and is lost at once the inputs are those behind some of its requests."""
    may_be = [it[2] for it in states(row, Inputs(session.held or shown(session)))]
    session.again()
    if not session.is_begun():
        return False
    session.stream.sendall(whole(row)[0])
    right, session.held = session.is_let_go(), shown(session)
    return right and session.held in may_be


def what_a_lost_client_wrote_is_there(plc, work):
    """A client whose connection is reset, anywhere: what it wrote by whole requests stands, and
    nothing of a half one. One that is lost before it has read a reply leaves what some of its requests wrote. Who comes
    then is served."""
    wanted = [row for row in rows() if row.has_client('lost at each place')]
    with concurrent.futures.ThreadPoolExecutor(len(wanted)) as pool:
        return all(list(pool.map(lambda row: keeps_what_was_written(plc, work, row), wanted)))


def keeps_what_was_written(plc, work, row):
    with Session(plc, work, row) as session:
        count = len(whole(row)[0])
        right = all([is_kept(session, row, sent) for sent in [*range(0, count, 8), count]])
        right = all([is_lost_in_replies(session, row) for _ in range(10)]) and right
        session.again()
        return are_replied(session, row) and right


def no_more_than_4096_writes_wait(plc, work):
    """Between two scans, in whatever pieces they come: the next one is refused by exception 4, and changes nothing. A
    client that is lost leaves what it wrote."""
    row = row_of('where 4096')
    with Session(plc, work, row, period=HOUR) as session:
        right = are_replied(session, row)
    with Session(plc, work, row, period=HOUR) as session:
        asked, replies = whole(row)
        for start in range(0, len(asked), 260):
            session.stream.sendall(asked[start:start + 260])
        got = take(session.stream, len(replies))
        right = (got == replies or differs(row, 'in pieces of 260 bytes', replies[-60:], got[-60:])) and right
    with Session(plc, work, row, period=HOUR) as session:
        right = is_kept(session, row, 12 * 100 + 6) and is_kept(session, row, 12 * 3996) and right
        session.again()
        refused, reply = row.table('request')[1]
        right = is_replied(session, row, spread(refused), spread(reply)) and right
    return right


def old_outputs_are_withheld(plc, work):
    """Outputs that were released longer ago than the limit have exception 4 in their place, and all else is answered as
    ever. Up to the limit, and without one, they are shown."""
    row = row_of('outputs that were released longer ago')
    with Session(plc, work, row, '--stale', OLD, period=HOUR) as session:
        right = came_true(lambda: figure(session.page, 'plc_releases_total') == 1)
        right = right and came_true(lambda: reply_to(session.stream, request(2, 0, 2))[7:] == b'\x82\4')
        right = are_replied(session, row) and is_cut_anywhere(session, row) and right
    row = row_of('outputs are shown up to')
    for limit in ((), ('--stale', HOUR)):
        with Session(plc, work, row, *limit, period=HOUR) as session:
            right = are_replied(session, row) and right
    return right


def to_the_end(stream):
    """All that comes of a connection up to its end."""
    came = b''
    try:
        while piece := stream.recv(4096):
            came += piece
    except OSError:
        pass
    return came


def streams_at_fault_are_ended(plc, work):
    """By a header that can't be, wherever the stream is cut: what stands before is answered, and nothing behind it,
    whatever that is. A stream that isn't whole is waited for, and at its end it's closed without a word."""
    row = row_of('the replies to what stands before the fault')
    right = True
    with Session(plc, work, row) as session:
        for stream, end in row.table('stream of requests'):
            asked, replies = (spread(it) for it in f'{stream} '.split('>'))
            for place in range(max(1, len(asked))):
                session.again()
                session.send_taken(asked[:place])
                session.stream.sendall(asked[place:])
                if end == 'closed':
                    session.stream.shutdown(socket.SHUT_WR)
                got = to_the_end(session.stream)
                right = (got == replies or differs(row, f'{stream} cut at {place}', replies, got)) and right
        for bytes_of_it, _ in row_of('a fault is answered again').table('fault for good'):
            session.again()
            session.stream.sendall(spread(bytes_of_it) + request(1, 0, 2))
            right = to_the_end(session.stream) == b'' and right
        session.again()
        return right and reply_to(session.stream, request(1, 0, 2))[7:] == b'\1\1\0'


def figures(page):
    with urllib.request.urlopen(f'http://127.0.0.1:{page}/metrics', timeout=PATIENCE) as it:
        return it.read().decode()


def figure(page, name):
    return int(re.search(rf'^{name} (\d+)$', figures(page), re.M)[1])


def counts(page):
    text = figures(page)
    found = (re.findall(rf'^plc_modbus_{what}_total\{{.*\}} (\d+)$', text, re.M) for what in ('requests', 'exceptions'))
    return [[int(number) for number in numbers] for numbers in found]


def requests_are_counted(plc, work):
    """By function, and where an exception answers one by its code, too."""
    row = row_of('requests are counted by function')
    right = True
    with Session(plc, work, row, source='LD 1\n') as session:
        page, before = session.page, counts(session.page)
        for asked, said in row.table('counted stream'):
            functions, exceptions = (list(map(int, it.split()[2:])) for it in said.split(', '))
            session.stream.sendall(spread(asked))
            wanted = [[a + b for a, b in zip(*it)] for it in zip(before, (functions, exceptions))]
            if not came_true(lambda: counts(page) == wanted):
                print('  ', row.name, wanted, counts(page))
                right = False
            before = wanted
    return right


GATE = [requests_have_their_replies, what_a_lost_client_wrote_is_there, no_more_than_4096_writes_wait,
        old_outputs_are_withheld, streams_at_fault_are_ended, requests_are_counted]
