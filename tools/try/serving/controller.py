"""A controller that a process serves, the lines on its standard error as they come, and what its clients ask over
Modbus."""
import atexit
import functools
import os
import random
import signal
import socket
import subprocess
import tempfile
import threading
import time

EXAMPLES = os.path.join(os.path.dirname(os.path.dirname(os.path.dirname(os.path.dirname(os.path.realpath(__file__))))), 'examples')
SOURCE = 'LD %IW0\nADD 1\nST %QW0\nLD %IX0.0\nST %QX0.0\n'
MOST_SCANS = 4294967295
PATIENCE = 90           # seconds that anything is waited for: many, since the machine may have much else to do
RUNNING = set()         # processes that are to be killed, whatever happens
MARKS = []              # names that say which ports this try was given


def run(words, **how):
    """A process that is killed at the end, if it hasn't ended by then."""
    process = subprocess.Popen(words, **{'stdin': subprocess.DEVNULL, **how})
    RUNNING.add(process)
    return process


def end_all(*_):
    for process in RUNNING:
        if process.poll() is None:
            process.kill()
            process.wait()


def ended(plc, *words, limit=PATIENCE, **how):
    """A call of the program, up to its end: its status, and what it wrote on its output and on standard error."""
    done = subprocess.run([plc, *map(str, words)], capture_output=True, text=True, timeout=limit,
                          **{'stdin': subprocess.DEVNULL, **how} if 'input' not in how else how)
    return done.returncode, done.stdout, done.stderr


def free_port():
    """A port where nobody listens, and which no other try is given. It's none of those that the system hands out for
    connections."""
    while True:
        port, mark = random.randrange(12000, 32000), socket.socket(socket.AF_UNIX)
        try:
            mark.bind(f'\0try-serve {port}')
            with socket.socket() as it:
                it.bind(('127.0.0.1', port))
            MARKS.append(mark)
            return port
        except OSError:
            mark.close()


def came_true(what, seconds=PATIENCE, pause=0.02):
    """Whether that is so within so long."""
    end = time.monotonic() + seconds
    while not what():
        if time.monotonic() > end:
            return False
        time.sleep(pause)
    return True


def patiently(it):
    """The same, but up to three times: it has to say something in time itself, and may be too late for that on a slow
    machine."""
    @functools.wraps(it)
    def tried(plc, work):
        return any(it(plc, tempfile.mkdtemp(dir=work)) for _ in range(3))

    return tried


class Served:
    """A controller that is served, and the lines on its standard error as they come."""

    def __init__(self, plc, work, *words, port=None, store=None, source=SOURCE, scans=MOST_SCANS):
        self.port, self.store = port or free_port(), store or tempfile.mkdtemp(dir=work)
        handle, path = tempfile.mkstemp('.il', dir=work)
        with os.fdopen(handle, 'w') as file:
            file.write(source)
        self.lines, self.out = [], ''
        own = ['--store', self.store, '--port', str(self.port), '--scans', str(scans)]
        self.process = run([plc, 'serve', path, *own, *map(str, words)], stdout=subprocess.PIPE, stderr=subprocess.PIPE,
                           text=True)
        self.reader = threading.Thread(target=self.read, daemon=True)
        self.reader.start()

    def __enter__(self):
        return self

    def __exit__(self, fault, *_):
        self.end()
        if fault:
            print('  ', self.lines)

    def read(self):
        for line in self.process.stderr:
            self.lines.append(line.rstrip('\n'))

    def says(self, line, seconds=PATIENCE, times=1):
        """Whether a line is told so often within so long."""
        came_true(lambda: self.lines.count(line) >= times or self.reader_is_over(), seconds)
        return self.lines.count(line) >= times

    def reader_is_over(self):
        return not self.reader.is_alive()

    def serves(self):
        return self.says(f'serving on 127.0.0.1:{self.port}')

    def client(self, origin='127.0.0.1', port=None):
        """One that comes from there, to the port for Modbus or to another one."""
        stream = socket.create_connection(('127.0.0.1', port or self.port), PATIENCE, (origin, 0))
        stream.setsockopt(socket.IPPROTO_TCP, socket.TCP_NODELAY, 1)
        return stream

    def pause(self, seconds):
        self.process.send_signal(signal.SIGSTOP)
        time.sleep(seconds)
        self.process.send_signal(signal.SIGCONT)

    def status(self, seconds=PATIENCE):
        """Its status, once it has ended, and all that it wrote is read."""
        try:
            status = self.process.wait(seconds)
        except subprocess.TimeoutExpired:
            return None
        self.reader.join(5)
        self.out = self.process.stdout.read()
        return status

    def end(self):
        self.process.kill()
        self.process.wait()


def request(function, address, value):
    """One that has an address, and a value or a quantity."""
    return bytes([0, 7, 0, 0, 0, 6, 1, function, 0, address, value >> 8, value & 255])


def take(stream, count):
    """So many bytes of a stream. Where it ends before, that's an OSError."""
    taken = b''
    while len(taken) < count:
        more = stream.recv(count - len(taken))
        if not more:
            raise OSError('closed')
        taken += more
    return taken


def reply_to(stream, asked):
    """The whole reply to a request."""
    stream.sendall(asked)
    head = take(stream, 6)
    return head + take(stream, head[4] << 8 | head[5])


def is_written(stream, function, address, value):
    """Writes a bit by function 05 or a word by 06: whether the reply is the request."""
    asked = request(function, address, value)
    return reply_to(stream, asked) == asked


def words(stream, function, count):
    """So many words from the first one on: by function 03 of %I, by 04 of %Q."""
    data = reply_to(stream, request(function, 0, count))[9:]
    return [data[2 * k] << 8 | data[2 * k + 1] for k in range(len(data) // 2)]


def is_closed(stream, seconds=PATIENCE):
    """Whether nothing more comes of a connection, which is closed within so long."""
    stream.settimeout(seconds)
    try:
        return stream.recv(1) == b''
    except socket.timeout:
        return False
    except OSError:
        return True


class Turn:
    """What was told of a replica."""

    def __init__(self):
        self.is_down = self.has_failed = self.has_started = False

    def take(self, what):
        """Whether this may be told of it though it isn't wanted: that it's down, once, and normal again behind that;
        and of one whose store failed that it starts, and behind that once that its store failed."""
        may_be = {'down': not self.is_down, 'normal': self.is_down,
                  'starts': self.has_failed, 'store': self.has_started}
        if what in ('down', 'normal'):
            self.is_down = what == 'down'
        elif what == 'starts':
            self.has_started = True
        elif what == 'store':
            self.has_failed, self.has_started = True, False
        return may_be.get(what, False)


def tells(lines, wanted):
    """Whether these lines are told, in order, and no other but that of a port, those of a console that comes and goes,
    and those of replicas that are down for a while or are started again, as on a slow machine: that a store failed, or
    a replica crashed, is told only where it's wanted."""
    wanted, turns = list(wanted), {}
    for line in lines:
        word, _, rest = line.partition(' ')
        number, _, what = rest.partition(' ')
        may_be = word == 'replica' and turns.setdefault(number, Turn()).take(what)
        if wanted and line == wanted[0]:
            wanted.pop(0)
        elif not may_be and not line.startswith(('serving on ', 'console ')):
            return False
    return not wanted


atexit.register(end_all)
