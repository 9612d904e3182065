"""A group of machines, each a process of `plc serve --group` on this computer, and clients that read at every port of
it all the time. What they read and wrote is a history for the checker."""
import itertools
import os
import re
import shutil
import signal
import subprocess
import tempfile
import threading
import time
from typing import NamedTuple

import checker
import disk
import network
import traces
from checker import History, Read, Write
from modbus import Modbus
from program import GREATEST, source


class Pace(NamedTuple):
    """Times of those that use a group, in seconds."""
    limit: float        # that a client waits for anything
    piece: float        # from read to read
    wait: float         # until what has to come is given up


QUICK = Pace(0.4, 0.004, 30)
PATIENT = Pace(20, 0.02, 90)
WRITES = 0.03           # seconds from write to write
WRITTEN = 0.5           # seconds until what was read is in a trace
ENDS = signal.SIGKILL, signal.SIGTERM
LINK = re.compile(r'machine (\d+) (joined|lost)\b')


def now():
    return time.monotonic()


class Machine:
    """A process, and the lines on its standard error with their moments, over all its starts."""

    def __init__(self, number, words):
        self.number, self.words, self.process, self.lines, self.started = number, words, None, [], 0.0
        self.noise = []     # when it was started, stopped or killed, as faults of a history
        self.ends = []      # when it was killed

    def start(self):
        self.started = now()
        self.noise.append((self.started, self.started))
        self.process = subprocess.Popen(self.words, stdin=subprocess.DEVNULL, stdout=subprocess.DEVNULL,
                                        stderr=subprocess.PIPE, text=True)
        self.reader = threading.Thread(target=self.read, args=(self.process,), daemon=True)
        self.reader.start()

    def read(self, process):
        for line in process.stderr:
            self.lines.append((now(), line.rstrip('\n')))

    def send(self, what):
        self.noise.append((now(), now()))
        if what in ENDS:
            self.ends.append(now())
        self.process.send_signal(what)

    def kill(self, what=signal.SIGKILL):
        """Ends it: its status."""
        self.send(what)
        return self.ended(10)

    def ended(self, seconds):
        """The status of one that ends by itself, in time, and all of whose lines were read."""
        status = self.process.wait(seconds)
        self.reader.join(10)
        return status

    def is_up(self):
        return self.process is not None and self.process.poll() is None

    def since(self, moment):
        return [line for at, line in list(self.lines) if at >= moment]

    def told(self, beginning, since, seconds):
        """When a line that begins so came, within so long."""
        end = now() + seconds
        while now() < end:
            for at, line in list(self.lines):
                if at >= since and line.startswith(beginning):
                    return at
            time.sleep(0.01)
        return None

    def lines_with(self, words, since, seconds):
        """The lines with these words, once there's one or so long went by."""
        end = now() + seconds
        while now() < end and not any(words in it for it in self.since(since)):
            time.sleep(0.01)
        return [it for it in self.since(since) if words in it]

    def is_normal(self, seconds):
        """Whether it's normal since its start, within so long."""
        return self.told('replica normal', self.started, seconds) is not None

    def is_well(self, others):
        """Whether it's up and normal, and so many other machines are joined to it."""
        told = self.since(self.started)
        standing = [line for line in told if line.startswith('replica n')][-1:]
        near = {it[1]: it[2] == 'joined' for it in map(LINK.match, told) if it}
        is_normal = any(line.startswith('replica normal') for line in standing)
        return self.is_up() and is_normal and sum(near.values()) == others


class Group:
    """The machines of a group, what they are made of, and what clients read and wrote."""

    def __init__(self, options, size=None, over=None, has_disks=False, folder=None, has_traces=True, has_pages=False,
                 pace=QUICK, **keys):
        self.plc, self.period, self.size = options.plc, options.period / 1000, size or options.machines
        self.pace, self.work = pace, tempfile.mkdtemp(prefix='machines-', dir=folder)
        self.fresh = keys.get('fresh', options.period + 40) / 1000
        self.disks, self.network, self.has_traces, self.has_pages = [], None, has_traces, has_pages
        self.reads, self.writes, self.commands, self.faults, self.holds = [], [], [], [], []
        self.is_over, self.threads, self.sessions, self.begun = False, [], itertools.count(), now()
        try:
            keys = {'name': '"tried"', 'identity': f'"{os.urandom(16).hex()}"', 'period': options.period,
                    **getattr(over, 'keys', {}), **keys}
            self.keys = keys
            self.make(over or network.Loopback(self.size), has_disks, keys)
        except BaseException:
            self.close()
            raise

    def make(self, over, has_disks, keys):
        """The files, the stores and what is formatted in them."""
        self.network, self.source = over, self.path('program.il')
        self.disks = [disk.Disk(self.path(f'disk-{it}')) for it in range(self.size)] if has_disks else []
        with open(self.source, 'w') as file:
            file.write(source())
        for machine in range(self.size):
            self.write_file(self.file(machine), keys, machine)
        self.machines, self.formats = [], []
        for machine in range(self.size):
            own = ('--group', self.file(machine), '--store', self.store(machine))
            traced = ('--trace', self.trace(machine)) if self.has_traces else ()
            self.machines.append(Machine(machine, self.words(machine, 'serve', *own, *traced)))
            self.formats.append(self.run('format', self.source, '--machine', str(machine), *own))

    def __enter__(self):
        return self

    def __exit__(self, *_):
        self.close()

    def close(self):
        self.is_over = True
        for machine in getattr(self, 'machines', ()):
            if machine.is_up():
                machine.send(signal.SIGCONT)
                machine.kill()
        for thread in self.threads:
            thread.join(5)
        if self.network:
            self.network.close()
        for it in self.disks:
            it.close()
        shutil.rmtree(self.work)

    def path(self, name):
        return os.path.join(self.work, name)

    def file(self, machine):
        return self.path(f'group-{machine}.toml')

    def trace(self, machine):
        return self.path(f'trace-{machine}')

    def store(self, machine):
        return self.disks[machine].store if self.disks else self.path(f'store-{machine}')

    def write_file(self, path, keys, reader):
        """The group's file, as a machine has it."""
        tables = [''.join(f'{key} = {value}\n' for key, value in keys.items())]
        for machine in range(self.size):
            places = {'replica': self.network.replica(machine, reader),
                      'modbus': network.told(*self.network.modbus(machine)),
                      'console': network.told(*self.network.console(machine))}
            if self.has_pages:
                places['status'] = network.told(*self.network.page(machine))
            tables.append('\n[[machine]]\n' + ''.join(f'{key} = "{place}"\n' for key, place in places.items()))
        with open(path, 'w') as file:
            file.write(''.join(tables))

    def words(self, machine, *words):
        return [*self.network.ahead(machine), self.plc, *words]

    def run(self, *words):
        """A call of the program: its status, and the last line on its standard error."""
        ended = subprocess.run([self.plc, *words], stdin=subprocess.DEVNULL, capture_output=True, text=True, timeout=30)
        return ended.returncode, (ended.stderr.rstrip('\n').split('\n'))[-1]

    def shown(self, machine):
        """What `plc show` prints of a machine's store, by the words ahead of each value."""
        call = subprocess.run([self.plc, 'show', self.store(machine)], capture_output=True, text=True, check=True)
        return dict(line.rsplit(' ', 1) for line in call.stdout.splitlines())

    def begin(self):
        """Starts each machine, and a client at each port that reads on and on: whether all come to be well."""
        begun = now()
        for machine in self.machines:
            machine.start()
        return self.is_watched(begun)

    def is_watched(self, begun):
        """Starts a client at each port that reads on and on: whether all machines, which were started since then, come
        to be well."""
        for machine in range(self.size):
            self.go_on(self.poll, machine)
        is_well = self.are_well(self.pace.wait)
        if not is_well:
            print('  not well:', *self.since(begun), sep='\n    ')
        return is_well

    def go_on(self, what, *words):
        """Does it in a thread, which looks whether all is over."""
        self.threads.append(threading.Thread(target=what, args=words, daemon=True))
        self.threads[-1].start()

    def client(self, machine):
        return Modbus(self.network.connect(machine, self.pace.limit))

    def read(self, client, machine, session):
        begun = now()
        outputs = client.outputs()
        self.reads.append(Read(begun, now(), machine, outputs, session))
        return outputs

    def poll(self, machine):
        """Reads at a machine's port, while it's open."""
        while not self.is_over:
            try:
                with self.client(machine) as client:
                    session = next(self.sessions)
                    while not self.is_over:
                        self.read(client, machine, session)
                        time.sleep(self.pace.piece)
            except OSError:
                time.sleep(self.network.pause)

    def keep_writing(self):
        """Writes %IW0 at the machine that drives, one value after the other, and reads what becomes of it."""
        value = 0
        while not self.is_over:
            try:
                machine = self.driving(1)
                with self.client(0 if machine is None else machine) as client:
                    session = next(self.sessions)
                    while not self.is_over:
                        value = (value + 1) % (GREATEST + 1)
                        begun = now()
                        client.write_word(0, value)
                        self.writes.append(Write(begun, now(), machine, value, session))
                        self.read(client, machine, session)
                        time.sleep(WRITES)
            except OSError:
                time.sleep(self.pace.piece)

    def driving(self, seconds):
        """The machine whose port answers, within so long."""
        end = now() + seconds
        while now() < end:
            for machine in range(self.size):
                try:
                    with self.client(machine) as client:
                        client.outputs()
                        return machine
                except OSError:
                    pass
            time.sleep(0.01)
        return None

    def write(self, *writes):
        """Has the machine that drives take these inputs: places with their values, bits where those are truth values.
        Whether it does so in time."""
        end = now() + self.pace.wait
        while now() < end:
            try:
                with self.client(self.driving(10)) as client:
                    for place, value in writes:
                        (client.write_bit if isinstance(value, bool) else client.write_word)(place, value)
                    return True
            except (OSError, TypeError):
                time.sleep(0.01)
        return False

    def comes(self, wanted, seconds=None):
        """Whether a read that begins from now on shows what is wanted, in time."""
        begun = now()
        end = begun + (seconds or self.pace.wait)
        while now() < end:
            if any(wanted(it.outputs) for it in self.reads[-50:] if it.begun > begun):
                return True
            time.sleep(0.01)
        return False

    def are_well(self, seconds):
        """Whether all are up, normal and joined to each other, and one drives, within so long."""
        end = now() + seconds
        while now() < end:
            if all(machine.is_well(self.size - 1) for machine in self.machines) and self.driving(0.5) is not None:
                return True
            time.sleep(0.02)
        return False

    def history(self):
        reads, writes, commands = list(self.reads), list(self.writes), list(self.commands)
        if self.has_traces:
            time.sleep(WRITTEN)
        faults = self.faults + self.holds + [it for machine in self.machines for it in machine.noise]
        releases = [it for machine in range(self.size) for it in traces.read(self.trace(machine))]
        ends = {machine.number: list(machine.ends) for machine in self.machines}
        return History(self.period, self.fresh, reads, writes, commands, faults, releases, ends, list(self.holds))

    def longest(self, since, until):
        return checker.longest(History(self.period, self.fresh, list(self.reads)), since, until)

    def since(self, moment):
        """The lines of all machines, in the order of time, as seconds behind a moment."""
        lines = sorted((at, machine.number, line) for machine in self.machines for at, line in list(machine.lines)
                       if at >= moment)
        return [f'{at - moment:.3f} machine {number}: {line}' for at, number, line in lines]
