"""The networks that machines of a group are on: where each is reached, and what can be made to fail of it."""
import itertools
import json
import os
import socket
import subprocess
import sys

from modbus import connection

HERE = os.path.dirname(os.path.realpath(__file__))
REPLICA, MODBUS, CONSOLE, PAGE, PIPES = 7600, 7650, 7680, 7690, 7700    # where machines have addresses of their own
TAGS = 250              # so many runs of the tool may be under way at once


def free_ports(count):
    taken = [socket.create_server(('127.0.0.1', 0)) for _ in range(count)]
    ports = [it.getsockname()[1] for it in taken]
    for it in taken:
        it.close()
    return ports


def told(host, port):
    return f'{host}:{port}'


class Carrier:
    """A process that carries what machines send to each other, and is told what fails."""

    def __init__(self, name, words):
        self.process = subprocess.Popen([sys.executable, os.path.join(HERE, name), *words], stdin=subprocess.PIPE,
                                        stdout=subprocess.PIPE, text=True)
        self.answer()

    def answer(self):
        if self.process.stdout.readline() != 'done\n':
            raise RuntimeError('the network has ended')

    def say(self, **holds):
        self.process.stdin.write(json.dumps(holds) + '\n')
        self.process.stdin.flush()
        self.answer()

    def close(self):
        self.process.kill()
        self.process.wait()


class Loopback:
    """All machines at an address of this computer that no other run of this tool has meanwhile: two bytes of it are a
    port that is taken. Their ports are below those that a connection gets by itself, so one that is closed is free.
    Nothing of their network can be made to fail."""

    name = 'loopback'
    pause = 0.004       # seconds from one try of a client to connect to the next

    def __init__(self, size):
        self.size, self.taken = size, socket.create_server(('127.0.0.1', 0))
        self.address = '127.{}.{}.1'.format(*divmod(self.taken.getsockname()[1], 256))

    def ahead(self, _machine):
        """The words ahead of a call of the program."""
        return []

    def replica(self, machine, _reader):
        """Where a machine's replica is, as another one's file tells it."""
        return told(self.address, REPLICA + machine)

    def modbus(self, machine):
        return self.address, MODBUS + machine

    def console(self, machine):
        return self.address, CONSOLE + machine

    def page(self, machine):
        return self.address, PAGE + machine

    def connect(self, machine, limit):
        """A client's connection with a machine."""
        return connection(self.modbus(machine), limit)

    def close(self):
        self.taken.close()


class Failing:
    """A network that can be made to fail, by its `carrier`."""

    def begin(self, carrier):
        self.carrier, self.cuts, self.slow = carrier, set(), (0, 0)

    def tell(self):
        self.carrier.say(cut=sorted(self.cuts), delay=self.slow[0], jitter=self.slow[1])

    def cut(self, ways):
        self.cuts |= set(ways)
        self.tell()

    def mend(self, ways):
        self.cuts -= set(ways)
        self.tell()

    def delay(self, milliseconds, jitter):
        self.slow = milliseconds, jitter
        self.tell()

    def cable(self, machine, is_pulled):
        """The one to the other machines. Clients reach it as before."""
        others = [other for other in range(self.size) if other != machine]
        ways = [(machine, other) for other in others] + [(other, machine) for other in others]
        (self.cut if is_pulled else self.mend)(ways)


class Pipes(Failing, Loopback):
    """The same, with a pipe between each two machines."""

    name = 'loopback, by pipes'

    def __init__(self, size):
        Loopback.__init__(self, size)
        words = [f'{one},{other},{self.pipe(one, other)},{REPLICA + other}' for one in range(size)
                 for other in range(size) if one != other]
        self.begin(Carrier('pipes.py', [self.address, *words]))

    @staticmethod
    def pipe(one, other):
        """The port of the pipe from one machine to another one."""
        return PIPES + 10 * one + other

    def replica(self, machine, reader):
        return told(self.address, REPLICA + machine if reader == machine else self.pipe(reader, machine))

    def close(self):
        self.carrier.close()
        Loopback.close(self)


def run(line):
    subprocess.run(line.split(), check=True, stdout=subprocess.DEVNULL, stderr=subprocess.DEVNULL)


class Namespaces(Failing):
    """Each machine in a network namespace: on a network of the machines, by a switch of this tool, and on one of the
    plant, a bridge that this computer is on, too. It takes root, and Linux with iproute2 and nsenter."""

    name = 'network namespaces'
    pause = 0.004
    keys = {'insecure': 'true'}     # replicas are at addresses that others reach

    def __init__(self, size):
        self.size, self.tag = size, self.free_tag()
        self.bridge, self.plant = f'pb{self.tag}', f'10.78.{self.tag}'
        try:
            self.make()
            self.begin(Carrier('switch.py', [self.group_end(it) for it in range(size)]))
        except BaseException:
            self.close()
            raise

    @staticmethod
    def free_tag():
        """A number for names and addresses that no other run of this tool has: its bridge is made by it."""
        first = os.getpid() % TAGS
        for tag in itertools.chain(range(first, TAGS), range(first)):
            if not os.path.exists(f'/sys/class/net/pb{tag}'):
                try:
                    run(f'ip link add pb{tag} type bridge')
                    return tag
                except subprocess.CalledProcessError:
                    pass        # another run was faster, or there are no bridges here
        raise RuntimeError('no bridge')

    def space(self, machine):
        return f'plc{self.tag}n{machine}'

    def group_end(self, machine):
        return f'pg{self.tag}n{machine}'

    def plant_end(self, machine):
        return f'pp{self.tag}n{machine}'

    def make(self):
        run(f'ip addr add {self.plant}.100/24 dev {self.bridge}')
        run(f'ip link set {self.bridge} up')
        for machine in range(self.size):
            self.make_machine(machine, self.space(machine))

    def make_machine(self, machine, space):
        run(f'ip netns add {space}')
        run(f'ip link add {self.group_end(machine)} type veth peer name group netns {space}')
        run(f'ip link add {self.plant_end(machine)} type veth peer name plant netns {space}')
        for name, address in (('group', f'10.77.0.{machine + 1}'), ('plant', f'{self.plant}.{machine + 1}')):
            run(f'ip -n {space} addr add {address}/24 dev {name}')
            run(f'ip -n {space} link set dev {name} up')
        run(f'ip -n {space} link set lo up')
        run(f'ip link set {self.group_end(machine)} up')
        run(f'ip link set {self.plant_end(machine)} master {self.bridge} up')

    def ahead(self, machine):
        return ['nsenter', f'--net=/run/netns/{self.space(machine)}']

    def replica(self, machine, _reader):
        return told(f'10.77.0.{machine + 1}', REPLICA)

    def modbus(self, machine):
        return f'{self.plant}.{machine + 1}', MODBUS

    def console(self, machine):
        return f'{self.plant}.{machine + 1}', CONSOLE

    def page(self, machine):
        return f'{self.plant}.{machine + 1}', PAGE

    def connect(self, machine, limit):
        return connection(self.modbus(machine), limit)

    def close(self):
        if hasattr(self, 'carrier'):
            self.carrier.close()
        for machine in range(self.size):
            subprocess.run(['ip', 'netns', 'del', self.space(machine)], stderr=subprocess.DEVNULL)
            for end in (self.group_end(machine), self.plant_end(machine)):
                subprocess.run(['ip', 'link', 'del', end], stderr=subprocess.DEVNULL)
        subprocess.run(['ip', 'link', 'del', self.bridge], stderr=subprocess.DEVNULL)


def best(size, loopback):
    """The network whose faults are those of a real one, where it's to be had."""
    if not loopback:
        try:
            return Namespaces(size)
        except (OSError, subprocess.CalledProcessError, RuntimeError) as why:
            print(f'  no network namespaces here ({why}), so pipes on loopback', flush=True)
    return Pipes(size)
