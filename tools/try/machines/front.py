"""What examples/machines puts between machines, and in front of them: a tunnel by stunnel, and HAProxy; each by its
files there."""
import os
import shutil
import signal
import ssl
import subprocess
import tempfile
import time

from group import now
from modbus import Modbus, connection
from network import CONSOLE, MODBUS, REPLICA, Namespaces, free_ports, told

TOP = os.path.dirname(os.path.dirname(os.path.dirname(os.path.dirname(os.path.realpath(__file__)))))
EXAMPLES = os.path.join(TOP, 'examples', 'machines')
TLS = '/etc/plc/tls'    # where the files of the tunnel have the certificates
SECURE = 802            # its port for clients
BETWEEN = 7700          # and for machines


def example(name):
    with open(os.path.join(EXAMPLES, name)) as file:
        return file.read()


def are_there(*programs):
    """Whether these are installed."""
    missing = [it for it in programs if not shutil.which(it)]
    if missing:
        print(f'  not there: {", ".join(missing)}')
    return not missing


class Tunnel(Namespaces):
    """Each machine in a network namespace, whose replica, port and console are at its own 127.0.0.1, and stunnel beside
    it: so as on three computers, by the files of the examples."""

    name, pause = 'a tunnel between network namespaces', 0.05

    def __init__(self, size):
        self.work, self.ends = tempfile.mkdtemp(prefix='tunnel-'), []
        Namespaces.__init__(self, size)
        try:
            self.make_tunnel()
        except BaseException:
            self.close()
            raise

    def make_tunnel(self):
        subprocess.run(['sh', os.path.join(EXAMPLES, 'certificates.sh'), self.work], check=True,
                       stdout=subprocess.DEVNULL, stderr=subprocess.DEVNULL)
        for machine in range(self.size):
            path = os.path.join(self.work, f'tunnel-{machine}.conf')
            with open(path, 'w') as file:
                file.write('syslog = no\ndebug = warning\npid =\n'
                           + example(f'tunnel-{machine}.conf').replace(TLS, self.work))
            with open(os.path.join(self.work, f'lines-{machine}'), 'w') as lines:
                self.ends.append(subprocess.Popen([*self.ahead(machine), 'stunnel4', path], stdin=subprocess.DEVNULL,
                                                  stdout=lines, stderr=lines))

    def replica(self, machine, _reader):
        return told('127.0.0.1', REPLICA + machine)

    def modbus(self, machine):
        return '127.0.0.1', MODBUS + machine

    def console(self, machine):
        return '127.0.0.1', CONSOLE + machine

    def secured(self, address, name, limit, party):
        """A connection with who has a certificate of that name, by the party's own, if there is one."""
        context = ssl.create_default_context(cafile=os.path.join(self.work, 'ca.crt'))
        if party:
            context.load_cert_chain(*(os.path.join(self.work, f'{party}.{kind}') for kind in ('crt', 'key')))
        stream = connection(address, limit)
        try:
            return context.wrap_socket(stream, server_hostname=name)
        except OSError:
            stream.close()
            raise

    def connect(self, machine, limit, party='plant'):
        return self.secured((f'{self.plant}.{machine + 1}', SECURE), f'machine-{machine}', limit, party)

    def close(self):
        for it in self.ends:
            it.kill()
            it.wait()
        Namespaces.close(self)
        shutil.rmtree(self.work)


def is_let_in(group, machine, party):
    """Whether a client with that party's certificate has an answer of a machine."""
    try:
        with Modbus(group.network.connect(machine, 1.0, party)) as client:
            client.outputs()
            return True
    except OSError:
        return False


def reaches_the_replica(group, machine, party):
    """Whether that party's certificate lets it speak to the replica of a machine: it says hello to one that does."""
    work = group.network.work
    words = ['openssl', 's_client', '-quiet', '-connect', f'10.77.0.{machine + 1}:{BETWEEN}',
             '-CAfile', f'{work}/ca.crt', '-cert', f'{work}/{party}.crt', '-key', f'{work}/{party}.key']
    asked = subprocess.Popen([*group.network.ahead((machine + 1) % group.size), *words], stdin=subprocess.PIPE,
                             stdout=subprocess.DEVNULL, stderr=subprocess.DEVNULL)
    try:
        asked.wait(0.3)     # one that is let in waits for the other end's hello
        return False
    except subprocess.TimeoutExpired:
        return True
    finally:
        asked.kill()
        asked.wait()


def who_is_let_in(group):
    """What differs of whom the tunnel lets in where."""
    driving = group.driving(20)
    seen = [is_let_in(group, driving, 'plant'), is_let_in(group, driving, None), is_let_in(group, driving, 'machine-2'),
            reaches_the_replica(group, 0, 'machine-1'), reaches_the_replica(group, 0, 'plant')]
    return None if seen == [True, False, False, True, False] else seen


def kills_in_turn(group, times):
    """The machine that drives is killed so often, and started again: the times between two releases."""
    longest = []
    for _ in range(times):
        machine, killed = group.machines[group.driving(20)], now()
        machine.kill()
        time.sleep(1)
        longest.append(group.longest(killed, now()))
        machine.start()
        if not group.are_well(20):
            print('\n'.join(f'    {line}' for line in group.since(killed)))
            raise RuntimeError('a machine is not well again')
        time.sleep(0.5)
    return longest


class Front:
    """HAProxy, by the file of the examples, before the machines of a group on loopback, and a client behind it."""

    def __init__(self, group):
        self.group, self.reads, (self.port,) = group, [], free_ports(1)
        text = example('haproxy.cfg').replace('127.0.0.1:5020', f'127.0.0.1:{self.port}')
        for machine in range(group.size):
            text = text.replace(f'127.0.0.1:{MODBUS + machine}', told(*group.network.modbus(machine)))
        path = group.path('haproxy.cfg')
        with open(path, 'w') as file:
            file.write(text)
        self.process = subprocess.Popen(['haproxy', '-db', '-q', '-f', path], stdin=subprocess.DEVNULL)
        group.go_on(self.read_on)

    def read_on(self):
        """Reads through it, and comes again where its connection ends, as clients do."""
        while not self.group.is_over:
            try:
                with Modbus(connection(('127.0.0.1', self.port), 1.0)) as client:
                    while not self.group.is_over:
                        outputs = client.outputs()
                        self.reads.append((now(), outputs.count))
                        time.sleep(0.01)
            except OSError:
                time.sleep(0.01)

    def longest(self, since, until):
        """The longest time without a new release, for a client behind it."""
        seen, last = [since], None
        for at, count in self.reads:
            if since <= at <= until and count != last:
                seen.append(at)
            last = count
        return max(b - a for a, b in zip(seen, [*seen[1:], until]))

    def goes_back(self):
        return next(((a, b) for (_, a), (_, b) in zip(self.reads, self.reads[1:]) if b < a), None)

    def trouble(self, what, seconds):
        """The machine that drives is killed, or stands still, for so long: how long the client had nothing new."""
        machine, begun = self.group.machines[self.group.driving(20)], now()
        if what == signal.SIGKILL:
            machine.kill()
        else:
            machine.send(what)
        time.sleep(seconds)
        gap = self.longest(begun, now())
        if what == signal.SIGKILL:
            machine.start()
        else:
            machine.send(signal.SIGCONT)
        if not self.group.are_well(20):
            raise RuntimeError('a machine is not well again')
        time.sleep(0.5)
        return gap

    def close(self):
        self.process.kill()
        self.process.wait()
