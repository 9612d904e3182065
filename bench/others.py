"""etcd and ZooKeeper, three nodes of each on loopback as Debian's packages have them, and a client of each, for
bench/failover."""
import base64
import http.client
import json
import os
import shutil
import socket
import struct
import subprocess
import time

NODES = 3
LIMIT = 0.1             # seconds that a client waits for an answer before it asks anew


def free_ports(count):
    taken = [socket.create_server(('127.0.0.1', 0)) for _ in range(count)]
    ports = [it.getsockname()[1] for it in taken]
    for it in taken:
        it.close()
    return ports


class Nodes:
    """Three processes that are one system. Which is the leader, its kind says."""

    def __init__(self, folder, settings):
        self.folder, self.settings, self.processes = folder, settings, [None] * NODES
        self.clients, self.peers, self.elections = (free_ports(NODES) for _ in range(3))
        for node in range(NODES):
            os.makedirs(self.path(node))

    def path(self, node, *names):
        return os.path.join(self.folder, f'node-{node}', *names)

    def start(self, node):
        with open(self.path(node, 'lines'), 'a') as lines:
            self.processes[node] = subprocess.Popen(self.words(node), stdin=subprocess.DEVNULL, stdout=lines,
                                                    stderr=lines)

    def kill(self, node):
        self.processes[node].kill()
        self.processes[node].wait()

    def pids(self):
        return [it.pid for it in self.processes]

    def close(self):
        for it in self.processes:
            if it:
                it.kill()
                it.wait()

    def leader(self):
        """Which node leads now; None where none says so."""
        for node in range(NODES):
            try:
                if self.leads(node):
                    return node
            except (OSError, ValueError, http.client.HTTPException):
                pass
        return None


class EtcdClient:
    """It puts one key, by etcd's JSON over HTTP (its own clients speak gRPC, to the same port)."""

    BODY = json.dumps({'key': base64.b64encode(b'bench').decode(), 'value': base64.b64encode(b'12345678').decode()})

    def __init__(self, port, limit):
        self.connection = http.client.HTTPConnection('127.0.0.1', port, timeout=limit)

    def post(self, path, body):
        try:
            self.connection.request('POST', path, body, {'Content-Type': 'application/json'})
            answer = self.connection.getresponse()
            text = answer.read()
        except http.client.HTTPException as why:
            raise OSError(why) from why
        if answer.status != 200:
            raise OSError(text)
        try:
            return json.loads(text)
        except ValueError as why:
            raise OSError(why) from why

    def commit(self):
        self.post('/v3/kv/put', self.BODY)

    def close(self):
        self.connection.close()


class Etcd(Nodes):
    name, program, beside = 'etcd', 'etcd', 0
    kinds = {'default: 100, 1000 ms': (100, 1000), '10, 100 ms': (10, 100)}     # heartbeat, election timeout

    def words(self, node):
        client, peer = (f'http://127.0.0.1:{ports[node]}' for ports in (self.clients, self.peers))
        heartbeat, election = self.settings
        cluster = ','.join(f'node-{it}=http://127.0.0.1:{port}' for it, port in enumerate(self.peers))
        said = {'name': f'node-{node}', 'data-dir': self.path(node, 'data'), 'listen-client-urls': client,
                'advertise-client-urls': client, 'listen-peer-urls': peer, 'initial-advertise-peer-urls': peer,
                'initial-cluster': cluster, 'initial-cluster-state': 'new', 'logger': 'zap', 'log-level': 'error',
                'heartbeat-interval': heartbeat, 'election-timeout': election}
        return ['etcd', *(f'--{key}={value}' for key, value in said.items())]

    def client(self, node, limit=LIMIT):
        return EtcdClient(self.clients[node], limit)

    def leads(self, node):
        client = EtcdClient(self.clients[node], 1)
        told = client.post('/v3/maintenance/status', '{}')
        client.close()
        return told['leader'] == told['header']['member_id']


def text(value):
    return struct.pack('>i', len(value)) + value


class ZooKeeperClient:
    """A session that sets the data of one node of the tree."""

    NODE = b'/bench'

    def __init__(self, port, limit):
        self.stream, self.number = socket.create_connection(('127.0.0.1', port), limit), 0
        self.stream.settimeout(limit)
        self.stream.setsockopt(socket.IPPROTO_TCP, socket.TCP_NODELAY, 1)
        self.exchange(struct.pack('>iqiq', 0, 0, 10000, 0) + text(bytes(16)))

    def take(self, count):
        taken = b''
        while len(taken) < count:
            more = self.stream.recv(count - len(taken))
            if not more:
                raise OSError('closed')
            taken += more
        return taken

    def exchange(self, request):
        self.stream.sendall(struct.pack('>i', len(request)) + request)
        return self.take(struct.unpack('>i', self.take(4))[0])

    def ask(self, kind, request, allowed=()):
        self.number += 1
        answer = self.exchange(struct.pack('>ii', self.number, kind) + request)
        if len(answer) < 16:
            raise OSError('no answer')
        number, _, fault = struct.unpack('>iqi', answer[:16])
        if number != self.number or fault not in (0, *allowed):
            raise OSError(f'fault {fault}')

    def create(self):
        anyone = struct.pack('>ii', 1, 31) + text(b'world') + text(b'anyone')
        self.ask(1, text(self.NODE) + text(b'') + anyone + struct.pack('>i', 0), allowed=(-110,))

    def commit(self):
        self.ask(5, text(self.NODE) + text(b'12345678') + struct.pack('>i', -1))

    def close(self):
        self.stream.close()


class ZooKeeper(Nodes):
    name, program, beside = 'ZooKeeper', 'java', 1
    jar = '/usr/share/java/zookeeper.jar'
    # tickTime, initLimit, syncLimit, and the least time between two looks at the votes of an election
    kinds = {'default: 2000 ms, 10, 5': (2000, 10, 5, None), '500 ms, 10, 5, 20 ms': (500, 10, 5, 20)}

    def words(self, node):
        tick, first, later, notice = self.settings
        lines = [f'tickTime={tick}', f'initLimit={first}', f'syncLimit={later}', f'dataDir={self.path(node, "data")}',
                 f'clientPort={self.clients[node]}', 'clientPortAddress=127.0.0.1', 'admin.enableServer=false',
                 '4lw.commands.whitelist=srvr', 'maxClientCnxns=0']
        lines += [f'server.{it}=127.0.0.1:{self.peers[it]}:{self.elections[it]}' for it in range(NODES)]
        os.makedirs(self.path(node, 'data'), exist_ok=True)
        for name, said in ((('data', 'myid'), str(node)), (('zoo.cfg',), '\n'.join(lines) + '\n')):
            with open(self.path(node, *name), 'w') as file:
                file.write(said)
        quick = [f'-Dzookeeper.fastleader.minNotificationInterval={notice}'] if notice else []
        return ['java', '-Xmx256m', *quick, '-cp', self.jar, 'org.apache.zookeeper.server.quorum.QuorumPeerMain',
                self.path(node, 'zoo.cfg')]

    def client(self, node, limit=LIMIT):
        client = ZooKeeperClient(self.clients[node], limit)
        try:
            client.create()
        except OSError:
            client.close()
            raise
        return client

    def leads(self, node):
        with socket.create_connection(('127.0.0.1', self.clients[node]), 1) as stream:
            stream.settimeout(1)
            stream.sendall(b'srvr')
            return b'Mode: leader' in b''.join(iter(lambda: stream.recv(4096), b''))


def machine():
    """When and where it's measured."""
    with open('/proc/cpuinfo') as file:
        names = [line.split(': ')[1].strip() for line in file if line.startswith('model name')]
    at = time.strftime('%Y-%m-%d %H:%M', time.gmtime())
    return f'{at} UTC, {len(names)} processors, {names[0] if names else "of an unknown kind"}, load {os.getloadavg()[0]:.1f}'


def is_there(kind):
    """Whether it's installed."""
    return shutil.which(kind.program) is not None and os.path.exists(getattr(kind, 'jar', '/'))


def wait_for(what, seconds):
    """What isn't None or False of it, within so long."""
    end = time.monotonic() + seconds
    while time.monotonic() < end:
        found = what()
        if found is not None and found is not False:
            return found
        time.sleep(0.02)
    raise TimeoutError(f'nothing within {seconds} s')
