"""Machines of a group, of which one isn't real: hellos that a machine refuses or accepts, strangers that it lets go,
another group at its address, and a partition."""
import os
import socket
import struct
import threading
import time

from controller import PATIENCE, came_true, patiently
from groups import Patient
from hellos import SIZE, hello_of, tells_nothing
import network

KNOWN = 16              # bytes at a hello's end, of what it knows of the other end
BEAT = 0.05             # seconds


class Peer:
    """A connection with a machine's replica that said these bytes, and how it was answered."""

    def __init__(self, group, machine, sent):
        host, port = group.network.replica(machine, machine).split(':')
        self.stream, self.answer, self.is_over = socket.create_connection((host, int(port)), PATIENCE), b'', False
        self.stream.sendall(sent)

    def hear(self):
        """The hello that it's answered, or as much of it as comes."""
        try:
            while len(self.answer) < SIZE and (piece := self.stream.recv(SIZE - len(self.answer))):
                self.answer += piece
        except OSError:
            pass
        return self.answer

    def is_let_go(self):
        """Whether it's closed within so long, whatever comes before."""
        self.stream.settimeout(PATIENCE)
        try:
            while self.stream.recv(4096):
                pass
            return True
        except socket.timeout:
            return False
        except OSError:
            return True

    def stay(self):
        """It says that it's there, until the other end closes."""
        threading.Thread(target=self.beat, daemon=True).start()
        threading.Thread(target=self.read, daemon=True).start()
        return self

    def beat(self):
        try:
            while not self.is_over:
                self.stream.sendall(b'\0\0')
                time.sleep(BEAT)
        except OSError:
            pass

    def read(self):
        self.is_let_go()
        self.is_over = True

    def close(self):
        self.is_over = True
        self.stream.close()


def is_refused(group, sent, own):
    """Whether who says this is answered by machine 0 as by one that says nothing of itself, or by its own hello, and is
    let go."""
    peer = Peer(group, 0, sent)
    answer = peer.hear()
    is_told = tells_nothing(answer) if own is None else answer[:-KNOWN] == own[:-KNOWN]
    if not is_told or not peer.is_let_go():
        print('  ', sent.hex(), answer.hex())
        return False
    return True


@patiently
def hellos_are_refused(plc, work):
    """Each that can't be accepted is answered and closed, however often it comes, and told once. One that was started
    again takes the place of the one before, which isn't taken back."""
    with Patient(plc, work) as group:
        group.start(0, 2)
        right = group.says(0, 'driving view 0')
        real, other = hello_of(group, 1, 5), bytes(32)
        own_store = hello_of(group, 0, 1).store
        first = Peer(group, 0, real.spelled())
        own = first.hear()
        first.stay()
        right = right and group.says(0, 'machine 1 joined') and struct.unpack('>Q', own[82:90])[0] > 0
        rows = [
            ('machine 1 refused: another group', real._replace(identity=other), None),
            ('machine 1 refused: another epoch', real._replace(epoch=2), own),
            ('machine 1 refused: another program', real._replace(image=other), own),
            ('machine 1 refused: another fresh', real._replace(fresh=real.fresh + 1), own),
            ('machine 1 refused: another store: format it with --wait', real._replace(store=real.store ^ 1), own),
            ('machine 1 refused: it has seen another store of this machine: format this one with --wait',
             real._replace(known_store=own_store ^ 1, known_starts=1), own),
            ("machine 1 refused: it has seen a copy of this machine's store",
             real._replace(known_store=own_store, known_starts=2 ** 40), own),
            ('machine 0 refused: own party', real._replace(machine=0), own),
            ('machine 3 refused: no member', real._replace(machine=3), own),
            ('machine 1 refused: fewer starts', real._replace(starts=4), own),
            ('machine 1 refused: more starts', real._replace(starts=5 + 4097), own)]
        for line, hello, answer in rows:
            for _ in range(2):
                right = right and is_refused(group, hello.spelled(), answer)
        right = right and is_refused(group, real.spelled(1), None) and is_refused(group, real.spelled(1)[:90], None)
        lines = [line for line, _, _ in rows] + ['machine refused: another version']
        right = right and all(group.says(0, line) for line in lines)
        newer = Peer(group, 0, real._replace(starts=6).spelled())
        right = right and newer.hear()[:-KNOWN] == own[:-KNOWN]
        newer.stay()
        right = right and came_true(lambda: first.is_over) and is_refused(group, real.spelled(), own)
        told = [line for _, line in list(group.machines[0].lines)]
        counts = [told.count(line) for line in lines]
        newer.close()
        if not right or counts[:9] + counts[10:] != [1] * (len(lines) - 1) or counts[9] not in (1, 2):
            print('  ', counts, *told, sep='\n   ')
            return False
        return True


@patiently
def hellos_are_spelled(plc, work):
    """A machine's hello has these bytes: its group, its epoch with the image, its replica, its starts, `fresh`, its
    store, and what it knows of who said hello to it: nothing at first, and then the store and the starts that it saw.
    Clients are no members of a group; one above the last, and a party of another kind, get no answer."""
    with Patient(plc, work) as group:
        group.start(0, 2)
        right = group.says(0, 'driving view 0')
        real, own = hello_of(group, 1, 5), hello_of(group, 0, 1)
        first = Peer(group, 0, real.spelled())
        heard = first.hear()
        own = own._replace(starts=struct.unpack('>Q', heard[82:90])[0])
        right = right and own.starts > 0 and heard == own.spelled()
        first.stay()
        right = right and group.says(0, 'machine 1 joined')
        known = own._replace(known_store=real.store, known_starts=real.starts).spelled()
        rows = [(real._replace(fresh=1).spelled(), known), (party(real, 1, 0), own.spelled()),
                (party(real, 1, 15), own.spelled()), (party(real, 1, 16), b''), (party(real, 2, 1), b''),
                (b'PLC-VS' + real.spelled()[6:], b'')]
        for sent, answer in rows:
            peer = Peer(group, 0, sent)
            got = peer.hear()
            if got != answer or not peer.is_let_go():
                print('  ', sent.hex(), answer.hex(), got.hex(), sep='\n   ')
                right = False
        first.close()
        return right


def party(hello, kind, number):
    """A hello of a party of this kind and number."""
    spelled = hello.spelled()
    return spelled[:80] + bytes([kind, number]) + spelled[82:]


def question():
    """What a replica asks that recovers, with a number that nobody else has: the frame, and the number."""
    nonce = os.urandom(8)
    return b'\0\0\0\x13' + bytes([9, 1, 0]) + nonce + bytes(8), nonce


def record(piece):
    return struct.pack('>H', len(piece)) + piece


def a_message_comes_in_whatever_records(plc, work):
    """In two of them, with beats before, between and behind them, wherever it's cut; and in one for each byte."""
    with Patient(plc, work) as group:
        group.start(0, 2)
        right, hello = group.says(0, 'driving view 0'), hello_of(group, 1, 5).spelled()
        for cut in range(23):
            asked, nonce = question()
            pieces = [asked[:cut], asked[cut:]] if cut else [asked[place:place + 1] for place in range(len(asked))]
            sent = hello + b'\0\0' + b'\0\0'.join(record(piece) for piece in pieces) + b'\0\0'
            right = right and is_answered(group, sent, len(sent), nonce)
        if not right:
            print(*group.since(0), sep='\n  ')
        return right


def strangers_are_let_go(plc, work):
    """Who says nothing, half a hello, something else, or a record that can't be; a machine of the group stays."""
    with Patient(plc, work) as group:
        group.start(0, 2)
        right = group.says(0, 'driving view 0')
        real = hello_of(group, 1, 5).spelled()
        spoken = b'', real[:40], b'GET / HTTP/1.1\r\n\r\n', real + b'\0\4\0\0\0\0'
        strangers = [Peer(group, 0, sent) for sent in spoken]
        right = right and all([it.is_let_go() for it in strangers])
        if not right:
            print(*group.since(0), sep='\n  ')
        return right and group.machines[0].is_up()


def another_group_is_told_at_both_ends(plc, work):
    """A machine of another group that has this one's addresses: both are told, once, though it dials on and on."""
    with Patient(plc, work) as group:
        group.start(0)
        path, store = os.path.join(work, 'other.toml'), os.path.join(work, 'other')
        group.write_file(path, {**group.keys, 'identity': f'"{"ab" * 16}"'}, 1)
        own = ('--group', path, '--store', store)
        right = group.run('format', group.source, '--machine', '1', *own)[0] == 0
        other = group.machines[1]
        other.words = [plc, 'serve', *own]
        group.start(1)
        right = right and group.says(0, 'machine 1 refused: another group')
        right = right and group.says(1, 'machine 0 refused: another group')
        time.sleep(3)
        told = [sum('refused' in line for _, line in it.lines) for it in (group.machines[0], other)]
        if not right or told != [1, 1]:
            print('  ', told, *group.since(0), sep='\n   ')
            return False
        return True


def is_answered(group, sent, cut, nonce):
    """Whether who says this in two parts, which ends with a question that has this number, is answered."""
    for _ in range(10):     # on a slow machine a hello may not be whole in time
        peer = Peer(group, 0, sent[:cut])
        time.sleep(0.002)
        came = b''
        try:
            peer.stream.sendall(sent[cut:])
            while nonce not in came and (piece := peer.stream.recv(65536)):
                came += piece
        except OSError:
            pass
        peer.close()
        if nonce in came:
            return True
    return False


def a_message_comes_however_it_is_cut(plc, work):
    """Behind a hello and a beat, in a record: the question of a replica that recovers, which is answered."""
    with Patient(plc, work) as group:
        group.start(0, 2)
        right, hello = group.says(0, 'driving view 0'), hello_of(group, 1, 5).spelled()
        for cut in range(1, len(hello) + 2 + 2 + 23):
            asked, nonce = question()
            right = right and is_answered(group, hello + b'\0\0' + record(asked), cut, nonce)
            if not right:
                print('  cut at', cut, *group.since(0), sep='\n  ')
                return False
        return True


class Pipe:
    """Hands on what comes to its port to another one, both ways, while it isn't parted. What came while it was is lost,
    with its connections."""

    def __init__(self, to):
        self.to, self.is_parted, self.pairs = to, False, []
        self.listener = socket.create_server(('127.0.0.1', 0))
        self.at = f'127.0.0.1:{self.listener.getsockname()[1]}'
        threading.Thread(target=self.take, daemon=True).start()

    def take(self):
        while True:
            near, _ = self.listener.accept()
            try:
                far = socket.create_connection(self.to, PATIENCE)
            except OSError:
                near.close()
                continue
            self.pairs.append((near, far))
            for source, sink in ((near, far), (far, near)):
                threading.Thread(target=self.hand_on, args=(source, sink), daemon=True).start()

    def hand_on(self, source, sink):
        try:
            while piece := source.recv(65536):
                while self.is_parted:
                    time.sleep(0.01)
                sink.sendall(piece)
        except OSError:
            pass
        for end in (source, sink):
            end.close()

    def part(self):
        self.is_parted = True

    def heal(self):
        for pair in self.pairs:
            for end in pair:
                try:
                    end.shutdown(socket.SHUT_RDWR)
                except OSError:
                    pass
        self.is_parted = False


class Piped(network.Loopback):
    """The same, but machine 1 reaches machine 0 by a pipe."""

    def __init__(self):
        super().__init__(3)
        host, port = super().replica(0, 0).split(':')
        self.pipe = Pipe((host, int(port)))

    def replica(self, machine, reader):
        return self.pipe.at if (machine, reader) == (0, 1) else super().replica(machine, reader)


def a_partition_heals(plc, work):
    """Nothing passes between two machines for some seconds: both tell it, and they are joined again behind that."""
    with Patient(plc, work, over=Piped(), patience=2000) as group:
        group.start(0, 1, 2)
        ends = (0, 'machine 1'), (1, 'machine 0')

        def are(what):
            """Whether that's what both ends have told of one another last."""
            for number, other in ends:
                told = [line for _, line in list(group.machines[number].lines) if line.startswith(f'{other} ')]
                last = [line for line in told if line.endswith((' joined', ' lost'))][-1:]
                if last != [f'{other} {what}']:
                    return False
            return True

        right = came_true(lambda: are('joined'))
        group.network.pipe.part()
        right = right and came_true(lambda: are('lost'))
        time.sleep(3)
        group.network.pipe.heal()
        right = right and came_true(lambda: are('joined'))
        if not right:
            print(*group.since(0), sep='\n  ')
        return right


GATE = [hellos_are_refused, hellos_are_spelled, strangers_are_let_go, a_message_comes_however_it_is_cut,
        a_message_comes_in_whatever_records, another_group_is_told_at_both_ends, a_partition_heals]
