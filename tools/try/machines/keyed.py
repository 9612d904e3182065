"""Groups of machines that have a key: strangers without it, connections that are played again, turned round, or changed
in a bit, keys that change one machine after the other, and files of keys that are refused."""
import hashlib
import hmac
import os
import socket
import struct
import threading
import time

from group import Group, now
from network import Loopback, told
from stores import why_not
from hellos import SIZE, hello_of
from strangers import address

CHALLENGE, SUM, ANSWER = 50, 16, 68
DIALLER, LISTENER = 0, 1
FRONT = b'PLC-VR\x00\x03'
GATE = int(os.environ.get('KEYED_STEP', '1'))      # of so many bits one is changed


def sum_of(key, text):
    return hmac.new(key, text, hashlib.sha256).digest()


class Key:
    """A key of a group, as whoever has it knows it."""

    def __init__(self, digits=None):
        self.digits = digits or os.urandom(32).hex()
        self.bytes = bytes.fromhex(self.digits)
        self.name = sum_of(self.bytes, b'PLC-VR key name')[:8]

    def connection(self, dialler, listener):
        """The key of a connection, by both challenges."""
        pair = sum_of(self.bytes, b'PLC-VR machines' + bytes(sorted(dialler[8:10])))
        return sum_of(pair, dialler + listener)

    def challenge(self, machine, other):
        return FRONT + bytes([machine, other]) + self.name + os.urandom(32)


def record(connection, side, number, body):
    text = bytes([side]) + number.to_bytes(8, 'big') + body
    return struct.pack('>H', len(body)) + body + sum_of(connection, text)[:SUM]


def got(stream, count):
    """So many bytes, or fewer where no more come."""
    came = b''
    try:
        while len(came) < count and (piece := stream.recv(count - len(came))):
            came += piece
    except OSError:
        pass
    return came


def flipped(piece, bit):
    changed = bytearray(piece)
    changed[bit // 8] ^= 1 << bit % 8
    return bytes(changed)


class Said:
    """What went over a connection that was dialled, piece by piece."""

    def __init__(self, group, machine):
        self.group, self.machine = group, machine

    def dialled(self, key, challenge, hello, change=None):
        """Says a challenge and a hello at the machine, each changed so, if that's wanted: how many bytes came back."""
        change = change or (lambda piece, _: piece)
        self.sent, self.came = [], []
        with socket.create_connection(address(self.group, self.machine), 2) as stream:
            stream.settimeout(1)
            self.send(stream, change(challenge, 'challenge'))
            self.came.append(got(stream, ANSWER))
            if len(self.came[0]) == ANSWER:
                connection = key.connection(challenge, self.came[0][:CHALLENGE])
                self.send(stream, change(record(connection, DIALLER, 0, hello), 'hello'))
                self.came.append(got(stream, SIZE + 18))
        return sum(map(len, self.came))

    def answer_to(self, key):
        """What comes back to a right challenge as of another machine."""
        with socket.create_connection(address(self.group, self.machine), 2) as stream:
            stream.settimeout(2)
            stream.sendall(key.challenge((self.machine + 1) % self.group.size, self.machine))
            return got(stream, ANSWER)

    def send(self, stream, piece):
        self.sent.append(piece)
        try:
            stream.sendall(piece)
        except OSError:
            pass


WHOLE = ANSWER + SIZE + 18      # so much comes back where both have met


def key_file(group_path, keys):
    with open(group_path, 'w') as file:
        file.write(''.join(key.digits + '\n' for key in keys))
    os.chmod(group_path, 0o600)


class Keyed(Group):
    """A group with a key."""

    def __init__(self, options, **words):
        self.key, self.folder = Key(), words.pop('folder', None)
        self.place = f'/tmp/key-{os.getpid()}-{time.monotonic_ns()}'
        key_file(self.place, [self.key])
        super().__init__(options, key=f'"{self.place}"', **words)

    def close(self):
        super().close()
        os.path.exists(self.place) and os.remove(self.place)


def machines_meet_by_their_key(options):
    """Three with a key drive, the one that drives is killed, another one takes over, and it comes back."""
    with Keyed(options) as group:
        right, longest = group.begin() and group.write((0, True), (0, 7)), []
        time.sleep(1)
        for _ in range(options.times):
            killed, driving = now(), group.driving(20)
            group.machines[driving].kill()
            time.sleep(0.8)
            longest.append(group.longest(killed, now()))
            group.machines[driving].start()
            right = group.machines[driving].is_normal(20) and right
            time.sleep(1)
        print(f'  {max(longest) * 1000:.0f} ms between two releases at most')
        told = [line for line in group.since(0) if 'no key' in line]
        return right and not told and max(longest) * 1000 < options.limit or why_not(group, 0, longest, told)


def strangers_without_the_key_are_refused(options):
    """Plain hellos, challenges by another key, for another machine, as of this machine, and other bytes are refused by
    name and unanswered; with the right name of the key, but without it, nobody gets behind the answer."""
    with Keyed(options) as group:
        right, since, key, other = group.begin(), now(), group.key, Key()
        real = hello_of(group, 2)
        nameless = Key()
        nameless.name = key.name
        said = Said(group, 0)
        tries = {'no key': (real.spelled(), 0), 'another key': (other.challenge(2, 0), 0),
                 'another machine: see the addresses': (key.challenge(2, 1), 0),
                 'own party': (key.challenge(0, 0), 0),
                 'no challenge': (b'GET / HTTP/1.1\r\nHost: 127.0.0.1\r\n' + bytes(40), 0)}
        wrong = []
        for line, (piece, count) in tries.items():
            if (came := said.dialled(key, piece, real.spelled())) != count:
                wrong.append((line, came))
            if not group.machines[0].lines_with(f'refused: {line}', since, 5):
                wrong.append(line)
        if (came := said.dialled(nameless, nameless.challenge(2, 0), real.spelled())) != ANSWER:
            wrong.append(('forged', came))
        if not group.machines[0].lines_with('refused: forged or damaged record', since, 5):
            wrong.append('forged')
        lost = [line for line in group.since(since) if ' lost' in line]
        return right and not wrong and not lost and group.driving(1) is not None or why_not(group, since, wrong, lost)


def no_bit_may_be_changed(options):
    """In the place of a machine that is off somebody with the key says challenge and hello, with one bit changed: no
    connection is met, whichever it is, and without a change it is."""
    with Keyed(options) as group:
        right, since, key = group.begin(), now(), group.key
        real = hello_of(group, 2)._replace(starts=9)
        group.machines[2].kill()
        time.sleep(1)
        said, met, count = Said(group, 0), [], 0
        if said.dialled(key, key.challenge(2, 0), real.spelled()) != WHOLE:
            return why_not(group, since, 'not met', said.came)
        for name, bits in (('challenge', 8 * CHALLENGE), ('hello', 8 * (SIZE + 18))):
            for bit in range(0, bits, GATE):
                def change(piece, of, name=name, bit=bit):
                    return flipped(piece, bit) if of == name else piece
                count += 1
                if said.dialled(key, key.challenge(2, 0), real.spelled(), change) == WHOLE:
                    met.append((name, bit))
        print(f'  {count} bits')
        return right and not met and group.driving(1) is not None or why_not(group, since, met)


def recordings_are_refused(options):
    """What went over a connection is played again: at the machine that heard it, at another one, and each piece in the
    place of each other one."""
    with Keyed(options) as group:
        right, since, key = group.begin(), now(), group.key
        real = hello_of(group, 2)._replace(starts=9)
        group.machines[2].kill()
        time.sleep(1)
        said = Said(group, 0)
        if said.dialled(key, key.challenge(2, 0), real.spelled()) != WHOLE:
            return why_not(group, since, 'not met')
        pieces, met = said.sent + [said.came[0][:CHALLENGE], said.came[0][CHALLENGE:], said.came[1]], []
        for machine in (0, 1):
            for first in pieces:
                for second in pieces:
                    with socket.create_connection(address(group, machine), 2) as stream:
                        stream.settimeout(0.6)
                        try:
                            stream.sendall(first)
                            came = got(stream, ANSWER)
                            stream.sendall(second)
                            came += got(stream, SIZE + 18)
                        except OSError:
                            continue
                    if len(came) > ANSWER:
                        met.append((machine, pieces.index(first), pieces.index(second), len(came)))
        return right and not met and group.driving(1) is not None or why_not(group, since, met)


def mirrored(server, ends):
    """Says to whoever dials what that one says, and a record with no body and a sum of zeros."""
    server.settimeout(0.2)
    while not ends.is_set():
        try:
            stream, _ = server.accept()
        except OSError:
            continue
        with stream:
            stream.settimeout(0.5)
            try:
                while piece := stream.recv(4096):
                    stream.sendall(piece + bytes(ANSWER - CHALLENGE))
            except OSError:
                pass


def a_mirror_is_refused(options):
    """In the place of machine 0, which is off, a stranger answers each challenge with that challenge."""
    with Keyed(options) as group:
        right = group.begin()
        group.machines[0].kill()
        since, ends = now(), threading.Event()
        with socket.create_server(address(group, 0)) as server:
            mirror = threading.Thread(target=mirrored, args=(server, ends), daemon=True)
            mirror.start()
            told_by = [bool(group.machines[it].lines_with('machine 0 refused: own challenge', since, 10)) for it in (1, 2)]
            ends.set()
            mirror.join()
        group.machines[0].start()
        right = group.machines[0].is_normal(20) and right
        return right and all(told_by) or why_not(group, since, told_by)


class Damaging(Loopback):
    """What machine 2 says to machine 0, and hears of it, goes through a pipe that changes a bit once, where it's asked."""

    name = 'loopback, damaged'

    def __init__(self, size):
        super().__init__(size)
        self.to_damage = {}
        self.server = socket.create_server((self.address, 7790))
        threading.Thread(target=self.carry, daemon=True).start()

    def replica(self, machine, reader):
        return told(self.address, 7790) if (machine, reader) == (0, 2) else super().replica(machine, reader)

    def carry(self):
        while True:
            try:
                near, _ = self.server.accept()
                far = socket.create_connection((self.address, 7600), 2)
            except OSError:
                if self.server.fileno() < 0:
                    return
                near.close()
                continue
            for one, other, way in ((near, far, 'there'), (far, near, 'back')):
                one.settimeout(None)
                threading.Thread(target=self.pipe, args=(one, other, way), daemon=True).start()

    def pipe(self, one, other, way):
        try:
            while piece := one.recv(1 << 16):
                if way in self.to_damage:
                    piece = flipped(piece, self.to_damage.pop(way) % (8 * len(piece)))
                other.sendall(piece)
        except OSError:
            pass
        for it in (one, other):
            try:
                it.shutdown(socket.SHUT_RDWR)
            except OSError:
                pass

    def close(self):
        self.server.close()
        super().close()


def a_damaged_record_ends_its_connection(options):
    """One bit of what goes between two machines is changed, now and then, in each direction: whoever hears it says so,
    the connection begins anew, and the history stays one."""
    with Keyed(options, over=Damaging(3)) as group:
        right, wrong, since = group.begin(), [], now()
        for turn in range(options.times):
            way, hearer, other = (('there', 0, 2), ('back', 2, 0))[turn % 2]
            time.sleep(0.5)
            begun = now()
            group.network.to_damage[way] = 17 * turn + 3
            line = f'machine {other} lost'
            if group.machines[hearer].told(line, begun, 5) is None and \
                    group.machines[other].told(f'machine {hearer} lost', begun, 5) is None:
                wrong.append((way, turn))
            if not group.are_well(20):
                wrong.append(('not well', turn))
        forged = [line for line in group.since(since) if 'forged or damaged' in line]
        print(f'  {len(forged)} of {options.times} told as forged or damaged')
        return right and not wrong and forged or why_not(group, since, wrong)


def a_key_is_changed_without_a_stop(options):
    """The file of the key gets a second one, the two change places, and the first one goes, and each time each machine
    in turn is started again: the group goes on."""
    with Keyed(options) as group:
        right, longest, old, new = group.begin(), [], group.key, Key()
        for keys in ([old, new], [new, old], [new]):
            key_file(group.place, keys)
            for machine in group.machines:
                begun = now()
                machine.kill()
                machine.start()
                right = machine.is_normal(20) and group.are_well(20) and right
                longest.append(group.longest(begun, now()))
        print(f'  {max(longest) * 1000:.0f} ms between two releases at most')
        said, since = Said(group, 0), now()
        real = hello_of(group, 2)
        old_is_out = said.dialled(old, old.challenge(2, 0), real.spelled()) == 0
        return right and old_is_out and max(longest) < 2 or why_not(group, 0, longest, old_is_out)


def files_of_keys_are_judged(options):
    """A file that others may read, that isn't there, or that has no key, refuses a start."""
    with Keyed(options) as group:
        own = ('--group', group.file(2), '--store', group.store(2))
        wrong = []
        for text, mode, line in ((group.key.digits + '\n', 0o604, 'plc: group key open to all'),
                                 (group.key.digits[1:] + '\n', 0o600, 'plc: group key refused: one line of 64'),
                                 ('x' + group.key.digits[1:] + '\n', 0o600, 'plc: group key refused: no hexadecimal digit at 1:1'),
                                 ((group.key.digits + '\n') * 2, 0o600, 'plc: group key refused: both lines are one key'),
                                 (None, 0, 'plc: device read')):
            if os.path.exists(group.place):
                os.remove(group.place)
            if text is not None:
                with open(group.place, 'w') as file:
                    file.write(text)
                os.chmod(group.place, mode)
            status, told_line = group.run('serve', *own)
            if status not in (1, 2) or not told_line.startswith(line):
                wrong.append((line, status, told_line))
        print(*wrong, sep='\n')
        return not wrong


def a_visit_brings_a_cold_start(options):
    """All are killed together: the group begins anew, its words said by connections whose ends have proved the key."""
    with Keyed(options) as group:
        right, since = group.begin(), now()
        for machine in group.machines:
            machine.kill()
        begun = now()
        for machine in group.machines:
            machine.start()
        right = group.are_well(60) and right
        told_epoch = [line for line in group.since(begun) if 'epoch 2' in line]
        return right and told_epoch or why_not(group, since)


def many_strangers_stop_nothing(options):
    """Thousands of connections that say nothing, or a challenge that is right but for the key: scans go on."""
    with Keyed(options) as group:
        right, since, key = group.begin(), now(), group.key
        count = int(os.environ.get('KEYED_STRANGERS', '3000'))
        for number in range(count):
            try:
                with socket.create_connection(address(group, number % 3), 1) as stream:
                    if number % 2:
                        stream.sendall(key.challenge((number + 1) % 3, number % 3))
            except OSError:
                pass
        longest = group.longest(since, now())
        lost = [line for line in group.since(since) if ' lost' in line]
        print(f'  {count} in {now() - since:.0f} s, {longest * 1000:.0f} ms between two releases at most')
        return right and not lost and longest < 1 or why_not(group, since, lost)


TRIES = [machines_meet_by_their_key, strangers_without_the_key_are_refused, no_bit_may_be_changed,
         recordings_are_refused, a_mirror_is_refused, a_damaged_record_ends_its_connection,
         a_key_is_changed_without_a_stop, files_of_keys_are_judged, a_visit_brings_a_cold_start,
         many_strangers_stop_nothing]
