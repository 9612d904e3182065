"""What machines of a group send to one that isn't real: requests of an operator, words ahead of a cold start, and what
waits while it stands still."""
import contextlib
import os
import signal
import socket
import struct
import threading
import time

from console import Operator, image_of
from controller import PATIENCE, came_true, patiently, take
from groups import Patient
from hellos import SIZE, hello_of
from peers import BEAT, Peer, question, record

VISIT_FRONT, VISIT = b'PLC-CS\0\2', 153
FREEZE, FROZEN = 0, 1                   # kinds of words
REQUEST, ANSWERS = 1, (10, 15)          # kinds of messages: a request, and what is told to who recovers
CONSOLE = 128 + 8                       # that of machine 0, as a party
READ_CURRENT = 8                        # a command
LONG = 'LD 1\nST %QW0\nRET\n' + ''.join(f'LD LINT#{10 ** 10 + k}\n' for k in range(2300))     # 32 kB as an image


def messages(stream):
    """Those whose frames come over a connection in records, until it ends."""
    came = b''
    while True:
        came += take(stream, int.from_bytes(take(stream, 2), 'big'))
        while len(came) >= 4 and len(came) >= (end := 4 + int.from_bytes(came[:4], 'big')):
            yield came[4:end]
            came = came[end:]


class Place:
    """Where a machine is reached that isn't real: it answers each hello by its own, and says that it's there. It keeps
    the words that come, and the messages with their moments."""

    def __init__(self, group, hello):
        host, port = group.network.replica(hello.machine, hello.machine).split(':')
        self.hello, self.words, self.messages = hello, [], []
        self.listener = socket.create_server((host, int(port)))
        threading.Thread(target=self.accept, daemon=True).start()

    def accept(self):
        try:
            while True:
                stream, _ = self.listener.accept()
                threading.Thread(target=self.attend, args=(stream,), daemon=True).start()
        except OSError:
            pass

    def attend(self, stream):
        try:
            front = take(stream, 8)
            if front == VISIT_FRONT:
                self.words.append(take(stream, VISIT - 8)[73:])
                return
            take(stream, SIZE - 8)
            stream.sendall(self.hello.spelled())
            threading.Thread(target=self.beat, args=(stream,), daemon=True).start()
            for message in messages(stream):
                self.messages.append((time.monotonic(), message))
        except OSError:
            pass
        finally:
            stream.close()

    def beat(self, stream):
        try:
            while True:
                stream.sendall(b'\0\0')
                time.sleep(BEAT)
        except OSError:
            pass

    def close(self):
        self.listener.close()


def asked(place):
    """The moments at which the request of machine 0's operator came, which is the same each time."""
    requests = [(at, it) for at, it in place.messages if it[0] == REQUEST]
    front, said = bytes([REQUEST, CONSOLE, 1, CONSOLE - 128]), {it for _, it in requests}
    if len(said) > 1 or any(it[:4] != front or it[12:] != bytes([READ_CURRENT]) for it in said):
        print('  ', *(it.hex() for it in said))
        return []
    return [at for at, _ in requests]


@patiently
def a_request_is_sent_again_after_each_period(plc, work):
    """An operator's command isn't answered, since one of the other machines stands still and the other one isn't real:
    its request is sent again once a period, and no more often."""
    with Patient(plc, work, period=300, fresh=2000) as group:
        hello = hello_of(group, 1, 5)
        place = Place(group, hello)
        group.start(0, 2)
        right = group.says(0, 'driving view 0')
        peer = Peer(group, 0, hello.spelled())
        peer.stay()
        right = right and group.says(0, 'machine 1 joined')
        group.machines[2].send(signal.SIGSTOP)
        operator = Operator(*reversed(group.network.console(0)))
        begun = time.monotonic()
        operator.stream.sendall(b'"cr"\n')
        right = right and came_true(lambda: len(asked(place)) >= 6)
        count, took = len(asked(place)), time.monotonic() - begun
        operator.close()
        peer.close()
        place.close()
        if not right or count > 1 + took / 0.3:
            print('  ', count, took, *group.since(0), sep='\n   ')
            return False
        return True


def visit_of(hello, question, version=VISIT_FRONT):
    """The word by which a machine that recovers asks others to freeze."""
    said = hello.identity + struct.pack('>Q', hello.epoch) + hello.image + bytes([hello.machine, FREEZE])
    return version + said + question + bytes(63)


def is_frozen(place, question, seconds):
    """Whether that it froze is said to who asked, within so long."""
    return came_true(lambda: any(word[:9] == bytes([FROZEN]) + question for word in place.words), seconds)


def is_visited(group, place, visit, cut):
    """Whether machine 0 answers this visit, which comes in two parts: by a word of its own, and with nothing where it
    came from."""
    host, port = group.network.replica(0, 0).split(':')
    for _ in range(PATIENCE):       # it freezes for two seconds, and not in the first second behind that
        try:
            with socket.create_connection((host, int(port)), PATIENCE) as stream:
                stream.sendall(visit[:cut])
                time.sleep(0.005)
                stream.sendall(visit[cut:])
                if stream.recv(1) != b'':
                    return False
        except OSError:             # it isn't up yet, or let it go since it was too slow
            time.sleep(0.1)
        if is_frozen(place, visit[82:90], 1):
            return True
    return False


def a_group_keeps_its_primary(plc, work):
    """As long as all are there no other view begins: for two and a half times as long as a sign of the primary is waited
    for."""
    with Patient(plc, work, patience=6000) as group:
        group.start(0, 1, 2)
        right = group.says(0, 'driving view 0') and all([group.says(it, 'replica normal') for it in (1, 2)])
        time.sleep(15)
        told = group.since(0)
        if not right or any('view 1' in line for line in told):
            print('  ', *told, sep='\n  ')
            return False
        return True


def a_visit_comes_however_it_is_cut(plc, work):
    """Machine 0 recovers, alone, and another machine has it freeze by a visit, in two parts. One that is cut off, one of
    another version, of another group and of another epoch are none."""
    with Patient(plc, work) as group:
        group.start(0, 2)
        right = group.says(0, 'driving view 0') and group.says(2, 'replica normal')
        group.end(0)
        group.end(2)
        hello = hello_of(group, 1, 5)
        place = Place(group, hello)
        group.start(0)
        for cut in (153, 1, 7, 8, 9, 89, 90, 91, 117, 118, 119, 152):
            right = right and is_visited(group, place, visit_of(hello, os.urandom(8)), cut)
            if not right:
                print('  cut at', cut, *group.since(0), sep='\n  ')
                return False
        bad = [os.urandom(8) for _ in range(4)]
        others = [visit_of(hello, bad[0])[:-1], visit_of(hello, bad[1], b'PLC-CS\0\1'),
                  visit_of(hello._replace(identity=bytes(32)), bad[2]), visit_of(hello._replace(epoch=2), bad[3])]
        for _ in range(3):
            for sent in others:
                peer = Peer(group, 0, sent)
                right = right and (len(sent) < VISIT or peer.is_let_go())
                peer.close()
            right = right and is_visited(group, place, visit_of(hello, os.urandom(8)), VISIT)
        place.close()
        if not right or any(is_frozen(place, it, 0) for it in bad):
            print('  ', *group.since(0), sep='\n  ')
            return False
        return True


def unread(stream):
    """How many of the bytes that were sent over a connection within this computer weren't read at its other end yet."""
    own, other = (f'{socket.inet_aton(host)[::-1].hex().upper()}:{port:04X}'
                  for host, port in (stream.getsockname(), stream.getpeername()))
    with open('/proc/net/tcp') as file:
        rows = [line.split() for line in file]
    return sum(int(it[4].partition(':')[2], 16) for it in rows if it[1:3] == [other, own])


def answers(stream, nonces, last):
    """The places of the questions that are answered over a connection, as the answers come, up to that of the last,
    which comes within so long."""
    found, end = [], time.monotonic() + PATIENCE
    for message in messages(stream):
        if message[0] in ANSWERS:
            nonce = message[11:19]
            if nonce == last:
                return found
            found.append(nonces.index(nonce))
        if time.monotonic() > end:
            raise TimeoutError('the last question has no answer')
    return found


def ask_on(peer, asked):
    """Sends this each second until its connection ends: its answer may find no room, too, while much waits there."""
    with contextlib.suppress(OSError):
        while not peer.is_over:
            peer.stream.sendall(asked)
            time.sleep(1)


def stands_still(group, still, operator, image):
    """Whether one that reads nothing is sent more than it may, and another one is served meanwhile; whatever comes once
    it reads comes whole and in order."""
    change = (f'{{"change": "{image}"}}', 'done')
    right = operator.is_answered(8 * [change])
    questions, (last, last_nonce) = [question() for _ in range(80)], question()
    still.stream.sendall(b''.join(record(asked) for asked, _ in questions))
    right = right and came_true(lambda: unread(still.stream) == 0) and operator.is_answered(4 * [change])
    still.stream.settimeout(PATIENCE)
    threading.Thread(target=ask_on, args=(still, record(last)), daemon=True).start()
    nonces = [nonce for _, nonce in questions]
    found = answers(still.stream, nonces, last_nonce)
    if not right or not 4 < len(found) < 79 or found != sorted(set(found)):
        print('  ', right, found, *group.since(0)[-40:], sep='\n  ')
        return False
    return True


@patiently
def one_that_stands_still_delays_no_other(plc, work):
    """A machine that reads nothing is sent twenty million bytes: more than its connection holds and may wait for it. The
    others go on, and what it's sent beyond that is lost, each message whole."""
    with Patient(plc, work, every=10000) as group:
        group.start(0, 2)
        right = group.says(0, 'driving view 0')
        still = Peer(group, 0, hello_of(group, 1, 5).spelled())
        still.hear()
        threading.Thread(target=still.beat, daemon=True).start()
        right = right and group.says(0, 'machine 1 joined')
        operator = Operator(*reversed(group.network.console(0)))
        try:
            return right and stands_still(group, still, operator, image_of(plc, work, LONG))
        except OSError as why:
            print('  ', why, *group.since(0)[-40:], sep='\n  ')
            return False
        finally:
            still.close()
            operator.close()


GATE = [a_request_is_sent_again_after_each_period, a_group_keeps_its_primary, a_visit_comes_however_it_is_cut,
        one_that_stands_still_delays_no_other]
