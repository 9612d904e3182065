"""How many clients are served at once, from where they may come, what they may do, and how long one may be silent."""
import socket
import struct
import threading
import time

from controller import PATIENCE, Served, came_true, free_port, is_closed, is_written, patiently, reply_to, request
from controller import take, tells, words

ASKED = request(1, 0, 2)                                    # the first two bits of %I
ANSWER = bytes([0, 7, 0, 0, 0, 4, 1, 1, 1, 0])              # what a new controller answers
IDLE = 4                                                    # seconds that a client may be silent
EARLY = 0.1                                                 # seconds that a clock may differ from another one


def is_let_in(served):
    """Whether a client who comes now is answered."""
    try:
        with served.client() as client:
            return reply_to(client, ASKED) == ANSWER
    except OSError:
        return False


def sixteen_are_served_at_once(plc, work):
    """One that is silent after half a request and fifteen more are served; one beyond is closed unanswered. Once these
    have gone twenty are served, one behind another."""
    with Served(plc, work, '--period', 20, '--idle', 3600) as served:
        right = served.serves()
        half = served.client()
        half.sendall(ASKED[:5])
        crowd = [served.client() for _ in range(15)]
        right = right and all(reply_to(client, ASKED) == ANSWER for client in crowd) and not is_let_in(served)
        right = right and all(reply_to(client, ASKED) == ANSWER for client in crowd)
        half.sendall(ASKED[5:])
        right = right and take(half, len(ANSWER)) == ANSWER
        for client in (half, *crowd):
            client.close()
        for _ in range(20):     # a place may come free late
            right = right and came_true(lambda: is_let_in(served))
        return right and tells(served.lines, [])


class Guest(threading.Thread):
    """A client that goes on in its manner until it's let go: how long it stayed, in seconds."""

    def __init__(self, served, act):
        super().__init__(daemon=True)
        self.stream, self.act, self.came, self.stayed = served.client(), act, time.monotonic(), None
        self.stream.settimeout(0.1)

    def run(self):
        while self.stayed is None and time.monotonic() < self.came + PATIENCE:
            try:
                if self.act(self.stream) == b'':
                    self.stayed = time.monotonic() - self.came
            except socket.timeout:
                pass
            except OSError:
                self.stayed = time.monotonic() - self.came

    def was_let_go(self):
        self.join(PATIENCE)
        return self.stayed is not None and self.stayed >= IDLE - EARLY


def says_nothing(stream):
    return stream.recv(1)


def is_slow(stream):
    """A byte of one long request now and then."""
    time.sleep(0.1)
    stream.sendall(b'\0')


def takes_nothing(stream):
    """It asks, and reads no reply."""
    stream.sendall(request(3, 0, 60) * 300)


# each function that writes, by a request that would be done for anybody else, or has a fault that would be told him
WRITES = [request(5, 0, 0xff00), request(5, 0, 1), request(6, 0, 9), request(6, 200, 9),
          bytes([0, 7, 0, 0, 0, 8, 1, 15, 0, 0, 0, 1, 1, 1]), bytes([0, 7, 0, 0, 0, 9, 1, 16, 0, 0, 0, 1, 2, 0, 9]),
          bytes([0, 7, 0, 0, 0, 8, 1, 22, 0, 0, 0, 0, 0, 9]),
          bytes([0, 7, 0, 0, 0, 13, 1, 23, 0, 0, 0, 1, 0, 0, 0, 1, 2, 0, 9]), bytes([0, 7, 0, 0, 0, 2, 1, 16])]


def only_reads(client):
    """Whether each read is answered, and each function that writes by exception 1, as is one that isn't known."""
    right = words(client, 3, 1) == [5] and len(words(client, 4, 2)) == 2
    right = right and all(reply_to(client, request(function, 0, 1))[7] == function for function in (1, 2))
    refused = [reply_to(client, asked) == bytes([0, 7, 0, 0, 0, 3, 1, asked[7] | 128, 1]) for asked in WRITES]
    return right and all(refused) and words(client, 3, 1) == [5]


def is_closed_at_once(served, origin, port=None):
    """Whether a connection from there ends with nothing answered."""
    try:
        with served.client(origin, port) as client:
            client.sendall(ASKED)
            return is_closed(client)
    except OSError:
        return True


def strangers_are_closed(plc, work):
    """Who comes from an address that isn't listed is closed unanswered, also while each place is taken, and takes
    none; who is listed, by himself or by his network, is served."""
    with Served(plc, work, '--period', 20, '--modbus-allow', '127.0.0.1,127.3.0.0/16') as served:
        right = served.serves() and is_let_in(served)
        right = right and all(is_closed_at_once(served, origin) for origin in ('127.0.0.9', '127.2.255.255', '127.4.0.0'))
        crowd = [served.client(f'127.3.{k}.{255 - k}') for k in range(16)]
        right = right and all(reply_to(client, ASKED) == ANSWER for client in crowd)
        right = right and all(is_closed_at_once(served, '127.0.0.9') for _ in range(20))
        right = right and all(reply_to(client, ASKED) == ANSWER for client in crowd)
        for client in crowd:
            client.close()
        right = right and came_true(lambda: is_let_in(served))
    with Served(plc, work, '--period', 20, '--modbus-allow', '127.0.0.9') as served:
        return right and served.serves() and is_closed_at_once(served, '127.0.0.1') and tells(served.lines, [])


def some_clients_only_read(plc, work):
    """Who comes from an address that is listed for reading alone, or to the port for that, gets reads answered and
    writes refused; nothing of his is staged, and others write as ever."""
    port = free_port()
    lists = ['--modbus-allow', '127.0.0.0/29', '--modbus-read-only', '127.0.0.4/30', '--read-port', port]
    with Served(plc, work, '--period', 20, *lists) as served:
        right = served.serves()
        with served.client() as writer:
            right = right and is_written(writer, 6, 0, 5)
            for origin, at in (('127.0.0.4', None), ('127.0.0.7', None), ('127.0.0.1', port), ('127.0.0.5', port)):
                with served.client(origin, at) as reader:
                    right = right and only_reads(reader)
            right = right and came_true(lambda: words(writer, 4, 1) == [6]) and is_written(writer, 6, 0, 5)
        crowd = [served.client('127.0.0.2', port) for _ in range(16)]
        right = right and all(words(client, 3, 1) == [5] for client in crowd) and is_let_in_to_write(served)
        right = right and is_closed_at_once(served, '127.0.0.2', port) and is_closed_at_once(served, '127.0.0.8', port)
        return right and tells(served.lines, [])


def who_resets_at_once_only_reads(plc, work):
    """Who may only read writes nothing either where he resets his connection behind a write, so that by the time the
    write is read nobody can tell any more where it came from."""
    lists = ['--modbus-read-only', '127.0.0.9', '--modbus-allow', '127.0.0.0/28']
    for words_of_lists in (lists, lists[:2]):
        with Served(plc, work, '--period', 20, *words_of_lists) as served:
            right = served.serves()
            for _ in range(300):
                with served.client('127.0.0.9') as gone:
                    gone.setsockopt(socket.SOL_SOCKET, socket.SO_LINGER, struct.pack('ii', 1, 0))
                    gone.sendall(request(6, 0, 9))
            right = right and came_true(lambda: is_let_in(served))     # a place may come free late
            with served.client() as client:
                if not (right and words(client, 3, 1) == [0] and is_written(client, 6, 0, 5) and words(client, 3, 1) == [5]):
                    return False
    return True


def is_let_in_to_write(served):
    """Whether a client who comes now writes."""
    with served.client() as client:
        return is_written(client, 6, 0, 5)


@patiently
def who_says_nothing_is_let_go(plc, work):
    """Neither who says nothing, nor who says half a request, nor who says a byte of one now and then, nor who takes no
    reply has more time than its limit, and none has less; who asks in time stays."""
    with Served(plc, work, '--period', 20, '--idle', IDLE) as served:
        right = served.serves()
        guests = [Guest(served, act) for act in (says_nothing, says_nothing, is_slow, takes_nothing)]
        guests[1].stream.sendall(ASKED[:5])
        guests[2].stream.sendall(bytes([0, 7, 0, 0, 0, 254, 1, 16]))
        guests[3].stream.setsockopt(socket.SOL_SOCKET, socket.SO_RCVBUF, 4096)
        for guest in guests:
            guest.start()
        with served.client() as lively:
            while any(guest.is_alive() for guest in guests) or time.monotonic() < guests[0].came + 2 * IDLE:
                right = right and reply_to(lively, ASKED) == ANSWER
                time.sleep(0.2)
        stayed = [guest.was_let_go() for guest in guests]
        if not right or stayed != [True] * 4:
            print('  ', right, [guest.stayed for guest in guests])
        return right and all(stayed) and is_closed(guests[0].stream)


GATE = [sixteen_are_served_at_once, strangers_are_closed, some_clients_only_read, who_resets_at_once_only_reads,
        who_says_nothing_is_let_go]
