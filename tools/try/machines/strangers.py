"""Strangers at the ports where machines of a group meet: hellos that are made up, some of them with all that the group
knows of itself; and what a group that goes on makes of them."""
import socket
import time

from cuts import begun, epochs
from group import Group, now
from hellos import SIZE, hello_of, tells_nothing
from stores import why_not

BLANK, PIECE = 34 << 20, 1 << 16    # bytes of records that have nothing in them, and of those that are sent at once


def address(group, machine):
    host, port = group.network.replica(machine, machine).split(':')
    return host, int(port)


def answered(group, machine, sent):
    """The hello that a machine answers to these bytes; fewer bytes if it says none in time."""
    came = b''
    with socket.create_connection(address(group, machine), 2) as stream:
        stream.sendall(sent)
        try:
            while len(came) < SIZE and (piece := stream.recv(SIZE - len(came))):
                came += piece
        except OSError:
            pass
    return came


def no_hello_ends_a_group(options):
    """Hellos as of a machine of the group, with its identity and its store, that say a later epoch, or another program,
    or starts by the million, at each other machine: the group goes on, and tells it, and the real machine stays."""
    with Group(options) as group:
        right, since, last = group.begin(), now(), group.size - 1
        real, before = hello_of(group, last), epochs(group)
        wrong = {f'epoch 2 heard from machine {last}, program': real._replace(epoch=2),
                 f'epoch 1 heard from machine {last}, program ffff': real._replace(image=b'\xff' * 32),
                 f'epoch {2**64 - 2} heard from machine {last}': real._replace(epoch=2**64 - 2),
                 f'machine {last} refused: more starts': real._replace(starts=2**63)}
        for line, hello in wrong.items():
            for machine in group.machines[:-1]:
                answered(group, machine.number, hello.spelled())
                told = machine.told(line, since, 5)
                if told is None:
                    print(f'  machine {machine.number} never says {line!r}')
                right = told is not None and right
        time.sleep(3)
        lost = [line for line in group.since(since) if any(it in line for it in (' lost', 'standing by', 'not normal'))]
        goes_on = group.driving(1) is not None and begun(group, 2) == [] and epochs(group) == before
        return right and goes_on and not lost or why_not(group, since, lost)


def strangers_learn_nothing(options):
    """Who says another identity, or an older version, is answered by the kind and the number of a party alone."""
    with Group(options) as group:
        right, real = group.begin(), hello_of(group, group.size - 1)
        other = real._replace(identity=bytes(byte ^ 1 for byte in real.identity))
        told = [answered(group, 0, other.spelled()), answered(group, 0, real.spelled(1)[:90])]
        silent = [answered(group, 0, it) for it in (b'GET / HTTP/1.1\r\nHost: x\r\n\r\n', bytes(SIZE))]
        if not all(map(tells_nothing, told)) or real.identity in b''.join(told + silent):
            print(f'  {told} {silent}')
            return False
        return right and group.driving(1) is not None


def flood(group, machine, hello):
    """Says a hello at a machine, and blank records behind it: whether it was answered, and how many bytes it took."""
    taken = 0
    with socket.create_connection(address(group, machine), 5) as stream:
        stream.sendall(hello.spelled())
        came = stream.recv(SIZE)
        stream.settimeout(5)
        try:
            while taken < BLANK:
                stream.sendall(bytes(PIECE))
                taken += PIECE
        except OSError:
            pass
    return came[8:40] == hello.identity, taken


def blank_records_stop_nothing(options):
    """Behind hellos that are accepted, in the place of a machine that is off, come records without anything in them, as
    many as are taken, again and again: the others stay connected, scans go on, and the real machine comes back."""
    with Group(options) as group:
        right, off = group.begin(), group.machines[-1]
        off.kill()
        time.sleep(1)
        real, since = hello_of(group, off.number), now()
        told = []
        while now() < since + 3:
            told.append(flood(group, 0, real))
        time.sleep(1)
        longest = group.longest(since, now())
        lost = [line for line in group.since(since)
                if line.endswith(' lost') and not line.endswith(f'machine {off.number} lost')]
        sizes = [taken for _, taken in told]
        print(f'  {len(told)} floods, of which {sum(sizes) >> 20} MB were taken, {max(sizes) >> 10} KB of one at most')
        print(f'  {longest * 1000:.0f} ms between two releases at most')
        off.start()
        right = off.is_normal(30) and right
        if not all(is_known for is_known, _ in told) or lost or longest > 1 or not right:
            return why_not(group, since, told[:3], lost)
        return True


TRIES = [no_hello_ends_a_group, strangers_learn_nothing, blank_records_stop_nothing]
