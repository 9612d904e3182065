"""What an end of a connection between machines says first: the hello of a replica, as bytes."""
import struct
from typing import NamedTuple

FRONT, VERSION, SIZE = b'PLC-VR', 2, 118
PARTY = slice(80, 82)    # its kind and its number


class Hello(NamedTuple):
    """The hello of a replica: with the last two it tells the other end what it knows of it."""
    identity: bytes
    epoch: int
    image: bytes
    machine: int
    starts: int
    fresh: int
    store: int
    known_store: int = 0
    known_starts: int = 0

    def spelled(self, version=VERSION):
        numbers = struct.pack('>BBQIQQQ', 0, self.machine, *self[4:])
        return FRONT + struct.pack('>H', version) + self.identity + struct.pack('>Q', self.epoch) + self.image + numbers


def hello_of(group, machine, starts=1):
    """The hello of a machine of the group that was started so often, by what `plc show` prints of its store."""
    told = group.shown(machine)
    identity, image = bytes.fromhex(told['identity']), bytes.fromhex(told['begins with'])
    epoch, fresh, store = int(told['epoch']), round(group.fresh * 1000), int(told['store'], 16)
    return Hello(identity, epoch, image, machine, starts, fresh, store)


def tells_nothing(hello):
    """Whether a hello says no more than the kind and the number of its party."""
    return len(hello) == SIZE and not any(hello[8:PARTY.start] + hello[PARTY.stop:])
