"""Faults of a group's machines and of their network, at random, as many at once as the group can lose."""
import signal
import time

from group import now

ANEW = 0.5              # seconds from a start to the next of a process that ended by itself, at least
WELL = 25.0             # seconds within which all is as before behind a fault, else the group is stuck


class Fault:
    """One of a machine, which begins, lasts for between so many seconds, and ends."""

    lasts = 0.05, 5.0

    def __init__(self, group, machine, chance):
        self.group, self.machine = group, machine
        self.process, self.network = group.machines[machine], group.network
        self.other = chance.choice([it for it in range(group.size) if it != machine])
        self.amount = chance.random()

    @classmethod
    def seconds(cls, chance):
        """Short ones as often as long ones, by their magnitude."""
        shortest, longest = cls.lasts
        return shortest * (longest / shortest) ** chance.random()


class Kill(Fault):
    """The process is killed, and started again."""

    name, lasts, signal, is_down = 'kill -9', (0.1, 1.5), signal.SIGKILL, False

    def begin(self):
        self.is_down = True
        self.process.kill(self.signal)

    def end(self):
        self.process.start()
        self.is_down = False


class Terminate(Kill):
    name, signal = 'SIGTERM', signal.SIGTERM


class Stop(Fault):
    """The process stands still."""

    name = 'SIGSTOP'

    def begin(self):
        self.process.send(signal.SIGSTOP)

    def end(self):
        self.process.send(signal.SIGCONT)


class Cable(Fault):
    """That to the other machines is pulled."""

    name = 'cable'

    def begin(self):
        self.network.cable(self.machine, True)

    def end(self):
        self.network.cable(self.machine, False)


class Part(Fault):
    """Two machines don't reach each other."""

    name = 'a pair parted'

    def ways(self):
        return [(self.machine, self.other), (self.other, self.machine)]

    def begin(self):
        self.network.cut(self.ways())

    def end(self):
        self.network.mend(self.ways())


class OneWay(Part):
    """Nothing goes from one machine to another one."""

    name = 'one way'

    def ways(self):
        return [(self.machine, self.other)]


class Late(Fault):
    """All that goes between machines is late, by more and less."""

    name, lasts = 'late', (0.5, 5.0)

    def begin(self):
        self.network.delay(1 + 40 * self.amount, 10 * self.amount)

    def end(self):
        self.network.delay(0, 0)


class OfDisk(Fault):
    """The disk of a machine's store takes nothing. Mostly the machine is killed then, too, and can't come up before."""

    lasts = 0.5, 5.0

    def begin(self):
        self.disk = self.group.disks[self.machine]
        self.fail()
        if self.amount < 0.7:
            self.process.kill()
            self.process.start()

    def end(self):
        self.heal()


class Full(OfDisk):
    name = 'disk full'

    def fail(self):
        self.disk.fill()

    def heal(self):
        self.disk.free()


class ReadOnly(OfDisk):
    name = 'disk read-only'

    def fail(self):
        self.disk.forbid_writes()

    def heal(self):
        self.disk.allow_writes()


def kinds(group):
    """Those that this group can have."""
    found = [Kill, Kill, Terminate, Stop, Stop]
    found += [Cable, Cable, Part, OneWay, Late] if hasattr(group.network, 'carrier') else []
    return found + ([Full, ReadOnly] if group.disks else [])


class Round:
    """Faults of some machines at once, of which each begins and ends at a time of its own."""

    def __init__(self, group, chance):
        some = chance.sample(range(group.size), chance.randint(1, (group.size - 1) // 2))
        self.group, self.faults, self.events, self.ended_by_themselves = group, [], [], []
        for machine in some:
            kind = chance.choice(kinds(group))
            fault, begin = kind(group, machine, chance), chance.uniform(0, 0.3)
            self.faults.append(fault)
            self.events += [(begin, fault.begin), (begin + kind.seconds(chance), fault.end)]
        self.events.sort(key=lambda it: it[0])

    def name(self):
        return ' and '.join(sorted(it.name for it in self.faults))

    def play(self):
        """Has all of it happen, and waits until the machines are well. Whether they are."""
        self.begun = now()
        for at, event in self.events:
            self.wait(self.begun + at)
            event()
        self.healed = now()
        is_well = False
        while not is_well and now() < self.healed + WELL:
            self.tend()
            is_well = self.group.are_well(0.5)
        self.ended = now()
        self.group.faults.append((self.begun, self.ended))
        return is_well

    def wait(self, until):
        while now() < until:
            self.tend()
            time.sleep(min(0.05, max(0.0, until - now())))

    def tend(self):
        """Starts again what ended by itself, which only a machine may whose disk fails."""
        down = {it.machine for it in self.faults if isinstance(it, Kill) and it.is_down}
        for machine in self.group.machines:
            if not machine.is_up() and machine.number not in down and now() > machine.started + ANEW:
                machine.ends.append(now())
                told = machine.since(machine.started)
                self.ended_by_themselves.append((machine.number, machine.process.returncode, told))
                machine.start()

    def wrong(self):
        """What ended by itself though its disk was well."""
        of_disk = {it.machine for it in self.faults if isinstance(it, OfDisk)}
        return [it for it in self.ended_by_themselves if it[0] not in of_disk]
