"""Machines of a group that lose their memory together, as by a power cut: that they begin a later epoch by themselves,
once, or wait for a person, and how long it takes."""
import random
import shutil
import signal
import time

import checker
import console
import network
from group import Group, now

LONGEST = 4.0           # seconds from the last machine's start to a port that answers
FAR = 15                # milliseconds that messages need where machines are far apart
STAYS = 'this group goes on', 'an operator is needed'   # ends of lines of who hears of an epoch and doesn't go there


def cut(machines):
    """Ends these at once."""
    for machine in machines:
        machine.send(signal.SIGKILL)
    for machine in machines:
        machine.process.wait(10)
        machine.reader.join(10)


def started(machines, gaps):
    """Starts these, one after the other: when the last one was."""
    for machine, gap in zip(machines, gaps):
        time.sleep(gap)
        machine.start()
    return machines[-1].started


def begun(group, epoch):
    """Which machines told that this epoch begins, or that they heard of it and leave theirs for it."""
    lines = [(machine.number, line) for machine in group.machines for line in machine.since(0)]
    heard = f'epoch {epoch} heard from machine '
    return sorted({number for number, line in lines if line.endswith(f'cold start, epoch {epoch}')
                   or line.startswith(heard) and not line.endswith(STAYS)})


def is_normal_again(machines, since):
    """Whether each of these is normal behind that moment, within ten seconds."""
    return all(machine.told('replica normal', since, 10) is not None for machine in machines)


def epochs(group):
    """The epoch of each machine's store, and the program with which that began."""
    lines = [group.shown(machine) for machine in range(group.size)]
    return [(told['epoch'], told['begins with']) for told in lines]


def has_one_list_each(group):
    """Whether what the machines released in each epoch stands in one list."""
    history = group.history()
    wrong = checker.faults_of(history, checker.RELEASES)
    print(f'  {len(history.releases)} releases in {len({it.epoch for it in history.releases})} epochs')
    for name, fault in wrong.items():
        print(f'  {name}: {fault}')
    return not wrong


def middle(times):
    times = sorted(times)
    return f'{times[len(times) // 2]:.2f} s in the middle, {times[-1]:.2f} at most, of {len(times)}'


def power_cut(options):
    """All are killed at once and started again, in another order each time: a later epoch begins by itself, once, and
    a port answers soon behind the last one's start."""
    with Group(options) as group:
        right, took, chance = group.begin(), [], random.Random(options.seed)
        group.is_over = True        # what was read is of one epoch
        for epoch in range(2, 2 + options.cuts):
            cut(group.machines)
            order = chance.sample(group.machines, group.size)
            last = started(order, [chance.uniform(0, 0.3) for _ in order])
            drives = group.driving(20)
            took.append(now() - last)
            is_well = drives is not None and is_normal_again(group.machines, last)
            told = begun(group, epoch)
            if not is_well or told != list(range(group.size)) or len(set(epochs(group))) != 1:
                print(f'  epoch {epoch}: {drives} drives, told by {told}, {epochs(group)}')
                print('\n'.join(f'    {line}' for line in group.since(last - 1)))
                return False
            time.sleep(chance.uniform(0, 1))
        print(f'  from the last start to a port that answers {middle(took)}')
        return right and max(took) <= LONGEST and has_one_list_each(group)


def power_cut_far_apart(options):
    """The same once, of machines that are far from one another, by a file whose times have room for that."""
    over = network.best(options.machines, options.loopback)
    with Group(options, over=over, patience=1000, resend=100, fresh=400) as group:
        over.delay(FAR, 0)
        started(group.machines, [0.1] * group.size)
        right = group.driving(20) is not None
        cut(group.machines)
        last = started(group.machines, [0.1] * group.size)
        drives = group.driving(20)
        print(f'  from the last start to a port that answers {now() - last:.2f} s')
        told = begun(group, 2)
        if not right or drives is None or told != list(range(group.size)):
            print(f'  {drives} drives, told by {told}')
            print('\n'.join(f'    {line}' for line in group.since(last - 1)))
            return False
        return has_one_list_each(group)


def most_lose_their_memory(options):
    """f+1 are killed at once and started again while the others are normal: those leave their epoch, too."""
    with Group(options) as group:
        right, took = group.begin(), []
        group.is_over = True
        for epoch in range(2, 5):
            some = [group.machines[(epoch + it) % group.size] for it in range(group.size // 2 + 1)]
            cut(some)
            last = started(some, [0.1] * len(some))
            right = is_normal_again(group.machines, last) and group.driving(20) is not None and right
            took.append(now() - last)
            right = begun(group, epoch) == list(range(group.size)) and right
        if not right:
            print('\n'.join(f'    {line}' for line in group.since(last - 1)))
        print(f'  from the last start until all are normal {middle(took)}')
        return right


def one_of_them_recovers(options):
    """One is killed and started again: it recovers, and no epoch begins."""
    with Group(options) as group:
        right = group.begin()
        for machine in group.machines:
            machine.kill()
            time.sleep(0.5)
            machine.start()
            right = machine.is_normal(20) and right
            time.sleep(1)
        return right and begun(group, 2) == [] and len(set(epochs(group))) == 1


def by_hand_alone(options):
    """A group that begins anew by hand: nothing begins by itself, and `plc format --next-epoch` on one machine has all
    begin."""
    with Group(options, cold_start='"by hand"') as group:
        right = group.begin()
        group.is_over = True
        cut(group.machines)
        last = started(group.machines, [0.1] * group.size)
        time.sleep(8)
        right = begun(group, 2) == [] and group.driving(0.5) is None and right
        group.machines[1].kill()
        own = ('--group', group.file(1), '--store', group.store(1))
        status, line = group.run('format', '--next-epoch', *own)
        group.machines[1].start()
        right = status == 0 and is_normal_again(group.machines, last) and group.driving(20) is not None and right
        if not right:
            print(f'  {status} {line}')
            print('\n'.join(f'    {line}' for line in group.since(last - 1)))
        return right and begun(group, 2) == [0, 2][:group.size - 1]


def cut_while_it_begins(options):
    """All are killed once more while a cold start is under way, at random moments of it: it begins by itself all the
    same."""
    with Group(options) as group:
        right, took, chance = group.begin(), [], random.Random(options.seed)
        group.is_over = True
        for _ in range(options.cuts):
            cut(group.machines)
            last = started(group.machines, [0.02] * group.size)
            time.sleep(chance.uniform(0.9, 1.6))
            cut(group.machines)
            last = started(group.machines, [0.02] * group.size)
            if group.driving(20) is None or not is_normal_again(group.machines, last):
                print('\n'.join(f'    {line}' for line in group.since(last - 3)))
                return False
            took.append(now() - last)
        print(f'  from the last start until all are normal {middle(took)}')
        return right and len(set(epochs(group))) == 1


def one_is_dead_for_good(options):
    """All but f+1 are off, and one of those was killed and started again: it doesn't recover, and nothing begins by
    itself. By hand those that are there begin."""
    with Group(options) as group:
        right, there = group.begin(), group.machines[:group.size // 2 + 1]
        group.is_over = True
        cut(group.machines[len(there):])
        there[-1].kill()
        there[-1].start()
        time.sleep(6)
        right = begun(group, 2) == [] and group.driving(0.5) is None and right
        right = by_hand_with(group, there[-1]) and right
        last = there[-1].started
        right = is_normal_again(there, last) and group.driving(20) is not None and right
        if not right:
            print('\n'.join(f'    {line}' for line in group.since(last - 8)))
        return right


def by_hand_with(group, machine, *words):
    """Puts a machine into the next epoch by hand: whether that's done."""
    machine.kill()
    own = ('--group', group.file(machine.number), '--store', group.store(machine.number))
    status, line = group.run('format', '--next-epoch', *words, *own)
    machine.start()
    if status:
        print(f'  {line}')
    return status == 0


def a_changed_program_waits_for_a_person(options):
    """The program was changed over a console before all are killed: nothing begins by itself, and each tells why. By
    hand all begin with the program that's given."""
    with Group(options) as group:
        right, operator = group.begin(), console.Operator(group, random.Random(1))
        with console.Console(group.network.console(0)) as session:
            right = session.ask({'change': operator.images[2]}) == 'done' and right
        time.sleep(0.5)
        group.is_over = True
        cut(group.machines)
        last = started(group.machines, [0.1] * group.size)
        told = [machine.told('program changed in epoch 1', last - 1, 5) for machine in group.machines]
        time.sleep(5)
        right = None not in told and begun(group, 2) == [] and group.driving(0.5) is None and right
        for machine in group.machines:
            right = by_hand_with(group, machine, group.path('text-1.il')) and right
        last = group.machines[-1].started
        right = group.driving(20) is not None and is_normal_again(group.machines[-1:], last) and right
        if not right or len(set(epochs(group))) != 1:
            print(f'  {told} {epochs(group)}')
            print('\n'.join(f'    {line}' for line in group.since(last - 9)))
            return False
        return right


def a_lost_disk_waits(options):
    """A machine whose disk is lost takes part in no epoch that it may have had part in, and in the next one."""
    with Group(options) as group:
        right, lost = group.begin(), group.machines[-1]
        group.is_over = True
        lost.kill()
        shutil.rmtree(group.store(lost.number))
        own = ('--group', group.file(lost.number), '--store', group.store(lost.number))
        right = group.run('format', group.source, '--wait', '--machine', str(lost.number), *own)[0] == 0 and right
        lost.start()
        right = lost.told(f'machine {lost.number} waits for an epoch after 1', lost.started, 5) is not None and right
        time.sleep(3)
        right = group.driving(1) is not None and begun(group, 2) == [] and right
        # Once one of the two that take part is stopped none drives: so nobody has to say that memory is given up.
        right = by_hand_with(group, group.machines[0]) and right
        last = group.machines[0].started
        right = is_normal_again(group.machines, last) and group.driving(20) is not None and right
        if not right or len(set(epochs(group))) != 1:
            print(f'  {epochs(group)}')
            print('\n'.join(f'    {line}' for line in group.since(lost.started)))
            return False
        return right


TRIES = [power_cut, power_cut_far_apart, cut_while_it_begins, most_lose_their_memory, one_of_them_recovers,
         one_is_dead_for_good, by_hand_alone, a_changed_program_waits_for_a_person, a_lost_disk_waits]
