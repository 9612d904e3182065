"""Machines of a group, each a process of `plc serve --group`: how a machine's store is made and taken, and what clients
wrote while a machine's port is closed."""
import os
import shutil
import signal
import sys
from types import SimpleNamespace

from controller import PATIENCE, RUNNING, came_true, ended, is_closed, is_written, words
from files import content

sys.path.append(os.path.join(os.path.dirname(os.path.dirname(os.path.realpath(__file__))), 'machines'))
from group import Group  # noqa: E402
from program import source  # noqa: E402


class Patient(Group):
    """Three machines, for which there's as much time as they want: they wait for one another for long."""

    def __init__(self, plc, work, **keys):
        keys = {'patience': 10000, 'resend': 200, **keys}
        super().__init__(SimpleNamespace(plc=plc, period=20, machines=3), folder=work, has_traces=False, **keys)

    def __exit__(self, fault, *_):
        if fault:
            print(*self.since(0), sep='\n  ')
        super().__exit__()

    def start(self, *machines):
        for machine in machines:
            self.machines[machine].start()
            RUNNING.add(self.machines[machine].process)

    def end(self, machine):
        self.machines[machine].kill()

    def says(self, machine, beginning):
        """Whether a machine says a line that begins so, since its last start."""
        it = self.machines[machine]
        return it.told(beginning, it.started, PATIENCE) is not None

    def is_refused(self, machine, line):
        """Whether a machine's start is refused by this line."""
        got = self.run('serve', '--group', self.file(machine), '--store', self.store(machine))
        if got[0] == 0 or got[1] != line:
            print(f'  {got}, and not {line!r}')
        return got[0] != 0 and got[1] == line


def a_store_is_made_once(plc, work):
    """What's formatted isn't written over. One start at a time has it, and it's shown all the same. What the machine
    learns is written into it, with the rights that it had. A store that has begun an epoch isn't taken for a new one:
    not without the view of its replica, nor is a directory without a store."""
    with Patient(plc, work) as group:
        store = group.store(1)
        own = ('--group', group.file(1), '--store', store)
        made, view, moved = os.path.join(store, 'group'), os.path.join(store, 'replica-1'), os.path.join(work, 'moved')
        before = content(made)
        right = group.run('format', group.source, '--machine', '1', *own) == (1, 'plc: store used')
        right = right and content(made) == before and not os.path.exists(made + '.new')
        group.start(1)
        right = right and group.says(1, 'epoch 1 waits for other machines') and group.is_refused(1, 'plc: store taken')
        right = right and ended(plc, 'show', store)[1].startswith('format 3\nmachine 1\nidentity ')
        os.chmod(made, 0o640)
        group.start(0, 2)
        right = right and group.says(1, 'replica normal')
        right = right and came_true(lambda: 'machine 0 has store ' in ended(plc, 'show', store)[1])
        right = right and content(made) != before
        right = right and os.stat(made).st_mode & 0o777 == 0o640
        group.end(1)
        os.rename(view, moved)
        right = right and group.is_refused(1, 'plc: store lost its view')
        os.rename(moved, view)
        group.start(1)
        right = right and group.says(1, 'replica normal')
        group.end(1)
        os.remove(made)
        right = right and group.is_refused(1, 'plc: store missing')
        shutil.rmtree(store)
        right = right and group.is_refused(1, 'plc: store missing')
        if not right:
            print(*group.since(0), sep='\n  ')
        return right


def long_source(text):
    """The program with so many instructions behind its end that its image has 60 kB."""
    return source(text).replace('VAR', 'VAR_GLOBAL', 1) + 'RET\n' + 15000 * 'LD 1\n'


def epoch_of(plc, store):
    return next(line for line in ended(plc, 'show', store)[1].splitlines() if line.startswith('epoch '))


def an_epoch_begins_without_the_view_before(plc, work):
    """A console has changed the program to a long one, which a machine has, too, that starts then, and all have ended: an
    operator puts two of them into the next epoch, which needs a word on which program it is. It begins with none of what
    was kept of the one before."""
    with Patient(plc, work) as group:
        group.start(0, 1)
        right = group.says(0, 'driving view 0') and group.says(1, 'replica normal')
        console = ':'.join(map(str, group.network.console(0)))
        other = os.path.join(work, 'other.il')
        with open(other, 'w') as file:
            file.write(long_source(2))
        right = right and came_true(lambda: ended(plc, 'ask', console, '--change', other)[:2] == (0, 'done\n'))
        group.start(2)
        right = right and group.says(2, 'replica normal')
        for machine in (0, 1, 2):
            changed = os.path.join(group.store(machine), 'changed')
            right = right and came_true(lambda: os.path.exists(changed) and os.path.getsize(changed) > 60000)
        for machine in (0, 1, 2):
            group.end(machine)
        for machine in (0, 1):
            own = ('format', '--next-epoch', '--group', group.file(machine), '--store', group.store(machine))
            right = right and group.run(*own) == (1, 'plc: store of a program that was changed: --changed, or give one')
            right = right and ended(plc, *own, '--changed')[:2] == (0, 'epoch 2\n')
            right = right and os.path.exists(os.path.join(group.store(machine), f'replica-{machine}'))
        group.start(0, 1)
        for machine in (0, 1):
            store = group.store(machine)
            right = right and group.says(machine, 'replica normal') and epoch_of(plc, store) == 'epoch 2'
            right = right and not os.path.exists(os.path.join(store, 'changed'))
        if not right:
            print(*group.since(0), [os.listdir(group.store(machine)) for machine in (0, 1)], sep='\n  ')
        return right


def what_was_written_stays_while_a_port_is_closed(plc, work):
    """The other machines stand still for a moment, so the one that leads has no answer, and closes its port: its
    client's session ends, and nobody is let in. Once they go on its port is open again, and has what was written."""
    with Patient(plc, work, fresh=200, patience=60000) as group:
        group.start(0, 1, 2)
        right = group.says(0, 'driving view 0')
        client = group.network.connect(0, PATIENCE)
        right = right and is_written(client, 6, 3, 7) and words(client, 3, 4)[3] == 7
        for other in (1, 2):
            group.machines[other].send(signal.SIGSTOP)
        right = right and group.says(0, 'stale view 0') and is_closed(client)
        try:
            group.network.connect(0, 1).close()
            right = False
        except OSError:
            pass
        for other in (1, 2):
            group.machines[other].send(signal.SIGCONT)

        def has_it():
            try:
                with group.network.connect(0, PATIENCE) as again:
                    return words(again, 3, 4)[3] == 7
            except OSError:
                return False

        right = right and came_true(has_it) and not any('view 1' in line for line in group.since(0))
        if not right:
            print(*group.since(0), sep='\n  ')
        return right


GATE = [a_store_is_made_once, an_epoch_begins_without_the_view_before, what_was_written_stays_while_a_port_is_closed]
