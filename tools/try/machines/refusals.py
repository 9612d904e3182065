"""Files and words by which a group couldn't run as it's meant to: what `plc format` and `plc serve` say to them, and
what machines with different files tell of each other."""
import os
import shutil
import subprocess
import time

import network
import program
from group import Group, now

REFUSED = 1             # the status of a call whose words or files are refused


def judged(group, path, *words):
    """What a call says to the file of a group at this path."""
    call = subprocess.run([group.plc, *words, '--group', path, '--store', group.path('unused')], capture_output=True,
                          stdin=subprocess.DEVNULL, text=True, timeout=30)
    return call.returncode, call.stderr.rstrip('\n').split('\n')[-1]


def is_refused(group, path, line):
    """Whether both calls refuse this file with this line, and make no store."""
    calls = [judged(group, path, 'format', group.source, '--machine', '0'), judged(group, path, 'serve')]
    right = calls == [(REFUSED, line)] * 2 and not os.path.exists(group.path('unused'))
    if not right:
        print(f'  wanted {line!r}, got {calls}')
    return right


def numbers_that_wreck_are_refused(options):
    """Numbers with which the port would close at each scan, or the machine that drives would be given up again and
    again, are refused, each by its key and the reason."""
    with Group(options) as group:
        path, right = group.path('wrong.toml'), True
        for keys, line in (
                ({'period': 200, 'fresh': 140}, 'plc: group fresh refused: below a period and 20'),
                ({'fresh': group.keys['period'] + 19}, 'plc: group fresh refused: below a period and 20'),
                ({'patience': 100, 'resend': 21}, 'plc: group resend refused: above a fifth of patience'),
                ({'patience': 20}, 'plc: group patience refused')):
            group.write_file(path, {**group.keys, **keys}, 0)
            right = is_refused(group, path, line) and right
        return right


def addresses_that_lead_astray_are_refused(options):
    """An address that stands for all of a machine's, a name, and an address that stands there twice, are refused."""
    with Group(options) as group:
        with open(group.file(0)) as file:
            text = file.read()
        path, right = group.path('wrong.toml'), True
        replica, modbus = group.network.replica(0, 0), network.told(*group.network.modbus(0))
        port = replica.rpartition(':')[2]
        number = 'an address and a port, as 127.0.0.1:7600'
        for old, new, line in (
                (replica, f'0.0.0.0:{port}', 'plc: group machine 0 replica refused: one address of the machine'),
                (replica, f'localhost:{port}', f'plc: group machine 0 replica refused: {number}'),
                (replica, modbus, 'plc: group machine 0 modbus twice')):
            with open(path, 'w') as file:
                file.write(text.replace(f'"{old}"', f'"{new}"', 1))
            right = is_refused(group, path, line) and right
        return right


def a_period_of_its_own(options):
    """A machine whose file has another period: without `fresh`, which follows it, that's told as the key at both ends;
    with it the machine takes part."""
    with Group(options) as group:
        right, other, first = group.begin(), group.machines[-1], group.machines[0]
        fresh = round(group.fresh * 1000)
        other.kill()
        group.write_file(group.file(other.number), {**group.keys, 'period': options.period + 20}, other.number)
        other.start()
        told = [first.told(f'machine {other.number} refused: another fresh', other.started, 8),
                other.told('machine 0 refused: another fresh', other.started, 8)]
        other.kill()
        keys = {**group.keys, 'period': options.period - 20, 'fresh': fresh}
        group.write_file(group.file(other.number), keys, other.number)
        other.start()
        right = other.is_normal(20) and group.driving(5) is not None and right
        if not right or None in told:
            print(f'  {told}', *group.since(other.started - 9), sep='\n    ')
            return False
        return True


def two_programs_at_the_start(options):
    """One machine of three was formatted with another text, before any was started: those of one text begin, and the
    third is told which file is wrong."""
    right = True
    for other in (2, 3):        # sums of which one may be greater than the others', and one smaller
        with Group(options, size=3) as group:
            text = group.path('other.il')
            with open(text, 'w') as file:
                file.write(program.source(other))
            shutil.rmtree(group.store(2))
            own = ('--group', group.file(2), '--store', group.store(2))
            right = group.run('format', text, '--machine', '2', *own)[0] == 0 and right
            since = now()
            for machine in group.machines:
                machine.start()
            drives = group.driving(20)
            time.sleep(1)
            lines = [machine.lines_with('program', since, 5) for machine in group.machines]
            if drives not in (0, 1) or not lines[2]:
                print(f'  {drives} drives', *group.since(since), sep='\n    ')
                right = False
    return right


def two_machines_of_one_number(options):
    """A store of machine 1 is served at machine 2's addresses, too, by a file in which both stand the other way round:
    the group goes on, and both ends tell of whom there are two."""
    with Group(options, size=3) as group:
        right, (first, second, last) = group.begin(), group.machines
        last.kill()
        twin, path = group.path('twin'), group.path('twin.toml')
        with open(group.file(1)) as file:
            head, *tables = file.read().split('[[machine]]')
        with open(path, 'w') as file:
            file.write('[[machine]]'.join([head, tables[0], tables[2], tables[1]]))
        own = ('--group', path, '--store', twin)
        right = group.run('format', group.source, '--machine', '1', *own)[0] == 0 and right
        since = now()
        call = subprocess.Popen([group.plc, 'serve', *own], stdin=subprocess.DEVNULL, stdout=subprocess.DEVNULL,
                                stderr=subprocess.PIPE, text=True)
        told = first.told('machine 1 refused: another store', since, 8)
        time.sleep(4)
        goes_on = group.driving(5) is not None and first.is_up() and second.is_up()
        call.kill()
        lines = call.communicate()[1]
        if not right or told is None or not goes_on or 'it has seen another store of this machine' not in lines:
            print(f'  {told} {goes_on}', *group.since(since), lines, sep='\n    ')
            return False
        return True


def a_trace_is_written_over_nothing(options):
    """A trace that would be written into a store, over the group's file, over a text, or into a pipe that nobody reads,
    is refused before a line is written or anything waits."""
    with Group(options) as group:
        own, right = ('--group', group.file(0), '--store', group.store(0)), True
        text, pipe, link = group.path('text'), group.path('pipe'), group.path('link')
        with open(text, 'w') as file:
            file.write('LD %IX0.0\n')
        os.mkfifo(pipe)
        os.symlink(group.path('nowhere'), link)
        lies = 'plc: the trace lies over the group, a store or the output'
        other = 'plc: the trace is a link, a pipe, or a file of something else'
        for path, line in ((os.path.join(group.store(0), 'group'), lies), (os.path.join(group.store(0), 'new'), lies),
                           (group.file(0), lies), (text, other), (pipe, other), (link, other)):
            told = group.run('serve', *own, '--trace', path)
            if told != (REFUSED, line):
                print(f'  {path}: {told}')
                right = False
        with open(text) as file:
            return right and file.read() == 'LD %IX0.0\n' and not os.path.exists(group.path('nowhere'))


def a_difference_names_its_file(options):
    """`plc diff` of two texts, of which the one or the other is wrong, says which."""
    with Group(options) as group:
        bad, right = group.path('bad.il'), True
        with open(bad, 'w') as file:
            file.write('LD\n')
        for pair in ((group.source, bad), (bad, group.source)):
            call = subprocess.run([group.plc, 'diff', *pair], capture_output=True, text=True, timeout=30)
            if call.returncode == 0 or f'in {bad}' not in call.stderr or f'in {group.source}' in call.stderr:
                print(f'  {pair}: {call.returncode} {call.stderr}')
                right = False
        return right


TRIES = [numbers_that_wreck_are_refused, addresses_that_lead_astray_are_refused, a_period_of_its_own,
         two_programs_at_the_start, two_machines_of_one_number, a_trace_is_written_over_nothing,
         a_difference_names_its_file]
