"""Replicas whose files can't be written for a while, or whose disk hangs, and groups that have no majority any more."""
import os
import shutil
import tempfile
import time

from calls import OTHER, OTHER_STORY, follows
from controller import PATIENCE, Served, came_true, free_port, is_closed, tells, words
from console import connection

COUNTS = 'VAR N : INT; END_VAR\nLD N\nADD 1\nST N\nST %QW0\n'


def fails(path):
    """From now on the file at this path can be read, and not written."""
    os.mkdir(path + '.new')


def goes_on(path):
    os.rmdir(path + '.new')


def hangs(path):
    """From now on who reads the file at this path waits."""
    os.remove(path)
    os.mkfifo(path)


def crashing(plc, work, hinder, *more, **how):
    """A controller in whose directory something hinders the first replica from writing its file, before it crashes for
    the first time. On a machine that was too slow for that it's tried again."""
    for _ in range(5):
        served = Served(plc, work, '--period', 100, '--crash', 20, *more, **how)
        if not served.serves():
            break
        hinder(os.path.join(served.store, 'replica-0'))
        if 'replica 0 crashed' not in served.lines:
            return served
        served.end()
    return served


def a_group_goes_on_without_its_primary(plc, work):
    """The primary crashes, and can't write its file at its start: it's down, and the others go on. Once it can it's
    started anew and normal, and then the next one crashes."""
    with crashing(plc, work, fails, source=OTHER) as served:
        right = served.says('replica 0 store') and follows(served, OTHER_STORY)
        right = right and 'replica 0 normal' not in served.lines
        right = right and served.says('replica 0 starts') and served.says('replica 0 store', times=2)
        goes_on(os.path.join(served.store, 'replica-0'))
        right = right and served.says('replica 0 normal', 2 * PATIENCE)
        right = right and served.says('replica 1 crashed', 2 * PATIENCE)
        told = [line for line in served.lines if not line.startswith(('replica 1', 'replica 2'))]
        wanted = ['replica 0 crashed', 'replica 0 store', 'replica 0 down', 'replica 0 starts', 'replica 0 normal']
        right = right and tells(told[:told.index(wanted[-1]) + 1], wanted)
        right = right and served.lines.index('replica 1 crashed') > served.lines.index('replica 0 starts')
        if not right:
            print('  ', served.lines)
        return right


def a_save_that_failed_is_tried_again(plc, work):
    """The primary has crashed, and one of the others can't write the view that they begin: that's told at each try, and
    it keeps what it knows. Once it can the group goes on, and that replica wasn't started anew."""
    with Served(plc, work, '--period', 100, '--crash', 20, source=COUNTS) as served:
        right = served.serves()
        fails(os.path.join(served.store, 'replica-1'))
        right = right and served.says('replica 0 crashed') and served.says('replica 1 store', times=3)
        with served.client() as client:
            before = words(client, 4, 1)
            goes_on(os.path.join(served.store, 'replica-1'))
            right = right and came_true(lambda: words(client, 4, 1) > before, 2 * PATIENCE)
        right = right and 'replica 1 starts' not in served.lines and served.process.poll() is None
        if not right:
            print('  ', served.lines)
        return right


def a_file_that_was_taken_away_comes_back(plc, work):
    """The directory of a replica is removed while it runs: a save fails, and once there's a directory again its file is
    back."""
    stores = [tempfile.mkdtemp(dir=work) for _ in range(3)]
    others = [word for it in stores[1:] for word in ('--store', it)]
    with Served(plc, work, '--period', 100, '--crash', 20, *others, store=stores[0], source=COUNTS) as served:
        right = served.serves()
        shutil.rmtree(stores[1])
        right = right and served.says('replica 1 store', times=2)
        os.mkdir(stores[1])
        right = right and came_true(lambda: os.path.exists(os.path.join(stores[1], 'replica-1')), 2 * PATIENCE)
        right = right and served.says('replica 0 normal', 2 * PATIENCE) and served.process.poll() is None
        right = right and 'replica 1 starts' not in served.lines
        if not right:
            print('  ', served.lines)
        return right


def a_lost_group_ends(plc, work):
    """No replica can write its file any more: a minute later the controller ends, and an operator whose command waits
    is let go."""
    console = free_port()
    with Served(plc, work, '--period', 20, '--console', console) as served:
        right = served.serves()
        shutil.rmtree(served.store)

        def has_lost_two():
            served.pause(3)     # long enough that each begins another view, and has to write that
            return came_true(lambda: sum(f'replica {n} down' in served.lines for n in range(3)) >= 2, 5)

        right = right and came_true(has_lost_two)
        with connection(console) as waits:
            waits.sendall(b'"cr"\n')
            begun = time.monotonic()
            right = right and is_closed(waits, 2 * PATIENCE) and served.status() == 2
        took = time.monotonic() - begun
        stores = {line for line in served.lines if line.startswith('replica ') and line.endswith(' store')}
        if not right or served.lines[-1:] != ['plc: device no majority'] or len(stores) < 2 or took < 30:
            print('  ', served.process.poll(), took, served.lines)
            return False
        return True


def a_hanging_disk_stops_no_scan(plc, work):
    """The primary's start anew waits for a disk that doesn't answer: no scan waits for it. At the end that's told, with
    the status of a device that failed. Here replicas are joined by channels."""
    with crashing(plc, work, hangs, '--links', 'channel', source=COUNTS, scans=200) as served:
        right = served.says('replica 0 crashed') and served.says('replica 0 down') and served.process.poll() is None
        with served.client() as client:
            before = words(client, 4, 1)[0]
            right = right and came_true(lambda: words(client, 4, 1)[0] > before + 20)
        right = right and served.status() == 2
        wanted = ['replica 0 crashed', 'replica 0 down', 'replica 0 hangs', 'plc: device']
        if not right or not tells(served.lines, wanted):
            print('  ', served.process.poll(), served.lines)
            return False
        return True


def crashes_leave_no_descriptor(plc, work):
    """Replicas crash forty times, one after the other, and each makes its connections anew: behind that the process has
    no more open files than it had behind the first five."""
    with Served(plc, work, '--period', 20, '--crash', 1, source=COUNTS) as served:
        def files():
            return len(os.listdir(f'/proc/{served.process.pid}/fd'))

        def crashes(count):
            return came_true(lambda: sum('crashed' in line for line in served.lines) >= count, 2 * PATIENCE)

        right = served.serves() and crashes(5)
        before = max(files() for _ in range(100))
        right = right and crashes(45) and came_true(lambda: files() <= before)
        right = right and all(f'replica {n} crashed' in served.lines for n in range(3))
        if not right:
            print('  ', before, files(), served.lines[-20:])
        return right


GATE = [a_group_goes_on_without_its_primary, a_save_that_failed_is_tried_again, a_file_that_was_taken_away_comes_back,
        a_lost_group_ends, a_hanging_disk_stops_no_scan, crashes_leave_no_descriptor]
