"""Machines and their stores: what takes the place of another one, what another epoch or another program does to a group
that goes on, lost disks, full disks, and what each machine tells of it."""
import os
import random
import shutil
import signal
import socket
import subprocess
import time

import console
import program
from cuts import begun, by_hand_with, cut, epochs, is_normal_again, started
from group import Group, now


def own(group, machine):
    return '--group', group.file(machine), '--store', group.store(machine)


def erase(group, machine):
    shutil.rmtree(group.store(machine))


def another_text(group, name, source):
    """The text of another program."""
    path = group.path(name)
    with open(path, 'w') as file:
        file.write(source)
    return path


def goes_on(group, epoch=1):
    """Whether a machine drives, and none has begun a later epoch."""
    return group.driving(5) is not None and begun(group, epoch + 1) == []


def says(machine, beginning, since, seconds=8):
    at = machine.told(beginning, since, seconds)
    if at is None:
        print(f'  machine {machine.number} never says {beginning!r}', *machine.since(since), sep='\n    ')
    return at is not None


def why_not(group, since, *what):
    print(f'  {what} {epochs(group)}', *group.since(since), sep='\n    ')
    return False


def another_program_ends_no_group(options):
    """One machine gets a new disk, formatted with another text, and then a store two epochs on: the others go on, and
    tell it."""
    with Group(options) as group:
        right, lost, since = group.begin(), group.machines[-1], now()
        group.is_over = True
        for other in (2, 3):    # sums of which one may be greater than the group's, and one smaller
            lost.kill()
            erase(group, lost.number)
            text = another_text(group, 'other.il', program.source(other))
            right = group.run('format', text, '--machine', str(lost.number), *own(group, lost.number))[0] == 0 and right
            lost.start()
            time.sleep(4)
            right = goes_on(group) and all(machine.is_up() for machine in group.machines[:-1]) and right
        lost.kill()
        words = ('format', '--next-epoch', '--forget', *own(group, lost.number))
        right = [group.run(*words)[0], group.run(*words)[0]] == [0, 0] and right
        lost.start()
        right = any(says(machine, 'epoch 3 heard from', lost.started) for machine in group.machines[:-1]) and right
        right = goes_on(group) and right
        return right or why_not(group, since)


def a_later_epoch_is_refused(options):
    """A store is put one epoch on beside a group that drives, for which its operator has to say that memory is given
    up, and is started: the group goes on."""
    with Group(options) as group:
        right, last, since = group.begin(), group.machines[-1], now()
        group.is_over = True
        last.kill()
        status, line = group.run('format', '--next-epoch', *own(group, last.number))
        asked = f'plc: machine {group.driving(5)} drives: --forget loses what the group has in memory'
        right = (status, line) == (1, asked) and right
        right = by_hand_with(group, last, '--forget') and right
        right = any(says(machine, 'epoch 2 heard from', last.started) for machine in group.machines[:-1]) and right
        time.sleep(3)
        right = group.driving(5) is not None and epochs(group)[0] == epochs(group)[1] and right
        return right and ': this group goes on' in ''.join(group.since(since)) or why_not(group, since, status, line)


def a_group_is_itself(options):
    """A file without an identity is refused, and one command gives it one. Two groups of one name and one program are
    two: a machine of one in the other's addresses is refused."""
    with Group(options) as group:
        path, bare = group.path('bare.toml'), dict(group.keys)
        del bare['identity']
        group.write_file(path, bare, 2)
        serve = ('serve', '--group', path, '--store', group.store(2))
        status, line = group.run(*serve)
        right = status == 1 and 'identity' in line
        right = group.run('format', '--new-group', '--group', path)[0] == 0 and right
        again = group.run('format', '--new-group', '--group', path)[0] == 1
        other = group.run(*serve)
        if not right or not again or other != (1, 'plc: store of another group'):
            print(f'  {status} {line}, {again}, {other}')
            return False
        right = group.begin()
        machine = group.machines[2]
        machine.kill()
        erase(group, 2)
        made = group.run('format', group.source, '--machine', '2', '--group', path, '--store', group.store(2))
        right = made[0] == 0 and right
        stranger = subprocess.Popen([group.plc, *serve], stdin=subprocess.DEVNULL, stdout=subprocess.DEVNULL,
                                    stderr=subprocess.PIPE, text=True)
        told = group.machines[0].lines_with('refused: another group', machine.started, 8)
        stranger.kill()
        return right and len(told) == 1 and goes_on(group)


def a_disk_without_wait_is_refused(options):
    """A machine's disk is lost, and formatted as if the machine were new: the others know its store, and refuse it, at
    both ends. With --wait it takes part in the next epoch."""
    with Group(options) as group:
        right, lost = group.begin(), group.machines[-1]
        group.is_over = True
        lost.kill()
        erase(group, lost.number)
        made = ('format', group.source, '--machine', str(lost.number), *own(group, lost.number))
        right = group.run(*made)[0] == 0 and right
        lost.start()
        line = f'machine {lost.number} refused: another store'
        right = all(says(machine, line, lost.started) for machine in group.machines[:-1]) and right
        right = says(lost, 'machine 0 refused: it has seen another store of this machine', lost.started) and right
        lost.kill()
        erase(group, lost.number)
        right = group.run(*made, '--wait')[0] == 0 and right
        lost.start()
        right = says(lost, f'machine {lost.number} waits for an epoch after 1', lost.started) and right
        return right and goes_on(group) or why_not(group, lost.started - 5)


def a_copy_of_an_epoch_before_is_refused(options):
    """A machine's directory is put back as it was in the epoch before: the store is known by another number in each epoch,
    so those who have seen the machine in theirs refuse it, at both ends, and go on."""
    with Group(options) as group:
        right, reset = group.begin(), group.machines[-1]
        group.is_over = True
        cut(group.machines)
        copy, before = group.path('copy'), group.shown(reset.number)
        shutil.copytree(group.store(reset.number), copy)
        last = started(group.machines, [0.1] * group.size)
        right = group.driving(20) is not None and is_normal_again(group.machines, last) and right
        after = group.shown(reset.number)
        right = (before['epoch'], after['epoch']) == ('1', '2') and before['store'] != after['store'] and right
        reset.kill()
        erase(group, reset.number)
        shutil.move(copy, group.store(reset.number))
        reset.start()
        line = f'machine {reset.number} refused: another store'
        right = all(says(machine, line, reset.started, 15) for machine in group.machines[:-1]) and right
        right = says(reset, 'machine 0 refused: it has seen another store of this machine', reset.started, 15) and right
        return right and goes_on(group, 2) or why_not(group, last - 1)


def a_copy_is_let_go(options):
    """A copy of a machine's store runs elsewhere for a while, in its place: once it has ended the real one is back by
    itself."""
    with Group(options) as group:
        right, real = group.begin(), group.machines[-1]
        group.is_over = True
        real.send(signal.SIGSTOP)
        copy = group.path('copy')
        shutil.copytree(group.store(real.number), copy)
        real.kill()
        words = [group.plc, 'serve', '--group', group.file(real.number), '--store', copy]
        for _ in range(2):
            other = subprocess.Popen(words, stdin=subprocess.DEVNULL, stdout=subprocess.DEVNULL, stderr=subprocess.PIPE)
            time.sleep(2)
            other.kill()
            other.wait()
        real.start()
        right = real.is_normal(30) and right
        return right and goes_on(group) or why_not(group, real.started - 5)


def lost_disks_have_a_way_out(options):
    """All but one of the disks are lost, and each is formatted with --wait: each machine tells what it waits for, and
    one command at each begins an epoch."""
    with Group(options) as group:
        right, lost = group.begin(), group.machines[1:]
        group.is_over = True
        cut(group.machines)
        for machine in lost:
            erase(group, machine.number)
            made = ('format', group.source, '--wait', '--machine', str(machine.number), *own(group, machine.number))
            right = group.run(*made)[0] == 0 and right
        last = started(group.machines, [0.1] * group.size)
        line = f'waits: hears 1 of {group.size - 1} machines, wants {group.size // 2 + 1}'
        right = all(says(machine, line, last - 1) for machine in lost) and right
        cut(group.machines)
        for machine in group.machines:
            words = ('format', '--epoch', '20261128', *own(group, machine.number))
            right = group.run(*words)[0] == 1 and group.run(*words, '--forget')[0] == 0 and right
        last = started(group.machines, [0.1] * group.size)
        first = group.machines[0].started   # the first of them may begin before the last one is started
        right = group.driving(20) is not None and is_normal_again(group.machines, first) and right
        return right and len(set(epochs(group))) == 1 or why_not(group, last - 9)


def a_refused_change_leaves_no_mark(options):
    """A change that the group refuses, and a power cut: it begins anew by itself."""
    with Group(options) as group:
        right = group.begin()
        with console.Console(group.network.console(0)) as session:
            told = session.ask({'change': 'abcd'})   # no image
        time.sleep(1)
        group.is_over = True
        cut(group.machines)
        last = started(group.machines, [0.1] * group.size)
        right = told != 'done' and group.driving(20) is not None and is_normal_again(group.machines, last) and right
        return right and begun(group, 2) == list(range(group.size)) or why_not(group, last - 2, told)


def listing(group, machine, *words):
    """The program of a machine's store, as `plc show --listing` prints it."""
    words = ['show', '--listing', *words, group.store(machine)]
    return subprocess.run([group.plc, *words], capture_output=True, text=True).stdout


def a_change_is_taken_by_hand(options):
    """A change that was made, and a power cut: each machine has its image, and one word takes it."""
    with Group(options) as group:
        right, operator = group.begin(), console.Operator(group, random.Random(1))
        with console.Console(group.network.console(0)) as session:
            right = session.ask({'change': operator.images[2]}) == 'done' and right
        time.sleep(0.5)
        group.is_over = True
        cut(group.machines)
        listed = [listing(group, machine.number, '--changed') for machine in group.machines]
        right = len(set(listed)) == 1 and 'LD INT#2' in listed[0] and 'LD INT#1' in listing(group, 0) and right
        for machine in group.machines:
            words = ('format', '--next-epoch', '--changed', *own(group, machine.number))
            right = group.run(*words)[0] == 0 and right
        last = started(group.machines, [0.1] * group.size)
        first = group.machines[0].started   # the first of them may begin before the last one is started
        right = group.driving(20) is not None and is_normal_again(group.machines, first) and right
        return right and len(set(epochs(group))) == 1 or why_not(group, last - 2)


def starts_of(group, machine):
    """How many starts the file of a machine's replica has counted: its second number of eight bytes."""
    with open(os.path.join(group.store(machine), f'replica-{machine}'), 'rb') as file:
        return int.from_bytes(file.read()[8:], 'big')


def who_asks_spends_no_start(options):
    """The program was changed while one machine was off; then that one and another lose their memory, and the third is
    off: the one that isn't marked asks, is told why there's no answer, and counts no start for it."""
    with Group(options) as group:
        right, operator, away = group.begin(), console.Operator(group, random.Random(1)), group.machines[2]
        away.kill()
        with console.Console(group.network.console(0)) as session:
            right = session.ask({'change': operator.images[2]}) == 'done' and right
        time.sleep(0.5)
        group.is_over = True
        cut(group.machines[:2])
        group.machines[0].start()
        away.start()
        right = says(away, 'program changed in epoch 1', away.started, 12) and right
        before = starts_of(group, 2)
        time.sleep(8)
        counted = starts_of(group, 2)
        print(f'  {before} starts before, {counted} after')
        right = counted == before > 0 and begun(group, 2) == [] and right
        return right or why_not(group, away.started - 1)


def a_machine_moves(options):
    """A machine is replaced by moving its directory: nothing stops, and no epoch begins."""
    with Group(options) as group:
        right, moved = group.begin(), group.machines[-1]
        moved.kill()
        place = group.path('moved')
        shutil.move(group.store(moved.number), place)
        moved.words[moved.words.index('--store') + 1] = place
        moved.start()
        right = moved.is_normal(20) and right
        return right and goes_on(group)


def rights(path):
    """The owner, the group and the mode of what is in a directory, by its name."""
    found = {}
    for name in sorted(os.listdir(path)):
        it = os.stat(os.path.join(path, name))
        found[name] = it.st_uid, it.st_gid, it.st_mode & 0o777
    return found


def format_keeps_rights(options):
    """A store that belongs to another user, and may be read by its group, is put into the next epoch by root, who gives
    no rights to anybody: its files stay that user's, with their rights."""
    if os.geteuid() != 0:
        return True     # only root may do that
    with Group(options) as group:
        store, words = group.store(0), ('format', '--next-epoch', *own(group, 0))
        for name in os.listdir(store):
            os.chown(os.path.join(store, name), 65534, 65533)
            os.chmod(os.path.join(store, name), 0o640)
        os.chown(store, 65534, 65533)
        before, mask = rights(store), os.umask(0o077)
        try:
            told = group.run(*words)
        finally:
            os.umask(mask)
        after = rights(store)
        differ = {name for name in after if after[name] != before.get(name, (65534, 65533, after[name][2]))}
        if told[0] != 0 or differ or before.keys() - after.keys():
            print(f'  {told} {before} {after}')
            return False
        return True


def a_full_disk_ends_no_machine(options):
    """The disk of the machine that leads next is full as it has to write a view: it tells that, the others go on, and
    it's normal once there is space."""
    if options.loopback:
        return True     # there are no disks of their own
    with Group(options, has_disks=True) as group:
        right, driving = group.begin(), group.driving(5)
        full = (driving + 1) % group.size
        filler = os.path.join(os.path.dirname(group.store(full)), 'filler')
        subprocess.run(['dd', 'if=/dev/zero', f'of={filler}'], stderr=subprocess.DEVNULL, check=False)
        since = now()
        group.machines[driving].kill()
        right = says(group.machines[full], f'replica {full} store', since, 10) and right
        group.machines[driving].start()
        os.remove(filler)
        right = group.machines[full].is_up() and group.driving(20) is not None and right
        right = is_normal_again([group.machines[driving]], since) and right
        return right or why_not(group, since)


def who_reads_no_lines_stops_nothing(options):
    """Nobody reads the standard error of a machine, which is full: it waits for the others and begins an epoch all the
    same."""
    with Group(options) as group:
        right, read_end = True, None
        for machine in group.machines[:1]:
            read_end, write_end = os.pipe()
            os.set_blocking(write_end, False)
            try:
                while True:
                    os.write(write_end, b'x' * 4096)
            except BlockingIOError:
                os.set_blocking(write_end, True)
            machine.started = now()
            machine.process = subprocess.Popen(machine.words, stdin=subprocess.DEVNULL, stdout=subprocess.DEVNULL,
                                               stderr=write_end)
            os.close(write_end)
        for machine in group.machines[1:]:
            machine.start()
        right = all(machine.is_normal(20) for machine in group.machines[1:])
        right = all(says(machine, 'machine 0 joined', 0) for machine in group.machines[1:]) and right
        group.machines[0].process.kill()
        group.machines[0].process.wait(10)
        os.close(read_end)
        return right


HANGS = """#define _GNU_SOURCE
#include <dlfcn.h>
#include <stdio.h>
#include <stdlib.h>
#include <string.h>
#include <unistd.h>
static void wait_for_disk(int fd) {
  char link[64], path[4096];
  snprintf(link, sizeof link, "/proc/self/fd/%d", fd);
  ssize_t size = readlink(link, path, sizeof path - 1);
  if (size < 0) return;
  path[size] = 0;
  while (strstr(path, getenv("HANGS_AT")) && access(getenv("HANGS_WHILE"), F_OK) == 0) usleep(10000);
}
int fsync(int fd) { wait_for_disk(fd); return ((int (*)(int))dlsym(RTLD_NEXT, "fsync"))(fd); }
int fdatasync(int fd) { wait_for_disk(fd); return ((int (*)(int))dlsym(RTLD_NEXT, "fdatasync"))(fd); }
"""


class HangingDisk:
    """That of a machine, which flushes no file whose path has these words, while it hangs."""

    def __init__(self, group, machine, words):
        source, library, self.flag = group.path('hangs.c'), group.path('hangs.so'), group.path('hangs')
        with open(source, 'w') as file:
            file.write(HANGS)
        subprocess.run(['cc', '-shared', '-fPIC', '-o', library, source, '-ldl'], check=True)
        machine.words[:0] = ['env', f'LD_PRELOAD={library}', f'HANGS_AT={words}', f'HANGS_WHILE={self.flag}']

    def hang(self):
        with open(self.flag, 'w'):
            pass

    def go_on(self):
        os.remove(self.flag)


def hangs_as_the_others_begin(options, words):
    """The disk of a machine hangs so as the others, which have lost their memory, begin an epoch without it: the
    machine's lines until 20 s later, its status if it ended, and whether all is well once the disk goes on."""
    with Group(options) as group:
        last = group.machines[-1]
        disk = HangingDisk(group, last, words)
        right = group.begin()
        group.is_over = True
        disk.hang()
        cut(group.machines[:-1])
        since = started(group.machines[:-1], [0.1] * (group.size - 1))
        right = group.driving(20) is not None and is_normal_again(group.machines[:-1], since) and right
        time.sleep(20)
        lines, status = last.since(since - 1), last.process.poll()
        disk.go_on()
        if status is not None:
            last.start()
        right = group.are_well(30) and right
        return lines, status, right or why_not(group, since)


def a_hanging_disk_holds_up_nobody(options):
    """The disk of a machine hangs as its replica saves a view: it tells that, the others go on, and it comes after them
    later."""
    lines, status, right = hangs_as_the_others_begin(options, 'replica-')
    told = [line for line in lines if line.endswith(' hangs') or line == 'replica not normal']
    if status is not None or len(told) != 2:
        print(f'  {status} {lines}')
        return False
    return right


def a_hanging_disk_ends_a_life(options):
    """The disk of a machine hangs as it leaves its epoch: it tells that, and ends with status 2 in seconds."""
    lines, status, right = hangs_as_the_others_begin(options, '/group')
    if status != 2 or not lines[-2].endswith(' hangs') or not lines[-1].startswith('plc: device store'):
        print(f'  {status} {lines}')
        return False
    return right


def a_wrong_address_is_told(options):
    """In the files of two machines the address of the third is wrong, to which they never dial: both tell it."""
    with Group(options) as group:
        free = socket.create_server(('127.0.0.1', 0))
        wrong = f'127.0.0.1:{free.getsockname()[1]}'
        free.close()
        last = group.size - 1
        for reader in range(last):
            with open(group.file(reader)) as file:
                text = file.read()
            with open(group.file(reader), 'w') as file:
                file.write(text.replace(f'"{group.network.replica(last, reader)}"', f'"{wrong}"'))
        right, since = group.begin(), now()
        line = f"machine {last} isn't at {wrong}"
        right = all(says(machine, line, since - 30, 10) for machine in group.machines[:-1]) and right
        told = [sum(it.startswith(line) for it in machine.since(0)) for machine in group.machines[:-1]]
        return right and told == [1] * last


def five_come_back(options):
    """Five machines, of which one stands still as it starts behind a power cut: a later epoch comes all the same."""
    with Group(options, size=5) as group:
        right, took, chance = group.begin(), [], random.Random(options.seed)
        group.is_over = True
        for _ in range(5):
            cut(group.machines)
            last = started(group.machines, [chance.uniform(0, 0.3) for _ in group.machines])
            slow = chance.choice(group.machines)
            time.sleep(chance.uniform(0, 0.5))
            slow.send(signal.SIGSTOP)
            time.sleep(2.1)
            slow.send(signal.SIGCONT)
            right = group.driving(20) is not None and is_normal_again(group.machines, last) and right
            took.append(now() - last)
        print(f'  until all are normal {max(took):.1f} s at most')
        return right and max(took) <= 15


TRIES = [another_program_ends_no_group, a_later_epoch_is_refused, a_group_is_itself, a_disk_without_wait_is_refused,
         a_copy_of_an_epoch_before_is_refused, a_copy_is_let_go, lost_disks_have_a_way_out,
         a_refused_change_leaves_no_mark, a_change_is_taken_by_hand, who_asks_spends_no_start, a_machine_moves,
         format_keeps_rights, a_full_disk_ends_no_machine, a_hanging_disk_holds_up_nobody, a_hanging_disk_ends_a_life,
         who_reads_no_lines_stops_nothing, a_wrong_address_is_told, five_come_back]
