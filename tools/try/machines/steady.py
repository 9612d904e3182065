"""What the gate tries of a group, whatever else the computer does meanwhile: machines that crash and that are cut off,
and directories that can't be written. Nothing is wrong here because it comes late, unless it doesn't come at all."""
import os
import random
import signal
import socket
import time

import checker
import console
import network
from cuts import epochs
from group import PATIENT, Group, now
from program import DONE, HELD, TEXTS, TIMER

SCANS = 10              # between two faults
LONG = 2.0              # seconds that one machine waits for the others
WATCHED = 1.5           # seconds that it's watched whether something comes that mustn't
MARGIN = 0.3            # seconds until a process that is stopped stands still
TIMES = {'patience': 1500, 'fresh': 700}    # milliseconds, for busy processors


class Steady(Group):
    """A group whose machines, and whose clients, may have to wait for a processor."""

    def __init__(self, options, **others):
        super().__init__(options, pace=PATIENT, **TIMES, **others)

    def __exit__(self, kind, *error):
        try:
            if kind not in (None, SystemExit):
                lines_of(self, kind.__name__)
        finally:
            super().__exit__(kind, *error)


def lines_of(group, *what):
    """Prints what went wrong, and all that the machines told."""
    print(f'  {what}', *group.since(group.begun), sep='\n    ')


def is_steady(group, **faults):
    """Whether nothing is wrong of all that was read and released, and none of these."""
    faults.update(checker.faults_of(group.history(), checker.PATIENT))
    wrong = {name: fault for name, fault in faults.items() if fault}
    if wrong:
        lines_of(group, wrong)
    return not wrong


def most_shown(group):
    """The greatest count that was read."""
    return max((it.outputs.count for it in list(group.reads)), default=0)


def goes_on(group):
    """Whether so many scans more come to be read."""
    least = most_shown(group) + SCANS
    return group.comes(lambda it: it.count >= least)


def other_epochs(group):
    """The epochs of the stores, if those aren't all the first one."""
    found = [epoch for epoch, _ in epochs(group)]
    return None if set(found) == {'1'} else found


# ---- machines that crash

def crashes(group):
    """The machine that drives is killed: whether another one goes on, and it comes back."""
    driving = group.driving(group.pace.wait)
    group.machines[driving].kill()
    before = len(group.reads)
    goes_on_without = goes_on(group) and {it.machine for it in group.reads[before:]} != {driving}
    group.machines[driving].start()
    return goes_on_without and group.are_well(group.pace.wait) and goes_on(group)


def timer_is_wrong(group, before, behind):
    """What is wrong with a timer that began to run in a scan behind the first and not behind the second of these: it
    ends in the first scan whose moment is by its time or more behind that of the one in which it began."""
    found = [(it.moment, it.outputs()) for it in group.history().releases if it.moment is not None]
    earliest = max(at for at, it in found if it.count <= before)
    latest = min(at for at, it in found if it.count >= behind)
    runs = max(at for at, it in found if not it.bits & DONE)
    ends = min(at for at, it in found if it.bits & DONE)
    is_right = ends >= earliest + 1000 * TIMER and runs < latest + 1000 * TIMER
    return None if is_right else f'begins at {earliest} to {latest} ms, runs at {runs}, ends at {ends}'


def scan_behind(group):
    """The count of a scan that has what was written before this call: the second one behind the first that is read."""
    begun = now()
    if not group.comes(lambda _: True):
        return None
    return min(it.outputs.count for it in list(group.reads) if it.begun > begun) + 2


def a_crash_is_not_noticed(options):
    """The machine that drives is killed four times, and comes back: another one goes on with what it did, also one that
    had waited for the others for long at its start. No scan is shown by two machines or comes before there is time for
    it, and no count goes back; an input is held in each scan, a timer over a crash ends in its scan, no scan is
    released twice, and no other epoch is begun."""
    with Steady(options) as group:
        one, early, *others = group.machines
        early.start()
        time.sleep(LONG)
        for machine in (one, *others):
            machine.start()
        right = group.is_watched(group.begun) and group.write((0, True), (0, 7))
        right = group.comes(lambda it: it.word == 7 and it.bits & HELD) and right
        held, before = now(), most_shown(group)
        right = group.write((1, True)) and right
        behind = scan_behind(group)
        right = goes_on(group) and crashes(group) and group.comes(lambda it: it.bits & DONE) and right
        for _ in range(3):
            right = crashes(group) and right
        fallen = next((it for it in list(group.reads) if it.begun > held and not
                       (it.outputs.word == 7 and it.outputs.bits & HELD)), None)
        return is_steady(group, right=not right, fallen=fallen, epochs=other_epochs(group),
                         timer=not right or timer_is_wrong(group, before, behind))


# ---- machines that are cut off

def lets_go(session, seconds):
    """Whether a session that asks nothing comes to be closed by the machine."""
    session.stream.settimeout(seconds)
    try:
        return session.stream.recv(1) == b''
    except ConnectionError:
        return True
    except socket.timeout:
        return False


def comes_to_close(group, machine):
    """Whether the port of a machine comes to be closed."""
    end = now() + group.pace.wait
    while now() < end:
        try:
            with group.client(machine):
                pass
        except OSError:
            return True
        time.sleep(0.02)
    return False


def stands_by(group, machine, since):
    """Whether it tells that it drives no more."""
    return group.machines[machine].told('standing by', since, group.pace.wait) is not None


def falls_silent(group, value):
    """The machine that drives is cut off, and another one is given this input: what differs first. Then it's heard
    again."""
    cut, wait = group.driving(group.pace.wait), group.pace.wait
    with group.client(cut) as session:
        group.network.cable(cut, True)
        since = now()
        steps = {'lets go': lambda: lets_go(session, wait), 'closes': lambda: comes_to_close(group, cut),
                 'stands by': lambda: stands_by(group, cut, since), 'takes': lambda: group.write((0, value)),
                 'goes on': lambda: group.comes(lambda it: it.word == value)}
        wrong = next((what for what, is_so in steps.items() if not is_so()), None)
    last = since + group.fresh + 0.01   # times are told in whole milliseconds
    shown = next((it for it in list(group.reads) if it.machine == cut and it.begun > last), None)
    group.network.cable(cut, False)
    if wrong or shown:
        return wrong, shown
    return None if group.are_well(wait) and goes_on(group) else 'is heard again'


def not_released(group):
    """The scans that no machine released, up to one that was read and is traced, if they are more than may be: each
    time that a machine drives no more its last ones may have been under way."""
    last, end, counts = most_shown(group), now() + group.pace.wait, set()
    while now() < end and max(counts, default=0) < last:
        counts = {it.outputs().count for it in group.history().releases}
    lost = [it for it in range(1, last + 1) if it not in counts]
    driven = sum(line.startswith('driving') for machine in group.machines for line in machine.since(0))
    return lost if len(lost) > 2 * driven else None


def one_that_is_cut_off_falls_silent(options):
    """The machine that drives is cut off three times: it shows nothing that is older than may be, lets its clients go,
    closes its port and stands by. Another one goes on, with an input of its own, and the first is heard again. No scan
    that it submitted meanwhile is done later, each scan is released once, and no other epoch is begun."""
    with Steady(options, over=network.Pipes(options.machines)) as group:
        right, wrong = group.begin() and goes_on(group), None
        for value in (1, 2, 3):
            wrong = wrong or falls_silent(group, value)
        return is_steady(group, right=not right, wrong=wrong, lost=not_released(group), epochs=other_epochs(group))


# ---- directories that can't be written

class Blocked:
    """A file of a machine's store that can be neither written nor taken away, whoever tries it: there is a directory in
    its place."""

    def __init__(self, group, machine, name):
        self.path = os.path.join(group.store(machine), name)
        os.mkdir(self.path)

    def free(self):
        os.rmdir(self.path)


def is_heard(group, machine):
    """A read that shows that this one takes part in scans, if there is one: of the others one stands still meanwhile,
    so without it none is done."""
    driving = group.driving(group.pace.wait)
    other = next(it for it in group.machines if it.number not in (driving, machine.number))
    other.send(signal.SIGSTOP)
    last = now() + group.fresh + MARGIN
    time.sleep(group.fresh + MARGIN + WATCHED)
    other.send(signal.SIGCONT)
    return next((it for it in list(group.reads) if it.begun > last), None)


def what_is_not_kept_is_not_said(options):
    """A machine that can't keep in its directory that its replica has counted a start takes no part, while the others
    go on; and it does once it can."""
    with Steady(options, size=3) as group:
        right, last = group.begin(), group.machines[-1]
        last.kill()
        blocked = Blocked(group, last.number, 'begins')
        last.start()
        told = last.told(f'replica {last.number} store', last.started, group.pace.wait)
        right = goes_on(group) and right
        early = is_heard(group, last) or (last.since(last.started) if last.is_normal(0.1) else None)
        blocked.free()
        right = last.is_normal(group.pace.wait) and group.are_well(group.pace.wait) and goes_on(group) and right
        return is_steady(group, right=not right, told=told is None, early=early, epochs=other_epochs(group))


class Change:
    """An operator who asks a machine to go on with another program."""

    def __init__(self, group, machine, image):
        self.address, self.line, self.stream = group.network.console(machine), f'{{"change":"{image}"}}\n', None

    def ask(self):
        self.stream = socket.create_connection(self.address, 10)
        self.stream.sendall(self.line.encode())

    def answer(self, seconds):
        """What is answered within so long; None if nothing is."""
        self.stream.settimeout(seconds)
        try:
            return self.stream.recv(200).decode()
        except socket.timeout:
            return None

    def is_done(self, seconds):
        """Whether it's answered in time that it's done. Where it was given up it's asked once more."""
        end = now() + seconds
        while now() < end:
            answer = self.answer(max(0.1, end - now()))
            if answer == 'done\n':
                return True
            self.stream.close()
            self.ask()
        return False


def a_change_is_marked_before_it_is_said(options):
    """A change of the program that all but one of the machines can't mark in their directories isn't made, since none
    of them says that it has it; and it is once they can."""
    with Steady(options) as group:
        right, others = group.begin() and goes_on(group), range(1, group.size)
        blocked = [Blocked(group, machine, 'changed.new') for machine in others]
        change = Change(group, 0, console.Operator(group, random.Random(1)).images[TEXTS[1]])
        change.ask()
        end, wanting = now() + group.pace.wait, []
        while now() < end and not wanting:
            wanting = [line for machine in others for line in group.machines[machine].lines_with(' store', 0, 0.1)]
        early = change.answer(WATCHED)
        shown = next((it for it in list(group.reads) if it.outputs.text == TEXTS[1]), None)
        for it in blocked:
            it.free()
        right = change.is_done(group.pace.wait) and group.comes(lambda it: it.text == TEXTS[1]) and right
        marked = [group.shown(machine)['changed'] for machine in range(group.size)].count('yes')
        return is_steady(group, right=not right, wanting=not wanting, early=early, shown=shown,
                         marked=marked if marked <= group.size // 2 else None, epochs=other_epochs(group))


TRIES = [a_crash_is_not_noticed, one_that_is_cut_off_falls_silent, what_is_not_kept_is_not_said,
         a_change_is_marked_before_it_is_said]
