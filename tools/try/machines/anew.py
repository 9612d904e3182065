"""How groups begin anew whose machines lose their memory, one alone or together: each time one epoch is begun, once, by
all of them. The steps are words with the numbers of machines:

    start M..   these start, one after the other          end M..     these are killed, one after the other
    in E        all come to have begun epoch E, by their stores, and to be normal
    store E M.. so do the stores of these                 hand M..    they are put into the next epoch by hand
    lose M      the view of its replica is away           find M      and is there again
    refused M   it starts, and is refused since that view is gone
    begins M    it starts, and ends once its store has that an epoch is begun: its replica can count no start, so it
                says no word there                        pass S      so many seconds pass
    fails M     it starts, and ends since its store can't have that an epoch is begun
    by hand     those that start from now on begin anew by hand alone"""
import os
import subprocess
import time

import checker
from cuts import begun, epochs
from group import now
from steady import Blocked, Steady, lines_of

REFUSED = 1, 'plc: store lost its view'
ONE_LIST = [it for it in checker.PATIENT if it in checker.RELEASES]

# One that ends recovers, and is refused where its replica's view was lost meanwhile, until that's found, since it would
# have forgotten what it said. Two together begin the next epoch, with the third, which was normal.
ALONE = '''
start 0 1 2; in 1
end 0; start 0; in 1
end 1; lose 1; refused 1; find 1; start 1; in 1
end 0 1; start 0 1; in 2
'''

# All three begin the next one as soon as two of them are there, whichever they are, and the third follows.
TOGETHER = '''
start 0 1 2; in 1
end 0 1 2; start 0 1; store 2 1; start 2; in 2
end 0 1 2; start 0 2; store 3 2; start 1; in 3
end 0 1 2; start 1 0; store 4 0; start 2; in 4
end 0 1 2; start 1 2; store 5 2; start 0; in 5
end 0 1 2; start 2 0; store 6 0; start 1; in 6
end 0 1 2; start 2 1; store 7 1; start 0; in 7
'''

# Two that were put into the next one by hand have the third begin it, too, and one has where the others recover. In a
# group that begins anew by hand alone nothing is begun before that.
BY_HAND = '''
start 0 1 2; in 1
end 1 0; hand 1 0; start 1 0; in 2
end 0 1 2; hand 0; start 0; pass 0.1; end 0; start 0 1 2; in 3
end 0 1 2; by hand; start 0 1 2; pass 4; store 3 0 1 2
end 2; hand 2; start 2; in 4
'''

# One ends before its store has that it begins an epoch, behind that and before its replica says a word, and while it
# asks whether its epoch can go on.
BETWEEN = '''
start 0 1 2; in 1
end 0 1 2; hand 0; start 1; begins 0; store 2 0; start 0 2; in 2
end 0 1 2; hand 0; start 1; fails 0; start 0 2; in 3
end 0 1 2; start 1 2; pass 1.1; end 1; start 0 1; in 4
end 0 1 2; start 1 2; pass 1.6; end 1; start 0 1; in 5
'''


class Play:
    """A group whose machines do what the steps say. Each step answers whether it goes well."""

    def __init__(self, group):
        self.group, self.keys = group, dict(group.keys)

    def comes(self, is_so):
        """Whether this comes to be so."""
        end = now() + self.group.pace.wait
        while not is_so():
            if now() > end:
                return False
            time.sleep(0.05)
        return True

    def starts(self, *machines):
        for it in machines:
            self.group.machines[it].start()
        return True

    def ends(self, *machines):
        for it in machines:
            self.group.machines[it].kill()
        return True

    def has_begun(self, epoch, machine):
        return self.group.shown(machine)['epoch'] == str(epoch)

    def store(self, epoch, *machines):
        return all(self.comes(lambda: self.has_begun(epoch, it)) for it in machines)

    def all_in(self, epoch):
        are_there = self.store(epoch, *range(self.group.size)) and self.group.are_well(self.group.pace.wait)
        return are_there and len(set(epochs(self.group))) == 1

    def own(self, machine):
        return '--group', self.group.file(machine), '--store', self.group.store(machine)

    def puts_by_hand(self, *machines):
        """A machine that drives has to fall silent before."""
        return all(self.comes(lambda: self.group.run('format', '--next-epoch', *self.own(it))[0] == 0)
                   for it in machines)

    def loses(self, machine):
        os.rename(self.view(machine), self.group.path('lost'))
        return True

    def finds(self, machine):
        os.rename(self.group.path('lost'), self.view(machine))
        return True

    def view(self, machine):
        return os.path.join(self.group.store(machine), f'replica-{machine}')

    def ends_by_itself(self, machine):
        """It starts, and ends: its status, None where it doesn't end in time, and its last line."""
        it = self.group.machines[machine]
        it.start()
        try:
            return it.ended(self.group.pace.wait), it.since(it.started)[-1:]
        except subprocess.TimeoutExpired:
            return None, it.since(it.started)[-1:]

    def is_refused(self, machine):
        status, lines = self.ends_by_itself(machine)
        return (status, *lines) == REFUSED

    def cannot_write(self, machine, name, place):
        """It starts, and ends since it can't write this file, which it tells by this place."""
        blocked = Blocked(self.group, machine, name)
        _, lines = self.ends_by_itself(machine)
        blocked.free()
        return lines == [f'plc: device store {place}']

    def begins(self, machine):
        return self.cannot_write(machine, f'replica-{machine}.new', machine)

    def fails(self, machine):
        return self.cannot_write(machine, 'group.new', self.group.store(machine))

    def begins_by_hand(self):
        for machine in range(self.group.size):
            self.group.write_file(self.group.file(machine), {**self.keys, 'cold_start': '"by hand"'}, machine)
        return True

    def passes(self, seconds):
        time.sleep(seconds)
        return True


STEPS = {'start': Play.starts, 'end': Play.ends, 'in': Play.all_in, 'store': Play.store, 'hand': Play.puts_by_hand,
         'lose': Play.loses, 'find': Play.finds, 'refused': Play.is_refused, 'begins': Play.begins, 'fails': Play.fails,
         'pass': Play.passes, 'by hand': Play.begins_by_hand}


def number(word):
    return float(word) if '.' in word else int(word)


def steps_of(text):
    """The steps of a text: what is done, and the numbers behind it."""
    for step in text.strip().replace('\n', '; ').split('; '):
        name = 'by hand' if step == 'by hand' else step.split()[0]
        yield step, STEPS[name], [number(it) for it in step.removeprefix(name).split()]


def is_played(options, text):
    """Whether all steps go well, no epoch is begun behind the last one, and what was released in each is one list."""
    last = 0
    with Steady(options, size=3) as group:
        play = Play(group)
        for place, (step, do, numbers) in enumerate(steps_of(text)):
            if not do(play, *numbers):
                lines_of(group, f'step {place}: {step}', epochs(group))
                return False
            last = numbers[0] if do is Play.all_in else last
        wrong = checker.faults_of(group.history(), ONE_LIST)
        if begun(group, last + 1) or wrong:
            lines_of(group, begun(group, last + 1), wrong)
        return not begun(group, last + 1) and not wrong


def one_that_forgets_recovers(options):
    """One machine that ends recovers, unless its view is lost; two begin the next epoch, with the third."""
    return is_played(options, ALONE)


def all_begin_anew_together(options):
    """All end at once, and any two that are there again begin the next epoch."""
    return is_played(options, TOGETHER)


def some_begin_anew_by_hand(options):
    """One or two are put into the next epoch, and the others follow."""
    return is_played(options, BY_HAND)


def one_ends_as_it_begins_anew(options):
    """One ends at each moment of a beginning, and all begin the next epoch."""
    return is_played(options, BETWEEN)


TRIES = [one_that_forgets_recovers, all_begin_anew_together, some_begin_anew_by_hand, one_ends_as_it_begins_anew]
