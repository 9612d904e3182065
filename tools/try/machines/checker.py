"""What all clients of a group read and wrote, with its times, what its machines released, by their traces, and what
would be wrong with it. By these alone, whatever machines, threads and networks were between: so it's tried itself, by
histories that are made up (histories.py).

Times are those of one clock, in seconds. A read that began before another one ended may have been answered after it."""
import bisect
import itertools
import math
from typing import NamedTuple

from program import GREATEST, TEXTS, TOLD, Outputs, mark_after

DENSE = 0.03            # seconds from read to read at one machine, at most, where nothing is missed between two of them
CALM = 1.0              # seconds behind a fault until all is as before
LOST = 1.0              # seconds before the end of a machine in which it may release what it doesn't trace any more
OPEN = 8.0              # seconds in which a command that wasn't answered may be done still
MOST_WAYS = 20000       # that scans which nobody read may have gone


class Read(NamedTuple):
    begun: float
    ended: float
    machine: int
    outputs: Outputs
    session: int = 0        # which connection


class Write(NamedTuple):
    """Of %IW0, that was acknowledged. Each value is one above that of the write before; behind the greatest is 0."""
    begun: float
    ended: float
    machine: int
    value: int
    session: int = 0


class Command(NamedTuple):
    """A force of %IX0.2 by an operator, of whom there is one, or a change of the text: whether it was answered `done`.
    Else it may be done or not, until OPEN seconds after it."""
    begun: float
    ended: float
    value: bool | int
    is_done: bool = True
    is_force: bool = True


class History(NamedTuple):
    period: float
    fresh: float            # how long outputs are shown
    reads: list
    writes: list = ()
    commands: list = ()
    faults: list = ()       # times in which there was any, as (begun, ended)
    releases: list = ()     # of each machine in the order of its trace (traces.py)
    ends: dict = {}         # when each machine was killed, by its number
    holds: list = ()        # times in which a scan may have been held, as (begun, ended)

    def in_time(self):
        return sorted(self.reads, key=lambda it: it.ended)

    def by_count(self):
        """What was read first of each scan that anybody read, by its count."""
        first = {}
        for read in self.in_time():
            first.setdefault(read.outputs.count, read)
        return [first[count] for count in sorted(first)]

    def dense(self):
        return min(DENSE, self.period / 3)

    def noise(self):
        """The times in which there was a fault, or behind one, apart from each other."""
        merged = []
        for begun, ended in sorted(self.faults):
            if merged and begun <= merged[-1][1]:
                merged[-1][1] = max(merged[-1][1], ended + CALM)
            else:
                merged.append([begun, ended + CALM])
        return merged


def is_calm(noise, since, until):
    place = bisect.bisect(noise, until, key=lambda it: it[0])
    return place == 0 or noise[place - 1][1] < since


def is_before(one, other):
    """Whether a value was written before the other one."""
    return 0 < (other - one) % (GREATEST + 1) <= GREATEST // 2


def goes_back(history):
    """A read of a count below one that was read to its end before it began, at any port."""
    ended, next_one, greatest = history.in_time(), 0, -1
    for read in sorted(history.reads):
        while next_one < len(ended) and ended[next_one].ended < read.begun:
            greatest = max(greatest, ended[next_one].outputs.count)
            next_one += 1
        if read.outputs.count < greatest:
            return f'machine {read.machine} shows scan {read.outputs.count} after {greatest}, at {read.begun:.3f}'
    return None


def has_two_answers(history):
    """Two reads of one scan with different outputs."""
    told = {}
    for read in history.in_time():
        before = told.setdefault(read.outputs.count, read)
        if before.outputs != read.outputs:
            return f'machine {read.machine} shows {read.outputs}, and machine {before.machine} {before.outputs}'
    return None


def rising(before, after, missed):
    """The inputs that scans between two may have had: none was written before that of the one, or after that of the
    other."""
    words = [(before.word + n) % (GREATEST + 1) for n in range((after.word - before.word) % (GREATEST + 1) + 1)]
    return math.comb(len(words) + missed - 1, missed), itertools.combinations_with_replacement(words, missed)


def changing(before, after, missed, is_quiet):
    """The bits and texts that they may have had: those of the one until some scan, and then of the other; or any, if an
    operator was at work."""
    if not is_quiet:
        either = {before.bits & ~TOLD, after.bits & ~TOLD}
        every = [(bits | told, text) for bits in sorted(either) for told in (0, TOLD) for text in TEXTS]
        return len(every) ** missed, itertools.product(every, repeat=missed)
    places = itertools.product(*(range(missed + 1) if one != other else (0,)
                                 for one, other in ((before.bits, after.bits), (before.text, after.text))))
    found = [[(before.bits if n < bits else after.bits, before.text if n < text else after.text) for n in range(missed)]
             for bits, text in places]
    return len(found), found


def between(before, after, is_quiet):
    """What the scans had that were missed between two: their outputs, with marks of which that of the other one
    follows; None if there are none, and () if there are too many ways to tell."""
    missed = after.count - before.count - 1
    some_words, words = rising(before, after, missed)
    some_others, others = changing(before, after, missed, is_quiet)
    if some_words * some_others > MOST_WAYS:
        return ()
    for way in itertools.product(words, others):
        found = [before]
        for word, (bits, text) in zip(*way):
            outputs = Outputs(found[-1].count + 1, word, bits, 0, text)
            found.append(outputs._replace(mark=mark_after(found[-1].mark, outputs)))
        if mark_after(found[-1].mark, after) == after.mark:
            return [*found[1:], after]
    return None


def told_of(history):
    """For each scan that was read, and the one read before it: both, and what was between them, as above."""
    acts = sorted([it.begun, it.ended if it.is_done else it.ended + OPEN] for it in history.commands)
    found = history.by_count()
    for before, after in zip(found, found[1:]):
        is_quiet = not any(begun <= after.ended and before.ended - history.period <= ended for begun, ended in acts)
        yield before, after, between(before.outputs, after.outputs, is_quiet)


def differs_from_the_table(history):
    """A scan whose mark doesn't follow from the one that was read before it."""
    for before, after, found in told_of(history):
        if found is None:
            return f'machine {after.machine} shows {after.outputs} behind {before.outputs}'
    return None


def judged(history):
    """How many scans were held against the table, and how many that were read couldn't be."""
    told = [found for _, _, found in told_of(history)]
    return len(told) - told.count(()), told.count(())


def all_outputs(history):
    """What was read or released of each scan of which there is something, in their order."""
    found = {it.outputs.count: it.outputs for it in history.reads}
    found.update((outputs.count, outputs) for outputs in (it.outputs() for it in history.releases))
    return [found[count] for count in sorted(found)]


def all_scans(history):
    """The outputs of each scan from the first on, those that nobody read and no machine released by what follows from
    them; until one that can't be told."""
    found, last = [], Outputs(0, 0, 0, 0, TEXTS[0])
    for outputs in all_outputs(history):
        more = between(last, outputs, False)
        if not more:
            break
        found += more
        last = outputs
    return found


def inputs_go_back(history):
    """A scan with an input that was written before that of a scan before it."""
    found = history.by_count()
    for before, after in zip(found, found[1:]):
        if is_before(after.outputs.word, before.outputs.word):
            return f'machine {after.machine} shows {after.outputs} behind {before.outputs}'
    return None


def by_session(history):
    found = {}
    for read in sorted(history.reads):
        found.setdefault(read.session, []).append(read)
    return found


def under_way(history, write):
    """How many scans behind the one that was read last may have begun without a write: the next one; and where that was
    held, so that nobody reads it, the one behind it."""
    held = any(begun <= write.ended and write.begun <= ended + history.period for begun, ended in history.holds)
    return 2 if held else 1


def loses_an_input(history):
    """An input that was acknowledged, and isn't in the first scan that wasn't under way, though its connection still
    stands. (Those after it are held to it by inputs_go_back.)"""
    reads = by_session(history)
    for write in history.writes:
        own, more = reads.get(write.session, []), under_way(history, write) + 1
        later = own[bisect.bisect_left(own, write.ended, key=lambda it: it.begun):]
        read = next((it for it in later if it.outputs.count >= later[0].outputs.count + more), None)
        if read and is_before(read.outputs.word, write.value):
            return f'machine {read.machine} had {write.value} at {write.ended:.3f}, and shows {read.outputs}'
    return None


def is_open(history, since, until):
    """Whether a command that wasn't answered may be done in this time."""
    return any(it.is_force and not it.is_done and it.begun <= until and since <= it.ended + OPEN
               for it in history.commands)


def breaks_a_force(history, command, until):
    """A read of the scan after the next one behind a force that was done, or of one after that, without it."""
    reads = history.in_time()
    later = [it for it in reads[bisect.bisect(reads, command.ended, key=lambda it: it.ended):]
             if command.ended <= it.begun and it.ended <= until]
    for read in later:
        if read.outputs.count >= later[0].outputs.count + 2 and bool(read.outputs.bits & TOLD) != command.value:
            return f'{command.value} was forced at {command.ended:.3f}, and machine {read.machine} shows {read.outputs}'
    return None


def loses_a_command(history):
    """A force that was done, and isn't in the scan after the next one, at any machine, until another is asked for."""
    forces = [it for it in history.commands if it.is_force]
    for command, follows in zip(forces, [*forces[1:], None]):
        until = follows.begun if follows else float('inf')
        if command.is_done and not is_open(history, command.begun, until if follows else command.ended):
            found = breaks_a_force(history, command, until)
            if found:
                return found
    return None


def two_show(history):
    """A machine that shows outputs, then another one, and then the first again sooner than it may."""
    ended, last = {}, None
    for read in sorted(history.reads):
        if last not in (None, read.machine) and read.begun - ended.get(read.machine, -9) < 0.9 * history.fresh:
            return f'machine {read.machine} shows {read.outputs} at {read.begun:.3f}, and machine {last} did between'
        ended[read.machine], last = read.ended, read.machine
    return None


def shows_the_scan_of_another(history):
    """A scan that two machines show: one submitted it, and no other one releases it."""
    first = {}
    for read in history.in_time():
        before = first.setdefault(read.outputs.count, read)
        if before.machine != read.machine:
            return f'machine {read.machine} shows {read.outputs} at {read.ended:.3f}, and machine {before.machine} did'
    return None


def ahead_of_time(reads, time_of, slack):
    """The first of these reads whose scan is ahead of the time, and the one that it's ahead of: by more than this, in
    seconds, if the one came as late, and the other was as early, as their reads may have been."""
    lowest, since = None, None
    for read in reads:
        if lowest is not None and time_of(read) - read.ended > lowest + slack:
            return f'scan {read.outputs.count} at {read.ended:.3f}, and {since.outputs.count} at {since.begun:.3f}'
        if lowest is None or time_of(read) - read.begun < lowest:
            lowest, since = time_of(read) - read.begun, read
    return None


def has_too_many(history):
    """More scans than there was time for, over any time: each is due a period after the one before it, or later."""
    slack = 2.5 * history.period + history.fresh
    return ahead_of_time(history.by_count(), lambda it: it.outputs.count * history.period, slack)


def moments_run_ahead(history):
    """A scan that was released with a later moment than there was time for since another one, which was submitted by as
    long before its read as outputs are shown, at most."""
    moments = {it.outputs().count: it.moment for it in history.releases if it.moment is not None}
    reads = [it for it in history.by_count() if it.outputs.count in moments]
    return ahead_of_time(reads, lambda it: moments[it.outputs.count] / 1000, history.fresh + 0.05)


def calm_runs(history):
    """Runs of reads of one machine, one soon after the other, without a fault near: lists of each scan's first read."""
    run, last, noise = [], None, history.noise()
    for read in history.in_time():
        goes_on = last and read.machine == last.machine and read.ended - last.ended <= history.dense()
        if not goes_on or not is_calm(noise, last.ended, read.ended):
            yield run
            run = []
        if not run or run[-1].outputs.count != read.outputs.count:
            run.append(read)
        last = read
    yield run


def leaves_one_out(history):
    """A scan that nobody read, though somebody read all the time, and there was time for it to be seen."""
    for run in calm_runs(history):
        for before, after in zip(run[1:], run[2:]):
            missed = after.outputs.count - before.outputs.count - 1
            if missed > 0 and after.ended - before.ended > history.period / 2:
                return f'machine {after.machine} shows {after.outputs} at {after.ended:.3f} behind {before.outputs}'
    return None


def does_one_twice(history):
    """A scan that comes sooner than it's due: one more than those before it had time for."""
    for run in calm_runs(history):
        ahead = [it.outputs.count - it.ended / history.period for it in run]
        for place in range(4, len(run)):
            if ahead[place] > max(ahead[1:place]) + 0.6:
                return f'machine {run[place].machine} shows {run[place].outputs} at {run[place].ended:.3f}, too soon'
    return None


def by_place(history):
    """The releases whose place is known, in the order of the list of commands."""
    return sorted((it for it in history.releases if it.place is not None), key=lambda it: it.at())


def has_two_releases(history):
    """A place of the list that was released twice: whoever submitted its scan releases it, once."""
    for before, after in itertools.pairwise(by_place(history)):
        if before.at() == after.at():
            return f'{before} and {after}'
    return None


def has_two_lists(history):
    """Places of one list whose counts or moments don't rise with them, or that have more scans than commands."""
    for before, after in itertools.pairwise(by_place(history)):
        if before.epoch == after.epoch:
            scans = after.outputs().count - before.outputs().count
            if not 1 <= scans <= after.place - before.place or after.moment < before.moment:
                return f'{before}, and then {after}'
    return None


def releases_out_of_order(history):
    """A machine that released a scan behind one that it submitted later, or that stands later in the list."""
    last = {}
    for it in history.releases:
        before = last.get(it.machine)
        if before and before.epoch == it.epoch:
            places = [other.place for other in (before, it) if other.place is not None]
            if before.number >= it.number or places != sorted(set(places)):
                return f'{before}, and then {it}'
        last[it.machine] = it
    return None


def leaves_a_release_out(history):
    """A scan between those of two requests of a machine, one behind the other, that no machine released, with no fault
    near: nobody asked for it. (Where the lead changes, the last one of who led before may be committed by the next.)"""
    shown, noise = {it.outputs.count: it for it in history.by_count()}, history.noise()
    released = {(it.epoch, it.outputs().count) for it in history.releases}
    for before, after in itertools.pairwise(history.releases):
        is_next = before[:3] == after[:3] and before.number + 1 == after.number
        counts = before.outputs().count, after.outputs().count
        if is_next and any((before.epoch, it) not in released for it in range(counts[0] + 1, counts[1])):
            reads = [shown[it] for it in counts if it in shown]
            if len(reads) == 2 and is_calm(noise, reads[0].begun, reads[1].ended):
                return f'{before}, and then {after}'
    return None


def releases_differ_from_the_table(history):
    """A release whose mark doesn't follow from that of the release before it, of its epoch."""
    for epoch in sorted({it.epoch for it in history.releases}):
        found = {outputs.count: outputs for outputs in (it.outputs() for it in history.releases if it.epoch == epoch)}
        for before, after in itertools.pairwise(found[count] for count in sorted(found)):
            if between(before, after, False) is None:
                return f'{after} behind {before}, in epoch {epoch}'
    return None


def shows_what_it_did_not_release(history):
    """A read at a machine whose trace has no such release. The last lines of one that is killed may be missing."""
    if not history.releases:
        return None
    own = {(it.machine, it.outputs()) for it in history.releases}
    gaps = {machine: between_starts(history, machine) for machine in history.ends}
    for read in history.in_time():
        if (read.machine, read.outputs) not in own and not is_cut_off(history, read, gaps):
            return f'machine {read.machine} shows {read.outputs} at {read.ended:.3f}'
    return None


def is_cut_off(history, read, gaps):
    """Whether a read may be of a release whose line was lost as its machine was killed: soon behind it, and the trace
    has no later release of that start."""
    ends_soon = any(read.begun - history.period <= it <= read.ended + LOST for it in history.ends.get(read.machine, ()))
    return ends_soon and any(last < read.outputs.count < first for last, first in gaps[read.machine])


def between_starts(history, machine):
    """The counts between the last release of a start in a machine's trace and the first of the next one, for each."""
    own = [it for it in history.releases if it.machine == machine]
    starts = [list(its) for _, its in itertools.groupby(own, key=lambda it: (it.epoch, it.start))]
    firsts = [its[0].outputs().count for its in starts] + [math.inf]
    lasts = [0] + [its[-1].outputs().count for its in starts]
    return list(zip(lasts, firsts))


def releases_without_an_input(history):
    """An input that was acknowledged, and isn't in the first release of its machine whose scan wasn't under way, though
    its connection stood until then."""
    reads, own = by_session(history), {}
    for it in history.releases:
        own.setdefault(it.machine, []).append(it.outputs())
    for write in history.writes:
        session, shown = reads.get(write.session, []), own.get(write.machine, [])
        first = bisect.bisect_left(session, write.ended, key=lambda it: it.begun)
        if first == len(session):
            continue
        least = session[first].outputs.count + under_way(history, write) + 1
        place = bisect.bisect_left(shown, least, key=lambda it: it.count)
        if place < len(shown) and shown[place].count <= session[-1].outputs.count:
            if is_before(shown[place].word, write.value):
                return f'machine {write.machine} had {write.value} at {write.ended:.3f}, and released {shown[place]}'
    return None


RELEASES = [has_two_releases, has_two_lists, releases_out_of_order, leaves_a_release_out,
            releases_differ_from_the_table]
CHECKS = [goes_back, has_two_answers, differs_from_the_table, inputs_go_back, loses_an_input, loses_a_command, two_show,
          shows_the_scan_of_another, has_too_many, moments_run_ahead, leaves_one_out, does_one_twice, *RELEASES,
          shows_what_it_did_not_release, releases_without_an_input]
# Those that find nothing in a good history, for however long its machines and clients had to wait for a processor.
PATIENT = [goes_back, has_two_answers, differs_from_the_table, inputs_go_back, shows_the_scan_of_another, has_too_many,
           moments_run_ahead, has_two_releases, has_two_lists, releases_out_of_order, releases_differ_from_the_table]


def faults_of(history, checks=tuple(CHECKS)):
    """What is wrong of all that, each with its name; nothing is wanted. RELEASES are the checks of what machines
    released, in whatever epochs; all others are of one epoch."""
    found = {check.__name__.replace('_', ' '): check(history) for check in checks}
    return {name: fault for name, fault in found.items() if fault}


def releases(history):
    """When each scan was read first, as (moment, count), in the order of time."""
    found, seen = [], set()
    for read in history.in_time():
        if read.outputs.count not in seen:
            seen.add(read.outputs.count)
            found.append((read.ended, read.outputs.count))
    return found


def longest(history, since, until):
    """The longest time between two releases that were read, of those that end in this time, in seconds."""
    found = releases(history)
    between = (b[0] - a[0] for a, b in zip(found, found[1:]) if since <= b[0] <= until)
    return max(between, default=until - since)
