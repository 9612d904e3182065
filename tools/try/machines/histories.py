"""Histories that are made up, to try the checker: one of three machines, of which the first stops driving, without a
fault; and what is wrong in others, each of which the checker has to see."""
import bisect
import functools

from checker import Command, History, Read, Write, faults_of
from program import GREATEST, TOLD, Outputs, mark_after
from traces import Release, line_of

PERIOD, FRESH = 0.1, 0.14
SCANS = 160
TAKEOVER = 80           # the count of the first scan of the next machine
EACH = 0.004            # seconds from read to read
WRITES = 0.05           # and from write to write
TAKES = 0.0005          # seconds that a read or a write takes


class Scan:
    """A scan that was released: when, by which machine, with what."""

    def __init__(self, at, machine, outputs):
        self.at, self.machine, self.outputs = at, machine, outputs

    def with_outputs(self, **changed):
        return Scan(self.at, self.machine, self.outputs._replace(**changed))


def moment(count):
    return count * PERIOD


def opens():
    """When the next machine shows outputs, and the first has long stopped."""
    return moment(TAKEOVER) + FRESH


def machine_at(time):
    return 0 if time < moment(TAKEOVER) else 1


@functools.cache
def writes():
    """A write each 50 ms to the machine that shows outputs, by one connection with each."""
    return [Write(at, at + TAKES, machine_at(at), n + 1, 100 + machine_at(at))
            for n, at in enumerate(WRITES * k + 0.02 for k in range(int(moment(SCANS) / WRITES)))
            if not moment(TAKEOVER - 1) < at < opens()]


def commands():
    return [Command(3.0, 3.001, True), Command(6.0, 6.001, False), Command(10.0, 10.001, True)]


def last_word(at):
    """The input that was written last before a time."""
    place = bisect.bisect_left(writes(), at, key=lambda it: it.ended)
    return writes()[place - 1].value if place else 0


def scans(word_at=None, force_at=None):
    """What a good group releases, of the last input and force before each scan."""
    found, mark = [], 0
    word_at = word_at or last_word
    force_at = force_at or (lambda at: next((it.value for it in reversed(commands()) if it.ended < at), False))
    for count in range(1, SCANS):
        outputs = Outputs(count, word_at(moment(count)), TOLD if force_at(moment(count)) else 0, 0, 1)
        mark = mark_after(mark, outputs)
        found.append(Scan(moment(count), machine_at(moment(count)), outputs._replace(mark=mark)))
    return found


def shown(found, at):
    """The scan that is shown at a time, if any."""
    if moment(TAKEOVER - 1) + FRESH <= at < opens():
        return None
    place = bisect.bisect(found, at, key=lambda it: it.at)
    return found[place - 1] if place else None


def reads(found):
    """One client that reads all the time, and the writer, who reads behind each write."""
    times = [(k * EACH, None) for k in range(int(moment(SCANS) / EACH))]
    times += [(it.ended + EACH, it.session) for it in writes()]
    told = []
    for at, session in sorted(times, key=lambda it: it[0]):
        scan = shown(found, at)
        if scan:
            told.append(Read(at, at + TAKES, scan.machine, scan.outputs, scan.machine if session is None else session))
    return told


def releases(found):
    """What the machines traced of these: each by a request of its own, every other place of the list."""
    return [Release(it.machine, 1, 1, 2 * it.outputs.count, (1 << 48) + it.outputs.count, round(it.at * 1000), 0,
                    line_of(it.outputs)) for it in sorted(found, key=lambda it: it.machine)]


def history(found=None, **changed):
    found = found or scans()
    made = History(PERIOD, FRESH, reads(found), writes(), commands(), releases=releases(found))
    return made._replace(**changed)


def a_machine_is_killed(without):
    """The first machine is killed as it shows its last scan, and its trace lacks the lines of these scans."""
    made = history()
    kept = [it for it in made.releases if it.outputs().count not in without]
    return made._replace(releases=kept, ends={0: [moment(TAKEOVER - 1) + FRESH]})


def good():
    """Histories in which nothing is wrong; in one the last lines are lost of a machine that was killed."""
    return {'nothing is wrong': history(), 'last lines of a trace are lost': a_machine_is_killed({78, 79})}


# ---- what is wrong, each with the check that has to see it

def one_output_changed():
    """In one of the reads of a scan."""
    made = history()
    place = next(n for n, it in enumerate(made.reads) if it.outputs.count == 50) + 5
    wrong = made.reads[place]._replace(outputs=made.reads[place].outputs._replace(word=0))
    return 'has two answers', made._replace(reads=made.reads[:place] + [wrong] + made.reads[place + 1:])


def one_scan_changed():
    """In each read of a scan."""
    found = [it.with_outputs(bits=2) if it.outputs.count == 50 else it for it in scans()]
    return 'differs from the table', history(found)


def another_mark_from_there_on():
    found = [it.with_outputs(mark=it.outputs.mark ^ 1) if it.outputs.count >= 50 else it for it in scans()]
    return 'differs from the table', history(found)


def a_release_left_out():
    """The outputs before it are shown until the next one."""
    return 'leaves one out', history([it for it in scans() if it.outputs.count != 50])


def a_scan_left_out_of_the_table():
    """It's counted, and what it did is lost."""
    found, mark = [], 0
    for scan in scans():
        if scan.outputs.count != 50:
            mark = mark_after(mark, scan.outputs)
        found.append(scan.with_outputs(mark=mark))
    return 'differs from the table', history(found)


def one_scan_twice():
    """It's run again at once, by the same inputs."""
    found, mark, more = [], 0, 0
    for scan in scans():
        for _ in range(2 if scan.outputs.count == 50 else 1):
            mark = mark_after(mark, scan.outputs)
            outputs = scan.outputs._replace(count=len(found) + 1, mark=mark)
            found.append(Scan(scan.at + more * 0.001, scan.machine, outputs))
            more = 1 if scan.outputs.count == 50 else 0
    return 'does one twice', history(found)


def one_scan_twice_in_the_mark():
    found, mark = [], 0
    for scan in scans():
        for _ in range(2 if scan.outputs.count == 50 else 1):
            mark = mark_after(mark, scan.outputs)
        found.append(scan.with_outputs(mark=mark))
    return 'differs from the table', history(found)


def one_release_twice():
    """The next machine begins with a scan that the first one released, and has another input for it."""
    found, mark = [], 0
    for scan in scans():
        count = scan.outputs.count if scan.machine == 0 else scan.outputs.count - 3
        outputs = scan.outputs._replace(count=count)
        mark = mark_after(found[TAKEOVER - 5].outputs.mark if count == TAKEOVER - 3 else mark, outputs)
        found.append(Scan(scan.at, scan.machine, outputs._replace(mark=mark)))
    return 'goes back', history(found)


def two_histories():
    """The first machine goes on beside the next one, without its inputs."""
    made, found, mark = history(), [], scans()[TAKEOVER - 2].outputs
    for count in range(TAKEOVER, SCANS):
        mark = Outputs(count, mark.word, mark.bits, mark_after(mark.mark, mark._replace(text=1)), 1)
        found.append(Read(moment(count) + 0.01, moment(count) + 0.011, 0, mark))
    return 'has two answers', made._replace(reads=made.reads + found)


def a_read_that_goes_back():
    """The first machine stood still, and answers from what it had when the next one has shown more."""
    made = history()
    stale = [it for it in made.reads if it.machine == 0][-1]
    return 'goes back', made._replace(reads=made.reads + [stale._replace(begun=opens() + 0.05, ended=opens() + 0.051)])


def two_that_show_at_a_time():
    """In turn, with the same outputs."""
    made = history()
    reads_of_both = [it._replace(machine=2) if n % 7 == 0 else it for n, it in enumerate(made.reads)]
    return 'two show', made._replace(reads=reads_of_both)


def a_last_scan_that_the_next_machine_shows():
    """Once more, before its first one."""
    made, last = history(), scans()[TAKEOVER - 2].outputs
    return 'shows the scan of another', made._replace(reads=made.reads + [Read(opens() - 0.01, opens(), 1, last, 1)])


def an_input_that_is_lost():
    """It was acknowledged, and isn't in the scans of the next half second."""
    def word_at(at):
        return max((it.value for it in writes() if it.ended < at and not 4.0 <= it.ended < 4.5), default=0)

    return 'loses an input', history(scans(word_at=word_at))


def an_input_that_goes_back():
    """The next machine begins with an old input."""
    def word_at(at):
        return last_word(at - 2 if moment(TAKEOVER) <= at < opens() + 0.2 else at)

    return 'inputs go back', history(scans(word_at=word_at))


def empty_inputs():
    """The next machine begins with none."""
    def word_at(at):
        return 0 if moment(TAKEOVER) <= at < opens() + 0.1 else last_word(at)

    return 'inputs go back', history(scans(word_at=word_at))


def a_command_that_is_lost():
    """The next machine doesn't know of a force."""
    return 'loses a command', history(scans(force_at=lambda at: 3.001 < at < 5.0))


def scans_in_a_hurry():
    """One in twenty more than there is time for."""
    return 'has too many', history([Scan(it.at * 0.95, it.machine, it.outputs) for it in scans()])


def with_releases(change):
    """A good history but for the releases, which are a list."""
    made = history()
    return made._replace(releases=change(made.releases))


def one_output_changed_in_a_trace():
    def change(found):
        wrong = found[50].outputs()._replace(word=0)
        return found[:50] + [found[50]._replace(line=line_of(wrong))] + found[51:]

    return 'shows what it did not release', with_releases(change)


def one_output_changed_that_nobody_read():
    made = with_releases(lambda found: found[:50] + [found[50]._replace(
        line=line_of(found[50].outputs()._replace(word=0)))] + found[51:])
    count = made.releases[50].outputs().count
    return 'releases differ from the table', made._replace(reads=[it for it in made.reads if it.outputs.count != count])


def a_release_left_out_of_a_trace():
    return 'shows what it did not release', with_releases(lambda found: found[:50] + found[51:])


def a_release_left_out_soon_before_an_end():
    """The trace of a machine that is killed has later ones of the same start."""
    return 'shows what it did not release', a_machine_is_killed({77})


def a_scan_that_nobody_asked_for():
    """Its request's number is the next one's, too."""
    def change(found):
        return found[:50] + [it._replace(number=it.number - 1) if it.machine == 0 else it for it in found[51:]]

    return 'leaves a release out', with_releases(change)


def one_place_released_twice():
    """By the machine that submitted its scan, and by another one, with the same outputs."""
    def change(found):
        return found + [found[50]._replace(machine=2)]

    return 'has two releases', with_releases(change)


def one_place_with_two_outputs():
    def change(found):
        return found + [found[50]._replace(machine=2, line=line_of(found[50].outputs()._replace(word=9999)))]

    return 'has two releases', with_releases(change)


def two_lists():
    """The next machine goes on with a list that lacks the last scans of the first one."""
    def change(found):
        return [it._replace(place=it.place - 12) if it.machine == 1 else it for it in found]

    return 'has two lists', with_releases(change)


def a_moment_that_goes_back():
    def change(found):
        return [it._replace(moment=it.moment - 500) if it.machine == 1 else it for it in found]

    return 'has two lists', with_releases(change)


def moments_of_two_beginnings():
    """The next machine's are half a second ahead."""
    def change(found):
        return [it._replace(moment=it.moment + 500) if it.machine == 1 else it for it in found]

    return 'moments run ahead', with_releases(change)


def two_releases_in_turn():
    """A machine releases what it submitted later before what it submitted first."""
    def change(found):
        return found[:50] + [found[51], found[50]] + found[52:]

    return 'releases out of order', with_releases(change)


def an_input_that_is_lost_in_a_release():
    name, made = an_input_that_is_lost()
    return 'releases without an input', made


WRONG = [one_output_changed, one_scan_changed, another_mark_from_there_on, a_release_left_out,
         a_scan_left_out_of_the_table, one_scan_twice, one_scan_twice_in_the_mark, one_release_twice,
         two_histories, a_read_that_goes_back, two_that_show_at_a_time, a_last_scan_that_the_next_machine_shows,
         an_input_that_is_lost, an_input_that_goes_back, empty_inputs, a_command_that_is_lost, scans_in_a_hurry,
         one_output_changed_in_a_trace, one_output_changed_that_nobody_read, a_release_left_out_of_a_trace,
         a_release_left_out_soon_before_an_end, a_scan_that_nobody_asked_for, one_place_released_twice,
         one_place_with_two_outputs, two_lists, a_moment_that_goes_back, moments_of_two_beginnings,
         two_releases_in_turn, an_input_that_is_lost_in_a_release]


def tried():
    """Whether the checker finds nothing in what is good, and what is wrong in all others; each is printed."""
    right = True
    for name, made in good().items():
        found = faults_of(made)
        print(f'{name}: {found or "yes"}')
        right = right and not found
    for wrong in WRONG:
        name, made = wrong()
        found = faults_of(made)
        told = 'seen' if name in found else 'NOT SEEN'
        print(f'{wrong.__name__.replace("_", " ")}: {told}, by {", ".join(found) or "nothing"}')
        right = right and name in found
    assert max(it.value for it in writes()) < GREATEST
    return right
