"""What a call of `plc serve` comes to: programs that follow their inputs, how it ends, and why it's refused."""
import fcntl
import os
import resource
import socket
import tempfile
import time

from controller import Served, came_true, ended, free_port, is_written, reply_to, request, tells, words

# %QX0.0 is %IX0.0, %QW0 is %IW0. It performs 10 instructions, and 7 more for each unit of %IW1.
COUNTS_DOWN = """VAR N : INT; END_VAR
    LD %IX0.0
    ST %QX0.0
    LD %IW0
    ST %QW0
    LD %IW1
    ST N
AGAIN: LD N
    EQ 0
    JMPC DONE
    LD N
    SUB 1
    ST N
    JMP AGAIN
DONE:
"""

# %QX0.0 is not %IX0.0, %QX0.1 is %IX0.1 after 300 ms, %QW0 is 7.
OTHER = """VAR LATE : TON; END_VAR
    LDN %IX0.0
    ST %QX0.0
    CAL LATE(IN := %IX0.1, PT := T#300ms)
    LD LATE.Q
    ST %QX0.1
    LD 7
    ST %QW0
"""

# An input is written, and the outputs become these: by function 05 a bit or by 06 a word, its address, its value; the
# byte of %QX0.0 and %QX0.1, and %QW0. A bit and a word are followed, also where the scan performs just as many
# instructions as it may; with more it stops.
STORY = [(5, 0, 0xff00, (1, 0)), (6, 0, 300, (1, 300)), (6, 1, 4, (1, 300)), (6, 0, 65535, (1, 65535)),
         (6, 1, 5, (0, 0))]
OTHER_STORY = [(6, 0, 300, (1, 7)), (5, 0, 0xff00, (0, 7)), (5, 1, 0xff00, (2, 7))]


def shown(client):
    """The byte of %QX0.0 and %QX0.1 by function 02, and %QW0 by 04."""
    return reply_to(client, request(2, 0, 2))[-1], words(client, 4, 1)[0]


def follows(served, steps):
    """Whether a controller does each of these steps."""
    with served.client() as client:
        for *written, wanted in steps:
            begun = time.monotonic()
            if not is_written(client, *written) or not came_true(lambda: shown(client) == wanted):
                print('  not so:', written, wanted, shown(client))
                return False
    return time.monotonic() - begun >= 0.29 if steps is OTHER_STORY else True


def programs_follow_their_inputs(plc, work):
    """By functions 02, 04, 05 and 06; a scan that performs just its budget goes on, one that would perform more is
    stopped, which is told; a timer's output comes no sooner than its time. With five replicas over TCP, and with three
    over channels."""
    one = Served(plc, work, '--period', 20, '--f', 2, '--budget', 38, '--every', 16, source=COUNTS_DOWN)
    right = one.serves() and follows(one, STORY) and one.says('stopped budget 10')
    right = right and tells(one.lines, ['stopped budget 10'])
    other = Served(plc, work, '--period', 20, '--links', 'channel', source=OTHER)
    right = right and other.serves() and follows(other, OTHER_STORY) and tells(other.lines, [])
    if not right:
        print('  ', one.lines, other.lines)
    return right


def a_call_ends_in_time(plc, work):
    """So many scans, a period from one to the next, the first at once; its files; and no other call has its
    directory."""
    store = os.path.join(work, 'ends')
    begun = time.monotonic()
    one = Served(plc, work, '--period', 20, '--f', 2, '--every', 16, store=store, source=OTHER, scans=100)
    right = one.status() == 0 and one.out == 'scans 100\n' and tells(one.lines, [])
    right = right and time.monotonic() - begun >= 1.98
    right = right and {f'replica-{n}' for n in range(5)} == {it for it in os.listdir(store) if it != 'lock'}
    again = Served(plc, work, '--period', 20, store=store, source=OTHER)
    right = right and again.status() == 1 and again.lines == [f'plc: store used {store}'] and not again.out
    first = Served(plc, work, '--period', 3600000, source=OTHER, scans=1)
    right = right and first.status() == 0 and first.out == 'scans 1\n'
    begun = time.monotonic()
    paced = Served(plc, work, '--period', 700, source=OTHER, scans=3)
    right = right and paced.status() == 0 and paced.out == 'scans 3\n' and time.monotonic() - begun >= 1.4
    if not right:
        print('  ', *((it.process.poll(), it.out, it.lines) for it in (one, again, first, paced)), sep='\n   ')
    return right


def call(plc, source, store, *words, port=None):
    """How a call ends that is to make one scan: its status, what it prints, and the last line on standard error, if
    that is a fault."""
    own = ('--store', store) if store else ()
    status, out, err = ended(plc, 'serve', source, *own, '--port', port or free_port(), '--scans', 1, '--period', 60000,
                             *words)
    lines = [line for line in err.splitlines() if line.startswith('plc: ')]
    return status, out, lines[-1:]


def calls_are_refused(plc, work):
    """A bad text, a port in use, a file that can't be made, a directory that all may write to or that another start
    has: each has its line, and leaves no file. A lock that a start left which was killed is no hindrance."""
    source, bad, store = os.path.join(work, 'other.il'), os.path.join(work, 'bad.il'), os.path.join(work, 'first')
    each = [store, os.path.join(work, 'second'), os.path.join(work, 'third')]
    for path, text in ((source, OTHER), (bad, 'LD A__B\n')):
        with open(path, 'w') as file:
            file.write(text)
    taken = socket.create_server(('127.0.0.1', 0))
    port = taken.getsockname()[1]
    found = []

    def wants(what, got, *wanted):
        if got != wanted or os.path.exists(os.path.join(store, 'replica-0')):
            found.append((what, got, wanted, os.path.exists(store) and os.listdir(store)))

    wants('a bad text', call(plc, bad, store), 1, '', ['plc: read 2 at 1:4'])
    wants('a port in use', call(plc, source, store, port=port), 2, '', [f'plc: device port {port}'])
    os.makedirs(os.path.join(store, 'replica-1.new'), mode=0o755)
    wants('a folder in the place of a file', call(plc, source, store), 2, '', ['plc: device store 1'])
    os.rmdir(os.path.join(store, 'replica-1.new'))
    wants('a port in use, again', call(plc, source, store, port=port), 2, '', [f'plc: device port {port}'])
    os.chmod(store, 0o777)
    wants('a directory open to all', call(plc, source, store), 1, '', [f'plc: store open to all {store}'])
    os.chmod(store, 0o755)
    with open(os.path.join(store, 'lock'), 'w') as lock:
        fcntl.flock(lock, fcntl.LOCK_EX)
        wants('a directory that another start has', call(plc, source, store), 1, '', ['plc: store'])
    done = call(plc, source, None, *(it for path in each for it in ('--store', path)))
    are_there = all(os.path.exists(os.path.join(path, f'replica-{n}')) for n, path in enumerate(each))
    if done != (0, 'scans 1\n', []) or not are_there:
        found.append(('a lock that was left', done))
    taken.close()
    if found:
        print(*found, sep='\n  ')
    return not found


def one_start_has_the_directory(plc, work):
    """Of two starts at once one serves, and the other one is refused."""
    for _ in range(10):
        store = tempfile.mkdtemp(dir=work)
        both = [Served(plc, work, '--period', 20, store=store) for _ in range(2)]
        for served in both:
            came_true(lambda: served.lines or served.reader_is_over())
        came_true(lambda: any(served.process.poll() == 1 for served in both))
        ends = sorted((served.process.poll() is None, served.lines[-1]) for served in both)
        for served in both:
            served.end()
        (refused_goes_on, refused), (goes_on, line) = ends
        if refused_goes_on or not refused.startswith('plc: store') or not goes_on or not line.startswith('serving on'):
            print('  ', ends)
            return False
    return True


def asm(plc, source, path, **how):
    """Assembles a text to a file: the status, what is printed, and what is told."""
    return ended(plc, 'asm', source, path, **how)


def allow_half():
    """A file may have 10,000 bytes: of a write behind that a part goes well."""
    resource.setrlimit(resource.RLIMIT_FSIZE, (10000, 10000))


def images_are_written_whole(plc, work):
    """`plc asm` makes an image, writes it over a longer file, leaves it where the text is refused, and tells a device
    that is full, takes a half or isn't there."""
    good, refused, long, image = (os.path.join(work, name) for name in ('good.il', 'refused.il', 'long.il', 'image'))
    wire = b'ILPC\0\1\0\0\0\0\0\0\0\0\0\2\1\0\0\0\2\0\x10\0'
    for path, text in ((good, 'LD %IX0.0\nST %QX0.0\n'), (refused, 'LD X\n'), (long, 4000 * 'LD 1\n')):
        with open(path, 'w') as file:
            file.write(text)
    found = []

    def wants(what, got, wanted, there):
        content = None
        if os.path.exists(image):
            with open(image, 'rb') as file:
                content = file.read()
        if (got, content) != (wanted, there):
            found.append((what, got, content))

    told = (1, '', 'plc: decl 3 at 1:4\n')
    wants('a refused text', asm(plc, refused, image), told, None)
    wants('a good one', asm(plc, good, image), (0, 'words 2\n', ''), wire)
    wants('a refused one behind it', asm(plc, refused, image), told, wire)
    with open(image, 'wb') as file:
        file.write(b'\7' * 100)
    wants('over a longer file', asm(plc, good, image), (0, 'words 2\n', ''), wire)
    half = {'preexec_fn': allow_half, 'restore_signals': False}
    for path, text, how in (('/dev/full', good, {}), (os.path.join(work, 'no-such-directory', 'image'), good, {}),
                            (image, long, half)):
        status, out, err = asm(plc, text, path, **how)
        if (status, out) != (2, '') or not err.endswith(f'plc: device write {path}\n'):
            found.append((path, status, out, err))
    if found:
        print(*found, sep='\n  ')
    return not found


GATE = [programs_follow_their_inputs, a_call_ends_in_time, calls_are_refused, one_start_has_the_directory,
        images_are_written_whole]
