"""What stands in the pages as a session of a shell, run as it stands there.

A block of a page that is indented by four blanks is one of these:
  a session   its first line begins with a prompt (`$ `, or a computer's, as `plc0# `; `all# ` is each of them). Each
              prompt's line is a call; the lines below it, up to the next prompt, are what it prints, without blank ones. There `..` stands for
              whatever comes in its place in a line, and alone for any lines. A call that ends in a backslash goes on in the
              next line.
  a file      the paragraph above it ends with its name, as `motor.il`:
Other blocks are left alone, and so is what stands between `<!-- not run -->` and `<!-- run -->`."""
import os
import re
import signal
import subprocess
import tempfile
import time

LONGEST = 300       # seconds in which a call has to end
WAIT = 30           # seconds in which what it started has to have said what stands there
LOOKS = ('for i in 1 2 3; do curl ', 'grep ', 'tail ', 'cat ', 'curl ', 'journalctl ', 'head ', 'ls ', 'plc show ', 'mbpoll -q -1')   # may be done again
PROMPT = re.compile(r'^([a-z]+\d*[$#]|\$) (.*)$')
NOISE = re.compile(r'^\[\d+\][ +-] |^\[\d+\] \d+$|^bash: (line \d+|warning)|^\S+: line \d+: +\d+ (Killed|Terminated)|^\s*\d+ (Killed|Terminated)')


def is_session(block):
    return bool(PROMPT.match(block.split('\n')[0]))


def blocks(text):
    """Each indented block of a page, with the line of text above it."""
    text = re.sub(r'(?s)<!-- not run -->.*?<!-- run -->', '', text)
    for found in re.finditer(r'(?m)(?:^(?!    )(.*\S.*)\n(?:[ \t]*\n)*)?((?:^    .*\n(?:[ \t]*\n(?=    ))*)+)', text):
        block = re.sub(r'(?m)^    ', '', found.group(2)).rstrip('\n')
        first, blank, rest = block.partition('\n\n')
        while blank and not is_session(block) and not is_session(rest):
            more, blank, rest = rest.partition('\n\n')
            first += '\n\n' + more
        if blank and not is_session(block):   # a file, and behind a blank line a session
            yield found.group(1) or '', first
            yield '', rest
        else:
            yield found.group(1) or '', block


def calls(block):
    """The prompt, the call and the lines that are to come, one call after the other."""
    made = []
    for line in block.split('\n'):
        found = PROMPT.match(line)
        if made and made[-1][1].endswith('\\'):
            made[-1][1] = made[-1][1][:-1] + line.strip()
        elif found:
            made.append([found.group(1), found.group(2), []])
        else:
            made[-1][2].append(line.rstrip())
    return made


def steps(text):
    """What a page says to do, in its order: ('file', name, text) and ('call', prompt, call, lines)."""
    for above, block in blocks(text):
        name = re.search(r'`([\w./@-]+)`:$', above.strip())
        if is_session(block):
            for prompt, call, lines in calls(block):
                yield 'call', prompt, call, [line for line in lines if line]
        elif name:
            yield 'file', name.group(1), block + '\n'


def section(text, *headings):
    """A page without all but these sections."""
    return '\n'.join(re.search(rf'(?ms)^## {re.escape(it)}\n.*?(?=^## |\Z)', text).group(0) for it in headings)


def as_pattern(lines):
    """What lines have to match: `..` alone is any lines, in a line any text."""
    made = ['(?:.*\n)*?' if line == '..' else '.*?'.join(map(re.escape, line.split('..'))) + '\n' for line in lines]
    return re.compile(''.join(made))


class Shell:
    """A shell that a session goes on in, and all that comes out of it and what it started."""

    def __init__(self, words, folder, environment):
        self.path = tempfile.mktemp(prefix='session-')
        with open(self.path, 'xb', buffering=0) as out:     # another one than that by which it's read: each has its place
            self.process = subprocess.Popen(words, cwd=folder, stdin=subprocess.PIPE, stdout=out, stderr=subprocess.STDOUT,
                                            text=True, env=environment, start_new_session=True)
        self.log = open(self.path, encoding='utf-8', errors='replace')
        self.seen, self.count = 0, 0
        self.send('set -m')

    def send(self, line):
        self.process.stdin.write(line + '\n')
        self.process.stdin.flush()

    def said(self):
        """The lines since the last call."""
        self.log.seek(self.seen)
        return [line.rstrip() for line in self.log.read().split('\n')[:-1] if not NOISE.search(line)]

    def do(self, call):
        """The lines of a call, once it has ended."""
        self.log.seek(0, os.SEEK_END)
        self.seen, self.count = self.log.tell(), self.count + 1
        mark = f'@@{self.count}@@'
        self.send(call)
        self.send(f'echo "{mark}"')
        end = time.time() + LONGEST
        while mark not in ''.join(self.said()):
            if time.time() > end:
                raise RuntimeError(f'no end of: {call}')
            time.sleep(0.02)

    def lines(self):
        return [line for line in self.said() if line and not re.fullmatch(r'@@\d+@@', line)]

    def close(self):
        """Ends it, and all that was started in its session."""
        for pid in of_session(self.process.pid):
            try:
                os.kill(pid, signal.SIGKILL)
            except ProcessLookupError:
                pass
        self.process.wait()
        self.log.close()
        os.remove(self.path)


def of_session(session):
    """The processes of a session."""
    for name in filter(str.isdigit, os.listdir('/proc')):
        try:
            with open(f'/proc/{name}/stat', encoding='utf-8') as file:
                if int(file.read().rpartition(')')[2].split()[3]) == session:
                    yield int(name)
        except OSError:
            pass        # it has ended meanwhile


def says(shell, call, wanted):
    """What a call prints in place of what stands there; None where that comes, in time."""
    pattern, end = as_pattern(wanted), None
    while True:
        shell.do(call)
        end = end or time.time() + WAIT
        while True:
            got = shell.lines()
            if pattern.fullmatch(''.join(line + '\n' for line in got)):
                return None
            if time.time() > end:
                return got
            time.sleep(0.1)
            if call.startswith(LOOKS):
                break
