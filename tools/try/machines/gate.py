"""Tries that run side by side, each in a process of its own, and leave nothing behind."""
import os
import signal
import subprocess
import sys
import tempfile
import time

AT_ONCE = 4
LONGEST = 900           # seconds until a try is given up


class Try:
    """A try, the process that runs it, and all that this one starts: one session, which ends together."""

    def __init__(self, words, name, folder):
        self.name, self.begun = name, time.monotonic()
        self.log = open(os.path.join(folder, f'{name}.log'), 'w+')
        self.process = subprocess.Popen([sys.executable, *words, name], stdin=subprocess.DEVNULL, stdout=self.log,
                                        stderr=subprocess.STDOUT, start_new_session=True,
                                        env={**os.environ, 'TMPDIR': folder})

    def is_over(self):
        return self.process.poll() is not None or time.monotonic() > self.begun + LONGEST

    def end(self):
        try:
            os.killpg(self.process.pid, signal.SIGKILL)
        except ProcessLookupError:
            pass
        self.process.wait()
        self.log.close()

    def goes_well(self):
        """Whether it went well, which is told in a line; else with all that it printed."""
        status = self.process.poll()
        self.log.seek(0)
        lines = self.log.read().rstrip('\n').split('\n')
        if status == 0:
            print(lines[-1], flush=True)
        else:
            print(*lines, f'{self.name}: status {status}, NO', sep='\n', flush=True)
        return status == 0


def all_go_well(words, names):
    """Whether all of these tries of a tool go well, that is called by these words."""
    waiting, under_way, right = list(names), [], True
    with tempfile.TemporaryDirectory(prefix='tries-') as folder:
        try:
            while waiting or under_way:
                while waiting and len(under_way) < AT_ONCE:
                    under_way.append(Try(words, waiting.pop(0), folder))
                for it in [it for it in under_way if it.is_over()]:
                    right = it.goes_well() and right
                    it.end()
                    under_way.remove(it)
                time.sleep(0.1)
        finally:
            for it in under_way:
                it.end()
    return right
