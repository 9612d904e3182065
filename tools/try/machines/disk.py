"""A small disk for the store of a machine, in memory, that can be made full or read-only. It takes root."""
import os
import subprocess

SIZE = '512k'


def run(*words):
    subprocess.run(words, check=True, stderr=subprocess.DEVNULL)


class Disk:
    def __init__(self, path):
        self.path, self.store = path, os.path.join(path, 'store')
        os.makedirs(path)
        run('mount', '-t', 'tmpfs', '-o', f'size={SIZE},mode=700', 'plc', path)

    def fill(self):
        with open(os.path.join(self.path, 'filled'), 'wb', buffering=0) as file:
            try:
                while True:
                    file.write(bytes(4096))
            except OSError:
                pass

    def free(self):
        os.remove(os.path.join(self.path, 'filled'))

    def forbid_writes(self):
        run('mount', '--bind', self.store, self.store)
        run('mount', '-o', 'remount,bind,ro', self.store)

    def allow_writes(self):
        run('umount', '-l', self.store)

    def close(self):
        subprocess.run(['umount', '-l', self.path], stderr=subprocess.DEVNULL)


def are_to_be_had(path):
    """Whether there can be disks: root may mount one."""
    try:
        Disk(path).close()
        return True
    except (OSError, subprocess.CalledProcessError):
        return False
