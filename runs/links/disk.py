"""What a drive holds after a power cut: of the folders before a run and of the run's system calls,
as strace wrote them down, all that was brought to the disk and nothing else."""
import os
import re
import shutil

CALL = re.compile(r"^(\w+)\((.*)\) += (\d+)")


def text(word):
    """A string that strace has in hexadecimal."""
    return bytes.fromhex(word.strip().strip('"').replace("\\x", ""))


class Disk:
    def __init__(self, root):
        """The folders below a root, as they are: all of it is on the disk."""
        self.root, self.next = os.fsencode(root), 0
        self.names, self.data, self.folders, self.open = {}, {}, {self.root}, {}
        for folder, folders, names in os.walk(self.root):
            self.folders |= {os.path.join(folder, x) for x in folders}
            for name in names:
                with open(os.path.join(folder, name), "rb") as f:
                    self.names[os.path.join(folder, name)] = self.fresh(f.read())
        self.safe_names, self.safe_folders = dict(self.names), set(self.folders)
        self.safe_data = {k: bytes(v) for k, v in self.data.items()}

    def fresh(self, data=b""):
        self.next += 1
        self.data[self.next] = bytearray(data)
        return self.next

    def replay(self, log):
        """The calls of a run that was killed; one that it was killed in gave nothing."""
        for line in log.splitlines():
            if found := CALL.match(line):
                name, given, result = found.groups()
                act = getattr(self, name, None)
                if act:
                    act(given.split(", "), int(result))
        return self

    # ---- the calls

    def openat(self, given, handle):
        path = text(given[1])
        if path in self.folders:
            self.open[handle] = path
        elif path.startswith(self.root):
            if path not in self.names:
                self.names[path] = self.fresh()
            self.open[handle] = [self.names[path], 0]

    def close(self, given, _):
        self.open.pop(int(given[0]), None)

    def lseek(self, given, result):
        at = self.open.get(int(given[0]))
        if isinstance(at, list):
            at[1] = result

    def write(self, given, n):
        at = self.open.get(int(given[0]))
        if isinstance(at, list):
            data, start = self.data[at[0]], at[1]
            data[start:start + n] = text(given[1])[:n]
            at[1] += n

    def fsync(self, given, _):
        at = self.open.get(int(given[0]))
        if isinstance(at, list):
            self.safe_data[at[0]] = bytes(self.data[at[0]])
        elif at is not None:
            inside = lambda path: os.path.dirname(path) == at
            self.safe_names = {k: v for k, v in self.safe_names.items() if not inside(k)}
            self.safe_names |= {k: v for k, v in self.names.items() if inside(k)}
            self.safe_folders |= {x for x in self.folders if inside(x)}

    def rename(self, given, _):
        self.names[text(given[1])] = self.names.pop(text(given[0]))

    def renameat2(self, given, _):
        self.rename([given[1], given[3]], 0)

    renameat = renameat2

    def link(self, given, _):
        self.names[text(given[1])] = self.names[text(given[0])]

    def linkat(self, given, _):
        self.link([given[1], given[3]], 0)

    def unlink(self, given, _):
        self.names.pop(text(given[0]), None)

    def unlinkat(self, given, _):
        self.unlink([given[1]], 0)

    def mkdir(self, given, _):
        self.folders.add(text(given[0]))

    # ---- afterwards

    def restore(self):
        """The folders with what is on the disk. A file whose bytes were not brought there is
        empty."""
        for name in os.listdir(self.root):
            path = os.path.join(self.root, name)
            shutil.rmtree(path) if os.path.isdir(path) else os.remove(path)
        for folder in sorted(self.safe_folders - {self.root}):
            os.mkdir(folder, 0o700)
        for path, number in self.safe_names.items():
            if os.path.dirname(path) in self.safe_folders:
                handle = os.open(path, os.O_WRONLY | os.O_CREAT, 0o600)
                os.write(handle, self.safe_data.get(number, b""))
                os.close(handle)
