"""Each command of a link killed at each system call that changes a file."""
import os
import shutil
import subprocess

from links.disk import Disk
from on_files.common import counts, hold, read

KILLED = -9
# what changes a file or brings it to the disk; what is opened and made is seen at the next of them
CHANGES = ("mkdir", "write", "fsync", "rename", "renameat2", "link", "linkat", "unlink",
           "fchmod")
SEEN = CHANGES + ("openat", "close", "lseek", "renameat", "unlinkat")


def struck(words, log, call, k):
    """A command, killed at its k-th such call where it makes so many: its status, what it told on
    both ways, and its calls. (strace itself ends by the signal, as the program does.)"""
    done = subprocess.run(
        ["strace", "-o", log, "-xx", "-s", "99999", "-e", "trace=" + ",".join(SEEN),
         "-e", f"inject={call}:signal=SIGKILL:when={k}", *words],
        stdin=subprocess.DEVNULL, capture_output=True, text=True)
    with open(log) as f:
        return done.returncode, done.stdout, done.stderr, f.read()


class Link:
    """Both ends of a link by NewHope in the folders left and right of a room."""

    def __init__(self, program, room):
        self.program, self.room = program, room

    def name(self, word):
        return os.path.join(self.room, word)

    def words(self, step):
        """The command of a step; what was said is what status says."""
        end, action = step
        folder, peer = self.name(end), self.name("right" if end == "left" else "left")
        more = {"open": ["newhope"], "answer": [peer + "/opening"], "finish": [peer + "/reply"],
                "close": []}
        if action == "key":
            more["key"] = [self.status(peer).get("say", "none"), self.name(end + ".key")]
        return [self.program, "link", action, folder, *more[action]]

    def status(self, folder):
        done = subprocess.run([self.program, "link", "status", folder], capture_output=True,
                              text=True)
        return dict(line.split("=", 1) for line in done.stdout.splitlines())

    def run(self, step):
        return subprocess.run(self.words(step), capture_output=True, text=True)


STEPS = [("left", "open"), ("right", "answer"), ("left", "finish"), ("left", "key"),
         ("right", "key"), ("left", "close"), ("right", "close")]


def prepared(link, before):
    """The room in front of each step."""
    for i, step in enumerate(STEPS):
        shutil.copytree(link.room, os.path.join(before, str(i)))
        done = link.run(step)
        hold("every", done.returncode == 0 and done.stderr == "", f"{step}: {done}")


def restored(link, before, i):
    shutil.rmtree(link.room)
    shutil.copytree(os.path.join(before, str(i)), link.room)


def said(lines):
    return [line for line in lines.splitlines() if line.startswith(("say=", "stage=", "send="))]


def goes_on(link, i, told, what):
    """The step is given again and the link goes on to its end: what was told holds."""
    (end, action), key = STEPS[i], link.name(STEPS[i][0] + ".key")
    if action == "key" and os.path.exists(key):
        hold("every", len(read(key)) == 32, f"{what}: half a key")
        os.remove(key)
    elif action == "key":
        hold("every", told == "", f"{what}: a key that was told is lost")
    done = link.run(STEPS[i])
    if action == "open" and done.returncode == 1:
        fine = "refusal=10 place=0 stage=offered" in done.stderr and "send=" in done.stdout
        hold("every", fine, f"{what}, again: {done}")
    else:
        hold("every", done.returncode == 0, f"{what}, again: {done}")
        hold("every", action == "close" or said(told) in ([], said(done.stdout)),
             f"{what}: told {told!r} and then {done.stdout!r}")
    for step in STEPS[i + 1:]:
        done = link.run(step)
        hold("every", done.returncode == 0, f"{what}, then {step}: {done}")
    keys = [read(link.name(x)) for x in ("left.key", "right.key") if os.path.exists(link.name(x))]
    hold("every", len(keys) == 2 and keys[0] == keys[1], f"{what}: the keys {keys}")
    for end in ("left", "right"):
        left = set(os.listdir(link.name(end))) - {"session", "trace"}
        hold("every", not left, f"{what}: {end} has {left}")
    trace = link.name("left/trace")
    exchanges = read(trace).count(b"scheme=") if os.path.exists(trace) else 0
    hold("every", exchanges <= 1, f"{what}: {exchanges} exchanges in the trace")


def run(program, folder):
    room, before = os.path.join(folder, "room"), os.path.join(folder, "before")
    os.mkdir(room)
    link = Link(program, room)
    prepared(link, before)
    for i, step in enumerate(STEPS):
        for call in CHANGES:
            for k in range(1, 200):
                restored(link, before, i)
                disk = Disk(room)
                status, told, _, log = struck(link.words(step), room + ".log", call, k)
                what = f"{step} killed at {call} {k}"
                if status == KILLED:
                    counts["kills by strace"] = counts.get("kills by strace", 0) + 1
                    goes_on(link, i, told, what)
                    disk.replay(log).restore()
                    goes_on(link, i, told, what + ", not synced")
                    continue
                if call == CHANGES[0]:
                    # it has told its lines, and then the power is cut
                    disk.replay(log).restore()
                    goes_on(link, i, told, f"{step} done, not synced")
                break
