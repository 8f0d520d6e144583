"""Two ends over a bad way, with commands that are killed at random moments."""
import os
import re
import subprocess
import time

from links.disk import Disk
from links.every import CHANGES, KILLED, struck
from on_files.common import counts, hold, read, write

LONGEST = 40  # tries of one command, after which something is wrong


class End:
    """One end of a link, and all that its commands told of it."""

    def __init__(self, program, folder, name, rand, cuts):
        """Where there are power cuts, by strace, a command in eight has one."""
        self.program, self.rand, self.room, self.cuts = program, rand, folder, cuts
        self.folder = os.path.join(folder, name)
        self.keys = os.path.join(folder, name + ".key")
        self.said, self.finished, self.tries = set(), 0, 0

    def command(self, *words):
        """A command, given again until it is not killed; its status and lines."""
        for _ in range(LONGEST):
            status, text, error = self.once(*words)
            for say in re.findall(r"^say=(.*)$", text, re.M):
                self.said.add(say)
            if status != KILLED:
                return status, text, error
        hold("random", False, f"{words} is killed again and again")
        return KILLED, "", ""

    def cut(self, *words):
        """The power is cut at one of the calls that change a file, or once the command has told its
        lines: what was not brought to the disk is thrown away."""
        disk = Disk(self.room)
        call, k = self.rand.choice(CHANGES), self.rand.randint(1, 9)
        *told, log = struck([self.program, "link", *words], self.room + ".log", call, k)
        disk.replay(log).restore()
        counts["power cuts"] = counts.get("power cuts", 0) + 1
        return told

    def once(self, *words):
        self.tries += 1
        if self.cuts and self.rand.random() < 0.125:
            return self.cut(*words)
        program = subprocess.Popen([self.program, "link", *words], stdin=subprocess.DEVNULL,
                                   stdout=subprocess.PIPE, stderr=subprocess.PIPE, text=True)
        if self.rand.random() < 0.4:
            # a command takes some milliseconds
            time.sleep(self.rand.random() ** 2 * 0.05)
            program.kill()
        text, error = program.communicate(timeout=60)
        counts["kills"] = counts.get("kills", 0) + (program.returncode == KILLED)
        return program.returncode, text, error

    def lines(self):
        """What status says of it: nobody is killed here. No folder is an idle link."""
        if not os.path.exists(self.folder):
            return {"stage": "idle"}
        done = subprocess.run([self.program, "link", "status", self.folder], capture_output=True,
                              text=True)
        return dict(line.split("=", 1) for line in done.stdout.splitlines())


class Way:
    """A way that does not always bring what was sent."""

    def __init__(self, folder, rand):
        self.rand, self.name, self.before = rand, os.path.join(folder, "came"), []

    def bring(self, message):
        """A file with what came."""
        self.before.append(message)
        kind = self.rand.choice(["good"] * 4 + ["damaged", "cut", "longer", "lost", "old", "zeros"])
        data = bytearray(message)
        if kind == "damaged":
            for _ in range(self.rand.randint(1, 3)):
                data[self.rand.randrange(len(data))] ^= 1 << self.rand.randrange(8)
        elif kind == "cut":
            del data[self.rand.randrange(len(data)):]
        elif kind == "longer":
            data += bytes(self.rand.randint(1, 9))
        elif kind == "lost":
            data.clear()
        elif kind == "old":
            data = bytearray(self.rand.choice(self.before))
        elif kind == "zeros":
            data = bytearray(len(data))
        counts[kind] = counts.get(kind, 0) + 1
        write(self.name, bytes(data))
        return self.name


def begun(opener, scheme):
    """The opening, sent by an end that is idle before."""
    status, text, error = opener.command("open", opener.folder, str(scheme))
    # where the first run was killed behind its last step, the second says so and names the file
    fine = status == 0 or (status == 1 and "refusal=10 place=0 stage=offered" in error)
    hold("random", fine and f"send={opener.folder}/opening\n" in text, f"open: {status} {error}")
    return read(os.path.join(opener.folder, "opening"))


def taken(end, way, action, message, stage):
    """A message is brought again and again until the end is keyed: whether it came to that. It may
    be a wrong one that the end could not tell from a right one; then the other end takes no reply."""
    for _ in range(LONGEST):
        status, text, error = end.command(action, end.folder, way.bring(message))
        if status == 0:
            hold("random", "stage=keyed\n" in text, f"{action}: {text}")
            return True
        fine = status == 1 and error.startswith("refusal=") or "left by a run" in error
        hold("random", fine, f"{action}: {status} {error}")
        if "refusal=10 " in error:
            # it is keyed already, by the message that came before: the run was killed before it told
            hold("random", end.lines()["stage"] == "keyed", f"{action}: {error}")
            return True
        hold("random", end.lines()["stage"] == stage, f"{action} moved: {error}")
    return False


def released(end, heard):
    """The key, if the end gives one; twice, into two files."""
    keys = []
    for name in (end.keys, end.keys + "2"):
        for _ in range(LONGEST):
            status, text, error = end.command("key", end.folder, heard, name)
            if os.path.exists(name):
                hold("random", len(read(name)) == 32, f"key: {len(read(name))} bytes")
            # the run before was killed when the file was in its place
            if status != 3:
                break
            os.remove(name)
        if status == 1:
            hold("random", error.endswith("heard=differs\n") and not os.path.exists(name), error)
        else:
            hold("random", status == 0, f"key: {status} {error}")
            keys.append(read(name))
            os.remove(name)
    hold("random", len(keys) in (0, 2) and len(set(keys)) < 2, "a key that was released is lost")
    return keys[0] if keys else None


def link(opener, replier, way, scheme):
    """One link; whether both have a key."""
    for end in (opener, replier):
        end.said.clear()
    opening = begun(opener, scheme)
    done = taken(replier, way, "answer", opening, "idle")
    hold("random", done, "answer never came to an end")
    reply = read(os.path.join(replier.folder, "reply"))
    both = taken(opener, way, "finish", reply, "offered") and keyed(opener, replier)
    for end in (opener, replier):
        status, text, error = end.command("close", end.folder)
        hold("random", status == 0 and "stage=idle\n" in text, f"close: {status} {error}")
        left = set(os.listdir(end.folder)) - {"session", "trace"}
        hold("random", not left and not any(read(os.path.join(end.folder, "session"))), f"{left}")
    return both


def keyed(opener, replier):
    """Both are keyed: each says its half, and types the other's."""
    opener.finished += 1
    says = [end.lines()["say"] for end in (opener, replier)]
    for end, say in zip((opener, replier), says):
        hold("random", end.said <= {say}, f"two keys are told for one: {end.said} and {say}")
    keys = [released(opener, says[1]), released(replier, says[0])]
    both = None not in keys
    hold("random", not both or keys[0] == keys[1], "two different keys were released")
    hold("random", both or keys == [None, None], f"one of two: {keys}")
    return both


def run(program, folder, links, rand, cuts):
    room = os.path.join(folder, "room")
    os.mkdir(room)
    ends = [End(program, room, name, rand, cuts) for name in ("left", "right")]
    way, made = Way(room, rand), 0
    while made < links:
        # either end may open; another scheme each time
        opener, replier = rand.sample(ends, 2)
        counts["begun"] = counts.get("begun", 0) + 1
        made += link(opener, replier, way, made % 6)
    counts["links"] = made
    for end in ends:
        trace = os.path.join(end.folder, "trace")
        exchanges = read(trace).count(b"scheme=") if os.path.exists(trace) else 0
        hold("random", exchanges <= min(end.finished, 2048), f"{exchanges} of {end.finished}")
        done = subprocess.run([program, "trace", trace], capture_output=True) if exchanges else None
        hold("random", done is None or done.returncode == 0, f"the trace: {done}")
