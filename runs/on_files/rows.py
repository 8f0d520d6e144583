"""Frodo by rows: the bytes of the whole matrix, and A that is cut, damaged, too long or unread."""
import os
import pty
import select
import subprocess
import threading
import time

from .common import (INPUTS, OLD, OUTPUTS, SCHEMES, hold, mode, read, run, said, temporaries,
                     words32, write)

GIVEN = {"offer": INPUTS["offer"], "reply": [w for w in INPUTS["reply"] if w != "COINS"]}


class Rows:
    """The calls of a scheme by rows. What they give on the whole of A, both programs have said
    before."""

    def __init__(self, both, scheme, files, sizes):
        self.both, self.scheme, self.files, self.sizes = both, scheme, files, sizes
        self.q, self.all = SCHEMES[scheme][0], SCHEMES[scheme][3]
        self.n = round(self.all ** 0.5)
        both.put(files)
        given = {c: [w if files.get(w) != b"" else "none" for w in INPUTS[c]] for c in GIVEN}
        self.whole = {c: both("rows", c, scheme, given[c], sizes[c]) for c in GIVEN}

    def words(self, command, asked=None, given=None):
        asked = self.scheme if asked is None else asked
        given = [(given or {}).get(w, self.both.name(w)) for w in GIVEN[command]]
        out = [self.both.name(w + "1") for w in OUTPUTS[command]]
        return [self.both.program, "--replace", "rows", command, str(asked), *given, *out]

    def __call__(self, command, expected, status=1, asked=None, given=None, **more):
        """One call; the line that is expected, or nothing where it is accepted. After a refusal
        no output is there, after a fault all are as they were."""
        out = self.both.old(command)
        done = run(self.words(command, asked, given), umask=0, **more)
        what = f"rows {command} {self.scheme if asked is None else asked}: {done}"
        if expected is None:
            told, outputs = self.whole[command]
            hold("rows", done == (0, told, b"") and [read(x) for x in out] == outputs, what)
            closed = all(mode(x) == 0o600 for x in out[1:])
            hold("rows", closed, f"{what}: modes")
            return
        if status == 1:
            expected = said(expected)
        hold("rows", done == (status, b"", expected), f"{what} not {expected!r}")
        there = [read(x) for x in out if os.path.exists(x)]
        left = [] if status == 1 else [OLD] * len(out)
        hold("rows", there == left, f"{what}: the outputs")

    def ended(self, come, length):
        row, column = divmod(come, self.n)
        return (f"refusal=11 place=0 input=a row={row} column={column} length={length}"
                f" expected={self.all}\n").encode()


def good(rows):
    """From a file, from a stream, and from one that comes in pieces that are no rows."""
    a = rows.files["A"]

    def pieces(writer):
        with os.fdopen(writer, "wb", buffering=0) as out:
            for k in range(0, len(a), 9973):
                out.write(a[k:k + 9973])

    for command in GIVEN:
        rows(command, None)
        rows(command, None, given={"A": "-"}, input=a)
        reader, writer = os.pipe()
        feeder = threading.Thread(target=pieces, args=(writer,))
        feeder.start()
        rows(command, None, given={"A": "-"}, stdin=reader)
        feeder.join()
        os.close(reader)


def damaged(rows, rand):
    """Wrong numbers in any row, the last among them; A too short and too long, in files and in
    pipes that are cut; half a number; no A at all."""
    a, n, name = rows.files["A"], rows.n, rows.both.name
    bad = {"A": name("A.bad")}
    for command in GIVEN:
        for at in (0, n - 1, n, rand.randrange(rows.all), rows.all - n, rows.all - 1):
            for value in (rows.q, 2**32 - 1):
                row, column = divmod(at, n)
                line = (f"refusal=4 place={column} input=a row={row} column={column} value={value}"
                        f" below={rows.q}\n").encode()
                given = a[:4 * at] + words32([value]) + a[4 * at + 4:]
                write(name("A.bad"), given)
                rows(command, line, given=bad)
                rows(command, line, given={"A": "-"}, input=given)
        for come in (0, 1, n - 1, n, rand.randrange(rows.all), rows.all - 1):
            write(name("A.bad"), a[:4 * come])
            rows(command, rows.ended(come, come), given=bad)
            rows(command, rows.ended(come, come), given={"A": "-"}, input=a[:4 * come])
        rows(command, rows.ended(0, 0), given={"A": "none"})
        for more in (1, 2, n):
            write(name("A.bad"), a + bytes(4 * more))
            rows(command, rows.ended(rows.all, rows.all + more), given=bad)
            rows(command, rows.ended(rows.all, f"{rows.all + 1}.."), given={"A": "-"},
                 input=a + bytes(4 * more))
        for half in (1, 2, 4 * n + 3, len(a) - 1, len(a) + 1):
            given = (a + b"\0")[:half]
            line = f"{half} bytes are no whole number of 32-bit numbers\n".encode()
            write(name("A.bad"), given)
            rows(command, b"wimmostry: " + name("A.bad").encode() + b": " + line, 3, given=bad)
            rows(command, b"wimmostry: standard input: " + line, 3, given={"A": "-"}, input=given)


def others(rows):
    """The other inputs are tested before a row is read; schemes that have no rows."""
    largest, secret = SCHEMES[rows.scheme][1], SCHEMES[rows.scheme][4]
    name = rows.both.name
    for command, words in (("offer", ("S", "E")), ("reply", ("S1", "E1", "E2"))):
        for word in words:
            good, given = rows.files[word], {word: name("BAD"), "A": "none"}
            last = len(good) // 4 - 1
            write(name("BAD"), good[:-4] + words32([-largest - 1]))
            rows(command, (f"refusal=6 place={last} input={word.lower()} value={-largest - 1}"
                           f" largest={largest}\n").encode(), given=given)
            write(name("BAD"), good[:-4])
            rows(command, (f"refusal=2 place=0 input={word.lower()} length={last}"
                           f" expected={last + 1}\n").encode(), given=given)
        for asked in (0, 1, 6, 4294967295):
            rows(command, f"refusal=1 place=0 scheme={asked} expected=2..5\n".encode(), asked=asked)
    # blank: an opening that came, a message about to be sent
    opening = rows.files["OPENING"]
    write(name("BAD"), opening[:16] + bytes(len(opening) - 16))
    line = f"refusal=17 place=0 input=opening zeros={len(opening) - 16}\n".encode()
    rows("reply", line, given={"OPENING": name("BAD"), "A": "none"})
    write(name("BAD"), bytes(4 * secret))
    write(name("BAD2"), bytes(4 * secret))
    for command, s, e in (("offer", "S", "E"), ("reply", "S1", "E1")):
        line = f"refusal=17 place=0 output=message zero={s.lower()},{e.lower()}\n".encode()
        rows(command, line, given={s: name("BAD"), e: name("BAD2")})
    line = b"wimmostry: " + name("nothing").encode() + b": No such file or directory\n"
    rows("offer", line, 3, given={"A": name("nothing")})


def terminal(rows):
    """The progress is on a terminal alone, and is gone in the end."""
    out = rows.both.old("offer")
    main, side = pty.openpty()
    with open(rows.both.name("A"), "rb") as a:
        child = subprocess.Popen(rows.words("offer", given={"A": "-"}), stdin=a,
                                 stdout=subprocess.PIPE, stderr=side)
        os.close(side)
        said, ends = b"", time.monotonic() + 60
        while time.monotonic() < ends:
            if select.select([main], [], [], 0.1)[0]:
                try:
                    said += os.read(main, 65536)
                except OSError:  # the other side is closed
                    break
        text, _ = child.communicate()
    os.close(main)
    told, outputs = rows.whole["offer"]
    fine = child.returncode == 0 and text == told and [read(x) for x in out] == outputs
    hold("rows", fine, f"on a terminal: {child.returncode} {text!r}")
    steps = b"".join(b"\rrow %d of %d" % (k, rows.n) for k in range(0, rows.n + 1, 16))
    hold("rows", said == steps + b"\r\x1b[K", f"the progress: {said[:80]!r}")


def rows(both, scheme, files, sizes, rand):
    """Frodo alone has rows; the smallest has all the damage."""
    if scheme < 2:
        return
    calls = Rows(both, scheme, files, sizes)
    good(calls)
    others(calls)
    if scheme == 2:
        damaged(calls, rand)
        terminal(calls)
    hold("rows", temporaries(both.folder) == [], f"left by rows: {temporaries(both.folder)}")
