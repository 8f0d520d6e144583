"""What becomes of outputs: clashes, modes, whole answers or none, streams."""
import fcntl
import os
import pty
import resource
import signal
import subprocess
import time

from .common import OLD, SCHEMES, device, hold, mode, read, refused, run, temporaries, write

ENDINGS = (signal.SIGTERM, signal.SIGINT, signal.SIGHUP)


def clash(both, scheme, files):
    name, inside = both.name, os.path.join(both.folder, "inside")
    os.mkdir(inside)
    os.link(name("S"), name("S.hard"))
    os.symlink(name("S"), name("S.soft"))
    write(name("BOTH"), OLD)
    os.link(name("BOTH"), name("BOTH.hard"))
    os.symlink("BOTH", name("BOTH.soft"))
    os.symlink("nowhere", name("dangling"))
    os.mkfifo(name("pipe"))
    # what /dev/stdout is
    os.symlink("/proc/self/fd/1", name("stdout"))
    os.symlink(both.folder, name("inside/up"))
    before = {w: read(name(w)) for w in ("S", "REPLY", "OPENING", "BOTH")}
    two = lambda a, b: both.words("reply", scheme, out={"MESSAGE": a, "KEY": b})
    one = lambda k, s=name("S"): both.words("finish", scheme, {"S": s}, {"KEY": k})
    for given, status, said in [
        # two outputs
        (two(name("BOTH"), name("BOTH")), 2, "MESSAGE and KEY are one file"),
        (two(name("BOTH"), name("inside/../BOTH")), 2, "MESSAGE and KEY are one file"),
        (two(name("BOTH"), name("inside/up/BOTH")), 2, "MESSAGE and KEY are one file"),
        (two(name("BOTH"), name("BOTH.hard")), 2, "MESSAGE and KEY are one file"),
        (two(name("BOTH"), name("BOTH.soft")), 2, "MESSAGE and KEY are one file"),
        (two(name("new"), name("new")), 2, "MESSAGE and KEY are one file"),
        (two(name("new"), name("inside/up/new")), 2, "MESSAGE and KEY are one file"),
        (two("-", "-"), 2, "MESSAGE and KEY are both -"),
        # an output and an input
        (one(name("S")), 2, "the output KEY is the input S"),
        (one(name("REPLY")), 2, "the output KEY is the input REPLY"),
        (one(name("S.hard")), 2, "the output KEY is the input S"),
        (one(name("S.soft")), 2, "the output KEY is the input S"),
        (one(name("S"), name("S.soft")), 2, "the output KEY is the input S"),
        (two(name("OPENING"), name("new")), 2, "the output MESSAGE is the input OPENING"),
        (both.words("finish", scheme, {"S": "-", "REPLY": "-"}), 2, "REPLY and S are both -"),
        # what is no plain file
        (one(name("BOTH.soft")), 3, "is a symbolic link"),
        (one(name("dangling")), 3, "is a symbolic link"),
        (one(name("inside")), 3, "is a folder"),
        (one(name("pipe")), 3, "is a pipe"),
        (one(name("stdout")), 3, "or - for standard output"),
        *([(one(name("device")), 3, "is a device")] if device(name("device")) else []),
        (one(name("nowhere/x")), 3, "No such file"),
    ]:
        told, text, error = run(given, stdin=subprocess.DEVNULL)
        fine = told == status and text == b"" and error.startswith(b"wimmostry: ")
        fine = fine and error.count(b"\n") == 1
        hold("clash", fine and said.encode() in error, f"{given[1:]}: {told} {text!r} {error!r}")
        same = all(read(name(w)) == data for w, data in before.items())
        hold("clash", same and not os.path.exists(name("new")), f"{given[1:]} touches a file")
    # standard output into a file: the answer's line must not get into it
    for word, status in ((name("stdout"), 3), ("/dev/fd/1", 3), ("/proc/self/fd/1", 3)):
        with open(name("o.bin"), "wb") as out:
            told, _, error = run(one(word), stdout=out)
        hold("clash", told == status and read(name("o.bin")) == b"", f"{word}: {told} {error!r}")
    # streams that are the same file as another word
    for given, stream in ((one(name("S"), "-"), {"stdin": "S"}), (one("-"), {"stdout": "S"}),
                          (two("-", name("BOTH")), {"stdout": "BOTH"})):
        opened = {k: open(name(w), "rb" if k == "stdin" else "ab") for k, w in stream.items()}
        told, _, error = run(given, **opened)
        same = all(read(name(w)) == data for w, data in before.items())
        hold("clash", told == 2 and same, f"{given[1:]} {stream}: {told} {error!r}")
    # an input may be a link; a secret is not lent twice
    told, text, error = run(one(name("new"), name("S.soft")))
    hold("clash", told == 0 and mode(name("new")) == 0o600, f"an input by a link: {error!r}")
    for twice in ("S", "S.soft"):
        told, text, error = run(both.words("offer", scheme, {"E": name(twice)}))
        fine = told == 2 and b"S and E are one file" in error
        hold("clash", fine, f"one secret twice: {error!r}")
    # nor is an output put where a file is, without being asked
    for command in ("offer", "reply", "finish"):
        old = both.old(command)
        words = both.words(command, scheme)
        done = run([words[0], *words[2:]])
        fine = done[:2] == (3, b"") and b"1: is there already: " in done[2]
        hold("clash", fine and all(read(x) == OLD for x in old), f"{command} over files: {done}")
    for w in ("new", "pipe", "dangling", "BOTH", "BOTH.hard", "BOTH.soft", "S.hard", "S.soft",
              "inside/up", "o.bin", "stdout", "device"):
        if os.path.lexists(name(w)):
            os.remove(name(w))
    os.rmdir(inside)


def modes(both, scheme, files):
    for word, size in (("KEY1", SCHEMES[scheme][2]), ("DIGEST1", 32)):
        closed(both, scheme, both.name(word), size)
    # a message is for others too, as far as the umask goes
    for mask in (0, 0o022, 0o077):
        os.remove(both.name("MESSAGE1")) if os.path.exists(both.name("MESSAGE1")) else None
        run(both.words("offer", scheme), umask=mask)
        hold("modes", mode(both.name("MESSAGE1")) == 0o666 & ~mask, f"a message under {mask:o}")


def closed(both, scheme, name, size):
    """An output of finish, of this size, is for nobody else, whatever stood there; and what stood
    there is overwritten, also where the call is refused."""
    for turned in (False, True):
        given = {"S": "none"} if turned else {}
        write(name, OLD)
        os.chmod(name, 0o666)
        if os.getuid() == 0:
            os.chown(name, 65534, 65534)
        with open(name, "rb") as handle:
            status, text, error = run(both.words("finish", scheme, given), umask=0)
            hold("modes", handle.read() == bytes(len(OLD)), "what stood there is not overwritten")
        if turned:
            hold("modes", status == 1 and not os.path.exists(name), f"refused: {status} {error!r}")
            continue
        there = os.stat(name)
        fine = there.st_mode & 0o777 == 0o600 and there.st_size == size
        fine = fine and there.st_uid == os.getuid() and status == 0
        hold("modes", fine, f"a key over a file of mode 666: {there} {text!r}")
        os.remove(name)
        status, text, error = run(both.words("finish", scheme, given), umask=0)
        hold("modes", mode(name) == 0o600 and status == 0, f"a new key: {mode(name):o} {text!r}")


def full_pipe():
    """A pipe into which nothing more goes."""
    reader, writer = os.pipe()
    # the name of this number is new in Python 3.10
    fcntl.fcntl(writer, getattr(fcntl, "F_SETPIPE_SZ", 1031), 4096)
    os.set_blocking(writer, False)
    try:
        while True:
            os.write(writer, b"x" * 4096)
    except BlockingIOError:
        os.set_blocking(writer, True)
    return reader, writer


def endable():
    """The ending signals as they are, though this run itself may have been started with some
    ignored, as in the background."""
    for ending in ENDINGS:
        signal.signal(ending, signal.SIG_DFL)


def started(words, **more):
    given = {"stdin": subprocess.DEVNULL, "stdout": subprocess.PIPE, "preexec_fn": endable, **more}
    return subprocess.Popen(words, stderr=subprocess.PIPE, **given)


def waited(test):
    end = time.time() + 20
    while time.time() < end:
        if found := test():
            return found
        time.sleep(0.01)
    return test()


def whole(both, scheme, files):
    folder, name = both.folder, both.name
    size, key = SCHEMES[scheme][9], SCHEMES[scheme][2]
    # a key that cannot be written: its message is not left behind
    for out in ({"KEY": name("nowhere/k")}, {"MESSAGE": name("nowhere/m")}):
        old = both.old("reply")
        status, text, error = run(both.words("reply", scheme, out=out))
        fine = status == 3 and text == b"" and b"/nowhere/" in error and error.count(b"\n") == 1
        hold("whole", fine and all(read(x) == OLD for x in old),
             f"{out}: {status} {text!r} {error!r}")
        for x in old:
            os.remove(x)
        run(both.words("reply", scheme, out=out))
        hold("whole", not any(map(os.path.exists, old)), f"{out}: a part of the answer is left")
    # a drive that is full in the middle of a message
    for limit in (0, 100):
        old = both.old("reply")
        bound = lambda: resource.setrlimit(resource.RLIMIT_FSIZE, (limit, limit))
        status, text, error = run(both.words("reply", scheme), preexec_fn=bound)
        fine = status == 3 and text == b"" and b"MESSAGE1: not written: " in error
        hold("whole", fine and all(read(x) == OLD for x in old),
             f"limit {limit}: {status} {text!r} {error!r}")
        hold("whole", temporaries(folder) == [], f"limit {limit}: {temporaries(folder)}")
    # a reader that goes away
    reader, writer = os.pipe()
    os.close(reader)
    old = both.old("reply")
    status, _, error = run(both.words("reply", scheme, out={"MESSAGE": "-"}), stdout=writer)
    os.close(writer)
    fine = status == 3 and b"standard output: " in error and read(name("KEY1")) == OLD
    hold("whole", fine and temporaries(folder) == [], f"no reader: {status} {error!r}")
    # ended while an input is still to come
    for ending in ENDINGS:
        both.old("finish")
        words = both.words("finish", scheme, {"S": "-"})
        with started(words, stdin=subprocess.PIPE) as program:
            waited(lambda: open(f"/proc/{program.pid}/comm").read() == "wimmostry\n")
            program.send_signal(ending)
            status = program.wait(20)
        fine = status == -ending and read(name("KEY1")) == OLD
        hold("whole", fine and temporaries(folder) == [], f"{ending!r} while reading: {status}")
    # ended while an output waits for its reader: the fresh files of key and digest are there,
    # closed to others, and go away
    for ending in ENDINGS:
        both.old("reply")
        reader, writer = full_pipe()
        words = both.words("reply", scheme, out={"MESSAGE": "-"})
        with started(words, stdout=writer, umask=0) as program:
            waited(lambda: len(temporaries(folder)) == 2)
            found = [os.path.join(folder, x) for x in temporaries(folder)]
            fine = len(found) == 2 and all(mode(x) == 0o600 for x in found)
            hold("whole", fine, f"while writing: {found}")
            # until it waits for the pipe, a file may still be empty
            waited(lambda: sum(os.stat(x).st_size for x in found) == key + 32)
            handles = [open(x, "rb") for x in found]
            program.send_signal(ending)
            status = program.wait(20)
        os.close(reader)
        os.close(writer)
        fine = status == -ending and read(name("KEY1")) == OLD
        hold("whole", fine and temporaries(folder) == [],
             f"{ending!r} while writing: {status} {temporaries(folder)}")
        wiped = b"".join(x.read() for x in handles)
        hold("whole", wiped == bytes(key + 32), f"what was written stays: {wiped!r}")
        for handle in handles:
            handle.close()
    # a hangup that whoever started it wants ignored
    both.old("reply")
    reader, writer = full_pipe()
    words = both.words("reply", scheme, out={"MESSAGE": "-"})
    ignore = lambda: signal.signal(signal.SIGHUP, signal.SIG_IGN)
    with started(words, stdout=writer, preexec_fn=ignore) as program:
        os.close(writer)
        waited(lambda: temporaries(folder))
        program.send_signal(signal.SIGHUP)
        message = b""
        while piece := os.read(reader, 65536):
            message += piece
        status = program.wait(20)
    os.close(reader)
    fine = status == 0 and len(message) == 4096 + size and len(read(name("KEY1"))) == key
    hold("whole", fine and temporaries(folder) == [], f"a hangup that is ignored: {status}")


def streams(both, scheme, files):
    name, key = both.name, SCHEMES[scheme][2]
    _, lines, _ = run(both.words("finish", scheme))
    expected = read(name("KEY1"))
    # out of standard output comes the key and nothing else
    status, text, error = run(both.words("finish", scheme, out={"KEY": "-"}))
    hold("streams", (status, text, error) == (0, expected, lines),
         f"- as output: {text!r} {error!r}")
    with open(name("o.bin"), "wb") as out:
        status, _, error = run(both.words("finish", scheme, out={"KEY": "-"}), stdout=out)
    hold("streams", status == 0 and read(name("o.bin")) == expected, f"- into a file: {error!r}")
    given = both.words("finish", scheme, {"S": "-"}, {"KEY": "-"})
    status, text, error = run(given, input=files["S"])
    hold("streams", (status, text) == (0, expected), f"- both ways: {text!r} {error!r}")
    message = files["REPLY"]
    status, text, error = run(both.words("reply", scheme, out={"MESSAGE": "-"}))
    lines = b"message_written=%d\nkey_written=%d\ndigest_written=32\n" % (len(message), key)
    fine = (status, text, error) == (0, message, lines) and read(name("KEY1")) == expected
    hold("streams", fine, f"a message to -: {error!r}")
    # a refusal writes nothing there
    status, text, error = run(both.words("finish", scheme, {"S": "none"}, {"KEY": "-"}))
    expected = f"refusal=2 place=0 input=s length=0 expected={SCHEMES[scheme][4]}".encode()
    hold("streams", refused((status, text, error), expected),
         f"a refusal to -: {text!r} {error!r}")
    status, text, error = run(both.words("finish", scheme, {"S": "-"}), input=files["S"][:13])
    hold("streams", status == 3 and b"standard input: 13 bytes" in error,
         f"13 bytes of a stream: {error!r}")
    # no secret on a terminal
    outer, inner = pty.openpty()
    finish = both.words("finish", scheme, out={"KEY": "-"})
    for given in (finish, [both.box, "draw", "1", "s", "-"]):
        status, _, error = run(given, stdout=inner)
        hold("streams", status == 2 and b"standard output is a terminal" in error,
             f"a terminal: {status} {error!r}")
    os.set_blocking(outer, False)
    try:
        hold("streams", os.read(outer, 10) == b"", "something came to the terminal")
    except BlockingIOError:
        pass
    os.close(inner)
    os.close(outer)
    os.remove(name("o.bin"))
