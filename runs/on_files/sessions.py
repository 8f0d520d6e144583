"""Sessions in files: every call in every stage, close and show, and what becomes of the file."""
import os
import re
import shutil
import signal

from .common import (INPUTS, OLD, OUTPUTS, SCHEMES, hold, mode, read, refused, run, temporaries,
                     write)
from .outputs import ENDINGS, full_pipe, started, waited

BYTES = 130
STAGES = {0: "idle", 1: "offered", 2: "keyed"}
BEGINS = ("offer", "reply")


def laid(stage, scheme, key=b""):
    return bytes([stage, scheme]) + key + bytes(BYTES - 2 - len(key))


def written(name):
    """Which file it is, and when it was written."""
    there = os.stat(name)
    return there.st_ino, there.st_mtime_ns


def lines(link):
    """What is told of a session."""
    scheme = f"scheme={link[1]}\n" if link[0] else ""
    return f"stage={STAGES[link[0]]}\n{scheme}".encode()


class Links:
    """The calls of a scheme on a session's file. What they give without one, both programs have
    said before; the table of the stages is worked out here."""

    def __init__(self, both, scheme, files, sizes):
        self.both, self.scheme, self.sizes = both, scheme, sizes
        self.link = both.name("LINK")
        both.put(files)
        self.given = {c: [w if files.get(w) != b"" else "none" for w in INPUTS[c]] for c in OUTPUTS}
        self.plain = {c: both("session", c, scheme, self.given[c], sizes[c])
                      for c in ("offer", "reply", "finish")}

    def words(self, command, asked=None, given=None, out=None):
        asked = self.scheme if asked is None else asked
        before = [self.both.program, "--replace", "session", self.link]
        return before + self.both.words(command, asked, given, out)[2:]

    def moved(self, command):
        """The session after an accepted call."""
        _, outputs = self.plain[command]
        if command == "offer":
            return laid(1, self.scheme)
        return laid(2, self.scheme, outputs[-2])

    def __call__(self, link, command, asked, expected, given=None):
        """The call on these bytes, or on no file; the line of a refusal that is expected, or
        nothing where the call is accepted."""
        out = self.both.old(command)
        if os.path.exists(self.link):
            os.remove(self.link)
        if link is not None:
            write(self.link, link)
            before = written(self.link)
        status, text, error = run(self.words(command, asked, given), umask=0)
        what = f"session {command} {asked} on {link and link[:4]}: {status} {text!r} {error!r}"
        if expected is None:
            told, outputs = self.plain[command]
            after = self.moved(command)
            fine = (status, text, error) == (0, told + lines(after), b"")
            hold("session", fine and [read(x) for x in out] == outputs, what)
            fine = read(self.link) == after and mode(self.link) == 0o600
            hold("session", fine, f"{what}: the file")
            return
        hold("session", refused((status, text, error), expected), f"{what} not {expected!r}")
        # after 10 the outputs are as they were, after another refusal none is there
        left = [OLD] * len(out) if expected.startswith(b"refusal=10 ") else []
        there = [read(x) for x in out if os.path.exists(x)]
        hold("session", there == left, f"{what}: the outputs")
        # what is not written is not touched
        kept = not os.path.exists(self.link) if link is None else (
            read(self.link) == link and written(self.link) == before)
        hold("session", kept, f"{what}: the file was touched")


def ten(detail):
    return f"refusal=10 place=0 {detail}\n".encode()


def stages(links):
    """Each call in each stage, with each scheme's number; and refused for other reasons."""
    scheme, other = links.scheme, (links.scheme + 1) % 6
    key = links.plain["reply"][1][1]
    states = [None, laid(0, 0), laid(1, scheme), laid(1, other), laid(2, scheme, key),
              laid(2, other, b"k")]
    for link in states:
        stage, opened = (0, 0) if link is None else link[:2]
        for command in ("offer", "reply", "finish"):
            for asked in (scheme, other, 6, 4294967295):
                begins = command in BEGINS
                if link is None and not begins:
                    continue
                if stage != (0 if begins else 1):
                    needed = "idle" if begins else "offered"
                    links(link, command, asked, ten(f"stage={STAGES[stage]} expected={needed}"))
                elif not begins and asked != opened:
                    links(link, command, asked,
                          ten(f"stage=offered scheme={asked} expected={opened}"))
                elif asked > 5:
                    line = f"refusal=1 place=0 scheme={asked} expected=0..5\n".encode()
                    links(link, command, asked, line)
                elif asked == scheme:
                    links(link, command, asked, None)
    secret = SCHEMES[scheme][4]
    line = f"refusal=2 place=0 input=s length=0 expected={secret}\n".encode()
    links(laid(0, 0), "offer", scheme, line, {"S": "none"})
    links(laid(1, scheme), "finish", scheme, line, {"S": "none"})
    links(laid(2, scheme, key), "finish", scheme, ten("stage=keyed expected=offered"),
          {"S": "none"})


def no_stage(links):
    """Files that are in no stage: each call is refused and touches nothing, show says so."""
    scheme = links.scheme
    behind = SCHEMES[scheme][2]
    damaged = [laid(3, scheme), laid(255, 0), laid(0, 1), laid(1, 6), laid(2, 255),
               laid(0, 0, b"k"), laid(1, scheme, b"k"), laid(0, 0)[:-1] + b"\1"]
    damaged += [laid(2, scheme, bytes(behind) + b"\1")] if behind < 128 else []
    lengths = [b"", b"\0", bytes(129), bytes(131), laid(1, scheme) + b"\0", bytes(70000)]
    for link in damaged + lengths:
        detail = "stage=none"
        if len(link) != BYTES:
            detail += f" length={len(link)} expected=130"
        for command in ("offer", "reply", "finish"):
            links(link, command, scheme, ten(detail))
        write(links.link, link)
        done = run([links.both.box, "session", links.link, "show"])
        hold("session", refused(done, ten(detail)), f"show of {link[:4]}: {done}")
        status, text, error = run([links.both.box, "session", links.link, "close"])
        if len(link) == BYTES:
            fine = (status, text, error) == (0, b"stage=idle\n", b"")
            fine = fine and read(links.link) == bytes(BYTES)
        else:
            line = f"{links.link}: is no session: it has {len(link)} bytes, not 130\n"
            fine = (status, text, error) == (3, b"", b"wimmostry: " + line.encode())
            fine = fine and read(links.link) == link
        hold("session", fine, f"close of {link[:4]}: {status} {text!r} {error!r}")


def closed(links):
    """show, and close, which overwrites in place."""
    box, link = links.both.box, links.link
    key = links.plain["reply"][1][1]
    for held in (laid(0, 0), laid(1, links.scheme), laid(2, links.scheme, key)):
        write(link, held)
        os.chmod(link, 0o666)
        done = run([box, "session", link, "show"])
        hold("session", done == (0, lines(held), b"") and read(link) == held, f"show: {done}")
        with open(link, "rb") as handle:
            done = run([box, "session", link, "close"])
            fine = done == (0, b"stage=idle\n", b"") and read(link) == bytes(BYTES)
            hold("session", fine and mode(link) == 0o600, f"close: {done} {mode(link):o}")
            hold("session", handle.read() == bytes(BYTES), "what was closed can still be read")
    # a second name would keep the key, and a link is no file
    write(link, laid(2, links.scheme, key))
    os.link(link, link + ".hard")
    os.symlink(link, link + ".soft")
    for name, said in ((link, b"it has 2 names"), (link + ".soft", b"it is a symbolic link")):
        status, text, error = run([box, "session", name, "close"])
        fine = (status, text) == (3, b"") and said in error and read(link)[0] == 2
        hold("session", fine, f"close of {name}: {error!r}")
    os.remove(link + ".hard")
    status, text, error = run([box, "--replace", "session", link + ".soft",
                               *links.words("offer")[4:]])
    hold("session", (status, text) == (3, b"") and b"is a symbolic link" in error, f"{error!r}")
    os.remove(link + ".soft")
    os.remove(link)
    for action in (["close"], ["show"], links.words("finish")[4:]):
        done = run([box, "--replace", "session", link, *action])
        line = f"wimmostry: {link}: No such file or directory\n".encode()
        fine = done == (3, b"", line) and not os.path.exists(link)
        hold("session", fine, f"{action[0]} of nothing: {done}")


def whole(links):
    """The session moves with all outputs or not at all."""
    both, link, scheme = links.both, links.link, links.scheme
    name, folder, idle = both.name, both.folder, laid(0, 0)
    for state in (None, idle):
        for out in ({"KEY": name("nowhere/k")}, {"MESSAGE": name("nowhere/m")}):
            os.path.exists(link) and os.remove(link)
            if state is not None:
                write(link, state)
            status, text, error = run(links.words("reply", out=out))
            fine = status == 3 and text == b"" and b"/nowhere/" in error
            kept = read(link) == state if state else not os.path.exists(link)
            hold("session", fine and kept and temporaries(folder) == [], f"{out}: {error!r}")
    # ended while the message waits for its reader
    for ending in ENDINGS:
        write(link, idle)
        old = both.old("reply")
        reader, writer = full_pipe()
        words = links.words("reply", out={"MESSAGE": "-"})
        with started(words, stdout=writer, umask=0) as program:
            waited(lambda: len(temporaries(folder)) == 3)
            found = [os.path.join(folder, x) for x in temporaries(folder)]
            fine = len(found) == 3 and all(mode(x) == 0o600 for x in found)
            hold("session", fine, f"while writing: {found}")
            program.send_signal(ending)
            status = program.wait(20)
        os.close(reader)
        os.close(writer)
        fine = status == -ending and read(link) == idle and all(read(x) == OLD for x in old)
        hold("session", fine and temporaries(folder) == [], f"{signal.Signals(ending)}: {status}")
    # the file is no other word of the call
    secret = read(name("S"))
    for given, out, said in (({"S": link}, None, b"the output FILE is the input S"),
                             (None, {"KEY": link}, b"KEY and FILE are one file")):
        status, text, error = run(links.words("finish", given=given, out=out))
        fine = (status, text) == (2, b"") and said in error and read(link) == idle
        hold("session", fine and read(name("S")) == secret, f"{said}: {error!r}")
    for word, said in (("-", b"session takes the name of a file, not '-'"),
                       ("none", b"FILE is an output, and none is for inputs"),
                       ("", b"FILE is an empty word"), (folder, b"is a folder")):
        for action in (["show"], ["close"], links.words("offer")[4:]):
            status, text, error = run([both.box, "--replace", "session", word, *action])
            hold("session", status in (2, 3) and text == b"" and said in error,
                 f"session {word!r} {action[0]}: {error!r}")
    # a long link: the peer's reply comes with a wrong byte first
    os.remove(link)
    _, opening = links.plain["offer"]
    done = run(links.words("offer"))
    hold("session", done[0] == 0 and read(name("MESSAGE1")) == opening[0], f"offer: {done}")
    both.put({"REPLY": bytes(SCHEMES[scheme][9])})
    done = run(links.words("finish"))
    hold("session", done[2].startswith(b"refusal=17 ") and read(link) == laid(1, scheme),
         f"a blank reply: {done}")


def full(both):
    """A session is closed on a drive that has no room, not for another name either, and with a second
    name that a killed run left; so is a link. It takes a drive of its own, for those who may make
    one."""
    folder, key = both.name("drive"), laid(2, 1, bytes(range(32)))
    os.mkdir(folder)
    write(both.name("keyed"), key)
    run([both.program, "link", "open", both.name("opened"), "1"])
    script = f"""set -e
        mount -t tmpfs -o size=64k,nr_inodes=32 none {folder}
        cp {both.name("keyed")} {folder}/link
        cp -a {both.name("opened")} {folder}
        cat /dev/zero >{folder}/fill 2>/dev/null || true
        ln {folder}/link {folder}/.wimmostry-0123456789abcdef
        mkdir {folder}/many
        n=0; while (: >{folder}/many/$n) 2>/dev/null; do n=$((n + 1)); done
        {both.program} session {folder}/link close 2>{both.name("said")}
        cat {folder}/link >{both.name("closed")}
        {both.program} link close {folder}/opened
        ls -A {folder} {folder}/opened | grep ."""
    status, text, error = run(["unshare", "-rm", "sh", "-c", script])
    if status and b"unshare" in error or b"mount" in error:
        print(f"box: no drive of its own: a full one was not tried: {error!r}")
    else:
        said = f"stage=idle\nstage=idle\nwiped=4226\n{folder}:\nfill\nlink\nmany\nopened\n"
        said += f"{folder}/opened:\nsession\n"
        fine = status == 0 and text == said.encode()
        fine = fine and read(both.name("closed")) == bytes(BYTES)
        fine = fine and b"left by a run that was killed: wiped" in read(both.name("said"))
        hold("session", fine, f"close on a full drive: {status} {text!r} {error!r}")
    os.rmdir(folder)
    shutil.rmtree(both.name("opened"))


def words_of(text):
    return " ".join(text.replace("\\\n", " ").split())


def by_hand(both):
    """The exchange that help shows, on two sessions, as docs/GUIDE.md has it."""
    text = run([both.box, "help"])[1].decode()
    script = re.search(r"^    mkdir left right\n(    .*\n)*", text, re.M).group()
    sides = {"offer": "left", "reply": "right", "finish": "left"}
    script = re.sub(r"wimmostry (offer|reply|finish) ",
                    lambda x: f"wimmostry session {sides[x[1]]}/link {x[1]} ", script)
    with open(os.path.join(os.path.dirname(__file__), "../../docs/GUIDE.md")) as f:
        shown = words_of(f.read())
    calls = re.findall(r"wimmostry session (?:.*\\\n)?.*\n", script)
    hold("session", len(calls) == 3 and all(words_of(x) in shown for x in calls), f"{calls}")
    full(both)
    folder = both.name("linked")
    os.makedirs(folder + "/bin")
    os.symlink(both.box, folder + "/bin/wimmostry")
    env = {**os.environ, "PATH": folder + "/bin:" + os.environ["PATH"]}
    status, text, error = run(["sh", "-e", "-c", script], cwd=folder, env=env)
    links = [read(f"{folder}/{side}/link") if status == 0 else b"" for side in ("left", "right")]
    key = read(folder + "/left/key") if status == 0 else b""
    fine = status == 0 and error == b"" and links == 2 * [laid(2, 1, key)] and any(key)
    fine = fine and re.findall(rb"stage=(\w+)", text) == [b"offered", b"keyed", b"keyed"]
    hold("session", fine, f"the link of docs/GUIDE.md: {status} {text!r} {error!r}")
    shutil.rmtree(folder)


def sessions(both, scheme, files, sizes):
    links = Links(both, scheme, files, sizes)
    stages(links)
    no_stage(links)
    closed(links)
    whole(links)
    both.put(files)
    for word in ("LINK", "LINK.lock", "KEY1", "DIGEST1", "MESSAGE1"):
        if os.path.exists(both.name(word)):
            os.remove(both.name(word))
