"""draw, wipe, and the exchange that help shows."""
import hashlib
import os
import re
import shutil
import struct

from .both import entries
from .common import (OLD, SCHEMES, device, hold, mode, read, refused, run, words32, write)


def from_seed(both, name):
    """Frodo's A of a seed, and BCNS's a of none, by the rules that link uses."""
    seed = bytes(range(16))
    write(both.name("SEED"), seed)
    for scheme in (0, 2, 5):
        q, _, _, public, *_ = SCHEMES[scheme]
        if scheme == 0:
            stream = hashlib.shake_128(b"wimmostry BCNS a").digest(4 * public + 40)
            numbers = [x for x in struct.unpack(f"<{public + 10}I", stream) if x < q][:public]
        else:
            n = round(public ** 0.5)
            row = lambda i: hashlib.shake_128(struct.pack("<H", i) + seed).digest(2 * n)
            numbers = [x % q for i in range(n) for x in struct.unpack(f"<{n}H", row(i))]
        given = "seed=none" if scheme == 0 else "seed=" + both.name("SEED")
        done = run([both.box, "draw", str(scheme), "a", given, name])
        fine = done == (0, b"written=%d\n" % public, b"") and read(name) == words32(numbers)
        hold("drawn", fine, f"draw {scheme} a {given}: {done}")
        os.remove(name)
    for words, status in ((["1", "a", "seed=none"], 2), (["4", "s", "seed=none"], 2),
                          (["4", "a", "seed=none"], 1), (["0", "a", "seed=" + both.name("SEED")], 1)):
        done = run([both.box, "draw", *words, name])
        hold("drawn", done[:2] == (status, b"") and not os.path.exists(name), f"{words}: {done}")


def unremovable(both):
    """A file that is overwritten in a folder that nobody may write to: the line says both."""
    folder = both.name("closed")
    os.mkdir(folder)
    name = os.path.join(folder, "key")
    write(name, OLD)
    program = shutil.copy(both.program, both.name("program"))  # which the user nobody can reach
    nobody = {}
    if os.getuid() == 0:
        os.chown(name, 65534, 65534)
        os.chmod(both.folder, 0o755)
        nobody = {"user": 65534, "group": 65534, "extra_groups": []}
    os.chmod(folder, 0o555)
    status, text, error = run([program, "wipe", name], **nobody)
    fine = (status, text) == (3, b"") and b"key: overwritten, but not removed: " in error
    hold("drawn", fine and read(name) == bytes(len(OLD)), f"wipe in a closed folder: {error!r}")
    os.chmod(folder, 0o755)
    os.remove(program)
    shutil.rmtree(folder)


def drawn(both):
    name = both.name("drawn")
    for scheme, (q, largest, key, public, secret, last, seed, coins, *_) in SCHEMES.items():
        each = {"a": public, "s": secret, "e": secret, "s1": secret, "e1": secret, "e2": last,
                "seed": seed, "coins": coins}
        for what, many in each.items():
            write(name, OLD)
            os.chmod(name, 0o666)
            words = [both.box, "--replace", "draw", str(scheme), what, name]
            status, text, error = run(words, umask=0)
            values = entries(what.upper(), read(name))
            line = b"written=%d\n" % many
            fine = (status, text, error) == (0, line, b"") and len(values) == many
            fine = fine and mode(name) == (0o666 if what in ("a", "seed") else 0o600)
            if what == "a":
                fine = fine and q * 0.95 < max(values) < q and len(set(values)) > min(many, q) / 3
            elif what not in ("seed", "coins"):
                several = len(set(values)) > min(largest, 4)
                fine = fine and several and max(map(abs, values)) <= largest
            hold("drawn", fine, f"draw {scheme} {what}: {status} {text!r} {error!r}")
    one, two = (run([both.box, "draw", "1", "coins", "-"])[1] for _ in range(2))
    hold("drawn", len(one) == len(two) == 32 and one != two, "coins drawn twice are the same")
    write(name, OLD)
    done = run([both.box, "draw", "6", "s", name])
    hold("drawn", done[:2] == (3, b"") and read(name) == OLD, f"draw over a file: {done}")
    done = run([both.box, "--replace", "draw", "6", "s", name])
    fine = refused(done, b"refusal=1 place=0 scheme=6 expected=0..5") and not os.path.exists(name)
    hold("drawn", fine, f"draw 6: {done}")
    from_seed(both, name)
    # wipe
    for data in (b"", OLD, OLD * 1000):
        write(name, data)
        status, text, error = run([both.box, "wipe", name])
        fine = status == 0 and text.startswith(b"wiped=%d\n" % len(data))
        fine = fine and b"flash drives" in text
        hold("drawn", fine and not os.path.exists(name), f"wipe: {status} {text!r} {error!r}")
    write(name, OLD)
    with open(name, "rb") as handle:
        run([both.box, "wipe", name])
        hold("drawn", handle.read() == bytes(len(OLD)), "what is wiped can still be read")
    write(name, OLD)
    for other, make in (("hard", os.link), ("soft", os.symlink)):
        make(name, name + other)
        status, text, error = run([both.box, "wipe", name + other])
        hold("drawn", status == 3 and text == b"" and read(name) == OLD,
             f"wipe of a {other} link: {error!r}")
        os.remove(name + other)
    others = [both.folder, both.name("nowhere")]
    others += [both.name("device")] if device(both.name("device")) else []
    for other in others:
        status, text, error = run([both.box, "wipe", other])
        hold("drawn", status == 3 and text == b"" and b": not wiped: " in error,
             f"wipe {other}: {error!r}")
    if len(others) > 2:
        os.remove(both.name("device"))
    os.remove(name)
    unremovable(both)
    # the exchange that help shows
    text = run([both.box, "help"])[1].decode()
    newhope = re.search(r"^    mkdir left right\n(    .*\n)*", text, re.M).group()
    for scheme in SCHEMES:
        script = re.sub(r"(wimmostry \w+) 1 ", rf"\1 {scheme} ", newhope)
        if scheme != 1:
            # only NewHope's numbers grow: the others are drawn, and go to the replier as well
            script = script.replace("grow 14 left/seed left/a", f"draw {scheme} a left/a")
            script = script.replace("tail -c 32 right/opening >right/seed", "cp left/a right")
            script = script.replace("wimmostry grow 14 right/seed right/a", "")
        folder = both.name(f"exchange{scheme}")
        os.mkdir(folder)
        os.mkdir(folder + "/bin")
        os.symlink(both.box, folder + "/bin/wimmostry")
        path = folder + "/bin:" + os.environ["PATH"]
        done = run(["sh", "-e", "-c", script], cwd=folder, env={**os.environ, "PATH": path})
        keys = [read(f"{folder}/{side}/key") if done[0] == 0 else b"" for side in ("left", "right")]
        fine = done[0] == 0 and done[2] == b"" and keys[0] == keys[1]
        fine = fine and len(keys[0]) == SCHEMES[scheme][2]
        hold("drawn", fine and any(keys[0]), f"the exchange of help in scheme {scheme}: {done}")
        left = sorted(os.listdir(folder + "/left") + os.listdir(folder + "/right"))
        seeds = (2 if scheme == 1 else 1) * ["seed"]
        public = sorted(2 * ["a", "digest", "key", "opening", "reply"] + seeds)
        hold("drawn", left == public, f"left: {left}")
        shutil.rmtree(folder)
