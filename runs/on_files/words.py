"""Inputs that cannot be read, wrong words, help, the demonstration and what is shown."""
import os
import re
import socket
import subprocess

from .common import INPUTS, MARGINS, NUMBERS, OLD, OUTPUTS, hold, read, refused, run, write


def unread(both, scheme, files):
    for command in OUTPUTS:
        for word in INPUTS[command]:
            for kind in ("missing", "folder", "pipe", "socket", "device", "odd"):
                name = both.name(word)
                os.remove(name)
                if kind == "folder":
                    os.mkdir(name)
                elif kind == "pipe":
                    # nobody writes to it: opening it would wait for ever
                    os.mkfifo(name)
                elif kind == "socket":
                    socket.socket(socket.AF_UNIX).bind(name)
                elif kind == "device":
                    os.symlink("/dev/zero", name)
                elif kind == "odd":
                    if word not in NUMBERS:
                        write(name, files[word])
                        continue
                    write(name, files[word][:13])
                out = both.old(command)
                status, text, error = run(both.words(command, scheme))
                fine = status == 3 and text == b"" and error.count(b"\n") == 1
                fine = fine and error.startswith(b"wimmostry: " + name.encode() + b": ")
                if kind == "odd":
                    line = b": 13 bytes are no whole number of 32-bit numbers\n"
                    fine = fine and error.endswith(line)
                if kind not in ("odd", "missing"):
                    fine = fine and f": is a {kind}".encode() in error
                same = all(read(x) == OLD for x in out)
                hold("unread", fine and same,
                     f"{command} {word} {kind}: {status} {text!r} {error!r}")
                if kind == "folder":
                    os.rmdir(name)
                elif kind != "missing":
                    os.remove(name)
                write(name, files[word])
    for name, why in (("/nowhere", b"No such file or directory"), ("", b"is a folder")):
        status, text, error = run([both.box, "trace", both.folder + name])
        line = f"wimmostry: {both.folder}{name}: ".encode() + why + b"\n"
        hold("unread", (status, text, error) == (3, b"", line), f"trace: {error!r}")
    nowhere = {w: both.folder + "/nowhere" + w for w in INPUTS["finish"]}
    status, text, error = run(both.words("finish", scheme, nowhere))
    hold("unread", status == 3 and error.count(b"\n") == 2, f"two that are missing: {error!r}")


def words(both):
    files = ["x"] * 9
    for given, said in [
        (["x"], b"there is no command 'x'"),
        (["Offer", *files[:6]], b"there is no command 'Offer'"),
        ([""], b"there is no command ''"), (["help", "me"], b"there is no command 'me'"),
        (["--help", "x"], b"there is no command 'x'"),
        (["help", "link", "opne"], b"there is no command 'link opne' (did you mean open?)"),
        (["--version", "x"], b"there is no command"),
        (["fnish", *files[:5]], b"there is no command 'fnish' (did you mean finish?)"),
        (["--jsno", "version"], b"there is no option '--jsno' (did you mean --json?)"),
        (["draw", "1", "s", "-x"], b"there is no option '-x'"),
        (["draw", "newhop", "s", "x"], b"SCHEME is a number from 0 to 5 or a name, not 'newhop' (did"),
        (["draw", "frodo", "s", "x"], b"SCHEME is a number from 0 to 5 or a name, not 'frodo'; the"
         b" names are bcns, newhope, frodo-challenge, frodo-classical, frodo-recommended, frodo-paranoid\n"),
        (["offer"], b"offer takes SCHEME A S E SEED MESSAGE\n"),
        (["offer", *files[:5]], b"offer takes"), (["offer", *files[:7]], b"offer takes"),
        (["reply", *files], b"reply takes"), (["finish", *files[:4]], b"finish takes"),
        (["noise", *files[:3]], b"noise takes SCHEME BYTES TABLE OUT\n"),
        (["expand", "x", "y"], b"expand takes RULE STREAM OUT\n"),
        (["grow", "14", "x"], b"grow takes RULE SEED OUT\n"),
        (["hash"], b"hash is one of several: hash sha3-256 INPUT OUT; hash shake128 LENGTH INPUT"),
        (["hash", "md5", "x", "y"], b"hash is one of several: "),
        (["hash", "sha3-256", "x"], b"hash sha3-256 takes INPUT OUT\n"),
        (["hash", "shake128", "x", "y"], b"hash shake128 takes LENGTH INPUT OUT\n"),
        (["sha3-256", "x", "y"], b"there is no command 'sha3-256'"),
        (["bench", *files[:8]], b"bench takes"), (["demo", "1", "2"], b"demo takes SCHEME, or"),
        (["demo", "settings"], b"demo takes SCHEME, or all, or settings FILE"),
        (["demo", "settings", ""], b"FILE is an empty word"),
        (["demo", "1", "2", "3"], b"demo takes [SCHEME | all | settings FILE]\n"),
        (["settings", "write", "1", "14", "", "y"], b"LABEL is an empty word"),
        (["settings"], b"settings is one of several: settings read FILE; settings write SCHEME RULE"),
        (["settings", "x"], b"settings is one of several: "),
        (["settings", "read"], b"settings read takes FILE\n"),
        (["settings", "write", "1", "14"], b"settings write takes SCHEME RULE [LABEL] OUT\n"),
        (["settings", "write", "1", "14", "A", "x", "y"], b"settings write takes SCHEME RULE"),
        (["settings", "write", "x", "14", "y"], b"SCHEME is a number from 0 to 5 or a name, not 'x'"),
        (["settings", "write", "1", "016", "y"], b"RULE is 14 or 16, not '016'"),
        (["settings", "write", "1", "16", "A", ""], b"OUT is an empty word"),
        (["settings", "write", "1", "16", "A", "none"], b"OUT is an output, and none is for inputs"),
        (["draw", "1", "s"], b"draw takes SCHEME WHAT [seed=FILE] OUT\n"),
        (["draw", "1", "a", "x", "y"], b"draw takes SCHEME WHAT [seed=FILE] OUT, and 'x'"),
        (["wipe"], b"wipe takes FILE\n"),
        (["trace"], b"trace takes FILE\n"), (["trace", "x", "y"], b"trace takes FILE\n"),
        (["trace", ""], b"FILE is an empty word"),
        (["version", "x"], b"version takes no words\n"),
        (["link", "opne", "x"], b"link is one of several (did you mean open?): link open DIR [SCHEME"),
        (["session"], b"session is one of several: session FILE offer SCHEME A S E SEED MESSAGE; "),
        (["session", "x"], b"session is one of several: "),
        (["session", "x", "open"], b"session is one of several: "),
        (["session", "offer", "x"], b"session is one of several (did you mean offer?): "),
        (["session", "x", "offer"], b"session FILE offer takes SCHEME A S E SEED MESSAGE\n"),
        (["session", "x", "finish", *files[:4]], b"session FILE finish takes SCHEME REPLY S KEY"),
        (["session", "x", "reply", "y", *files], b"SCHEME is a number from 0 to 5 or a name, not 'y'"),
        (["session", "x", "close", "y"], b"session FILE close takes no words\n"),
        (["session", "x", "show", "y"], b"session FILE show takes no words\n"),
        (["help", "session", "open", "x"], b"help takes [COMMAND]\n"),
        (["help", "a", "b"], b"there is no command 'a b'"),
        (["help", "hash", "md5"], b"there is no command 'hash md5'"),
        (["help", "a", "b", "c"], b"help takes [COMMAND]\n"),
        (["draw", "1", "key", "x"], b"WHAT is a, s, e, seed, s1, e1, e2 or coins, not 'key'"),
        (["draw", "x", "s", "x"], b"SCHEME is"), (["wipe", "-"], b"wipe takes the name of a file"),
        (["demo", "x"], b"SCHEME is a number"),
        (["finish", "1", "", "y", "z", "d"], b"REPLY is an empty word"),
        (["finish", "1", "x", "y", "none", "d"], b"KEY is an output, and none is for inputs"),
        (["finish", "1", "x", "y", "z", "none"], b"DIGEST is an output, and none is for inputs"),
        *((["finish", w, "x", "y", "z", "d"],
           f"SCHEME is a number from 0 to 5 or a name, not '{w}'".encode())
          for w in ("x", "", "01", "00", "1x", "4294967296", "12345678901")),
        *(([command, w, "x", "y"], f"RULE is 14 or 16, not '{w}'".encode())
          for command in ("expand", "grow")
          for w in ("x", "", "014", "16x", "low", "4294967296")),
        *((["hash", "shake128", w, "x", "y"],
           f"LENGTH is a number from 0 to 16777216, not '{w}'".encode())
          for w in ("x", "", "032", "32x", "16777217", "4294967296")),
        *(([*given, "-1", "x", "y"], b"there is no option '-1'")
          for given in (["finish"], ["grow"], ["hash", "shake128"])),
    ]:
        status, text, error = run([both.box, *given])
        fine = status == 2 and text == b"" and error.startswith(b"wimmostry: " + said)
        fine = fine and error.count(b"\n") == 1
        hold("words", fine, f"{given}: {status} {text!r} {error!r}")
    # a name that no system takes
    status, text, error = run([both.box, "finish", "1", "n" * 5000, "none",
                               both.name("KEY1"), both.name("DIGEST1")])
    hold("words", status == 3 and text == b"", f"a long name: {status} {error!r}")
    # wrong words leave all as it was
    for given in (["fnish", "1"], ["finish", "x"]):
        write(both.name("KEY1"), OLD)
        names = map(both.name, ("REPLY", "S", "KEY1", "DIGEST1"))
        status, _, _ = run([both.box, *given, *names])
        hold("words", status == 2 and read(both.name("KEY1")) == OLD,
             f"{given} touches the old key")
    # nothing lent
    done = run([both.box, "--replace", "finish", "1", "none", "none", both.name("KEY1"),
                both.name("DIGEST1")])
    fine = refused(done, b"refusal=2 place=0 input=reply length=0 expected=2048")
    hold("words", fine and not os.path.exists(both.name("KEY1")), f"nothing: {done}")
    overview = run([both.box, "help"])
    fine = overview[0] == 0 and overview[2] == b""
    hold("words", fine and overview[1].startswith(b"Two boxes agree"), "help")
    for given in ([], ["--help"], ["-h"]):
        hold("words", run([both.box, *given]) == overview, f"{given} is not the overview")
    names = re.findall(r"^  wimmostry ([a-z]\S*(?: [a-z]\S*)?)", overview[1].decode(), re.M)
    wanted = {"hash shake128", "hash sha3-256", "grow", "trace", "session", "settings read"}
    hold("words", wanted <= {*names}, f"commands: {names}")
    for action in ("offer", "reply", "finish", "key", "close", "show"):
        page = run([both.box, "help", "session", action])
        hold("words", page[1].startswith(f"wimmostry session FILE {action}".encode())
             and page[1].count(b"\nExample:\n") == 1, f"help session {action}: {page}")
        hold("words", run([both.box, "session", "x", action, "-h"]) == page, f"{action} -h")
    for name in [*names, "hash"]:
        page = run([both.box, "help", *name.split()])
        fine = page[0] == 0 and page[2] == b"" and page[1].startswith(b"wimmostry " + name.encode())
        hold("words", fine and b"\nExample:\n" in page[1], f"help {name}: {page}")
        hold("words", run([both.box, *name.split(), "--help"]) == page, f"{name} --help")
        hold("words", max(map(len, page[1].split(b"\n"))) <= 100, f"help {name} is too wide")
    told = [run([both.box, w]) for w in ("version", "--version", "-V")]
    fine = told[0] == told[1] == told[2] and told[0][0] == 0
    fine = fine and re.fullmatch(rb"wimmostry \d+\.\d+\.\d+\n", told[0][1])
    hold("words", fine, f"version: {told}")
    # a reader that goes away is no mistake
    done = run(["bash", "-c", f"'{both.box}' help | head -n 1"])
    hold("words", done[2] == b"" and done[1].startswith(b"Two boxes"), f"help into head: {done}")


def demo(both):
    newhope = (["demo"], ["demo", "all"], ["demo", "1"], ["demo", "newhope"])
    for given, many in ((["demo"], 1), (["demo", "all"], 6), (["demo", "0"], 1), (["demo", "1"], 1),
                        (["demo", "newhope"], 1), (["demo", "5"], 1)):
        status, text, error = run([both.box, *given], cwd=both.folder)
        hold("demo", (b"\nType next: wimmostry link open " in text) == (given == ["demo"])
             and (many > 1 or text.count(b"\n") < 21), f"{given}: {text!r}")
        hold("demo", text.count(b"] public numbers -") == many - (given in newhope), f"{text!r}")
        prints = re.findall(rb"^  .* digest ([0-9a-f]{64})$", text, re.M)
        told = text.count(b"  keys agree\n") + text.count(b"  keys differ at bit ")
        same = sum(a == b for a, b in zip(prints[::2], prints[1::2]))
        fine = status == 0 and error == b"" and told == many and len(prints) == 2 * many
        fine = fine and len(re.findall(rb" bytes, \d+ us\n", text)) == 3 * many
        fine = fine and text.count(b"] opening -") == text.count(b"- reply [") == many
        used = re.findall(rb"^          slack (\d+) of a margin of (\d+), at entry \d+$", text, re.M)
        none = text.count(b"          no slack: NewHope has none\n")
        fine = fine and len(used) + none == many and none == (given in newhope)
        fine = fine and all(int(margin) in MARGINS.values() for _, margin in used)
        grown = text.count(b"  public numbers: 1024, grown from the seed by rule 14\n")
        fine = fine and grown == (given in newhope)
        hold("demo", fine and text.count(b"  keys agree\n") == same, f"{given}: {text!r} {error!r}")
    done = run([both.box, "demo", "6"])
    hold("demo", refused(done, b"refusal=1 place=0 scheme=6 expected=0..5"), f"demo 6: {done}")


def shown(both, scheme):
    bad = b"a\x1b[2J\x07\r\n\x7f\xff\xc2\x9b\xe2\x80\xae\\"
    said = rb"a\x1b[2J\x07\r\n\x7f\xff\xc2\x9b\xe2\x80\xae" + b"\\\\"
    inside = os.path.join(both.folder.encode(), bad)
    os.mkdir(inside)
    for given in ([bad], ["help", bad], ["demo", bad], ["wipe", bad], ["trace", bad],
                  ["draw", bad, "s", "x"], ["draw", "1", bad, "x"],
                  ["finish", bad, "x", "x", "x", "d"], ["finish", "1", bad, "none", "x", "d"],
                  ["expand", bad, "x", "x"], ["grow", bad, "x", "x"],
                  ["hash", "shake128", bad, "x", "y"], ["help", "hash", bad],
                  ["session", bad, "show"], ["session", inside, "close"],
                  ["finish", "1", "none", "none", inside, "d"],
                  ["finish", "1", "none", "none", inside + b"/x/y", "d"],
                  ["reply", "1", *["none"] * 6, inside + b"/x", inside + b"/x", "d"],
                  ["wipe", inside]):
        status, text, error = run([both.box, *given])
        fine = status in (2, 3) and text == b"" and said in error and error.count(b"\n") == 1
        hold("shown", fine and all(0x20 <= c < 0x7f for c in error[:-1]),
             f"{given}: {text!r} {error!r}")
    os.rmdir(inside)
