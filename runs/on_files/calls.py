"""The calls: good exchanges, damaged inputs, noise, expand, grow, the hashes and traces."""
import hashlib
import re

from .both import packed
from .common import (INPUTS, MARGINS, NUMBERS, OLD, OUTPUTS, SCHEMES, TABLE, hold, read, refused,
                     run, said, table_of, words32, words_of, write)


def exchange(both, scheme, files):
    """A good exchange; gives the sizes of the outputs."""
    q, largest, key, public, secret, last, seed, coins, opening, reply, *_ = SCHEMES[scheme]
    sizes = {"offer": {"MESSAGE": opening}, "reply": {"MESSAGE": reply, "KEY": key, "DIGEST": 32},
             "finish": {"KEY": key, "DIGEST": 32}, "bench": {}}
    secrets = ["KEY", "DIGEST"]
    given = {c: [w if files.get(w) != b"" else "none" for w in INPUTS[c]] for c in OUTPUTS}
    both.put(files)
    text, (message,) = both("good", "offer", scheme, given["offer"], sizes["offer"])
    hold("good", text == b"written=%d\n" % opening and len(message) == opening, f"offer {scheme}")
    files["OPENING"] = message
    both.put(files)
    text, (message, own, digest) = both("good", "reply", scheme, given["reply"], sizes["reply"],
                                        secrets)
    lines = b"message_written=%d\nkey_written=%d\ndigest_written=32\n" % (reply, key)
    hold("good", text == lines and len(message) == reply, f"reply {scheme}")
    hold("good", digest == hashlib.sha3_256(own).digest(), f"reply {scheme}: the digest")
    files["REPLY"] = message
    both.put(files)
    text, (peer, peer_digest) = both("good", "finish", scheme, given["finish"], sizes["finish"],
                                     secrets)
    lines = b"key_written=%d\ndigest_written=32\n" % key
    hold("good", text.startswith(lines) and (own, digest) == (peer, peer_digest)
         and len(peer) == key, f"finish {scheme}: the keys differ")
    slack = text[len(lines):]
    told = re.fullmatch(rb"slack=(\d+)\nslack_index=(\d+)\n", slack)
    hold("good", told and int(told[1]) <= MARGINS[scheme], f"finish {scheme}: {text!r}")
    text, _ = both("good", "bench", scheme, given["bench"], sizes["bench"])
    hold("good", text == b"agree\n" + slack, f"bench {scheme}: {text!r}")
    return sizes


def damages(word, data, scheme):
    """Damaged inputs."""
    q, largest, *_ = SCHEMES[scheme]
    entry = 4 if word in NUMBERS else 1
    yield data[:-entry]
    yield data + bytes(entry)
    if data:
        yield b""
    if word in NUMBERS:
        bad = q if word == "A" else largest + 1
        for place in (0, len(data) // 8, len(data) // 4 - 1):
            for value in (bad, -bad if word != "A" else 2**32 - 1, 2**31):
                yield data[:4 * place] + words32([value]) + data[4 * place + 4:]
    elif word in ("OPENING", "REPLY") and scheme < 2:
        # BCNS: a word of ones; NewHope: 16383 as the last number of four
        piece = b"\xff" * 4 if scheme == 0 else b"\x00\x00\x00\x00\x00\xfc\xff"
        last = 4096 - 4 if scheme == 0 else 1792 - 7
        for place in (0, last):
            yield data[:place] + piece + data[place + len(piece):]


def blank(both, scheme, files, sizes):
    """A dead card's messages, with seed and hints and without, and some that are all but blank;
    zero secrets and noise."""
    for command, word in (("reply", "OPENING"), ("finish", "REPLY")):
        part, message = packed(word, scheme), files[word]
        bare = message[:part.start] + bytes(part.stop - part.start) + message[part.stop:]
        for data, number in ((bare, 17), (bytes(len(message)), 17), *(
                (bare[:at] + b"\x01" + bare[at + 1:], 0)
                for at in (part.start, (part.start + part.stop) // 2, part.stop - 1))):
            both.put({word: data})
            told(both, command, scheme, sizes, number)
        # other faults before and after it
        both.put({word: bytes(len(message)), "S": files["S"][:-4] + words32([99]),
                  "E1": files["E1"][:-4] + words32([99])})
        told(both, command, scheme, sizes, 17)
        both.put({word: bytes(len(message) + 1)})
        told(both, command, scheme, sizes, 2)
        both.put({w: files[w] for w in (word, "S", "E1")})
    for command, s, e in (("offer", "S", "E"), ("reply", "S1", "E1"), ("bench", "S", "E"),
                          ("bench", "S1", "E1")):
        if scheme > 2 and command == "bench":
            continue
        zeros = bytes(len(files[s]))
        for zero, number in (({s}, 0), ({e}, 0), ({s, e}, 17)):
            both.put({w: zeros if w in zero else files[w] for w in (s, e)})
            told(both, command, scheme, sizes, number)
        both.put({e: zeros[:-4] + words32([99])})
        told(both, command, scheme, sizes, 6)
        both.put({e: files[e], s: files[s]})


def told(both, command, scheme, sizes, number):
    text, _ = both("blank", command, scheme, INPUTS[command], sizes[command])
    refused = b"refusal=%d " % number
    hold("blank", text.startswith(refused) if number else not text.startswith(b"refusal"),
         f"{command} {scheme}: {text!r} and not {number}")


def damaged(both, scheme, files, sizes, rand):
    for command in OUTPUTS:
        secrets = [w for w in sizes[command] if w != "MESSAGE"]
        for word in INPUTS[command]:
            if scheme > 2 and (command == "bench" or (command == "reply" and word == "A")):
                continue
            for data in damages(word, files[word], scheme):
                both.put({word: data})
                both("damaged", command, scheme, INPUTS[command], sizes[command], secrets)
            both.put({word: files[word]})
    # two inputs at a time: the order of the tests decides, and the line names the one that is meant
    for command in OUTPUTS:
        for _ in range(12 if scheme < 2 else 3):
            pair = rand.sample(INPUTS[command], 2)
            both.put({w: rand.choice([*damages(w, files[w], scheme)]) for w in pair})
            both("damaged", command, scheme, INPUTS[command], sizes[command])
            both.put({w: files[w] for w in pair})
    for command in OUTPUTS:
        for other in (6, 99, 4294967295):
            both("damaged", command, other, INPUTS[command], sizes[command])
    # far beyond the largest of any scheme: what is there is told, of a stream as far as it was read
    both.put({"SEED": bytes(100000), "S": bytes(400000)})
    both("damaged", "offer", scheme, INPUTS["offer"], sizes["offer"])
    both("damaged", "finish", scheme, INPUTS["finish"], sizes["finish"])
    both.put({"S": files["S"]})
    status, text, error = run(both.words("offer", scheme, {"SEED": "-"}), input=bytes(100000))
    expected = f"refusal=2 place=0 input=seed length=33.. expected={len(files['SEED'])}\n".encode()
    hold("damaged", refused((status, text, error), expected), f"a long stream: {text!r} {error!r}")
    both.put({"SEED": files["SEED"]})


def noise(both, rand):
    both.put({"TABLE": TABLE})
    for scheme in range(7):
        good = list(SCHEMES[scheme][-2:]) if scheme <= 5 else []
        near = {x + d for x in good for d in (-2, -1, 1, 2)}
        for length in sorted({*good, *near, 0, 64, 4096, 8192, 20000}):
            both.put({"BYTES": rand.randbytes(length)})
            for table, fits in (("TABLE", scheme == 0), ("none", scheme != 0)):
                text, _ = both("noise", "noise", scheme, ["BYTES", table], {"OUT": 0}, ["OUT"])
                hold("noise", text.startswith(b"written=") == (length in good and fits),
                     f"noise {scheme} {length} {table}: {text!r}")
    tables(both, rand)
    expand(both, rand)
    grow(both, rand)
    hashes(both, rand)
    traces(both, rand)
    settings(both)


def tables(both, rand):
    """BCNS's noise by tables that ascend, that do not, and that have other lengths."""
    words = words_of(TABLE)
    v = b"".join(word.to_bytes(8, "big") for word in words)
    edges = b"".join(v[24 * k:24 * k + 24] + bytes([sign]) for k in range(51) for sign in (0, 1))
    both.put({"BYTES": edges + rand.randbytes(25600 - len(edges))})
    given = ["BYTES", "TABLE"]
    for place in (1, 2, 25, 49, 50):
        for low in (0, 1, -1):
            other = list(words)
            other[3 * place:3 * place + 3] = other[3 * place - 3:3 * place]
            other[3 * place + 2] = (other[3 * place + 2] + low) % 2**64
            both.put({"TABLE": table_of(other)})
            text, _ = both("noise", "noise", 0, given, {"OUT": 0}, ["OUT"])
            falls = other[3 * place:3 * place + 3] <= other[3 * place - 3:3 * place]
            hold("noise", text.startswith(b"refusal=18 place=%d " % place) == falls,
                 f"noise by a table, {place} {low}: {text!r}")
    for many in (0, 1, 50, 51, 52, 100):
        drawn = sorted(rand.getrandbits(192) for _ in range(many))
        split = [number >> shift & 2**64 - 1 for number in drawn for shift in (128, 64, 0)]
        both.put({"TABLE": b"# drawn\n" + table_of(split)})
        text, _ = both("noise", "noise", 0, given, {"OUT": 0}, ["OUT"])
        hold("noise", text.startswith(b"written=") == (many == 51), f"{many} entries: {text!r}")
    # what is no table touches nothing
    line = table_of(words[:3])
    for text in (b"1 2 3\n", line[:-2], line + b"x\n", line.replace(b" ", b""), b"\xff\n",
                 b"#\n" * 40000):
        both.put({"TABLE": text})
        out = both.name("OUT1")
        write(out, OLD)
        done = run([both.box, "--replace", "noise", "0", both.name("BYTES"), both.name("TABLE"),
                    out])
        fine = done[:2] == (3, b"") and b": is no table: " in done[2] and read(out) == OLD
        hold("noise", fine, f"noise by {text[:40]!r}: {done}")


def grow(both, rand):
    for length in (32, 32, 32, 0, 31, 33, 64, 5000):
        seed = rand.randbytes(length)
        both.put({"SEED": seed})
        for rule in (14, 16, 0, 1, 13, 15, 17, 4294967295):
            text, (numbers,) = both("grow", "grow", rule, ["SEED"], {"OUT": 4096})
            number = 12 if rule not in (14, 16) else 0 if length == 32 else 2
            expected = b"refusal=%d " % number if number else b"written=1024\n"
            hold("grow", text.startswith(expected), f"grow {rule} {length}: {text!r}")
            if not number:
                both.put({"STREAM": hashlib.shake_128(seed).digest(24 * 168)})
                _, (taken,) = both("grow", "expand", rule, ["STREAM"], {"OUT": 4096})
                hold("grow", numbers == taken, f"grow {rule}: not what expand gives")


def hashes(both, rand):
    """Some lengths; runs/hashes has them all."""
    for length in (0, 1, 136, 168, 1000, 65536, 65537, 90000):
        both.put({"INPUT": rand.randbytes(length)})
        both("hash", "hash sha3-256", None, ["INPUT"], {"OUT": 32}, ["OUT"])
        for asked in (0, 1, 168, 169, 4032):
            both("hash", "hash shake128", asked, ["INPUT"], {"OUT": asked}, ["OUT"])


def traces(both, rand):
    """Some texts; runs/trace has more, through the program."""
    line = lambda: b"scheme=%d\nslack=%d\n" % (rand.randrange(6), rand.randrange(10**10))
    good = [b"", line(), line() * 7, b"".join(line() for _ in range(300)),
            b"scheme=5\nslack=9999999999\n" * 2048]
    bad = [good[1][:-1], good[1] + b"\n", good[1] + b"scheme=1\n", good[4] + line(), good[4] * 9,
           b"scheme=6\nslack=0\n", b"slack=0\nscheme=1\n", b"\0", rand.randbytes(70000)]
    for status, texts in ((0, good), (1, bad)):
        for text in texts:
            both.put({"TRACE": text})
            words = ["trace", both.name("TRACE")]
            done, (_, told, _) = run([both.program, *words]), run([both.second, "box", *words])
            # standard error has what is wrong in which line
            hold("trace", done[:2] == (status, told), f"trace {text[:50]!r}: {done} not {told!r}")
            hold("trace", (told == b"refusal=8\n") == status, f"trace {text[:50]!r}: {told!r}")
            done = run([both.program, "trace", "-"], input=text)
            hold("trace", done[:2] == (status, told), f"trace - {text[:50]!r}: {done}")


def settings(both):
    """Some texts and labels; runs/settings has more, through the archive."""
    good = [b"format=1\nscheme=0\nrule=14\n", b"format=2\nscheme=5\nrule=16\nlabel=ABCDEFGHIJKLM789\n"]
    bad = [(b"", "line=1"), (b"format=1\nscheme=6\nrule=14\n", "line=2"), (good[0][:-1], "line=3"),
           (good[0] + b"label=A\n", "line=4"), (good[1] + b"\n", "line=5"), (good[1] * 3000, "line=5"),
           (b"format=3\n\xff", "format=3 newest=2"),
           (b"format=9999999999\n" * 9, "format=9999999999 newest=2"), (b"format=03\n", "line=1")]
    for text, more in [*((text, None) for text in good), *bad]:
        both.put({"TEXT": text})
        words = ["settings", "read", both.name("TEXT")]
        done, (_, told, _) = run([both.program, *words]), run([both.second, "box", *words])
        expected = (0, told, b"")
        if more:
            expected = (1, b"", said(told.replace(b"\n", f" {more}\n".encode())))
        hold("settings", done == expected, f"read {text[:60]!r}: {done} not {expected}")
        done = run([both.program, "settings", "read", "-"], input=text)
        hold("settings", done == expected, f"read - {text[:60]!r}: {done}")
        hold("settings", bool(more) or told == text, f"read {text!r} is {told!r}")
        demo = run([both.program, "demo", "settings", both.name("TEXT")])
        scheme = text[16:17].decode()
        fine = demo == expected if more else f"scheme {scheme}, ".encode() in demo[1]
        hold("settings", fine and demo[0] == bool(more), f"demo settings {text[:60]!r}: {demo}")
    both.put({"TEXT": b"format=1\nscheme=1\nrule=16\n"})
    demo = run([both.program, "demo", "settings", both.name("TEXT")])[1]
    hold("settings", b"grown from the seed by rule 16" in demo, f"demo settings: {demo!r}")
    for scheme, rule, label, more in [
            (4, 16, "", None), (0, 14, "A", None), (5, 16, "ABCDEFGHIJKLM789", None),
            (6, 15, "a" * 17, "scheme=6 expected=0..5"), (1, 15, "a" * 17, "rule=15 expected=14,16"),
            (1, 14, "a" * 17, "input=label length=17 at-most=16"),
            (1, 14, "STUDIO 7", "input=label allowed=A..Z,0..9"), (1, 14, "\u00c4", "input=label allowed=A..Z,0..9")]:
        words = ["settings", "write", str(scheme), str(rule), *([label] if label else [])]
        outs, old = [both.name("BOX"), both.name("OTHER")], good[0]
        for out in outs:
            write(out, old)
        done = run([both.program, *words, outs[0]])
        _, told, _ = run([both.second, "box", *words, outs[1]])
        expected = (0, told, b"")
        if more:
            expected = (1, b"", said(told.replace(b"\n", f" {more}\n".encode())))
        hold("settings", done == expected, f"{words}: {done} not {expected}")
        hold("settings", read(outs[0]) == read(outs[1]), f"{words}: {read(outs[0])[:60]!r}")
        hold("settings", (read(outs[0]) == old) == bool(more), f"{words}: the old settings")
        done = run([both.program, *words, "-"])
        hold("settings", done == (expected if more else (0, read(outs[0]), told)),
             f"{words} -: {done}")
        # what is no settings is not replaced by some
        write(outs[0], OLD)
        done = run([both.program, *words, outs[0]])
        hold("settings", done[:2] == (3, b"") and read(outs[0]) == OLD, f"{words} over a key: {done}")


def expand(both, rand):
    drawn = [*map(rand.randbytes, (2000, 2176, 2250, 2801, 4096, 65536, 65537, 90000))]
    for stream in (b"", *drawn, b"\xff" * 65536):
        both.put({"STREAM": stream})
        for rule in (14, 16, 0, 1, 13, 15, 17, 4294967295):
            text, _ = both("expand", "expand", rule, ["STREAM"], {"OUT": 4096})
            hold("expand", text.startswith(b"refusal=12 ") == (rule not in (14, 16)),
                 f"expand {rule}: {text!r}")
    # one word again and again, and its number by rule 14 and by rule 16; None: it is passed over
    for word, *by in ((61440, 12288, 12284), (61444, None, 12288), (61445, None, None)):
        both.put({"STREAM": word.to_bytes(2, "little") * 1024})
        for rule, number in zip((14, 16), by):
            text, (numbers,) = both("expand", "expand", rule, ["STREAM"], {"OUT": 4096})
            taken = text == b"written=1024\n" and numbers == words32([number or 0] * 1024)
            hold("expand", taken == (number is not None), f"expand {rule} on {word}: {text!r}")
