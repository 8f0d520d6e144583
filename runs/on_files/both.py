"""A command run by both programs, and what the line of a refusal goes on with."""
import os
import re
import struct

from .common import (INPUTS, NUMBERS, OLD, OUTPUTS, SCHEMES, hold, mode, read, run, said, words_of,
                     write)


def entries(word, data):
    if word == "TABLE":
        return words_of(data)
    if word not in NUMBERS:
        return data
    return struct.unpack(f"<{len(data) // 4}{'I' if word == 'A' else 'i'}", data)


def lengths(scheme):
    q, largest, key, public, secret, last, seed, coins, opening, reply, *drawn = SCHEMES[scheme]
    return {"A": [public], "S": [secret], "E": [secret], "S1": [secret], "E1": [secret],
            "E2": [last], "SEED": [seed], "COINS": [coins], "OPENING": [opening],
            "REPLY": [reply], "BYTES": list(dict.fromkeys(drawn)),
            "TABLE": [0 if scheme else 153]}


def packed(word, scheme):
    """Where the packed part of a message stands: behind the seed in Frodo's opening, else first."""
    seed, opening = SCHEMES[scheme][6], SCHEMES[scheme][8]
    start = seed if word == "OPENING" and scheme >= 2 else 0
    return slice(start, start + opening - seed)


def without_scheme(command, asked, data, number):
    """The detail of a call that has no scheme and one input."""
    (word,) = INPUTS[command]
    length = "expected=32" if command == "grow" else "at-most=65536"
    return {12: f"rule={asked} expected=14,16",
            2: f"input={word.lower()} length={len(data[word])} {length}",
            7: f"input={word.lower()} expected=1024"}[number]


def detail(command, scheme, data, number, place):
    """data has the bytes of each input by its word."""
    given = [(w, entries(w, data[w])) for w in INPUTS[command]]
    if command not in OUTPUTS and command != "noise":
        return without_scheme(command, scheme, data, number)
    if number == 1:
        return f"scheme={scheme} expected=0..5"
    q, largest, *_ = SCHEMES[scheme]
    if number == 2:
        fixed = lengths(scheme)
        word, there = next((w, len(x)) for w, x in given if len(x) not in fixed[w])
        return f"input={word.lower()} length={there} expected={','.join(map(str, fixed[word]))}"
    if number == 18:
        words = entries("TABLE", data["TABLE"])
        entry = lambda k: "".join(f"{word:016x}" for word in words[3 * k:3 * k + 3])
        return f"input=table value={entry(place)} above={entry(place - 1)}"
    if number == 4:
        return f"input=a value={entries('A', data['A'])[place]} below={q}"
    if number == 5:
        word, message = given[0]
        bits = 32 if scheme == 0 else 14
        value = int.from_bytes(message, "little") >> bits * place & (1 << bits) - 1
        return f"input={word.lower()} value={value} below={q}"
    if number == 6:
        for word, values in given:
            if word in NUMBERS - {"A"} and any(abs(x) > largest for x in values):
                return f"input={word.lower()} value={values[place]} largest={largest}"
    if number == 17:
        return blank(command, scheme, data)


def blank(command, scheme, data):
    """The message that came, or else the one that was to be sent and what of it is zero."""
    for word in {"OPENING", "REPLY"} & data.keys():
        part = packed(word, scheme)
        if not any(data[word][part]):
            return f"input={word.lower()} zeros={part.stop - part.start}"
    sent = ["output=message"] if "MESSAGE" in OUTPUTS[command] else []
    pairs = [pair for pair in (("S", "E"), ("S1", "E1")) if data.keys() >= {*pair}]
    zero = next((pair for pair in pairs if not any(data[pair[0]] + data[pair[1]])), None)
    return " ".join(sent + ([f"zero={','.join(zero).lower()}"] if zero else []))


class Both:
    """A command run by both programs, each with its own output files."""

    def __init__(self, box, second, folder):
        self.box, self.second, self.folder, self.data = box, second, folder, {"none": b""}
        # the calls of both, which are many, go to the program behind the script
        root = os.path.dirname(os.path.realpath(box))
        behind = os.path.join(root, "target/cli/release/wimmostry")
        self.program = behind if os.path.exists(behind) else box

    def name(self, word):
        return word if word in ("none", "-") else os.path.join(self.folder, word)

    def put(self, files):
        for word, data in files.items():
            write(self.name(word), data)
            self.data[word] = data

    def words(self, command, scheme, given=None, out=None):
        """The words with the usual files, and those that are given in place of them."""
        given = {w: (given or {}).get(w, self.name(w)) for w in INPUTS[command]}
        out = {w: (out or {}).get(w, self.name(w + "1")) for w in OUTPUTS[command]}
        return [self.box, "--replace", command, str(scheme), *given.values(), *out.values()]

    def old(self, command):
        """The usual outputs with old bytes in them."""
        names = [self.name(w + "1") for w in OUTPUTS[command]]
        for name in names:
            write(name, OLD)
        return names

    def __call__(self, kind, command, scheme, given, sizes, secrets=()):
        """The scheme, the rule, the length asked for or nothing; the words of the inputs; the
        outputs' words, and which of them are secrets. Returns what the second said and wrote."""
        asked = [] if scheme is None else [str(scheme)]
        before = [*command.split(), *asked, *map(self.name, given)]
        results = []
        for program, mark in (([self.program, "--replace"], "1"), ([self.second, "box"], "2")):
            out = [self.name(w + mark) for w in sizes]
            for name in out:
                write(name, OLD)
                os.chmod(name, 0o644)
            done = run(program + before + out)
            results.append((done, [read(name) if os.path.exists(name) else None for name in out]))
        (status, text, error), files = results[0]
        (_, text2, error2), files2 = results[1]
        what = f"{command} {scheme} {given}: {text!r} {error!r} but {text2!r} {error2!r}"
        if refused := re.fullmatch(rb"refusal=(\d+) place=(\d+)\n", text2):
            data = dict(zip(INPUTS[command], (self.data[w] for w in given)))
            more = detail(command, scheme, data, *map(int, refused.groups()))
            line = text2[:-1] + f" {more}\n".encode()
            expected = said(line)
            fine = (status, text, error) == (1, b"", expected) and not any(files)
            hold(kind, fine and files == [None] * len(files),
                 f"{what}: not {expected!r} without a file, status {status}")
            return line, files2
        fine = (status, text, error) == (0, text2, b"") and files == files2
        hold(kind, fine, f"{what}: not {text2!r}, status {status}")
        for word in secrets:
            hold(kind, mode(self.name(word + "1")) == 0o600, f"{what}: mode of {word}")
        return text, files
