#!/usr/bin/env python3
"""python/test.py: the module over the shared library, all of its functions.

The library is the one that the loader finds, or that WIMMOSTRY_LIBRARY names. The two hashes are
held to hashlib, the constants to the header, each end by rows and on sessions and racks to the
plain calls; README's program is run. It ends with 1 where something differs.
"""
import hashlib
import os
import pathlib
import re
import sys
from array import array

import wimmostry as w

ROOT = pathlib.Path(__file__).resolve().parent.parent
used = set()


def refused(number, call, *given):
    try:
        call(*given)
    except w.Refused as told:
        return told.number == number and str(told).startswith(f"refusal {number}: ")
    return False


def constants():
    """Each constant that the header has too; the sizes by each scheme."""
    header = (ROOT / "include/wimmostry.h").read_text()
    defined = re.findall(r"^#define WIM_(\w+) (\d+)u?$", header, re.M)
    own = {name: value for name, value in vars(w).items() if isinstance(value, int)}
    known = {name: int(value) for name, value in defined}
    assert own and all(known[name] == value for name, value in own.items()), own
    for k in range(6):
        of = w.sizes(k)
        prefix = of.name.decode().upper().replace(" ", "_")
        assert known[prefix] == of.number == k
        for name, _ in of._fields_[2:]:
            assert known[f"{prefix}_{name.upper()}"] == getattr(of, name), (prefix, name)
    text = (ROOT / "data/bcns-table.txt").read_text()
    words = [int(x, 16) for line in text.splitlines() if line[0] != "#" for x in line.split()]
    assert list(w.bcns_table) == words
    assert w.version() == w.VERSION and refused(1, w.sizes, 6)
    assert w.cpu() in ("x86-64", "x86-64-v3", "aarch64")


def cut(random, *counts):
    """Random bytes in parts, which are all of them."""
    assert sum(counts) == len(random)
    return [random[sum(counts[:k]):][:count] for k, count in enumerate(counts)]


def exchange(scheme):
    """Both ends, plain, from random bytes, by rows where there are rows, on sessions, in a rack."""
    of = w.sizes(scheme)
    first, second = os.urandom(of.open_bytes), os.urandom(of.answer_bytes)
    seed, *rest = cut(first, of.seed, of.s_bytes, of.s_bytes)
    s, e = (w.noise(scheme, part) for part in rest)
    *rest, coins = cut(second, of.s_bytes, of.s_bytes, of.e2_bytes, of.coins)
    s1, e1, e2 = (w.noise(scheme, part) for part in rest)
    assert max(map(abs, [*s, *e, *s1, *e1, *e2])) <= of.noise
    if scheme == w.NEWHOPE:
        a = w.grow(w.RULE_WHOLE_WORD, seed)
        assert a == w.expand(w.RULE_WHOLE_WORD, w.shake128(seed, 24 * 168))
    else:
        a = array("I", (x % of.q for x in array("I", os.urandom(4 * of.a))))

    opening = w.offer(scheme, a, s, e, seed)
    replied = w.reply(scheme, opening, a, s1, e1, e2, coins)
    finished = w.finish(scheme, replied.message, s)
    benched = w.bench(scheme, a, s, e, seed, s1, e1, e2, coins)
    agree = finished.key == replied.key
    assert agree == (benched.differ is None) and benched[1:] == finished[2:]
    assert replied.digest == hashlib.sha3_256(replied.key).digest()
    assert w.same(replied.digest, finished.digest) == agree
    assert len(opening) == of.opening and len(replied.message) == of.reply
    assert len(replied.key) == of.key and isinstance(replied.key, bytearray)
    lent, rule = a[:of.lent_a], w.RULE_WHOLE_WORD
    assert w.open(scheme, rule, lent, first) == (opening, s)
    assert w.answer(scheme, rule, opening, lent, second) == replied
    assert refused(12, w.open, scheme, 15, lent, first)
    # any sequence is taken
    assert w.offer(scheme, list(a), tuple(s), list(e), bytearray(seed)) == opening

    if of.row:
        rows = [a[k:k + of.row] for k in range(0, of.a, of.row)]
        state = w.rows_offer_begin(scheme, s, e, seed)
        assert refused(11, w.rows_offer_end, state)
        for row in rows:
            w.rows_offer_part(row[:100], state)
            w.rows_offer_part(row[100:], state)
        assert w.rows_offer_end(state) == opening and not any(state)
        state = w.rows_reply_begin(scheme, opening, s1, e1, e2)
        for row in rows:
            w.rows_reply_part(row, state)
        assert w.rows_reply_end(state) == replied and not any(state)

    left, right = bytearray(w.SESSION), bytearray(w.SESSION)
    assert w.session_offer(left, scheme, a, s, e, seed) == opening
    assert w.session_reply(right, scheme, opening, a, s1, e1, e2, coins) == replied
    assert w.session_finish(left, scheme, replied.message, s) == finished
    assert left[w.SESSION_STAGE] == w.STAGE_KEYED and left[w.SESSION_SCHEME] == scheme
    assert left[w.SESSION_KEY:][:of.key] == finished.key
    assert refused(10, w.session_offer, left, scheme, a, s, e, seed)
    w.session_close(left)
    assert not any(left)
    assert w.session_open(left, scheme, rule, lent, first) == (opening, s)
    assert refused(10, w.session_answer, left, scheme, rule, opening, lent, second)
    w.session_close(right)
    assert w.session_answer(right, scheme, rule, opening, lent, second) == replied
    assert right[w.SESSION_KEY:][:of.key] == replied.key

    rack = bytearray(w.RACK)
    assert refused(10, w.rack_offer, rack, 3, scheme, a, s, e, seed)
    w.rack_clear(rack)
    assert w.rack_offer(rack, 3, scheme, a, s, e, seed) == opening
    assert w.rack_reply(rack, 7, scheme, opening, a, s1, e1, e2, coins) == replied
    assert w.rack_finish(rack, 3, scheme, replied.message, s) == finished
    assert rack[7 * w.RECORD + 1:][:w.SESSION] == right
    w.rack_close(rack, 7)
    assert not any(rack[7 * w.RECORD + 1:])
    assert refused(16, w.rack_close, rack, w.STUDIOS)

    secret = s[:]
    w.wipe(secret)
    assert not any(secret) and len(secret) == of.s
    try:
        w.finish(scheme, replied.message[1:], s)
    except w.Refused as told:
        assert (told.number, told.place) == (2, 0)
    else:
        raise AssertionError("a short reply was taken")


def others():
    for count in (0, 1, 135, 136, 137, 65536):
        data = os.urandom(count)
        assert w.sha3_256(data) == hashlib.sha3_256(data).digest()
        assert w.shake128(data, 333) == hashlib.shake_128(data).digest(333)
    assert refused(2, w.sha3_256, bytes(65537))
    one, x = [1] + [0] * 31, [0, 1] + [0] * 30
    assert list(w.product(one, x)) == x and refused(2, w.product, [1], [1])
    text = w.settings_write(4, 16, "STUDIO7")
    assert text == b"format=2\nscheme=4\nrule=16\nlabel=STUDIO7\n"
    assert w.settings_read(text) == (2, 4, 16, "STUDIO7")
    assert refused(8, w.settings_write, 4, 16, "studio")
    try:
        w.settings_read(b"format=9999999999\n")
    except w.Refused as told:
        assert (told.number, told.newer) == (15, 9999999999)
    else:
        raise AssertionError("a newer format was taken")
    assert refused(8, w.settings_read, b"format=10000000000\n")
    assert refused(1, w.offer, 6, [], [], [], b"") and refused(12, w.grow, 15, bytes(32))
    for number in (-1, 2**32):
        try:
            w.grow(number, bytes(32))
        except OverflowError:
            continue
        raise AssertionError(f"{number} was cut to 32 bits")
    assert w.refusal_text(17) == "a message's packed part is all zero bytes"
    assert not w.same(b"a", b"b") and not w.same(b"a", b"") and w.same(b"", b"")


def readme():
    text = (ROOT / "README.md").read_text()
    (program,) = re.findall(r"^```python\n(.*?)^```$", text, re.M | re.S)
    exec(compile(program, "README.md", "exec"), {})


def trace(frame, event, _):
    if event == "call" and frame.f_globals.get("__name__") == "wimmostry":
        used.add(frame.f_code.co_name)


def main():
    sys.setprofile(trace)
    constants()
    for scheme in range(6):
        exchange(scheme)
    others()
    sys.setprofile(None)
    readme()
    public = {name for name, value in vars(w).items()
              if callable(value) and getattr(value, "__module__", "") == "wimmostry"
              and not isinstance(value, type) and name[0] != "_"}
    assert public <= used, f"not called: {public - used}"
    print(f"python: {len(public)} functions, six schemes")


main()
