"""Key exchange by BCNS, NewHope and Frodo, over the shared library Wimmostry.

One function for each call of include/wimmostry.h, which is the manual: the names without wim_, the
inputs in the same order, and the outputs as what comes back. A refusal is raised as Refused. Lists
of numbers are any sequence, and what comes back of them is an array; secrets and keys are arrays
and bytearrays, which wipe() zeroes. Both ends of one exchange by NewHope, from random bytes:

>>> import os
>>> n, rule = sizes(NEWHOPE), RULE_LOW_BITS
>>> opening, s = open(NEWHOPE, rule, (), os.urandom(n.open_bytes))              # the initiator
>>> replied = answer(NEWHOPE, rule, opening, (), os.urandom(n.answer_bytes))    # the replier
>>> finished = finish(NEWHOPE, replied.message, s)                              # the initiator
>>> same(finished.digest, replied.digest)
True
>>> wipe(s)
>>> finish(NEWHOPE, b"", s)
Traceback (most recent call last):
wimmostry.Refused: refusal 2: an input's length is not the fixed one (streams, hashes: over 65536)

The library is libwimmostry.so as the system's loader finds it by its version, or the file that the
variable WIMMOSTRY_LIBRARY names. This is for benches and scripts: Python itself may copy what it is
given, and no wipe reaches its copies.
"""
from __future__ import annotations

import ctypes
import os
import re
import typing
from array import array
from typing import Iterable, NamedTuple, Optional, Sequence, Union

VERSION = "0.4.0"

BCNS, NEWHOPE, FRODO_CHALLENGE, FRODO_CLASSICAL, FRODO_RECOMMENDED, FRODO_PARANOID = range(6)
RULE_LOW_BITS, RULE_WHOLE_WORD = 14, 16
STAGE_IDLE, STAGE_OFFERED, STAGE_KEYED = range(3)
SESSION, SESSION_STAGE, SESSION_SCHEME, SESSION_KEY = 130, 0, 1, 2
STUDIOS, RECORD, RACK = 8, 131, 1048
DIGEST, EXPAND_NUMBERS, SETTINGS_LABEL, SETTINGS_TEXT, SETTINGS_FORMAT = 32, 1024, 16, 49, 2

# The calls: what is in and out; the numbers; the inputs; the outputs; what is told behind the
# place. B is a byte, i and I are numbers of 32 bits with a sign and without, Q one of 64 bits.
# runs/declared holds them to the header.
_CALLS = """
offer            ; scheme; a I, s i, e i, seed B; message B; written
reply            ; scheme; opening B, a I, s1 i, e1 i, e2 i, coins B; message B, key B, digest B;
                 message_written, key_written, digest_written
finish           ; scheme; reply B, s i; key B, digest B;
                 key_written, digest_written, slack, slack_index
open             ; scheme, rule; a I, table Q, random B; opening B, s i;
                 opening_written, s_written
answer           ; scheme, rule; opening B, a I, table Q, random B; message B, key B, digest B;
                 message_written, key_written, digest_written
noise            ; scheme; bytes B, table Q; out i; written
expand           ; rule; stream B; out I; written
grow             ; rule; seed B; out I; written
shake128         ; ; input B; out B; written
sha3_256         ; ; input B; out B; written
product          ; ; a I, b I; out I, scratch I; written
bench            ; scheme; a I, s i, e i, seed B, s1 i, e1 i, e2 i, coins B; ;
                 differ, slack, slack_index
rows_offer_begin ; scheme; s i, e i, seed B; state I;
rows_offer_part  ; ; part I; state I;
rows_offer_end   state I; ; ; message B; written
rows_reply_begin ; scheme; opening B, s1 i, e1 i, e2 i; state I;
rows_reply_part  ; ; part I; state I;
rows_reply_end   state I; ; ; message B, key B, digest B;
                 message_written, key_written, digest_written
session_offer    session B; scheme; a I, s i, e i, seed B; message B; written
session_reply    session B; scheme; opening B, a I, s1 i, e1 i, e2 i, coins B;
                 message B, key B, digest B; message_written, key_written, digest_written
session_finish   session B; scheme; reply B, s i; key B, digest B;
                 key_written, digest_written, slack, slack_index
session_open     session B; scheme, rule; a I, table Q, random B; opening B, s i;
                 opening_written, s_written
session_answer   session B; scheme, rule; opening B, a I, table Q, random B;
                 message B, key B, digest B; message_written, key_written, digest_written
session_close    session B; ; ; ;
rack_offer       rack B; studio, scheme; a I, s i, e i, seed B; message B; written
rack_reply       rack B; studio, scheme; opening B, a I, s1 i, e1 i, e2 i, coins B;
                 message B, key B, digest B; message_written, key_written, digest_written
rack_finish      rack B; studio, scheme; reply B, s i; key B, digest B;
                 key_written, digest_written, slack, slack_index
rack_close       rack B; studio; ; ;
rack_clear       rack B; ; ; ;
settings_read    ; reader; text B; label B; label_written, format, scheme, rule
settings_write   ; scheme, rule; label B; text B; written
"""
# They are lent nothing secret, and leave nothing on the stack that has to be scrubbed.
_PUBLIC = {"expand", "grow", "settings_read", "settings_write"}

Bytes = Union[bytes, bytearray, memoryview]
Numbers = Union[Iterable[int], "array[int]"]


class Sizes(ctypes.Structure):
    """The fixed numbers of a scheme, as the header's struct wim_sizes has them."""
    name: bytes
    number: int
    q: int
    noise: int
    a: int
    s: int
    e2: int
    seed: int
    coins: int
    opening: int
    reply: int
    key: int
    s_bytes: int
    e2_bytes: int
    table: int
    margin: int
    row: int
    state: int
    lent_a: int
    open_bytes: int
    answer_bytes: int
    _fields_ = [("name", ctypes.c_char_p), ("number", ctypes.c_uint32), ("q", ctypes.c_uint32),
                ("noise", ctypes.c_int32), ("a", ctypes.c_size_t), ("s", ctypes.c_size_t),
                ("e2", ctypes.c_size_t), ("seed", ctypes.c_size_t), ("coins", ctypes.c_size_t),
                ("opening", ctypes.c_size_t), ("reply", ctypes.c_size_t), ("key", ctypes.c_size_t),
                ("s_bytes", ctypes.c_size_t), ("e2_bytes", ctypes.c_size_t),
                ("table", ctypes.c_size_t), ("margin", ctypes.c_uint64), ("row", ctypes.c_size_t),
                ("state", ctypes.c_size_t), ("lent_a", ctypes.c_size_t),
                ("open_bytes", ctypes.c_size_t), ("answer_bytes", ctypes.c_size_t)]


class Refused(Exception):
    """A refusal: its number, its place, and of 15 the newer format."""

    def __init__(self, number: int, place: int, newer: int = 0) -> None:
        text = f"refusal {number}: {refusal_text(number)}"
        super().__init__(f"{text}, place {place}" if place else text)
        self.number = number
        self.place = place
        self.newer = newer


class Opened(NamedTuple):
    """What an open gives."""
    opening: bytes
    s: "array[int]"


class Replied(NamedTuple):
    """What a reply or an answer gives."""
    message: bytes
    key: bytearray
    digest: bytes


class Finished(NamedTuple):
    """What a finish gives."""
    key: bytearray
    digest: bytes
    slack: int
    slack_index: int


class Benched(NamedTuple):
    """What a bench tells: the first bit at which the keys differ, or None, and the slack."""
    differ: Optional[int]
    slack: int
    slack_index: int


class Settings(NamedTuple):
    """What a text of settings holds."""
    format: int
    scheme: int
    rule: int
    label: str


_C = {"B": ctypes.c_uint8, "I": ctypes.c_uint32, "i": ctypes.c_int32, "Q": ctypes.c_uint64}


def _load() -> ctypes.CDLL:
    name = os.environ.get("WIMMOSTRY_LIBRARY") or f"libwimmostry.so.{VERSION}"
    try:
        library = ctypes.CDLL(name)
    except OSError as why:
        raise ImportError(f"{why}; LD_LIBRARY_PATH or WIMMOSTRY_LIBRARY can say where it is")
    if not hasattr(library, "wim_version_" + VERSION.replace(".", "_")):
        raise ImportError(f"{name} is not of version {VERSION}, which this module is for")
    library.wim_sizes.restype = ctypes.POINTER(Sizes)
    library.wim_refusal_text.restype = ctypes.c_char_p
    library.wim_version.restype = library.wim_cpu.restype = ctypes.c_char_p
    library.wim_wipe.restype = library.wim_scrub.restype = None
    library.wim_wipe.argtypes = [ctypes.c_void_p, ctypes.c_size_t]
    library.wim_same.argtypes = [ctypes.c_void_p, ctypes.c_void_p, ctypes.c_size_t]
    return library


class _Call:
    """A line of the table as a function, which gives the outputs and what is told."""

    def __init__(self, line: str) -> None:
        self.name, line = line.split(None, 1)
        own, numbers, lent, outputs, told = (
            [entry.split() for entry in part.split(",") if entry.strip()]
            for part in line.split(";"))
        self.own, self.lent, self.outputs = (
            [code for _, code in part] for part in (own, lent, outputs))
        self.numbers = len(numbers)
        self.told = len(told) + (self.name != "session_close")  # which alone has no place
        self.function = getattr(_library, f"wim_{self.name}")
        self.function.restype = ctypes.c_uint32
        self.function.argtypes = (_slices(self.own) + [ctypes.c_uint32] * self.numbers
                                  + _slices(self.lent + self.outputs)
                                  + [ctypes.POINTER(ctypes.c_uint64)] * self.told)

    def __call__(self, *given: typing.Any) -> tuple[list[typing.Any], list[int]]:
        """Takes what is in and out, the numbers, the inputs, and for each output its room, or the
        buffer itself where it is in and out."""
        values = list(given)
        words: list[typing.Any] = []
        copies: list[typing.Any] = []

        def lend(code: str, buffer: typing.Any) -> None:
            view = (_C[code] * len(buffer)).from_buffer(buffer)
            words.extend((ctypes.cast(view, ctypes.POINTER(_C[code])), len(buffer)))

        for code in self.own:
            lend(code, values.pop(0))
        for _ in range(self.numbers):
            words.append(values.pop(0))
            if not 0 <= words[-1] < 2**32:  # which ctypes would cut
                raise OverflowError(f"{words[-1]} is no number of 32 bits")
        for code in self.lent:
            value = values.pop(0)
            if not _is_buffer(value, code):
                value = bytearray(value) if code == "B" else array(code, value)
                copies.append(value)
            lend(code, value)
        outputs = [_room(code, value) if isinstance(value, int) else value
                   for code, value in zip(self.outputs, values)]
        for code, buffer in zip(self.outputs, outputs):
            lend(code, buffer)
        told = [ctypes.c_uint64() for _ in range(self.told)]
        refusal = self.function(*words, *map(ctypes.byref, told))
        if self.name not in _PUBLIC:
            _library.wim_scrub()
        for copy in copies:
            wipe(copy)
        numbers = [number.value for number in told]
        if refusal:
            raise Refused(refusal, numbers[0], numbers[2] if refusal == 15 else 0)
        return outputs, numbers[1:]


def _slices(codes: list[str]) -> list[typing.Any]:
    return [kind for code in codes for kind in (ctypes.POINTER(_C[code]), ctypes.c_size_t)]


def _is_buffer(value: typing.Any, code: str) -> bool:
    """Whether a call can be lent the value as it is."""
    return isinstance(value, bytearray) if code == "B" else (
        isinstance(value, array) and value.typecode == code)


def _room(code: str, count: int) -> typing.Any:
    return bytearray(count) if code == "B" else array(code, bytes(array(code).itemsize * count))


def _sizes(scheme: int) -> Sizes:
    """The scheme's, or zeros, for a call that will refuse the scheme."""
    found = _library.wim_sizes(ctypes.c_uint32(scheme))
    return found.contents if found else Sizes()


def sizes(scheme: int) -> Sizes:
    """The fixed numbers of a scheme."""
    if not 0 <= scheme < 6:
        raise Refused(1, 0)
    return _sizes(scheme)


def version() -> str:
    """The library's version."""
    return typing.cast(bytes, _library.wim_version()).decode()


def cpu() -> str:
    """The level of processors that the library was compiled for."""
    return typing.cast(bytes, _library.wim_cpu()).decode()


def refusal_text(number: int) -> str:
    """The sentence for a refusal."""
    return typing.cast(bytes, _library.wim_refusal_text(ctypes.c_uint32(number))).decode()


def wipe(buffer: Union[bytearray, "array[int]"]) -> None:
    """Zeros all over a bytearray or an array."""
    count = len(buffer) * (buffer.itemsize if isinstance(buffer, array) else 1)
    if count:
        view = (ctypes.c_uint8 * count).from_buffer(buffer)
        _library.wim_wipe(ctypes.addressof(view), count)


def same(a: Bytes, b: Bytes) -> bool:
    """Whether two tags or digests are the same, in a time that depends on their lengths alone."""
    return len(a) == len(b) and _library.wim_same(bytes(a), bytes(b), len(a)) == 1


def open(scheme: int, rule: int, a: Numbers, random: Bytes,
         table: Optional[Numbers] = None) -> Opened:
    """The opening message and s, from sizes(scheme).open_bytes random bytes. a is empty in NewHope;
    the table is BCNS's, bcns_table where none is given."""
    of = _sizes(scheme)
    return _opened(_calls["open"](scheme, rule, a, _table(of, table), random, of.opening, of.s))


def answer(scheme: int, rule: int, opening: Bytes, a: Numbers, random: Bytes,
           table: Optional[Numbers] = None) -> Replied:
    """The reply message, the replier's key and its digest, from sizes(scheme).answer_bytes random
    bytes; a and the table as in open."""
    of = _sizes(scheme)
    return _replied(_calls["answer"](scheme, rule, opening, a, _table(of, table), random, of.reply,
                                     of.key, DIGEST))


def noise(scheme: int, random: Bytes, table: Optional[Numbers] = None) -> "array[int]":
    """s, e, s' or e', or e'', from random bytes; in BCNS by bcns_table where none is given."""
    of = _sizes(scheme)
    table = _table(of, table)
    count = {of.s_bytes: of.s, of.e2_bytes: of.e2}.get(len(random), 0)
    (out,), _ = _calls["noise"](scheme, random, table, count)
    return typing.cast("array[int]", out)


def expand(rule: int, stream: Bytes) -> "array[int]":
    """NewHope's public numbers of a stream."""
    return typing.cast("array[int]", _calls["expand"](rule, stream, EXPAND_NUMBERS)[0][0])


def grow(rule: int, seed: Bytes) -> "array[int]":
    """NewHope's public numbers from their seed."""
    return typing.cast("array[int]", _calls["grow"](rule, seed, EXPAND_NUMBERS)[0][0])


def shake128(data: Bytes, count: int) -> bytes:
    """SHAKE-128, count bytes."""
    return bytes(_calls["shake128"](data, count)[0][0])


def sha3_256(data: Bytes) -> bytes:
    """SHA3-256."""
    return bytes(_calls["sha3_256"](data, DIGEST)[0][0])


def product(a: Sequence[int], b: Sequence[int]) -> "array[int]":
    """The product of two BCNS polynomials of one length, by halves."""
    return typing.cast("array[int]", _calls["product"](a, b, len(a), 6 * len(a))[0][0])


def offer(scheme: int, a: Numbers, s: Numbers, e: Numbers, seed: Bytes) -> bytes:
    """The opening message."""
    return bytes(_calls["offer"](scheme, a, s, e, seed, _sizes(scheme).opening)[0][0])


def reply(scheme: int, opening: Bytes, a: Numbers, s1: Numbers, e1: Numbers, e2: Numbers,
          coins: Bytes) -> Replied:
    """The reply message, the replier's key and its digest."""
    of = _sizes(scheme)
    return _replied(_calls["reply"](scheme, opening, a, s1, e1, e2, coins, of.reply, of.key,
                                    DIGEST))


def finish(scheme: int, message: Bytes, s: Numbers) -> Finished:
    """The initiator's key, its digest and the slack, of the reply message."""
    return _finished(_calls["finish"](scheme, message, s, _sizes(scheme).key, DIGEST))


def bench(scheme: int, a: Numbers, s: Numbers, e: Numbers, seed: Bytes, s1: Numbers, e1: Numbers,
          e2: Numbers, coins: Bytes) -> Benched:
    """Both ends on lent secrets."""
    _, (differ, slack, index) = _calls["bench"](scheme, a, s, e, seed, s1, e1, e2, coins)
    return Benched(differ - 1 if differ else None, slack, index)


def rows_offer_begin(scheme: int, s: Numbers, e: Numbers, seed: Bytes) -> "array[int]":
    """The running state of an offer by rows, a secret."""
    state = _room("I", _sizes(scheme).state)
    _calls["rows_offer_begin"](scheme, s, e, seed, state)
    return typing.cast("array[int]", state)


def rows_offer_part(part: Numbers, state: "array[int]") -> None:
    """The next numbers of a row of A."""
    _calls["rows_offer_part"](part, state)


def rows_offer_end(state: "array[int]") -> bytes:
    """The opening message; the state is zeroed."""
    room = _sizes(_scheme_of(state)).opening
    return bytes(_calls["rows_offer_end"](state, room)[0][0])


def rows_reply_begin(scheme: int, opening: Bytes, s1: Numbers, e1: Numbers,
                     e2: Numbers) -> "array[int]":
    """The running state of a reply by rows, a secret."""
    state = _room("I", _sizes(scheme).state)
    _calls["rows_reply_begin"](scheme, opening, s1, e1, e2, state)
    return typing.cast("array[int]", state)


def rows_reply_part(part: Numbers, state: "array[int]") -> None:
    """The next numbers of a row of A."""
    _calls["rows_reply_part"](part, state)


def rows_reply_end(state: "array[int]") -> Replied:
    """The reply message, the replier's key and its digest; the state is zeroed."""
    of = _sizes(_scheme_of(state))
    return _replied(_calls["rows_reply_end"](state, of.reply, of.key, DIGEST))


def session_offer(session: bytearray, scheme: int, a: Numbers, s: Numbers, e: Numbers,
                  seed: Bytes) -> bytes:
    """offer on a session, bytearray(SESSION) where it is idle."""
    room = _sizes(scheme).opening
    return bytes(_calls["session_offer"](session, scheme, a, s, e, seed, room)[0][0])


def session_reply(session: bytearray, scheme: int, opening: Bytes, a: Numbers, s1: Numbers,
                  e1: Numbers, e2: Numbers, coins: Bytes) -> Replied:
    """reply on a session."""
    of = _sizes(scheme)
    return _replied(_calls["session_reply"](session, scheme, opening, a, s1, e1, e2, coins,
                                            of.reply, of.key, DIGEST))


def session_finish(session: bytearray, scheme: int, message: Bytes, s: Numbers) -> Finished:
    """finish on a session."""
    key = _sizes(scheme).key
    return _finished(_calls["session_finish"](session, scheme, message, s, key, DIGEST))


def session_open(session: bytearray, scheme: int, rule: int, a: Numbers, random: Bytes,
                 table: Optional[Numbers] = None) -> Opened:
    """open on a session."""
    of = _sizes(scheme)
    return _opened(_calls["session_open"](session, scheme, rule, a, _table(of, table), random,
                                          of.opening, of.s))


def session_answer(session: bytearray, scheme: int, rule: int, opening: Bytes, a: Numbers,
                   random: Bytes, table: Optional[Numbers] = None) -> Replied:
    """answer on a session."""
    of = _sizes(scheme)
    return _replied(_calls["session_answer"](session, scheme, rule, opening, a, _table(of, table),
                                             random, of.reply, of.key, DIGEST))


def session_close(session: bytearray) -> None:
    """Zeroes the session."""
    _calls["session_close"](session)


def rack_offer(rack: bytearray, studio: int, scheme: int, a: Numbers, s: Numbers, e: Numbers,
               seed: Bytes) -> bytes:
    """offer for a studio of a rack, bytearray(RACK) that rack_clear has made empty."""
    room = _sizes(scheme).opening
    return bytes(_calls["rack_offer"](rack, studio, scheme, a, s, e, seed, room)[0][0])


def rack_reply(rack: bytearray, studio: int, scheme: int, opening: Bytes, a: Numbers, s1: Numbers,
               e1: Numbers, e2: Numbers, coins: Bytes) -> Replied:
    """reply for a studio of a rack."""
    of = _sizes(scheme)
    return _replied(_calls["rack_reply"](rack, studio, scheme, opening, a, s1, e1, e2, coins,
                                         of.reply, of.key, DIGEST))


def rack_finish(rack: bytearray, studio: int, scheme: int, message: Bytes,
                s: Numbers) -> Finished:
    """finish for a studio of a rack."""
    key = _sizes(scheme).key
    return _finished(_calls["rack_finish"](rack, studio, scheme, message, s, key, DIGEST))


def rack_close(rack: bytearray, studio: int) -> None:
    """Leaves the studio's number in its slot and zeros behind it."""
    _calls["rack_close"](rack, studio)


def rack_clear(rack: bytearray) -> None:
    """Eight idle records with their numbers."""
    _calls["rack_clear"](rack)


def settings_read(text: Bytes, reader: int = SETTINGS_FORMAT) -> Settings:
    """What a text of settings holds."""
    (label,), (written, form, scheme, rule) = _calls["settings_read"](reader, text, SETTINGS_LABEL)
    return Settings(form, scheme, rule, label[:written].decode("ascii"))


def settings_write(scheme: int, rule: int, label: str = "") -> bytes:
    """The text of settings, in the oldest format that holds them."""
    (text,), (written,) = _calls["settings_write"](scheme, rule, label.encode(), SETTINGS_TEXT)
    return bytes(text[:written])


def _table(of: Sizes, table: Optional[Numbers]) -> Numbers:
    return bcns_table[:of.table] if table is None else table


def _opened(answer: tuple[list[typing.Any], list[int]]) -> Opened:
    opening, s = answer[0]
    return Opened(bytes(opening), s)


def _replied(answer: tuple[list[typing.Any], list[int]]) -> Replied:
    message, key, digest = answer[0]
    return Replied(bytes(message), key, bytes(digest))


def _finished(answer: tuple[list[typing.Any], list[int]]) -> Finished:
    (key, digest), (_, _, slack, index) = answer
    return Finished(key, bytes(digest), slack, index)


def _scheme_of(state: "array[int]") -> int:
    """The scheme whose state has this length; 6, which is none, where there is no such."""
    return next((k for k in range(6) if state and _sizes(k).state == len(state)), 6)


_library = _load()
bcns_table = array("Q", (ctypes.c_uint64 * 153).in_dll(_library, "wim_bcns_table"))
_calls = {call.name: call for call in map(_Call, re.split(r"\n(?=\w)", _CALLS.strip()))}

if __name__ == "__main__":
    import doctest
    import sys

    import wimmostry

    failed, tried = doctest.testmod(wimmostry)
    print(f"wimmostry.py: {tried} examples, {failed} failed")
    sys.exit(failed != 0)
