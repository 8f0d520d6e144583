"""The schemes, the commands, and what every part does: run, read, write, count."""
import os
import re
import stat
import struct
import subprocess

# q, largest noise, key bytes; counts of public numbers, of a secret and of e'';
# bytes of seed, coins, opening and reply; random bytes for a secret and for e''; BCNS's alone are
# drawn by a table
SCHEMES = {
    0: (4294967295, 51, 128, 1024, 1024, 1024, 0, 256, 4096, 4224, 25600, 25600),
    1: (12289, 16, 32, 1024, 1024, 1024, 32, 32, 1824, 2048, 4096, 4096),
}
for number, n, q, largest, key, width in ((2, 352, 2048, 3, 8, 11), (3, 592, 4096, 4, 16, 12),
                                          (4, 752, 32768, 5, 32, 15), (5, 864, 32768, 6, 32, 15)):
    SCHEMES[number] = (q, largest, key, n * n, 8 * n, 64, 16, 0, 16 + width * n, width * n + 8,
                       16 * n, 128)
# the largest slack of an exchange whose keys are proved to agree
MARGINS = {0: 1073741823, 1: 0, 2: 256, 3: 256, 4: 512, 5: 512}
# the inputs of each command in their order, and the outputs
INPUTS = {
    "offer": ["A", "S", "E", "SEED"],
    "reply": ["OPENING", "A", "S1", "E1", "E2", "COINS"],
    "finish": ["REPLY", "S"],
    "bench": ["A", "S", "E", "SEED", "S1", "E1", "E2", "COINS"],
    "noise": ["BYTES", "TABLE"],
    "expand": ["STREAM"],
    "grow": ["SEED"],
    "hash sha3-256": ["INPUT"],
    "hash shake128": ["INPUT"],
}
OUTPUTS = {"offer": ["MESSAGE"], "reply": ["MESSAGE", "KEY", "DIGEST"], "finish": ["KEY", "DIGEST"],
           "bench": []}
NUMBERS = {"A", "S", "E", "S1", "E1", "E2"}
# the table that ships: words of 64 bits, three an entry, as text
with open(os.path.join(os.path.dirname(__file__), "../../data/bcns-table.txt"), "rb") as shipped:
    TABLE = shipped.read()
OLD = b"an old key that stays where it is" * 9

# the library's sentence for each refusal, from the table of the header
with open(os.path.join(os.path.dirname(__file__), "../../include/wimmostry.h")) as header:
    SENTENCES = dict(re.findall(r"^ \*     WIM_\w+ +(\d+)   (.*)$", header.read(), re.M))

counts, wrong = {}, []


def hold(kind, fine, what):
    counts[kind] = counts.get(kind, 0) + 1
    if not fine:
        wrong.append(what)
        if len(wrong) <= 20:
            print(f"{kind}: {what}")


def run(words, **more):
    given = {"stdin": subprocess.DEVNULL} if not {"stdin", "input"} & more.keys() else {}
    if "stdout" not in more:
        given.update(stdout=subprocess.PIPE)
    done = subprocess.run(words, stderr=subprocess.PIPE, timeout=60, **given, **more)
    return done.returncode, done.stdout, done.stderr


def said(line):
    """The line of a refusal, as standard error has it: with the sentence behind it."""
    number = re.match(rb"refusal=(\d+) ", line)[1].decode()
    return line.rstrip(b"\n") + f": {SENTENCES[number]}\n".encode()


def refused(done, line):
    """Whether it was refused by this line, and said nothing else."""
    return done == (1, b"", said(line))


def read(name):
    with open(name, "rb") as f:
        return f.read()


def write(name, data):
    """What nobody else may read."""
    with open(name, "wb", opener=lambda path, flags: os.open(path, flags, 0o600)) as f:
        f.write(data)


def mode(name):
    return os.stat(name).st_mode & 0o777


def device(name):
    """A device of the folder's own, like /dev/null; whether there is one, which takes root. Never
    name one of the machine's as an output: run as root, a program that has got this wrong would
    replace it."""
    try:
        os.mknod(name, stat.S_IFCHR | 0o600, os.makedev(1, 3))
        return True
    except PermissionError:
        return False


def temporaries(folder):
    return [name for _, _, names in os.walk(folder) for name in names if name.startswith(".")]


def words32(numbers):
    return struct.pack(f"<{len(numbers)}I", *(x % 2**32 for x in numbers))


def table_of(words):
    """A table's text."""
    rows = [words[k:k + 3] for k in range(0, len(words), 3)]
    return "".join(" ".join(f"{word:016x}" for word in row) + "\n" for row in rows).encode()


def words_of(text):
    """The words of a table's text."""
    lines = [line for line in text.decode().splitlines() if not line.startswith("#")]
    return [int(word, 16) for line in lines for word in line.split()]


def inputs(scheme, rand):
    """The files of one exchange, but for the messages."""
    q, largest, key, public, secret, last, seed, coins, *_ = SCHEMES[scheme]
    # noise that is small enough for the keys to agree
    spread = min(largest, 3)
    noise = lambda k: words32([rand.randint(-spread, spread) for _ in range(k)])
    return {
        "A": words32([rand.randrange(q) for _ in range(public)]),
        "S": noise(secret), "E": noise(secret),
        "S1": noise(secret), "E1": noise(secret), "E2": noise(last),
        "SEED": rand.randbytes(seed), "COINS": rand.randbytes(coins),
    }
