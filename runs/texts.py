"""What runs/line and runs/trace share: the same standard input to a proved program and to the second.

`held` is their whole main. A group of inputs is a generator over a source of random numbers, and its
name is the function's.
"""
import os
import platform
import random
import subprocess
import sys
import time

LF = b"\n"
LEAST = 1000  # inputs in a run
# what stands where a number should
ODD_NUMBERS = [b"", b"00", b"01", b"0000000000", b"00000000000", b"0123456789", b"1234567890", b"12345678901", b"99999999999", b"10000000000",
               b"18446744073709551616", b"4294967296", b"+1", b"-1", b"-0", b" 1", b"1 ", b"1\t", b"\t1", b"1.0", b"1e1", b"0x1", b"a", b"1a", b"a1", b"1\r", b"1\0",
               b"\0", b"/", b":", b"0" * 40, b"1" * 40, b"\xb2", b"\xff"]


def damage(rand, good):
    """A valid text with each byte changed, removed or inserted at each place, cut at each length, its
    lines swapped, doubled, left out, ended by CR or CR LF."""
    for i in range(len(good)):
        yield good[:i]
        yield good[:i] + good[i + 1:]
        for c in b"\n\r 019=\x00\xff" + bytes([good[i] ^ 1, good[i] ^ 32, good[i] ^ 128, rand.randrange(256)]):
            yield good[:i] + bytes([c]) + good[i + 1:]
    for i in range(len(good) + 1):
        for c in b"\n\r 0=\x00" + bytes([rand.randrange(256)]):
            yield good[:i] + bytes([c]) + good[i:]
    lines = [x + LF for x in good.split(LF)[:-1]]
    for i in range(len(lines)):
        yield b"".join(lines[:i] + lines[i + 1:])
        yield b"".join(lines[:i + 1] + lines[i:])
        for j in range(i):
            swapped = list(lines)
            swapped[i], swapped[j] = swapped[j], swapped[i]
            yield b"".join(swapped)
        for end in (b"\r", b"\r\n", b"\n\n", b" \n", b"\0"):
            yield b"".join(lines[:i] + [lines[i][:-1] + end] + lines[i + 1:])
    yield good.replace(LF, b"\r\n")
    yield good.replace(LF, b"\r")
    yield good.upper()
    yield b"\xef\xbb\xbf" + good
    for tail in (LF, b"\0", b" ", b"x=1\n", good):
        yield good + tail


def random_text(rand, letters, parts, lengths):
    """Random bytes, random text of the bytes that good texts are made of, and of their parts."""
    for n in lengths:
        yield bytes(rand.randrange(256) for _ in range(n))
        yield bytes(rand.choice(letters) for _ in range(n))
        yield b"0" * n
        yield LF * n
    for _ in range(200):
        some = parts + [str(rand.randrange(1 << rand.randrange(1, 36))).encode()]
        yield b"".join(rand.choice(some) for _ in range(rand.randrange(1, 20)))


def command(program):
    if platform.machine() in ("x86_64", "AMD64"):
        return [program]
    # the program is for x86-64: an emulator, with the loader and the C library of the kit
    doc = subprocess.run(["rt", "doc"], capture_output=True, text=True, check=True).stdout.strip()
    lib = os.path.join(os.path.dirname(doc), "toolchain", "lib")
    return ["qemu-x86_64", os.path.join(lib, "ld-linux-x86-64.so.2"), "--library-path", lib, program]


def run(words, data):
    done = subprocess.run(words, input=data, capture_output=True)
    return done.returncode, done.stdout, done.stderr


def run_slowly(words, data, cut):
    with subprocess.Popen(words, stdin=subprocess.PIPE, stdout=subprocess.PIPE, stderr=subprocess.PIPE) as p:
        for i in range(0, len(data), cut):
            p.stdin.write(data[i:i + cut])
            p.stdin.flush()
            time.sleep(0.002)
        out, err = p.communicate()
        return p.returncode, out, err


def inputs(groups):
    rand = random.Random(1)
    for group in groups:
        seen = set()
        for x in group(rand):
            if x not in seen:
                seen.add(x)
                yield group.__name__, x


def held(name, doc, groups, slow):
    """The script's words, all inputs of the groups, and those of slow in pieces; it ends the script. A group
    without an input fails, and so do fewer inputs than LEAST."""
    if len(sys.argv) not in (3, 4):
        sys.exit(doc)
    first = command(sys.argv[1])
    second = [sys.argv[2], name]
    every = int(sys.argv[3]) if len(sys.argv) == 4 else 1
    counts, answers, wrong = {}, {}, 0

    def hold(group, data, a, b):
        nonlocal wrong
        counts[group] = counts.get(group, 0) + 1
        kind = a[1] if a[1].startswith(b"refusal") else b"shown"
        answers[kind] = answers.get(kind, 0) + 1
        if a != b or a[0] != 0 or a[2] != b"":
            wrong += 1
            if wrong <= 20:
                print(f"differ ({group}): {data[:100]!r}{'..' if len(data) > 100 else ''}\n  {name}_main {a}\n  second {b}")

    for k, (group, data) in enumerate(inputs(groups)):
        if k % every == 0:
            hold(group, data, run(first, data), run(second, data))
    for cut in (1, 2, 7, 31):
        for data in slow:
            hold("slow", data, run_slowly(first, data, cut), run(second, data))

    print("inputs:", sum(counts.values()), ", ".join(f"{g} {n}" for g, n in counts.items()))
    print("answers:", ", ".join(f"{k.decode().strip()} {n}" for k, n in sorted(answers.items())))
    empty = [group for group in [*(group.__name__ for group in groups), "slow"] if group not in counts]
    few = sum(counts.values()) < LEAST
    if empty:
        print("no input in:", ", ".join(empty))
    if few:
        print(f"fewer than {LEAST} inputs")
    print("all the same" if wrong == 0 else f"{wrong} differ")
    sys.exit(wrong != 0 or few or empty != [])
