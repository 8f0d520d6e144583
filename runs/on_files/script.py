"""The script at the root: links, no kit, what it says while it proves, what it builds again."""
import os
import pty
import re
import shutil
import signal
import subprocess
import time

from .common import hold, read, refused, run, write

# a prover that takes no time, but for the crate SLOW, whose compiler makes an empty object, and a
# cargo that makes a program of three lines
FAKE = {
    "bin/rt": """#!/bin/bash
[ "$1 $2" = "all check" ] || { echo "$(dirname "$0")/../kit/guide"; exit 0; }
top=$PWD/../..
echo "${PWD##*/} $*" >>"$top/target/asked"
for name in $(cat below); do
    rm -rf "../$name/out/rlib"
    mkdir -p "../$name/out/rlib"
    [ "$name" != "${SLOW:-}" ] || { echo "$$" >"$top/target/slow"; sleep "$SECONDS_OF_SLOW"; }
    echo "== $name"
    for i in $(seq 40); do echo "fn $name::f$i: proved"; done
    if [ "$name" = "${BREAK:-}" ]; then
        echo "fn $name::f41: not proved"
    else
        : >"../$name/out/rlib/stamp"
    fi
done
echo "== summary"
for name in $(cat below); do
    [ "$name" = "${BREAK:-}" ] && echo "$name: failed (1)" || echo "$name: ok"
done
[ -z "${BREAK:-}" ]
""",
    "kit/guide": "",
    "kit/bin/rattle": """#!/bin/bash
work=$(mktemp -d)
echo "$1 $3" >>"$PWD/../../target/asked"
name=$3
while [ "$1" != --toolchain ]; do shift; done
cd "$work"
: >module.bc
"$2/bin/clang" module.bc -o "$name.o"
rm -f "$4"
ar rc "$4" "$name.o"
rm -r "$work"
""",
    "kit/toolchain/bin/clang": "#!/bin/bash\ncc -c -x c /dev/null -o \"$3\"\n",
    "bin/uname": "#!/bin/bash\necho x86_64\n",
    "bin/cargo": """#!/bin/bash
root=$(dirname "$0")/..
[ -z "${BREAK_CARGO:-}" ] || { echo "error: cargo"; exit 101; }
mkdir -p "$root/target/cli/release"
printf '#!/bin/bash\\necho "$@"\\nexit 7\\n' >"$root/target/cli/release/wimmostry"
chmod +x "$root/target/cli/release/wimmostry"
""",
}


# each archive, and the crate that it is made of
ARCHIVES = {"wimmostry": "wimmostry", "trace": "trace_c"}


def made_of(crate, crates):
    """The crates that a static library is made of, in the order in which they are taken."""
    needs = {}
    with open(crates) as lines:
        for line in lines:
            if ":" in line and not line.startswith("#"):
                name, rest = line.split(":")
                needs[name.split()[0]] = rest.split()
    level = {}

    def visit(name):
        if name not in level:
            level[name] = max([visit(x) + 1 for x in needs[name] if x in needs], default=0)
        return level[name]

    visit(crate)
    order = []

    def walk(name):
        for x in needs[name]:
            if x in needs and x not in order:
                walk(x)
        if name not in order:
            order.append(name)

    walk(crate)
    return sorted(order, key=lambda x: level[x])


def broken_off(tree, around):
    """While a crate is proved its name is told; a script that is ended ends its prover."""
    slow = {**around, "SLOW": "matrix", "SECONDS_OF_SLOW": "60"}
    # Ctrl-C is ignored by what a shell has put into the background, and by all that it starts
    heard = lambda: signal.signal(signal.SIGINT, signal.SIG_DFL)
    with subprocess.Popen([tree + "/native", "wimmostry"], env=slow, stderr=subprocess.PIPE,
                          preexec_fn=heard) as native:
        line = b""
        while not line.endswith(b": matrix\n"):
            line = native.stderr.readline()
            if not line:
                break
        proving = re.fullmatch(rb"prove: \d+ of \d+ proved in 0m\d+s, about \d min left: matrix\n", line)
        native.send_signal(signal.SIGINT)
        status = native.wait(timeout=30)
    prover = int(read(tree + "/target/slow"))
    for _ in range(50):
        if not os.path.exists(f"/proc/{prover}"):
            break
        time.sleep(0.1)
    hold("script", proving and status == 143 and not os.path.exists(f"/proc/{prover}"),
         f"broken off: {line!r} {status}")


def on_terminal(tree, around):
    """One line is rewritten, and is no wider than the terminal."""
    main, side = pty.openpty()
    subprocess.run(["stty", "cols", "40"], stdin=side, check=True)
    slow = {**around, "SLOW": "matrix", "SECONDS_OF_SLOW": "2"}
    subprocess.run([tree + "/native", "wimmostry"], env=slow, stdout=subprocess.DEVNULL, stderr=side,
                   check=True, timeout=60)
    os.close(side)
    text = os.read(main, 10000)
    os.close(main)
    lines = text.split(b"\r\n")
    parts = lines[1].split(b"\r")
    fine = len(lines) == 3 and lines[2] == b"" and len(parts) > 3
    fine = fine and all(len(x.removesuffix(b"\x1b[K")) < 40 for x in parts)
    hold("script", fine, f"on a terminal: {text!r}")


def script(both):
    real = os.path.realpath(both.box)
    root = os.path.dirname(real)
    # through a link, and a link to a link, from another folder
    os.symlink(real, both.name("link"))
    os.symlink("link", both.name("link2"))
    for name in ("link", "link2"):
        done = run([both.name(name), "version"], cwd="/")
        hold("script", done == run([both.box, "version"]) and done[0] == 0,
             f"through {name}: {done}")
    os.remove(both.name("link2"))
    os.remove(both.name("link"))
    # without the kit and without cargo
    tools = both.name("tools")
    os.mkdir(tools)
    for tool in ("bash", "dirname", "readlink", "find"):
        os.symlink(shutil.which(tool), os.path.join(tools, tool))
    given = ["finish", "9", "none", "none", both.name("KEY1"), both.name("DIGEST1")]
    done = run([shutil.which("bash"), both.box, *given], env={"PATH": tools})
    fine = refused(done, b"refusal=1 place=0 scheme=9 expected=0..5")
    hold("script", fine, f"without the kit: {done}")
    # a tree in which nothing is built
    tree = both.name("tree")
    for name, text in FAKE.items():
        os.makedirs(os.path.dirname(os.path.join(tree, name)), exist_ok=True)
        write(os.path.join(tree, name), text.encode())
        os.chmod(os.path.join(tree, name), 0o755)
    for name in ("box", "native", "prove", "memory", "compile", "crates.txt"):
        shutil.copy(os.path.join(root, name), tree)
    for name in ("c", "include", "data"):
        shutil.copytree(os.path.join(root, name), os.path.join(tree, name))
    made = {x: made_of(x, os.path.join(root, "crates.txt")) for x in ARCHIVES.values()}
    for name in ("cli/rust", "cli/src"):
        os.makedirs(os.path.join(tree, name))
    for name in ("cli/build.rs", "cli/Cargo.toml"):
        write(os.path.join(tree, name), b"")
    for name in {*made["wimmostry"], *made["trace_c"]}:
        os.makedirs(os.path.join(tree, "crates", name, "src"))
        write(os.path.join(tree, "crates", name, "src/lib.rt"), b"")
        below = made_of(name, os.path.join(root, "crates.txt"))
        write(os.path.join(tree, "crates", name, "below"), "\n".join(below).encode())
    around = {**os.environ, "PATH": tree + "/bin:" + os.environ["PATH"], "RT_JOBS": "3"}
    start = lambda **more: run([os.path.join(tree, "box"), "some", "words"], env={**around, **more})

    def proving(done, what, archives=tuple(ARCHIVES), left=False):
        """It names the log, and tells of all crates at the end; rt is asked for what is below the
        archives' crates first, unless rt ci left that, and the compiler for these crates then."""
        status, text, error = done
        crates = [ARCHIVES[x] for x in archives]
        many = len({x for crate in crates for x in made[crate]})
        told = r"prove: the log is target/native/prove\.log\n"
        told += rf"(prove: \d+ of {many} proved in .*\n)*prove: {many} of {many} proved in \w+\n"
        first, then = [f"{x} all check --jobs 3" for x in crates], [f"build {x}" for x in crates]
        first = [] if left else first
        got = read(tree + "/target/asked").decode().splitlines()
        fine = status == 7 and text == b"some words\n" and re.fullmatch(told, error.decode())
        fine = fine and got[:len(first)] == first and sorted(got[len(first):]) == sorted(then)
        hold("script", fine, f"{what}: {done} {got}")
        os.remove(tree + "/target/asked")

    broken = start(BREAK="matrix")
    fine = broken[0] == 4 and broken[1] == b"" and b"fn matrix::f41: not proved" in broken[2]
    fine = fine and b"fn bcns::" not in broken[2]
    hold("script", fine and broken[2].count(b"\n") < 60, f"a proof that fails: {broken}")
    broken = start(BREAK_CARGO="1")
    hold("script", broken[0] == 4 and b"error: cargo" in broken[2], f"a build that fails: {broken}")
    shutil.rmtree(os.path.join(tree, "target"))
    broken_off(tree, around)
    on_terminal(tree, around)
    shutil.rmtree(os.path.join(tree, "target"))
    proving(start(), "first")
    hold("script", start() == (7, b"some words\n", b""), "it builds again what it has")
    write(os.path.join(tree, "crates/matrix/src/lib.rt"), b"changed")
    proving(start(), "a source of the library", ["wimmostry"])
    write(os.path.join(tree, "crates/trace/src/lib.rt"), b"changed")
    proving(start(), "a source of the trace", ["trace"])

    def proved(source, remade):
        """As runs/ci does: rt ci makes the libraries of changed sources anew, or puts the old back."""
        write(os.path.join(tree, "crates/matrix/src/lib.rt"), source)
        run([tree + "/prove", "--before"], env=around)
        time.sleep(0.1)
        for name in {*made["wimmostry"], *made["trace_c"]} if remade else ():
            rlib = os.path.join(tree, "crates", name, "out/rlib")
            shutil.rmtree(rlib, ignore_errors=True)
            os.makedirs(os.path.join(rlib, name + ".rlib"))
            write(os.path.join(rlib, name + ".rlib/format"), source)
        return run([tree + "/prove", "--after"], env=around)

    hold("script", proved(b"by rt ci", True) == (0, b"", b""), "rt ci's libraries are not taken")
    proving(start(), "libraries that rt ci left", ["wimmostry"], left=True)
    hold("script", proved(b"by another rt ci", False) == (0, b"", b""), "old libraries")
    proving(start(), "libraries that rt ci put back", ["wimmostry"])
    proved(b"by a third rt ci", True)
    write(os.path.join(tree, "crates/matrix/src/lib.rt"), b"changed since")
    proving(start(), "libraries of other sources", ["wimmostry"])
    os.makedirs(os.path.join(tree, "crates/matrix/must-fail"))
    write(os.path.join(tree, "crates/matrix/must-fail/x.edit"), b"")
    hold("script", start() == (7, b"some words\n", b""), "an edit that must fail is no source")
    bare = lambda: run([shutil.which("bash"), os.path.join(tree, "box"), "x"], env={"PATH": tools})
    hold("script", bare() == (7, b"x\n", b""), "a fresh program without the kit")
    write(os.path.join(tree, "crates/matrix/src/lib.rt"), b"newer")
    done = bare()
    fine = done[:2] == (7, b"x\n") and done[2].count(b"\n") == 1
    hold("script", fine and done[2].startswith(b"box: the program is older than the sources"),
         f"an old program without the kit: {done}")
    shutil.rmtree(os.path.join(tree, "target"))
    done = bare()
    fine = done[0] == 4 and done[1] == b"" and done[2].startswith(b"box: nothing is built yet")
    hold("script", fine, f"neither the kit nor a program: {done}")
    shutil.rmtree(tree)
    shutil.rmtree(tools)
