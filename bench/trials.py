"""What the scripts share that try the built program: they run it on folders of their own, and count what it did."""

import argparse
import collections
import contextlib
import os
import pathlib
import random
import re
import shutil
import stat
import subprocess
import sys
import tempfile

TOP = pathlib.Path(__file__).resolve().parent.parent
PROGRAM = TOP / "crates/paimon/out/ready/paimon"
SECONDS = 10  # how long a command may take
DRAFT = b'{"fields":[{"name":"id","type":"BIGINT"},{"name":"v","type":"STRING"}],"primaryKeys":["id"]}'

Ended = collections.namedtuple("Ended", "status out err")


def read_arguments(script, count):
    """The words of a script: the program, how often to try it, and the seed of what is random."""
    words = argparse.ArgumentParser(description=script, formatter_class=argparse.RawDescriptionHelpFormatter)
    words.add_argument("--program", type=pathlib.Path, default=PROGRAM, help="without it the one that ./paimon builds")
    words.add_argument("--count", type=int, default=count, help=f"how often; {count} times without it")
    words.add_argument("--seed", type=int, default=1, help="of what is random; 1 without it")
    found = words.parse_args()
    if not os.access(found.program, os.X_OK):
        sys.exit(f"there is no program {found.program}: ./paimon builds it")
    return found


def run(words, data=b"", seconds=SECONDS):
    """Runs a command, and tells how it ended; None in the place of the status where its time was over."""
    words = [os.fspath(word) if not isinstance(word, bytes) else word for word in words]
    try:
        ended = subprocess.run(words, input=data, capture_output=True, timeout=seconds, check=False)
    except subprocess.TimeoutExpired as error:
        return Ended(None, error.stdout or b"", error.stderr or b"")
    return Ended(ended.returncode, ended.stdout, ended.stderr)


def knows(program, work, *words):
    """Whether words give a command of the program: asked of a folder that isn't there it then finds no table."""
    return run([program, work / "nothing", *words]).status == 9


def knows_consumers(program, work):
    """Whether the program follows with consumers, and drops them."""
    return all(knows(program, work, *words, "c") for words in (("follow", "--consumer"), ("consumers", "--drop")))


def fault_of(ended, words=()):
    """What is wrong with how a command ended, if anything: it prints, or is refused with one line. Where the output
    failed a part of what it printed may be there; and what `follow` prints before it is refused."""
    if ended.status is None:
        return f"it took more than {SECONDS} s"
    if ended.status == 0:
        return None if ended.err == b"" else f"it ended with 0 and said {ended.err!r}"
    line = b"E%d [^\\0-\\x1f\\x7f]*\n" % max(ended.status, 0)
    if not 1 <= ended.status <= 99 or not re.fullmatch(line, ended.err):
        return f"it ended with {ended.status} and said {ended.err[:300]!r}"
    may_print = ended.status == 4 or tuple(words[:1]) == ("follow",)
    return f"it was refused and printed {ended.out[:300]!r}" if ended.out and not may_print else None


def tree(folder):
    """What stands in a folder: of each path its kind, and of a file its bytes and of a link where it leads."""
    found = {}
    for entry in os.scandir(os.fsencode(folder)):
        mode = entry.stat(follow_symlinks=False).st_mode
        held = None
        if stat.S_ISDIR(mode):
            found |= {entry.name + b"/" + name: what for name, what in tree(entry.path).items()}
        elif stat.S_ISLNK(mode):
            held = os.readlink(entry.path)
        elif stat.S_ISREG(mode):
            held = pathlib.Path(os.fsdecode(entry.path)).read_bytes()
        found[entry.name] = stat.S_IFMT(mode), held
    return found


def copy(folder, to):
    """Copies a folder, with its links as they are."""
    shutil.rmtree(to, ignore_errors=True)
    return pathlib.Path(shutil.copytree(folder, to, symlinks=True))


@contextlib.contextmanager
def work_folder():
    """A folder that goes with the script; in memory where that is there, since nothing here outlives a power loss."""
    memory = "/dev/shm" if os.access("/dev/shm", os.W_OK) else None
    with tempfile.TemporaryDirectory(prefix="paimon.", dir=memory) as folder:
        yield pathlib.Path(folder)


class Tally:
    """Counts what was tried, and which promises broke."""

    def __init__(self):
        self.counts = collections.Counter()
        self.broken = []

    def add(self, what, number=1):
        self.counts[what] += number

    def breaks(self, where, what):
        """A promise broke: it is told at once, the first twenty times."""
        self.broken.append((where, what))
        if len(self.broken) <= 20:
            print(f"BROKEN: {where}: {what}", flush=True)

    def end(self):
        """Tells of all of it, and ends the script."""
        print(", ".join(f"{number} {what}" for what, number in sorted(self.counts.items())))
        print(f"{len(self.broken)} promises broke" if self.broken else "every promise was kept")
        sys.exit(1 if self.broken else 0)


def random_of(seed, *parts):
    """What is random in one trial: it depends on the seed and the trial's number alone."""
    return random.Random(" ".join(str(part) for part in (seed, *parts)))
