#!/usr/bin/env python3
"""Builds what a power loss may leave of a table. It records by strace the changes that commands make to the folder,
also after one that was killed and beside one that is held up in the middle. After each change it takes the images that
the file system may have then: of the names that came or went in a folder since its last sync, which ones are there, in
every combination as far as they are few and else a choice of them; and of each file that isn't synced nothing, half or
all of its bytes. Compactions, writes to a table that is followed, consumers and expiries are among the commands where
the program knows them. It promises, of each image:
  - `scan` prints the rows of whole batches, no others, and those of each command that had answered; and where a `scan`
    had answered, what it had printed;
  - `follow` prints a frame of each of these batches, where the table tells its input;
  - `snapshots` lists ids that rise by one from 1, and each that was printed;
  - a consumer is moved past frames alone that were printed, and past each that was printed before another one by the
    same command, or by one that had ended; it goes on from there;
  - of an expiry each snapshot that is there reads, and the newest one is;
  - one more write succeeds, after a `create` where there is no table yet, and leaves no file that is being written.
It ends with 1 where a promise broke. The gate never runs it. It wants strace. docs/DEVELOPING.md has what it printed.
All images of a case are built before some are chosen, and a command is held up for three seconds: so with a small
count, too, all cases take minutes. Each says on standard error how long it took.

usage: bench/images.py [--program PROGRAM] [--count IMAGES_OF_EACH_CASE_AT_MOST] [--seed SEED]
"""

import collections
import itertools
import os
import pathlib
import re
import shutil
import subprocess
import sys
import time

from kills import BUCKETS, EXPIRE, MERGING, PARTS, TOLD, batch, quiet
from trials import DRAFT, Ended, Tally, knows, knows_consumers, random_of, read_arguments, run, work_folder

CALLS = "openat open creat write pwrite64 fsync fdatasync rename renameat renameat2 unlink unlinkat mkdir mkdirat rmdir"
CALLS += " ftruncate"
OTHERS = "link linkat symlink symlinkat truncate writev"  # none of these is known below
FEW = 6  # so many pending names are tried in every combination
CHOICES = 24  # of more, so many combinations are chosen beside those with one name and with all but one
CONTENTS = 3  # so often the bytes of files that aren't synced are chosen for each combination

# A command of a case: its words, its input, the number of the sync before which it is killed, if it is, and that of the
# sync at which it is held up while another writes.
Step = collections.namedtuple("Step", "words data killed held", defaults=(b"", None, None))
RIVAL = Step(["write"], batch(20, 21))
HELD = 3  # seconds
# A case: its name, the batches of its table, whether it was quiet, and its steps.
Case = collections.namedtuple("Case", "name draft batches is_quiet steps")


class File:
    """A file's bytes, and whether they are on the disk."""

    def __init__(self, data=b"", is_synced=False):
        self.data, self.is_synced = data, is_synced


class Directory:
    """A folder: the names that are on the disk, and what came or went since."""

    def __init__(self, names=None):
        self.synced = dict(names or {})
        self.names = dict(self.synced)
        self.pending = []  # of each change the name, and what it is of then; None where it went

    def put(self, name, what):
        self.pending.append((name, what))
        self.names[name] = what
        if what is None:
            del self.names[name]

    def sync(self):
        self.synced, self.pending = dict(self.names), []


def load(folder):
    """What stands at a path, all of it on the disk."""
    if not os.path.isdir(folder):
        return File(pathlib.Path(folder).read_bytes(), True)
    return Directory({name: load(os.path.join(folder, name)) for name in os.listdir(folder)})


def directories(directory):
    """A folder and those in it."""
    yield directory
    for what in directory.names.values():
        if isinstance(what, Directory):
            yield from directories(what)


class Disk:
    """A folder, as the calls of a trace change it."""

    def __init__(self, root):
        self.root, self.around = root, root.parent
        self.top = Directory({root.name: load(root)} if root.exists() else {})
        self.open = {}

    def whole(self, path):
        """A path from the top: a command enters the folder, so one that doesn't begin there begins in it."""
        return os.path.normpath(os.path.join(self.root, path))

    def find(self, path):
        """What stands at a path; nothing where it isn't below the folder."""
        path = self.whole(path)
        if not path.startswith(os.fspath(self.around)):
            return None
        found = self.top
        for part in pathlib.Path(path).relative_to(self.around).parts:
            found = found.names.get(part) if isinstance(found, Directory) else None
        return found

    def place(self, path):
        """The folder that a path stands in, and its name there."""
        folder, name = os.path.split(self.whole(path))
        return self.find(folder), name

    def follow(self, process, call, texts, rest, answer):
        """Follows a call that had an answer; tells whether it changed what is on the disk, or may be."""
        if call in ("openat", "open", "creat"):
            return self.follow_open(texts[0], rest, (process, answer))
        if call in ("write", "pwrite64", "fsync", "fdatasync"):
            return self.follow_file(call, texts, (process, int(re.match(r"\d+", rest)[0])))
        if call == "ftruncate":
            return self.follow_cut(process, rest)
        if call.startswith("rename"):
            (folder, name), (to, new) = self.place(texts[0]), self.place(texts[1])
            to.put(new, folder.names[name])
            folder.put(name, None)
        elif call.startswith("mkdir"):
            folder, name = self.place(texts[0])
            folder.put(name, Directory())
        else:
            folder, name = self.place(texts[0])
            folder.put(name, None)
        return True

    def follow_open(self, path, rest, number):
        folder, name = self.place(path)
        is_made = folder is not None and "O_CREAT" in rest and name not in folder.names
        if is_made:
            folder.put(name, File())
        self.open[number] = self.find(path)
        return is_made

    def follow_cut(self, process, rest):
        """A file that is cut to nothing has to be empty: then nothing changes."""
        number, size = re.match(r"(\d+), (\d+)", rest).groups()
        what = self.open.get((process, int(number)))
        if what is not None and (int(size) or what.data):
            raise ValueError("a file with bytes is cut")
        return False

    def follow_file(self, call, texts, number):
        what = self.open.get(number)
        if call in ("fsync", "fdatasync") and isinstance(what, File):
            what.is_synced = True
        elif call in ("fsync", "fdatasync") and what:
            what.sync()
        elif what:
            what.data, what.is_synced = what.data + texts[0].encode("latin-1"), False
        return what is not None


# Images.


def combinations(disk, random):
    """Which of the changes that are pending may be there, each by its folder and its number: all combinations of few,
    and else a choice."""
    pending = [(id(folder), at) for folder in directories(disk.top) for at in range(len(folder.pending))]
    count = len(pending)
    if count <= FEW:
        choices = itertools.product([False, True], repeat=count)
    else:
        choices = [[False] * count, [True] * count]
        choices += [[at == one for at in range(count)] for one in range(count)]
        choices += [[at != one for at in range(count)] for one in range(count)]
        choices += [[random.random() < 0.5 for _ in pending] for _ in range(CHOICES)]
    for choice in choices:
        yield {change for change, is_kept in zip(pending, choice) if is_kept}


def image(what, kept, random):
    """What may be there of a file, or of a folder and what is below it."""
    if isinstance(what, File):
        return what.data if what.is_synced else random.choice([b"", what.data[: len(what.data) // 2], what.data])
    names = dict(what.synced)
    for at, (name, changed) in enumerate(what.pending):
        if (id(what), at) in kept:
            names[name] = changed
    return {name: image(held, kept, random) for name, held in names.items() if held is not None}


def images(disk, random):
    """The images that the disk may have now."""
    for kept in combinations(disk, random):
        for _ in range(CONTENTS):
            yield image(disk.top, kept, random)


def signature(names):
    """What two images share exactly where they are the same."""
    return tuple((name, signature(what) if isinstance(what, dict) else what) for name, what in sorted(names.items()))


def build(names, folder):
    """Makes the files of an image."""
    folder.mkdir()
    for name, what in names.items():
        if isinstance(what, dict):
            build(what, folder / name)
        else:
            (folder / name).write_bytes(what)


# Cases.


def compactions(syncs):
    """What is recorded where the program knows compactions: whole, beside a write, and killed before one of each."""
    full = Step(["compact", "--full"])
    for is_quiet in (True, False):
        how = "quiet" if is_quiet else "hot"
        yield Case(f"a compaction, {how}", DRAFT, [(1, 2), (3,)], is_quiet, [full])
        yield Case(f"a compaction that merges manifests, {how}", MERGING, [(1, 2), (3,)], is_quiet, [full])
    for sync in range(1, syncs + 1):
        held = [full._replace(held=sync)]
        yield Case(f"a compaction held up at sync {sync}, and a write meanwhile", DRAFT, [(1, 2), (3,)], True, held)
        for then in (full, Step(["write"], batch(8, 9)), Step(["scan"])):
            steps = [full._replace(killed=sync), then]
            name = f"a compaction killed at sync {sync}, then {then.words[0]}"
            yield Case(name, DRAFT, [(1, 2), (3,)], True, steps)


def told(syncs):
    """What is recorded where the program can follow a table: writes to one that tells its input."""
    write = [Step(["write"], batch(8, 9))]
    for is_quiet in (True, False):
        how = "quiet" if is_quiet else "hot"
        yield Case(f"the first write that is told, {how}", TOLD, [], is_quiet, write)
        yield Case(f"a write that is told, {how}", TOLD, [(1, 2), (3,)], is_quiet, write)
    for sync in range(1, syncs + 1):
        held = [write[0]._replace(held=sync)]
        yield Case(f"a write that is told, held up at sync {sync}, and one meanwhile", TOLD, [(1, 2)], True, held)
        steps = [Step(["write"], batch(4, 5), killed=sync), *write]
        yield Case(f"a write that is told, killed at sync {sync}, then another", TOLD, [(1, 2)], True, steps)


def consumed(syncs):
    """What is recorded where the program knows consumers: one that begins and goes on, is killed, and is dropped."""
    follow, table = Step(["follow", "--consumer", "c", "--from", "1"]), [(1, 2), (3,)]
    for is_quiet in (True, False):
        how = "quiet" if is_quiet else "hot"
        yield Case(f"a consumer begins, {how}", TOLD, table, is_quiet, [follow])
        yield Case(f"a consumer begins, and goes on, {how}", TOLD, table, is_quiet, [follow, RIVAL, follow])
    yield Case("a consumer is dropped", TOLD, table, True, [follow, Step(["consumers", "--drop", "c"])])
    for sync in range(1, syncs + 1):
        steps = [follow._replace(killed=sync), follow]
        yield Case(f"a consumer is killed at sync {sync}, then goes on", TOLD, table, True, steps)


def expired(syncs):
    """What is recorded where the program knows expiries: one whose files were replaced, and one that is killed."""
    full, expire = Step(["compact", "--full"]), Step(EXPIRE)
    for is_quiet in (True, False):
        name = f"an expiry, {'quiet' if is_quiet else 'hot'}"
        yield Case(name, DRAFT, [(1, 2), (3,)], is_quiet, [full, expire])
    for sync in range(1, syncs + 1):
        steps = [full, expire._replace(killed=sync), expire]
        yield Case(f"an expiry killed at sync {sync}, then another", DRAFT, [(1, 2), (3,)], True, steps)


def grouped(syncs):
    """What is recorded of tables of several groups."""
    write, full = Step(["write"], batch(6, 7, 8, 9)), Step(["compact", "--full"])
    for is_quiet, what in itertools.product((True, False), (("buckets", BUCKETS), ("partitions", PARTS))):
        (name, draft), how = what, "quiet" if is_quiet else "hot"
        yield Case(f"the first write to {name}, {how}", draft, [], is_quiet, [write])
        yield Case(f"a write to {name}, {how}", draft, [(1, 2, 3, 4), (5,)], is_quiet, [write])
        yield Case(f"a compaction of {name}, {how}", draft, [(1, 2, 3, 4), (5,)], is_quiet, [write, full])
    for sync in range(1, syncs + 1):
        steps = [write._replace(killed=sync), Step(["write"], batch(10, 11))]
        yield Case(f"a write to buckets killed at sync {sync}, then another", BUCKETS, [(1, 2, 3, 4)], True, steps)


def cases(syncs):
    """What is recorded. A killed writer is killed at each of its last syncs, when its names aren't on the disk."""
    write = [Step(["write"], batch(8, 9))]
    yield Case("create", None, [], True, [Step(["create"], DRAFT)])
    for is_quiet in (True, False):
        how = "quiet" if is_quiet else "hot"
        yield Case(f"the first write, {how}", DRAFT, [], is_quiet, write)
        yield Case(f"a write, {how}", DRAFT, [(1, 2), (3,)], is_quiet, write)
        yield Case(f"a write that merges manifests, {how}", MERGING, [(1, 2), (3,)], is_quiet, write)
    for sync in range(1, syncs + 1):
        held = [write[0]._replace(held=sync)]
        yield Case(f"a write held up at sync {sync}, and one meanwhile", DRAFT, [(1, 2)], True, held)
        killed = [Step(["write"], batch(4, 5), killed=sync)]
        for then in (write[0], Step(["scan"])):
            yield Case(f"a write killed at sync {sync}, then {then.words[0]}", DRAFT, [(1, 2)], True, [*killed, then])
        created = [Step(["create"], DRAFT, killed=sync)]
        steps = [*created, Step(["create"], DRAFT), *write]
        yield Case(f"a create killed at sync {sync}, then a create and a write", None, [], True, steps)


class Trial:
    """One case, tried in a folder of its own."""

    def __init__(self, program, work, tally, case, random, most):
        self.program, self.work, self.tally, self.case = program, work, tally, case
        self.random, self.most = random, most
        self.folder = work / "disk" / "table"
        self.known = set()  # the keys that were acknowledged, or printed
        self.batches = [set(keys) for keys in case.batches]
        self.is_made = case.draft is not None
        self.newest = 0  # the greatest snapshot's id that was printed
        self.moved = 0, 0  # the consumer's least number, where it has one, and its greatest one
        self.seen = {}

    def command(self, folder, *words, data=b""):
        return run([self.program, folder, *words], data)

    def prepare(self):
        shutil.rmtree(self.work / "disk", ignore_errors=True)
        self.folder.parent.mkdir()
        if self.case.draft:
            self.command(self.folder, "create", data=self.case.draft)
        for keys in self.case.batches:
            self.command(self.folder, "write", data=batch(*keys))
            self.known |= set(keys)
        if self.case.is_quiet:
            quiet(self.folder.parent)

    def start(self, step, trace):
        """Starts a step under strace."""
        trace.unlink(missing_ok=True)
        calls = ",".join(f"?{call}" for call in f"{CALLS} {OTHERS}".split())
        words = ["strace", "-f", "-qq", "-ttt", "-T", "-xx", "-s", "1000000", "-o", trace, "-e", f"trace={calls}"]
        if step.killed:
            words += ["-e", f"inject=fsync:signal=KILL:when={step.killed}"]
        if step.held:
            words += ["-e", f"inject=fsync:delay_enter={HELD}s:when={step.held}"]
        words += [self.program, self.folder, *step.words]
        started = subprocess.Popen(words, stdin=subprocess.PIPE, stdout=subprocess.PIPE, stderr=subprocess.PIPE)
        started.stdin.write(step.data)
        started.stdin.close()
        return started

    def record(self, step):
        """Runs a step, and where it is held up another meanwhile. Gives the steps that ran, how they ended, and their
        calls in the order in which these ended."""
        traces = [self.work / "trace", self.work / "trace of another"]
        steps, started = [step], [self.start(step, traces[0])]
        if step.held:
            wait_for_syncs(traces[0], step.held - 1)
            steps.append(RIVAL)
            started.append(self.start(RIVAL, traces[1]))
        ended = []
        for each in started[::-1]:
            out, err = each.stdout.read(), each.stderr.read()
            ended.insert(0, Ended(each.wait(), out, err))
        calls = [call for at in range(len(steps)) for call in read_calls(traces[at], at)]
        return steps, ended, sorted(calls)

    def run(self):
        """Records the case, and collects its images, each with what was known when it could be left."""
        self.prepare()
        disk = Disk(self.folder)
        for step in self.case.steps:
            if "--drop" in step.words:
                self.moved = 0, self.moved[1]
            steps, ended, calls = self.record(step)
            begun = set()
            self.batches += [set(keys_of(each.data)) for each in steps if each.words == ["write"]]
            for _, at, call, texts, rest, answer in calls:
                if call in OTHERS.split():
                    self.tally.breaks(self.case.name, f"a call that this script doesn't know: {call}")
                elif call == "write" and rest.startswith(("1,", "2,")):
                    self.take_answer(steps[at], ended[at])
                    self.take_frame(steps[at], texts[0], at in begun)
                    begun.add(at)
                    self.collect(disk)
                elif disk.follow(at, call, texts, rest, answer):
                    self.collect(disk)
            for each in ended:
                self.judge_end(step, each)
            self.take_end(step, ended[0])
            self.collect(disk)
        self.judge_all()

    def judge_end(self, step, ended):
        """A step ends well, is killed, finds the table that one that was killed had made, or doesn't get the lock."""
        waits = step.held and ended.err.startswith(b"E5 store ")
        if ended.status not in (0, -9) and ended.err != b"E8 table exists\n" and not waits:
            self.tally.breaks(self.case.name, f"{step.words} ended with {ended}")

    def take_answer(self, step, ended):
        """What has to stand from now on."""
        self.is_made = self.is_made or ended.status in (0, 8)
        self.known = self.known | set(keys_of(ended.out))
        if ended.out.startswith(b"snapshot"):
            self.known = self.known | set(keys_of(step.data))
            self.newest = max(self.newest, int(ended.out.split()[1]))

    def take_frame(self, step, text, is_later):
        """A frame was printed: the consumer may be moved past it, and is past the one before it, if this one printed
        that."""
        found = re.match(r'{"snapshot":(\d+)}', text)
        if "--consumer" in step.words and found:
            least, most = self.moved
            number = int(found[1])
            self.moved = max(least, number) if is_later else least, max(most, number + 1)

    def take_end(self, step, ended):
        """A consumer that had its frames is past them; one that is dropped is gone."""
        if "--consumer" in step.words and ended.status == 0:
            self.moved = self.moved[1], self.moved[1]
        elif ended.out == b"dropped\n":
            self.moved = 0, 0

    def collect(self, disk):
        """Takes the images of now that weren't there yet; of the same image the last one has the most to hold."""
        for names in images(disk, self.random):
            names = names.get("table", {})
            self.seen[signature(names)] = names, self.known, self.is_made, self.newest, self.moved

    def judge_all(self):
        found = list(self.seen.values())
        self.tally.add("images that were built", len(found))
        for image_known in found if len(found) <= self.most else self.random.sample(found, self.most):
            self.judge(*image_known)

    def judge(self, names, known, is_made, newest, moved):
        """Judges an image."""
        self.tally.add("images")
        folder = self.work / "image"
        shutil.rmtree(folder, ignore_errors=True)
        build(names, folder)
        scanned = self.command(folder, "scan")
        found = set(keys_of(scanned.out))
        whole = set().union(*(keys for keys in self.batches if keys & found))
        if scanned.status != 0 and (scanned.status != 9 or is_made):
            return self.breaks(names, f"scan answered {scanned}")
        if found != whole or not known <= found or scanned.out != batch(*sorted(found)):
            return self.breaks(names, f"scan printed the keys {sorted(found)}; these had to be there: {sorted(known)}")
        followed = self.command(folder, "follow", "--from", "1") if self.case.draft == TOLD else Ended(9, b"", b"")
        if followed.status not in (0, 9) or followed.status == 0 and set(keys_of(followed.out)) != found:
            return self.breaks(names, f"follow answered {followed}, and scan printed the keys {sorted(found)}")
        listed = self.snapshots(folder)
        if max(listed, default=0) < newest:
            return self.breaks(names, f"the snapshots are {listed}, and {newest} was printed")
        expires = any(step.words == EXPIRE for step in self.case.steps)
        for number in listed if expires else []:
            at = self.command(folder, "scan", "--snapshot", str(number))
            if at.status != 0:
                return self.breaks(names, f"scan of snapshot {number} answered {at}")
        if any("--consumer" in step.words for step in self.case.steps):
            self.judge_consumer(names, folder, moved)
        return self.go_on(names, folder, found, scanned.status == 9, expires)

    def snapshots(self, folder):
        """The ids of the snapshots that are listed."""
        listed = re.findall(rb"(?m)^\[(\d+),", self.command(folder, "snapshots").out)
        return [int(number) for number in listed]

    def judge_consumer(self, names, folder, moved):
        """Judges where the consumer is, and goes on with it."""
        listed = self.command(folder, "consumers").out
        known = re.fullmatch(rb"(?:c (\d+)( new)?\n)?", listed)
        is_settled = known is not None and known[1] is not None and known[2] is None
        number = int(known[1]) if is_settled else 0
        if known is None or not moved[0] <= number <= max(moved[1], 1):
            self.breaks(names, f"consumers printed {listed!r}, and its number is from {moved[0]} to {moved[1]}")
        frames = self.command(folder, "follow", "--from", str(max(number, 1)))
        again = self.command(folder, "follow", "--consumer", "c", "--from", "1")
        then = self.command(folder, "consumers").out
        newest = max(self.snapshots(folder), default=0)
        if again != frames or then != b"c %d\n" % (newest + 1):
            self.breaks(names, f"follow answered {again}, not {frames}, and the consumer is at {then!r}")

    def go_on(self, names, folder, found, is_none, expires):
        if is_none and self.command(folder, "create", data=DRAFT).out != b"created\n":
            return self.breaks(names, "no table can be made")
        ended = self.command(folder, "write", data=batch(100))
        scanned = self.command(folder, "scan").out
        listed = self.snapshots(folder)
        if ended.status != 0 or scanned != batch(*sorted(found), 100):
            return self.breaks(names, f"one more write answered {ended}, and scan printed {scanned!r}")
        first = listed[0] if expires else 1
        if listed != list(range(first, first + len(listed))):
            return self.breaks(names, f"the snapshots are {listed}")
        if os.listdir(folder / ".new"):
            return self.breaks(names, "files are left that were being written")
        return None

    def breaks(self, names, what):
        shown = {folder: sorted(held) if isinstance(held, dict) else len(held) for folder, held in names.items()}
        self.tally.breaks(f"{self.case.name}, image {shown}", what)


def wait_for_syncs(trace, count):
    """Waits until so many syncs are in a trace, or for two seconds."""
    for _ in range(200):
        if trace.exists() and len(re.findall(r"(?m)^.* fsync\(.*>$", trace.read_text())) >= count:
            return
        time.sleep(0.01)


def read_calls(trace, process):
    """The calls of a process that had an answer, each with the time at which it ended."""
    line = r"(?m)^\d+ +([\d.]+) (\w+)\((.*)\) += (\d+).* <([\d.]+)>$"
    for begun, call, rest, answer, took in re.findall(line, trace.read_text()):
        yield float(begun) + float(took), process, call, texts_of(rest), rest, int(answer)


def texts_of(rest):
    """The texts among a call's arguments in a trace, which has each byte as two digits."""
    return [bytes.fromhex(text.replace("\\x", "")).decode("latin-1") for text in re.findall('"([^"]*)"', rest)]


def keys_of(rows):
    return [int(key) for key in re.findall(rb'(?m)^\["\+I",(\d+),', rows)]


def main():
    found = read_arguments(__doc__, 400)
    tally = Tally()
    with work_folder() as work:
        tried = list(cases(16))
        for word, more in (("compact", compactions), ("follow", told), ("expire", expired)):
            tried += more(16) if knows(found.program, work, word) else []
        tried += consumed(16) if knows_consumers(found.program, work) else []
        tried += grouped(16) if run([found.program, work / "parts", "create"], PARTS).status == 0 else []
        for number, case in enumerate(tried):
            begun, before = time.time(), tally.counts["images"]
            Trial(found.program, work, tally, case, random_of(found.seed, number), found.count).run()
            took = f"{tally.counts['images'] - before} images in {time.time() - begun:.1f} s"
            print(f"{number + 1} of {len(tried)} cases: {case.name}, {took}", file=sys.stderr, flush=True)
            tally.add("cases")
    tally.end()


if __name__ == "__main__":
    main()
