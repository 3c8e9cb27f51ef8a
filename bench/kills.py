#!/usr/bin/env python3
"""Kills a command at each of its system calls from the first on that names the table, and lets each of them fail, once
and from there on, by strace. It promises:
  - after a kill the table reads, as it was before the command or with its whole batch; with the batch where the command
    had acknowledged it; all that was acknowledged earlier is there; it has a snapshot more exactly where it has the
    batch, and after a compaction, where the program knows that, it has the same rows and a snapshot more or none;
  - after a failed call the command is refused with one line, or it ends with 0 and its effect stands; after E5 at
    another path than the snapshot's the table is as before, and after E4 the batch, or the snapshot, stands;
  - then one more write succeeds, and leaves no file that is being written;
  - a command that only reads changes nothing;
  - where the program knows consumers, what one printed is a prefix of its frames; it is moved past frames alone that
    were printed whole, past all where the command ended with 0, and the next command goes on from there;
  - where it knows expiries, the newest snapshot keeps its rows, and the next expiry takes the others away.
It ends with 1 where a promise broke. The gate never runs it. It wants strace. docs/DEVELOPING.md has what it printed.

usage: bench/kills.py [--program PROGRAM] [--count AT_MOST_SO_MANY_RUNS] [--seed SEED]
"""

import collections
import os
import re
import time

from trials import (
    DRAFT,
    Tally,
    copy,
    fault_of,
    knows,
    knows_consumers,
    random_of,
    read_arguments,
    run,
    tree,
    work_folder,
)

CHANGES = ("openat", "write", "fsync", "fdatasync", "rename", "renameat", "renameat2", "unlink", "unlinkat", "mkdir")
CHANGES += ("mkdirat", "rmdir", "flock", "fchmod", "ftruncate", "utimensat")
LOOKS = ("chdir", "open", "read", "getdents64", "statx", "stat", "lstat", "fstat", "newfstatat", "close")
ERRORS = ("EIO", "ENOSPC")
MERGING = DRAFT[:-1] + b',"options":{"manifest.merge-min-count":"2"}}'
TOLD = DRAFT[:-1] + b',"options":{"changelog-producer":"input"}}'
BUCKETS = DRAFT[:-1] + b',"options":{"bucket":"4"}}'
PARTS = DRAFT[:-1].replace(b'["id"]', b'["id","v"]') + b',"options":{"bucket":"2"},"partitionKeys":["v"]}'
CONSUMER = b'{"nextSnapshot":1}'
EXPIRE = ["expire", "--min", "1", "--max", "1"]

# A folder, a command on it, the keys and the number of snapshots that the table has before and after it, none where
# there is no table, those keys that are written to a copy of the folder first, since a copy's folders aren't sealed,
# and whether the command changes the file of the consumer c.
Case = collections.namedtuple("Case", "name folder words data before after first is_consumers", defaults=[(), False])
Injected = collections.namedtuple("Injected", "call number how")


def batch(*keys):
    return b"".join(b'["+I",%d,"row %d"]\n' % (key, key) for key in keys)


class Trials:
    """The cases, tried in a folder of their own."""

    def __init__(self, program, work, tally):
        self.program, self.work, self.tally = program, work, tally

    def command(self, folder, *words, data=b""):
        return run([self.program, folder, *words], data)

    def state(self, folder):
        """The keys of a table and the number of its snapshots; none where it isn't there, and a text where it doesn't
        read."""
        ended, listed = self.command(folder, "scan"), self.command(folder, "snapshots")
        if ended.status == 9:
            return None
        found = sorted(int(key) for key in re.findall(rb'(?m)^\["\+I",(\d+),', ended.out))
        if ended.status or listed.status or ended.out != batch(*found):
            return f"{ended}, {listed}"
        return found, listed.out.count(b"\n")

    def table(self, name, batches, draft=DRAFT):
        """A table of these batches whose folders didn't change for a while."""
        folder = self.work / name
        self.command(folder, "create", data=draft)
        for rows in batches:
            self.command(folder, "write", data=rows)
        quiet(folder)
        return folder

    def cases(self):
        """What is tried."""
        none, one = self.work / "none", self.table("one", [])
        many = self.table("many", [batch(1, 2), batch(3)], MERGING)
        left = self.table("left", [batch(1, 2)])
        (left / ".new" / "0").write_bytes(b"left by a killed writer")
        quiet(left)
        rows, found, then = batch(8, 9), ([1, 2, 3], 2), ([1, 2, 3, 8, 9], 3)
        sealed = ([1, 2, 3, 4], 3)
        return [
            Case("create", none, ["create"], DRAFT, None, ([], 0)),
            Case("the first write", one, ["write"], rows, ([], 0), ([8, 9], 1)),
            Case("a write that merges manifests", many, ["write"], rows, found, then),
            Case("a write by a user", many, ["write", "--user", "u", "--ident", "1"], rows, found, then),
            Case("a write after a killed one", left, ["write"], rows, ([1, 2], 1), ([1, 2, 8, 9], 2)),
            Case("a write to sealed folders", many, ["write"], rows, sealed, ([1, 2, 3, 4, 8, 9], 4), [4]),
            Case("scan", many, ["scan"], b"", found, found),
            Case("scan of sealed folders", many, ["scan"], b"", sealed, sealed, [4]),
            Case("snapshots", many, ["snapshots"], b"", found, found),
            *self.compactions(many),
            *self.grouped(),
            *self.told(rows, found, then),
            *self.consumed(),
            *self.expired(),
        ]

    def grouped(self):
        """Tables of several groups, where the program makes such."""
        if self.command(self.work / "parts", "create", data=PARTS).status:
            return []
        first, rows = batch(1, 2, 3, 4, 5), batch(5, 6, 8, 9, 10)
        buckets, parts = self.table("buckets", [first], BUCKETS), self.table("parts", [first], PARTS)
        found, then = ([1, 2, 3, 4, 5], 1), ([1, 2, 3, 4, 5, 6, 8, 9, 10], 2)
        twice = self.table("twice", [first, rows], BUCKETS)
        return [
            Case("a write to buckets", buckets, ["write"], rows, found, then),
            Case("a write to partitions", parts, ["write"], rows, found, then),
            Case("a compaction of buckets", twice, ["compact", "--full"], b"", then, (then[0], 3)),
            Case("scan of partitions", parts, ["scan"], b"", found, found),
        ]

    def told(self, rows, found, then):
        """A table that tells its input, where the program can follow it."""
        if not knows(self.program, self.work, "follow"):
            return []
        told, follow = self.table("told", [batch(1, 2), batch(3)], TOLD), ["follow", "--from", "1", "--full"]
        return [
            Case("a write that is told", told, ["write"], rows, found, then),
            Case("follow", told, follow, b"", found, found),
        ]

    def consumed(self):
        """Consumers of a table that tells its input, where the program knows them."""
        if not knows(self.program, self.work, "consumers"):
            return []
        has_more, drop = knows_consumers(self.program, self.work), ["consumers", "--drop", "c"]
        has_drops = knows(self.program, self.work, *drop)
        found, follow = ([1, 2, 3], 2), ["follow", "--consumer", "c"]
        none = self.table("no consumer", [batch(1, 2), batch(3)], TOLD)
        known, new = copy(none, self.work / "a consumer"), copy(none, self.work / "a new consumer")
        for folder, text in ((known, CONSUMER), (new, CONSUMER[:-1] + b',"state":"new"}')):
            (folder / "consumer").mkdir()
            (folder / "consumer/consumer-c").write_bytes(text)
            quiet(folder)
        moves = [
            Case("a consumer that begins", none, [*follow, "--from", "1", "--full"], b"", found, found, (), True),
            Case("a new consumer that begins", new, [*follow, "--from", "1"], b"", found, found, (), True),
            Case("a consumer that goes on", known, follow, b"", found, found, (), True),
        ]
        return [
            Case("consumers", known, ["consumers"], b"", found, found),
            *([Case("a consumer that is dropped", known, drop, b"", found, found, (), True)] if has_drops else []),
            *(moves if has_more else []),
        ]

    def expired(self):
        """An expiry of a snapshot whose data file was replaced, where the program knows expiries."""
        if not knows(self.program, self.work, "expire"):
            return []
        folder = self.table("expired", [batch(1, 2)])
        self.command(folder, "compact", "--full")
        quiet(folder)
        return [Case("an expiry", folder, EXPIRE, b"", ([1, 2], 2), ([1, 2], 1))]

    def compactions(self, many):
        """Compactions, where the program knows them."""
        if not knows(self.program, self.work, "compact"):
            return []
        found, full = ([1, 2, 3], 2), ["compact", "--full"]
        few, gone = self.table("few", [batch(1), batch(2)]), self.table("gone", [batch(1), b'["-D",1,null]'])
        return [
            Case("a compaction that merges manifests", many, full, b"", found, ([1, 2, 3], 3)),
            Case("a compaction", few, full, b"", ([1, 2], 2), ([1, 2], 3)),
            Case("a compaction that leaves no file", gone, full, b"", ([], 2), ([], 3)),
            Case("a compaction that takes nothing", many, ["compact"], b"", found, found),
        ]

    def traced(self, case, *options):
        """Runs a case on a copy of its folder under strace; the answer, and the trace."""
        folder, trace = self.work / "copy", self.work / "trace"
        if case.folder.exists():
            copy(case.folder, folder)
        else:
            copy(self.work / "empty", folder).rmdir()
        if case.first:
            self.command(folder, "write", data=batch(*case.first))
        self.stood = tree(folder) if folder.exists() else None
        calls = ",".join(f"?{call}" for call in CHANGES + LOOKS)
        words = ["strace", "-f", "-qq", "-o", trace, "-e", f"trace={calls}", *options]
        ended = run([*words, self.program, folder, *case.words], case.data)
        return folder, ended, trace.read_text(errors="replace")

    def calls(self, case):
        """Each call of a case from the first one on that names the table, by its name and its number among those."""
        _, _, trace = self.traced(case)
        counts, found, is_begun = collections.Counter(), [], False
        for call, rest in re.findall(r"(?m)^\d+ +(\w+)\((.*)$", trace):
            counts[call] += 1
            is_begun = is_begun or f'"{self.work / "copy"}' in rest
            if is_begun:
                found.append((call, counts[call]))
        return found

    def injections(self, case):
        """What is done to a case."""
        is_reading = case.before == case.after and not case.is_consumers
        for call, number in self.calls(case):
            if call in CHANGES and not is_reading:
                yield case, Injected(call, number, "signal=KILL")
            if call != "close":
                for error in ERRORS if call in CHANGES else ERRORS[:1]:
                    yield case, Injected(call, number, f"error={error}")
                    yield case, Injected(call, f"{number}+", f"error={error}")

    def attempt(self, case, injected):
        """Runs a case with a kill or a failed call, and judges what it left."""
        call, number, how = injected
        folder, ended, _ = self.traced(case, "-e", f"inject={call}:{how}:when={number}")
        where = f"{case.name}, {how} at {call} {number}"
        self.tally.add("kills" if "KILL" in how else "failed calls")
        found = self.state(folder)
        if found not in (case.before, case.after):
            self.tally.breaks(where, f"the table is {found} after {ended}")
            return
        if found != case.after and (ended.status == 0 or ended.out):
            self.tally.breaks(where, f"it answered {ended} and the table is {found}")
        if "KILL" not in how:
            self.judge_refusal(case, injected, ended, found, where)
        if case.is_consumers:
            self.judge_consumer(case, folder, ended, where)
        elif case.before == case.after and self.stood != tree(folder):
            self.tally.breaks(where, "a command that only reads changed the folder")
        if case.words == EXPIRE:
            again = self.command(folder, *EXPIRE)
            if again.out != b"kept 2 2\n" or self.state(folder) != case.after:
                self.tally.breaks(where, f"one more expiry answered {again}, and the table is {self.state(folder)}")
            found = case.after
        self.go_on(folder, found, where)

    def judge_consumer(self, case, folder, ended, where):
        """Judges where a consumer is, by what was printed, and goes on with it."""
        listed = self.command(folder, "consumers").out
        known = re.fullmatch(rb"(?:c (\d+)( new)?\n)?", listed)
        if known is None:
            self.tally.breaks(where, f"consumers printed {listed!r}")
        elif case.words[0] == "consumers":
            is_dropped = ended.out == b"dropped\n"
            if is_dropped and listed or ended.status == 0 and not is_dropped:
                self.tally.breaks(where, f"it answered {ended}, and then there is {listed!r}")
        else:
            self.judge_moved(case, folder, ended, known, where)

    def judge_moved(self, case, folder, ended, known, where):
        """What was printed are the first frames, and the consumer is moved past no other."""
        frames = self.command(folder, "follow", "--from", "1").out
        table = b'{"table":0}\n' if "--full" in case.words else b""
        is_settled = known[1] is not None and known[2] is None
        rest = self.command(folder, "follow", "--from", known[1].decode()).out if is_settled else frames
        moved = frames[: len(frames) - len(rest)]
        if not (table + frames).startswith(ended.out) or moved and not ended.out.startswith(table + moved):
            self.tally.breaks(where, f"it printed {ended.out!r}, and the consumer is at {known[0]!r}")
        if ended.status == 0 and (ended.out != table + frames or known[0] != b"c 3\n"):
            self.tally.breaks(where, f"it ended with {ended}, and the consumer is at {known[0]!r}")
        again = self.command(folder, "follow", "--consumer", "c", "--from", "1")
        then = self.command(folder, "consumers").out
        if again.out != rest or then != b"c 3\n":
            self.tally.breaks(where, f"the next command printed {again}, and the consumer is at {then!r}")

    def judge_refusal(self, case, injected, ended, found, where):
        """Judges how a command ended of which a call failed."""
        is_silent = injected.call == "write" and str(injected.number).endswith("+") and ended.err == b""
        if ended.status not in (0, 3, 4, 5) or not is_silent and fault_of(ended, case.words):
            self.tally.breaks(where, f"it ended with {ended}")
        self.tally.add("refusals", int(ended.status != 0))
        publishes = re.match(rb"E5 store (snapshot/snapshot-|schema/schema-0)", ended.err)
        is_expiry = case.words == EXPIRE
        if ended.status == 5 and not is_silent and not publishes and not is_expiry and found != case.before:
            self.tally.breaks(where, f"it said {ended.err!r}, and its rows stand")
        if ended.status == 4 and found != case.after:
            self.tally.breaks(where, f"it said {ended.err!r}, and the table is {found}")

    def go_on(self, folder, found, where):
        """One more write succeeds, after a `create` where there is no table yet."""
        if found is None and self.command(folder, "create", data=DRAFT).out != b"created\n":
            self.tally.breaks(where, "no table can be made after it")
        ended = self.command(folder, "write", data=batch(7))
        keys, count = found or ([], 0)
        then = self.state(folder)
        if ended.status != 0 or then != (sorted([*keys, 7]), count + 1):
            self.tally.breaks(where, f"one more write answered {ended}, and the table is {then}")
        if os.listdir(folder / ".new"):
            self.tally.breaks(where, f"files are left that were being written: {os.listdir(folder / '.new')}")


def quiet(folder):
    """Has a folder look as if it didn't change for a while."""
    then = time.time() - 60
    for path in [folder, *folder.rglob("*")]:
        os.utime(path, (then, then))


def main():
    found = read_arguments(__doc__, 100000)
    tally = Tally()
    with work_folder() as work:
        (work / "empty").mkdir()
        trials = Trials(found.program, work, tally)
        injections = [each for case in trials.cases() for each in trials.injections(case)]
        if len(injections) > found.count:
            injections = random_of(found.seed).sample(injections, found.count)
        for case, injected in injections:
            trials.attempt(case, injected)
    tally.end()


if __name__ == "__main__":
    main()
