#!/usr/bin/env python3
"""Has eight processes write to one table for ten minutes, each a row of its own keys each time, one compact it in a
loop (each twentieth time in full), one follow it with a consumer, and one let all but the newest thirty snapshots
expire in a loop. Of each tenth part of the time it tells how many commands of each kind ended in which way, the median
time of a commit, how many snapshots and files there are at its end, of how many bytes, and how many of these files a
snapshot needs; the others were left by tries that another commit was quicker than, and only a removal of orphans, which
isn't built yet, takes such away. It promises:
  - snapshots and the files that they need stay bounded: in the second half at most one and a half times as many as in
    the first, from the second part on;
  - no command ends in another way than others can cause;
  - at the end the table has of each key the row that was acknowledged last, and the consumer has all frames.
It ends with 1 where a promise broke. The gate never runs it.

usage: bench/long_run.py [--program PROGRAM] [--count SECONDS] [--seed SEED]
"""

import collections
import contextlib
import json
import statistics
import sys
import threading
import time

from follow_kills import frames_of
from reference_expire import named_by
from reference_files import Folder, read_schema, snapshot_ids
from reference_table import Refused
from trials import DRAFT, Tally, knows, knows_consumers, random_of, read_arguments, run, work_folder

WRITERS, PARTS, KEYS, KEPT = 8, 10, 500, 30
FOLDERS = ("snapshot", "manifest", "bucket-0", "floor")


class Trial:
    """A table and those who act on it, the time of each commit since the last part, and what was found in each part."""

    def __init__(self, tally, program, folder, seed):
        self.tally, self.program, self.folder, self.seed = tally, program, folder, seed
        self.is_over, self.rows, self.printed = False, {}, b""
        self.times, self.ended, self.parts = [], collections.Counter(), []

    def command(self, *words, data=b"", allowed=()):
        """Runs a command, and judges how it ended. One that doesn't get the lock is no fault."""
        ended = run([self.program, self.folder, *words], data)
        self.ended[f"{words[0]} {ended.status}"] += 1
        if ended.status not in (0, *allowed) and not ended.err.startswith(b"E5 store "):
            self.tally.breaks(" ".join(words), f"ended with {ended}")
        return ended

    def write(self, number):
        """Writes rows with keys of its own, and keeps those that were acknowledged."""
        random = random_of(self.seed, number)
        while not self.is_over:
            key, value = number + WRITERS * random.randrange(KEYS), str(random.random())
            begun = time.time()
            ended = self.command("write", data=b'["+I",%d,"%s"]\n' % (key, value.encode()), allowed=(13, 14))
            if ended.status == 0:
                self.times.append(time.time() - begun)
                self.rows[key] = {value}
            elif ended.status == 5:
                self.rows[key] = self.rows.get(key, {None}) | {value}  # it may have committed

    def repeat(self, words, seconds, allowed):
        """Runs a command again and again until it is over; a compaction each twentieth time in full."""
        count = 0
        while not self.is_over:
            count += 1
            more = ["--full"] if words == ["compact"] and count % 20 == 0 else []
            self.printed += self.command(*words, *more, allowed=allowed).out if words[0] == "follow" else b""
            if words[0] != "follow":
                self.command(*words, *more, allowed=allowed)
            time.sleep(seconds)

    def sizes(self):
        """The size of each file that is there; one that goes meanwhile is passed over."""
        for name in FOLDERS:
            for path in (self.folder / name).glob("[!.]*"):
                with contextlib.suppress(FileNotFoundError):
                    yield path.stat().st_size

    def look(self):
        """How many snapshots and files there are, of how many bytes, and how many a snapshot that is there needs."""
        folder = Folder(self.folder)
        there = list(self.sizes())
        known, named = snapshot_ids(folder), set()
        for number in known:
            try:
                named |= named_by(folder, read_schema(folder), number)
            except Refused:
                pass  # it went meanwhile
        return len(known), len(there), sum(there), len(known) + len(named)

    def part(self, number):
        """Tells of a part of the time that is over."""
        times, ended, self.times, self.ended = self.times, self.ended, [], collections.Counter()
        snapshots, files, size, needed = self.look()
        self.parts.append((snapshots, needed))
        commits = f"{len(times)} commits, the median {1000 * statistics.median(times):.1f} ms" if times else "no commit"
        print(
            f"part {number}: {commits}; {snapshots} snapshots, {files} files of {size} bytes, {needed} of them needed;",
            ", ".join(f"{count} {what}" for what, count in sorted(ended.items())),
            flush=True,
        )

    def run(self, seconds):
        """Runs it all, and judges it."""
        draft = json.loads(DRAFT) | {"options": {"changelog-producer": "input"}}
        self.command("create", data=json.dumps(draft).encode())
        self.command("follow", "--consumer", "c", "--from", "1")
        loops = (
            (["compact"], 1, (13, 14, 15)),
            (["expire", "--min", str(KEPT), "--max", str(KEPT)], 1, (13,)),
            (["follow", "--consumer", "c"], 0.5, ()),
        )
        acting = [threading.Thread(target=self.write, args=(number,)) for number in range(WRITERS)]
        acting += [threading.Thread(target=self.repeat, args=loop) for loop in loops]
        for thread in acting:
            thread.start()
        try:
            for number in range(PARTS):
                time.sleep(seconds / PARTS)
                self.part(number + 1)
        finally:
            self.is_over = True
            for thread in acting:
                thread.join()
        self.judge()

    def judge(self):
        """Judges that it stayed bounded, and that nothing is lost."""
        half = len(self.parts) // 2
        for at, what in enumerate(("snapshots", "files that are needed")):
            first, second = (max(part[at] for part in parts) for parts in (self.parts[1:half], self.parts[half:]))
            if second > 1.5 * first:
                self.tally.breaks(what, f"there were {first} at most in the first half, and {second} in the second")
        scanned = dict(json.loads(line)[1:] for line in self.command("scan").out.splitlines())
        for key, values in self.rows.items():
            if scanned.get(key) not in values:
                self.tally.breaks(f"key {key}", f"has {scanned.get(key)!r}, and {values} were acknowledged")
        self.printed += self.command("follow", "--consumer", "c").out
        numbers = [number for number, _ in frames_of(self.printed)]
        if numbers != list(range(1, len(numbers) + 1)):
            self.tally.breaks("the consumer", f"{len(numbers)} frames up to {numbers[-1:]}")
        self.tally.add("frames", len(numbers))
        self.tally.add("keys", len(self.rows))


def main():
    found = read_arguments(__doc__, 600)
    tally = Tally()
    with work_folder() as work:
        if not knows_consumers(found.program, work) or not knows(found.program, work, "expire"):
            sys.exit("the program doesn't know expire, or follows with no consumer")
        Trial(tally, found.program, work / "table", found.seed).run(found.count)
    tally.end()


if __name__ == "__main__":
    main()
