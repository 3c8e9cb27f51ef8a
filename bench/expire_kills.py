#!/usr/bin/env python3
"""Has a table's snapshots expire in a loop that is killed: at a random moment, and every other time, where strace is
there, at a random one of the system calls that change a path. Beside it two processes write, one compacts, a witness
follows with a consumer from the first snapshot on, two begin with consumers of new names, go on and drop them, and one
more lets snapshots expire and isn't killed. It promises:
  - each acknowledged write has its frame with just its rows, and the witness has all frames, one after another;
  - a consumer that began is never refused for a snapshot that went: its frames are those of the witness, from its start
    on, and who is refused when it begins is refused for a floor;
  - each snapshot that is listed after a kill is scanned then, unless it has expired meanwhile, and the rows are those
    that the frames up to it make;
  - no command ends in another way than others can cause, so none finds a damaged file;
  - once nobody acts, one more expiry keeps the newest snapshot alone, with its rows and all files that it names, and
    leaves its floor alone. How many other files are left, of killed expiries and of writes that tried again, is told.
It ends with 1 where a promise broke. The gate never runs it. docs/DEVELOPING.md has what it printed.

usage: bench/expire_kills.py [--program PROGRAM] [--count KILLS] [--seed SEED]
"""

import json
import re
import shutil
import subprocess
import sys
import threading
import time

import follow_kills
from follow_kills import KEYS, frames_of
from reference_expire import named_by
from reference_files import Folder, read_schema
from trials import DRAFT, Tally, knows, knows_consumers, random_of, read_arguments, work_folder

CHANGES = ("rename", "renameat", "renameat2", "unlink", "unlinkat")
ALONE = ["expire", "--min", "1", "--max", "1"]
BEGUN = re.compile(rb"E17 below floor next (\d+) floor \d+\n")


def ids_of(text):
    """The ids in the lines of `snapshots`."""
    return [json.loads(line)[0] for line in text.splitlines()]


def replayed(rows, frame):
    """The rows of a table, by key, once those of a frame were set and taken away."""
    for line in frame.splitlines()[1:]:
        kind, *row = json.loads(line)
        if kind in ("+I", "+U"):
            rows[row[0]] = row
        else:
            rows.pop(row[0], None)
    return rows


def told_of(batch):
    """The lines of a frame that has a batch: by rising key, and in a key as they were written."""
    return sorted(batch, key=lambda row: row[1])


class Trial(follow_kills.Trial):
    """One table, and those who act on it while its expiries are killed."""

    def __init__(self, tally, program, folder, random):
        super().__init__(tally, program, folder, random, "input")
        self.written, self.scanned, self.read = {}, [], []  # by id; of snapshots; of consumers that began
        self.has_strace, self.span = shutil.which("strace") is not None, 0.05

    def write(self, number):
        """Writes batches of few keys until it is over, and keeps those that were acknowledged."""
        random = random_of("writer", number)
        while not self.is_over:
            kinds = (random.choice(["+I", "+I", "+U", "-D"]) for _ in range(random.randint(1, 5)))
            rows = [[kind, random.randrange(KEYS), str(random.random())] for kind in kinds]
            data = b"".join(json.dumps(row).encode() + b"\n" for row in rows)
            ended = self.judge(self.command("write", data=data), "write", (13, 14))
            if ended.status == 0:
                self.written[int(ended.out.split()[1])] = rows

    def begin(self, number):
        """Begins with consumers of new names, near the oldest snapshot, and drops each after it went on a few times."""
        random, count = random_of("reader", number), 0
        while not self.is_over:
            count += 1
            listed = self.judge(self.command("snapshots"), "snapshots", (13,))
            if listed.status != 0 or not listed.out:
                continue
            name, known = f"r{number}-{count}", ids_of(listed.out)
            start = max(1, random.choice([known[0] - 1, known[0], known[0] + 1, known[-1], known[-1] + 1]))
            words = ["follow", "--consumer", name, "--from", str(start)]
            first = self.judge(self.command(*words), words, (17,))
            self.tally.add("consumers refused for a floor" if first.status == 17 else "consumers that began")
            if first.status == 17 and not BEGUN.fullmatch(first.err):
                self.breaks(f"{words} ended with {first}")
            if first.status == 0:
                more = (self.judge(self.command(*words), words) for _ in range(random.randint(0, 3)))
                self.read.append((start, first.out + b"".join(ended.out for ended in more)))
            self.judge(self.command("consumers", "--drop", name), "drop")

    def expire(self, random):
        """Lets snapshots expire in a process that is killed: at a moment, or at a call that changes a path."""
        words = ["expire", "--min", "1", "--max", str(random.randint(1, 4))]
        words = [self.program, self.folder, *words, *random.choice([[], ["--millis", "0"]])]
        if self.has_strace and random.random() < 0.5:
            how = f"inject={random.choice(CHANGES)}:signal=KILL:when={random.randint(1, 20)}"
            trace = ["-o", self.folder.parent / "trace", "-e", f"trace={','.join(CHANGES)}", "-e", how]
            words, seconds = ["strace", "-f", "-qq", *trace, *words], None
        else:
            seconds = random.uniform(0, 1.5 * self.span)
        started = subprocess.Popen(words, stdin=subprocess.DEVNULL, stdout=subprocess.PIPE, stderr=subprocess.PIPE)
        if seconds is not None:
            time.sleep(seconds)
            started.kill()
        out, err = started.communicate()
        is_killed = started.returncode == -9
        self.tally.add("expiries killed" if is_killed else "expiries that ended")
        is_right = re.fullmatch(rb"kept \d+ \d+\n", out) or re.match(rb"E(5 store|13 expired) ", err)
        if not is_killed and not is_right:
            self.breaks(f"expire ended with {started.returncode}, printed {out!r} and said {err!r}")
        return is_killed

    def look(self, random):
        """Scans some of the snapshots that are there."""
        listed = self.judge(self.command("snapshots"), "snapshots", (13,))
        known = ids_of(listed.out)
        for number in {*known[:2], *known[-1:], *random.sample(known, min(1, len(known)))}:
            ended = self.judge(self.command("scan", "--snapshot", str(number)), "scan", (13,))
            self.tally.add("snapshots scanned" if ended.status == 0 else "snapshots that went before their scan")
            if ended.status == 0:
                self.scanned.append((number, ended.out))

    def run(self, kills):
        """Kills so many expiries, and judges what was printed and what is left."""
        draft = json.loads(DRAFT) | {"options": {"changelog-producer": "input"}}
        self.judge(self.command("create", data=json.dumps(draft).encode()), "create")
        self.judge(self.command("follow", "--consumer", "witness", "--from", "1"), "witness")
        acting = [threading.Thread(target=self.write, args=(number,)) for number in range(2)]
        acting += [threading.Thread(target=self.begin, args=(number,)) for number in range(2)]
        acting.append(threading.Thread(target=self.repeat, args=(["compact"], 0.2, (13, 14, 15))))
        acting.append(threading.Thread(target=self.repeat, args=([*ALONE[:3], "--max", "2"], 0.5, (13,))))
        acting.append(threading.Thread(target=self.watch))
        for thread in acting:
            thread.start()
        killed = 0
        while killed < kills:
            begun = time.time()
            if self.expire(self.random):
                killed += 1
                self.look(self.random)
            else:
                self.span = time.time() - begun
        self.is_over = True
        for thread in acting:
            thread.join()
        self.judge_all()

    def judge_all(self):
        """Judges what was printed, and what is left once nobody acts."""
        self.judge(self.command("write", data=b'["+I",0,"last"]\n'), "write")
        self.witness += self.judge(self.command("follow", "--consumer", "witness"), "witness").out
        known = dict(frames_of(self.witness))
        if sorted(known) != list(range(1, len(known) + 1)):
            self.breaks(f"the witness printed the frames {sorted(known)}")
        tables, rows = {0: {}}, {}
        for number, frame in sorted(known.items()):
            tables[number] = dict(replayed(rows, frame))
        self.tally.add("frames", len(known))
        self.tally.add("acknowledged writes", len(self.written))
        for number, batch in self.written.items():
            found = [json.loads(line) for line in known.get(number, b"").splitlines()[1:]]
            if found != told_of(batch):
                self.breaks(f"write {number} of {batch} has the frame {found}")
        for number, text in self.scanned:
            self.judge_scan(tables, number, text)
        for start, text in self.read:
            found = frames_of(text)
            if found != [(start + at, known.get(start + at)) for at in range(len(found))]:
                self.breaks(f"a consumer that began at {start} printed {text[:200]!r}")
            self.tally.add("frames of consumers that began", len(found))
        self.judge_left(tables, len(known))

    def judge_scan(self, tables, number, text):
        wanted = [row for _, row in sorted(tables.get(number, {}).items())]
        if [json.loads(line)[1:] for line in text.splitlines()] != wanted:
            self.breaks(f"scan --snapshot {number} printed {text!r}, and its frames make {wanted}")

    def judge_left(self, tables, newest):
        """One more expiry keeps the newest snapshot, what it names, and its floor, and no other snapshot or floor."""
        for line in self.command("consumers").out.splitlines():
            self.judge(self.command("consumers", "--drop", line.split()[0].decode()), "drop")
        ended = self.command(*ALONE, "--millis", "0")
        if ended.out != f"kept {newest} {newest}\n".encode():
            self.breaks(f"the last expiry ended with {ended}, and the newest snapshot is {newest}")
        self.judge_scan(tables, newest, self.command("scan").out)
        folder = Folder(self.folder)
        left = {name: sorted(folder.list(name)) for name in ("snapshot", "floor", "manifest", "bucket-0")}
        if left["snapshot"] != [f"snapshot-{newest}"] or left["floor"] != [f"floor-{newest}"]:
            self.breaks(f"the last expiry left {left['snapshot']} and {left['floor']}")
        there = {f"{name}/{file}" for name in ("manifest", "bucket-0") for file in left[name]}
        named = named_by(folder, read_schema(folder), newest)
        if named - there:
            self.breaks(f"the last snapshot names {sorted(named - there)}, which aren't there")
        self.tally.add("files left that no snapshot names", len(there - named))
        self.tally.add("files left that the last snapshot names", len(named))


def main():
    found = read_arguments(__doc__, 200)
    tally = Tally()
    with work_folder() as work:
        if not knows_consumers(found.program, work) or not knows(found.program, work, "expire"):
            sys.exit("the program doesn't know expire, or follows with no consumer")
        Trial(tally, found.program, work / "table", random_of(found.seed)).run(found.count)
    tally.end()


if __name__ == "__main__":
    main()
