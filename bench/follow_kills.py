#!/usr/bin/env python3
"""Follows a table with a consumer in a loop, and kills `follow --consumer` at random moments, while two processes
write, one compacts, one lets snapshots expire where the program knows that, and a second consumer, a witness, is never
killed.
Half of the kills are made on a table that tells its input, and half on one that looks up what it tells. It promises:
  - what each command printed are frames of the witness, one after another, of which the last may be cut off;
  - it begins with the frame after the last one that was printed whole, or with that one once more;
  - each frame was printed whole, and none is missing, whatever expired meanwhile;
  - the lines that were printed, set and taken away by key in the order in which they came, those twice that came twice,
    give the rows of a scan.
It ends with 1 where a promise broke. The gate never runs it. docs/DEVELOPING.md has what it printed.

usage: bench/follow_kills.py [--program PROGRAM] [--count KILLS] [--seed SEED]
"""

import json
import re
import subprocess
import sys
import threading
import time

from trials import DRAFT, Tally, knows, knows_consumers, random_of, read_arguments, run, work_folder

KEYS = 20
FRAME = re.compile(rb'(?m)^{"snapshot":(\d+)}\n')


def frames_of(text):
    """The frames of a text, each with its id; the last one may be cut off."""
    places = [(int(found[1]), found.start()) for found in FRAME.finditer(text)]
    ends = [at for _, at in places[1:]] + [len(text)]
    return [(number, text[at:end]) for (number, at), end in zip(places, ends)]


class Trial:
    """One table, those who act on it meanwhile, how often one didn't get the lock, and what its followers printed."""

    def __init__(self, tally, program, folder, random, producer):
        self.tally, self.program, self.folder, self.random = tally, program, folder, random
        self.producer, self.is_over, self.refused = producer, False, 0
        self.printed, self.witness = [], b""  # of each command of the consumer, and of the other one all together

    def command(self, *words, data=b""):
        return run([self.program, self.folder, *words], data)

    def breaks(self, what):
        self.tally.breaks(f"the table with the producer {self.producer}", what)

    def judge(self, ended, words, allowed=()):
        """Judges a command that nobody killed. One that doesn't get the lock is tried again."""
        is_locked = ended.err.startswith(b"E5 store ")
        self.refused += is_locked
        if ended.status not in (0, *allowed) and not is_locked:
            self.breaks(f"{words} ended with {ended}")
        return ended

    def write(self, number):
        """Writes batches of few keys until it is over."""
        random = random_of(self.producer, number)
        while not self.is_over:
            kinds = (random.choice(["+I", "+I", "+U", "-D"]) for _ in range(random.randint(1, 5)))
            rows = [[kind, random.randrange(KEYS), str(random.random())] for kind in kinds]
            data = b"".join(json.dumps(row).encode() + b"\n" for row in rows)
            self.judge(self.command("write", data=data), "write", (14,))

    def repeat(self, words, seconds, allowed=()):
        """Runs a command again and again until it is over."""
        while not self.is_over:
            self.judge(self.command(*words), words, allowed)
            time.sleep(seconds)

    def watch(self):
        """Has the witness go on until it is over."""
        while not self.is_over:
            self.witness += self.judge(self.command("follow", "--consumer", "witness", "--from", "1"), "witness").out
            time.sleep(0.05)

    def follow(self, seconds):
        """Has the consumer go on, and kills it after so many seconds, if any; tells how long it took."""
        begun = time.time()
        words = [self.program, self.folder, "follow", "--consumer", "c", "--from", "1"]
        started = subprocess.Popen(words, stdin=subprocess.DEVNULL, stdout=subprocess.PIPE, stderr=subprocess.PIPE)
        if seconds is not None:
            time.sleep(seconds)
            started.kill()
        out, err = started.communicate()
        self.tally.add("followings killed" if started.returncode == -9 else "followings that ended")
        if started.returncode not in (0, -9) and not err.startswith(b"E5 store "):
            self.breaks(f"follow ended with {started.returncode} and said {err!r}")
        self.printed.append(out)
        return time.time() - begun

    def are_settled(self):
        return re.fullmatch(rb"c \d+\nwitness \d+\n", self.command("consumers").out) is not None

    def run(self, kills, expires):
        """Kills the consumer so many times, and lets it end at last."""
        draft = json.loads(DRAFT) | {"options": {"changelog-producer": self.producer}}
        self.judge(self.command("create", data=json.dumps(draft).encode()), "create")
        self.judge(self.command("follow", "--consumer", "witness", "--from", "1"), "witness")
        acting = [threading.Thread(target=self.write, args=(number,)) for number in range(2)]
        acting.append(threading.Thread(target=self.repeat, args=(["compact"], 0.2, (14, 15))))
        acting.append(threading.Thread(target=self.watch))
        for thread in acting:
            thread.start()
        span = 0.1
        for number in range(kills):
            self.follow(self.random.uniform(0, 1.5 * span))
            if number % 20 == 10:
                span = self.follow(None)
            if expires and self.are_settled():
                words = ["expire", "--min", "1", "--max", "3"]
                acting.append(threading.Thread(target=self.repeat, args=(words, 0.1, (13,))))
                acting[-1].start()
                expires = False
        self.is_over = True
        for thread in acting:
            thread.join()
        self.judge(self.command("compact", "--full"), "compact")
        self.witness += self.judge(self.command("follow", "--consumer", "witness"), "witness").out
        self.follow(None)
        self.judge_all()

    def judge_all(self):
        """Judges what was printed."""
        known, last = dict(frames_of(self.witness)), 0
        numbers = [number for number, _ in frames_of(self.witness)]
        wanted = list(range(1, len(known) + 1))
        if numbers != wanted and not (self.refused and sorted(known) == wanted):
            self.breaks(f"the witness printed the frames {numbers}")
        for text in self.printed:
            found = frames_of(text)
            if found and found[0][0] not in (last, last + 1) or not found and not b'{"snapshot":'.startswith(text[:12]):
                self.breaks(f"behind frame {last} came {text[:200]!r}")
            for at, (number, frame) in enumerate(found):
                is_whole = known.get(number) == frame
                is_cut = at == len(found) - 1 and known.get(number, b"").startswith(frame)
                if not is_whole and not is_cut or number != found[0][0] + at:
                    self.breaks(f"{frame[:200]!r} came, and not {known.get(number)!r}")
                self.tally.add("frames printed again", int(number == last))
                last = number if is_whole else last
        if last != len(known):
            self.breaks(f"the last frame was {last}, not {len(known)}")
        self.tally.add("frames", len(known))
        self.judge_replay()

    def judge_replay(self):
        """Replays all lines that were printed whole, and compares the rows with those of a scan."""
        rows = {}
        for text in self.printed:
            for line in text[: text.rfind(b"\n") + 1].splitlines():
                row = json.loads(line)
                if isinstance(row, list) and row[0] in ("+I", "+U"):
                    rows[row[1]] = row[1:]
                elif isinstance(row, list):
                    rows.pop(row[1], None)
        scanned = [json.loads(line)[1:] for line in self.command("scan").out.splitlines()]
        if [rows[key] for key in sorted(rows)] != scanned:
            self.breaks(f"the lines that were printed make {sorted(rows.items())}, and a scan {scanned}")


def main():
    found = read_arguments(__doc__, 500)
    tally = Tally()
    with work_folder() as work:
        if not knows_consumers(found.program, work):
            sys.exit("the program follows with no consumer")
        expires = knows(found.program, work, "expire")
        for number, producer in enumerate(("input", "lookup")):
            random = random_of(found.seed, number)
            trial = Trial(tally, found.program, work / producer, random, producer)
            trial.run((found.count + 1 - number) // 2, expires)
    tally.end()


if __name__ == "__main__":
    main()
