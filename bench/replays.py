#!/usr/bin/env python3
"""Random tables of each engine and producer that are written, compacted and followed, at times with a write beside a
compaction. Their frames are replayed row by row on a map, which sets the row of a key at `+I` and `+U` and takes it
away at `-U` and `-D`. It promises, of each table and each snapshot:
  - the frames of `follow --from 1`, replayed up to the snapshot, give the rows that `follow --full` prints of the table
    that was told up to it, and in a table of one group, or one that tells its input, those of a `scan` of the snapshot
    whose rows were told up to then (of several groups a compaction may tell the rows of some alone): with the producer
    `input` the snapshot itself, with `lookup` the one that the last compaction had read, with `full-compaction` the one
    that the last compaction of all its files had read;
  - where no row came after that one, these are also the rows of a `scan` of the snapshot;
  - with the two last producers `+I` comes of a key that isn't there, `-U` and `-D` have the row that is there, and `+U`
    follows `-U`; keys rise in a frame, and no pair is equal where equal rows are left out;
  - where the program knows consumers, what one printed in commands between the others are together the frames of
    `follow --from 1`, each once.
It ends with 1 where a promise broke. The gate never runs it. docs/DEVELOPING.md has what it printed.

usage: bench/replays.py [--program PROGRAM] [--count TABLES] [--seed SEED]
"""

import json
import subprocess

import commands
import reference_files
from reference_table import ADDING, Refused, print_json, read_batch, read_draft
from trials import Tally, knows_consumers, random_of, read_arguments, run, work_folder

KINDS_OF_TABLE = [(engine, producer) for engine, known in commands.PRODUCERS.items() for producer in known]


def draw_table(random, engine, producer):
    """A draft of that engine and producer, and its schema."""
    was, commands.ENGINES = commands.ENGINES, [engine]
    draft = commands.draw_draft(random)
    commands.ENGINES = was
    draft["options"]["changelog-producer"] = producer
    if commands.maybe(random, 0.5):
        draft["options"]["changelog-producer.row-deduplicate"] = "true"
    data = json.dumps(draft).encode()
    try:
        schema, _ = read_draft(data)
    except Refused:
        return draw_table(random, engine, producer)
    schema.id = 0
    return data, schema


class Trial:
    """One folder, and the commands on it."""

    def __init__(self, tally, program, folder, random, number):
        self.tally, self.program, self.folder, self.random = tally, program, folder, random
        self.draft, self.schema = draw_table(random, *KINDS_OF_TABLE[number % len(KINDS_OF_TABLE)])
        self.keys, self.reader = [], reference_files.Folder(folder)
        self.consumed = None  # what a consumer printed so far, if the program knows consumers

    def command(self, words, data=b""):
        """What a command prints that has to succeed; nothing else."""
        self.tally.add("commands")
        ended = run([self.program, self.folder, *words], data)
        if ended.status != 0 or ended.err:
            self.breaks(f"{words} ended with {ended.status} and said {ended.err[:200]!r}")
        return ended.out.decode()

    def breaks(self, what):
        self.tally.breaks(f"table {self.folder.name}, {self.draft[:300]!r}", what)

    def draw_rows(self):
        """Lines of rows that the table takes, many of them of keys that came before."""
        lines, places = [], [at for at, name in enumerate(self.schema.names, 1) if name in self.schema.primary]
        while len(lines) < self.random.choice([1, 1, 2, 5, 20]):
            line = commands.row_line(self.random, self.schema)
            try:
                if not read_batch(self.schema, line):
                    continue
            except Refused:
                continue
            row = json.loads(line)
            if self.keys and commands.maybe(self.random, 0.6):
                for at, value in zip(places, self.random.choice(self.keys)):
                    row[at] = value
            self.keys.append([row[at] for at in places])
            lines.append(json.dumps(row).encode() + b"\n")
        return b"".join(lines)

    def change(self):
        """Writes, compacts, or does both at once. A consumer goes on meanwhile."""
        if self.consumed is not None and commands.maybe(self.random, 0.3):
            self.consume()
        what = self.random.random()
        compact = ["compact", "--full"] if commands.maybe(self.random, 0.4) else ["compact"]
        if what < 0.5:
            self.command(["write"], self.draw_rows())
        elif what < 0.8:
            self.command(compact)
        else:
            words = [self.program, self.folder, *compact]
            with subprocess.Popen(words, stdout=subprocess.PIPE, stderr=subprocess.PIPE) as beside:
                self.command(["write"], self.draw_rows())
                said = beside.communicate()[1]
            self.tally.add("commands")
            self.tally.add("writes beside a compaction")
            if beside.returncode != 0:
                self.breaks(f"{compact} beside a write ended with {beside.returncode} and said {said[:200]!r}")

    def consume(self):
        """Has the consumer go on."""
        self.consumed += self.command(["follow", "--consumer", "c", "--from", "1"])
        self.tally.add("followings with a consumer")

    def told_up_to(self, number):
        """The snapshot whose rows were told up to a snapshot, by the files of those before it."""
        if self.schema.producer == "input":
            return number
        for at in range(number, 0, -1):
            found = reference_files.read_snapshot(self.reader, at)
            base = int(found["properties"]["base"])
            if found["commitKind"] == "COMPACT" and (self.schema.producer == "lookup" or self.took_all(base, at)):
                return base
        return 0

    def took_all(self, base, number):
        """Whether no file that was live at a snapshot is so at another."""
        views = (reference_files.View(self.reader, self.schema, at) for at in (base, number))
        old, new = ({file["name"] for file in view.live_files()} for view in views)
        return not old & new

    def frames(self):
        """The rows of each frame, each with its kind, from the first snapshot on."""
        found = []
        for line in self.command(["follow", "--from", "1"]).splitlines():
            value = json.loads(line)
            if isinstance(value, dict):
                found.append([])
                if value != {"snapshot": len(found)}:
                    self.breaks(f"{line} is no frame of snapshot {len(found)}")
            else:
                found[-1].append((value[0], value[1:]))
        return found

    def judge_frame(self, table, rows):
        """Judges a frame of changes that were compared, over the table before it."""
        table, last, old = dict(table), None, None
        leaves_out = self.schema.options.get("changelog-producer.row-deduplicate") == "true"
        leaves_out = leaves_out or self.schema.engine == "first-row"
        for kind, row in rows:
            key = self.schema.key(row)
            is_pair = kind == "+U" and old is not None and self.schema.key(old) == key
            holds = {"+I": key not in table, "-U": table.get(key) == row, "-D": table.get(key) == row, "+U": is_pair}
            if not holds[kind] or not is_pair and last is not None and last >= key:
                self.breaks(f"{kind} {row} doesn't follow, over {table.get(key)}")
            if is_pair and leaves_out and old == row:
                self.breaks(f"the equal rows {row} are told")
            last, old = key, row if kind == "-U" else None
            replay(self.schema, table, [(kind, row)])

    def follow(self):
        """Replays all frames, and compares the table after each."""
        table, frames = {}, self.frames()
        for number, rows in enumerate(frames, 1):
            if self.schema.producer != "input":
                self.judge_frame(table, rows)
            replay(self.schema, table, rows)
            self.tally.add("rows replayed", len(rows))
            shown = "".join(print_json(["+I", *table[key]]) + "\n" for key in sorted(table))
            told = self.told_up_to(number)
            if self.tells_at_once():
                self.compare(shown, ["scan", "--snapshot", str(told)], number)
            if self.tells_at_once() and self.is_finished(told, number):
                self.tally.add("finished snapshots")
                self.compare(shown, ["scan", "--snapshot", str(number)], number)
            printed = self.command(["follow", "--from", str(number + 1), "--full"])
            start = f'{{"table":{number}}}\n{shown}{{"snapshot":'
            if not f'{printed}{{"snapshot":'.startswith(start):
                self.breaks(f"follow --full behind {number} begins with {printed[:300]!r}, not with {start[:300]!r}")
        self.tally.add("snapshots", len(frames))

    def tells_at_once(self):
        """Whether what a commit tells is of all groups up to one snapshot."""
        return self.schema.producer == "input" or self.schema.buckets == 1 and not self.schema.partition

    def is_finished(self, told, number):
        """Whether no row came behind a snapshot up to another."""
        kinds = (reference_files.read_snapshot(self.reader, at)["commitKind"] for at in range(told + 1, number + 1))
        return "APPEND" not in kinds

    def compare(self, shown, words, number):
        printed = self.command(words)
        if printed != shown:
            self.breaks(f"{words} prints {printed[:300]!r}, the frames up to {number} make {shown[:300]!r}")

    def run(self):
        self.command(["create"], self.draft)
        for _ in range(self.random.randint(4, 24)):
            self.change()
        self.follow()
        if self.consumed is not None:
            self.consume()
            frames = self.command(["follow", "--from", "1"])
            if self.consumed != frames:
                self.breaks(f"a consumer printed {self.consumed[:300]!r}, not {frames[:300]!r}")


def replay(schema, table, rows):
    """Sets and takes away rows by their kinds."""
    for kind, row in rows:
        if kind in ADDING:
            table[schema.key(row)] = row
        else:
            table.pop(schema.key(row), None)


def main():
    found = read_arguments(__doc__, 200)
    tally = Tally()
    with work_folder() as work:
        has_consumers = knows_consumers(found.program, work)
        for number in range(found.count):
            trial = Trial(tally, found.program, work / str(number), random_of(found.seed, number), number)
            trial.consumed = "" if has_consumers else None
            trial.run()
            tally.add("tables of " + " and ".join(KINDS_OF_TABLE[number % len(KINDS_OF_TABLE)]))
    tally.end()


if __name__ == "__main__":
    main()
